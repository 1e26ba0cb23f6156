//! An independent second MADCAP server library, written from documents 01 and 02 (as far as W-214) and the
//! MADCAP draft only (with the project's readings where the documents are open), and used for comparison.
//! It is plain and slow on purpose: where the rules speak of addresses one by one, so does the code.

#![forbid(unsafe_code)]

pub mod book;
pub mod choices;
pub mod ending;
pub mod file;
pub mod grant;
pub mod holds;
pub mod message;
pub mod names;
pub mod occupancy;
pub mod octets;
pub mod period;
pub mod programs;
pub mod releases;
pub mod reply;
pub mod report;
pub mod salvage;
pub mod server;
pub mod sound;
pub mod van;
pub mod verdict;

pub use book::{Book, House, Lease, Quota, Scope};
pub use holds::Hold;
pub use names::{Name, ScopeNames};
pub use releases::Release;
pub use reply::write;
pub use server::{judge, serve};
pub use sound::sound;
pub use verdict::Verdict;
