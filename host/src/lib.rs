//! Safe Rust over Banshorra's static library: a MADCAP server on a campus file.
//!
//! [`CampusFile`] owns a campus file and serves calls on it:
//!
//! ```no_run
//! use banshorra_host::{CampusFile, Outcome, REPLY_ROOM};
//! use std::net::UdpSocket;
//! use std::time::{SystemTime, UNIX_EPOCH};
//!
//! fn main() -> Result<(), Box<dyn std::error::Error>> {
//!     let mut campus = CampusFile::from_bytes(&std::fs::read("campus.bin")?)?;
//!     let socket = UdpSocket::bind("0.0.0.0:2535")?;
//!     let mut datagram = [0; 1500];
//!     let mut reply = [0; REPLY_ROOM];
//!     loop {
//!         let (length, from) = socket.recv_from(&mut datagram)?;
//!         let std::net::IpAddr::V4(client) = from.ip() else { continue };
//!         let time = SystemTime::now().duration_since(UNIX_EPOCH)?.as_secs() as u32;
//!         match campus.serve(&datagram[..length], client, time, &mut reply).outcome {
//!             Outcome::Reply(octets) => {
//!                 // On disk before the client hears of it.
//!                 std::fs::write("campus.new", campus.as_bytes())?;
//!                 std::fs::rename("campus.new", "campus.bin")?;
//!                 socket.send_to(octets, from)?;
//!             }
//!             Outcome::Discard(why) => eprintln!("{from}: {}", why.in_words(&datagram[..length])),
//!         }
//!     }
//! }
//! ```
//!
//! [`CampusFile::judge`] and [`CampusFile::reply`] are the two halves of a call, for those who want to know what becomes of a datagram and have no
//! reply to send: the first gives a [`Verdict`], the second writes the reply from it.
//!
//! [`CampusFile::occupancy`] says who has which address, for those who poll it.
//!
//! [`CampusFile::salvage`] keeps what can be kept of a file that is refused as unsound, and says what can't.
//!
//! Words for people, which decide nothing: [`campus`] has a file as a value and [`text`] as a text that can be edited, [`Broken`] which rule an unsound one breaks,
//! [`message`] datagrams option by option, [`Case`] why a call draws what it draws. The program `banshorra` is made of these.
//!
//! [`lent`] has the same calls on buffers of the caller's. The numbers are those of documents 01 and 02 and of `include/banshorra.h`.

#![deny(unsafe_code)]
#![warn(missing_docs)]

pub mod campus;
mod campus_file;
mod count;
mod fault;
pub mod lent;
#[allow(unsafe_code)]
pub mod library;
pub mod message;
mod numbers;
mod occupancy;
pub mod quoted;
mod reason;
mod records;
mod rules;
mod salvage;
pub mod text;
pub mod utc;
mod verdict;

pub use campus_file::CampusFile;
pub use count::count;
pub use fault::Fault;
pub use lent::Replayed;
pub use numbers::{Answer, Discard, Outcome, Refusal};
pub use occupancy::Occupancy;
pub use reason::{Case, Reason};
pub use records::{answers, Answers, Call};
pub use rules::Broken;
pub use salvage::{Dropped, Kind, Salvaged};
pub use verdict::{Asked, Given, Ruling, Verdict};

/// The longest campus file, and the least buffer for a file that is served.
pub const FILE_ROOM: usize = 32_768;
/// The least reply buffer. No reply is longer.
pub const REPLY_ROOM: usize = 512;
/// The least buffer for the board's text.
pub const BOARD_ROOM: usize = 1_100;
/// What a replay needs free before it answers a call: outcome(1), offset(2), count(1), reply length(2) and the longest reply.
pub const ANSWER_ROOM: usize = 6 + REPLY_ROOM;
/// The octets of the occupancy board, and the least buffer for it: for each of four scopes the owner(1) and the count(1) of 64 addresses and
/// the holdings(1) of eight houses.
pub const OCCUPANCY_ROOM: usize = 4 * (2 * 64 + 8);
/// A buffer that is enough for the list of those dropped in a salvage: their count(2), and kind(1), place(1) and rule(1) of 255 leases, holds and
/// releases.
pub const LIST_ROOM: usize = 2 + 3 * 3 * 255;
/// The octets of a verdict.
pub const VERDICT_SIZE: usize = 75;
