//! What compares the proved library with the second program, and measures both: cases made from a seed, both
//! implementations in one process, every octet compared. And what tries the library by itself, each call watched.

pub mod asked;
pub mod bounds;
pub mod broken;
pub mod calls;
pub mod campus;
pub mod case;
pub mod compare;
pub mod counts;
pub mod damage;
pub mod damage_holds;
pub mod days;
pub mod ending;
pub mod fault;
pub mod halves;
pub mod holds;
pub mod jobs;
pub mod judged;
pub mod lent;
pub mod message;
pub mod names;
pub mod occupancy;
pub mod programs;
pub mod quarters;
pub mod random;
pub mod releases;
pub mod salvage;
pub mod tally;
pub mod watch;
pub mod wrecks;

/// Numbers of documents 01 and 02.
pub const SKEW: u32 = 1_800;
pub const DEFAULT_LEASE: u32 = 3_600;
pub const LONGEST_LEASE: u32 = 604_800;
pub const HORIZON: u32 = 2_592_000;
pub const LAST_TIME: u32 = u32::MAX;
pub const LONGEST_FILE: usize = 32_768;
pub const LONGEST_DATAGRAM: usize = 1_472;
pub const SHORTEST_ROOM: usize = 512;
