//! Shows who has which address, as a control room does that polls the board: a line for each address that is somebody's, with the house and
//! how many leases and holds are on it. With SECONDS it reads the file again after each so many, and shows the addresses that have changed.
//!
//!     cargo run --manifest-path host/Cargo.toml --example occupancy -- FILE [SECONDS]

use banshorra_host::{CampusFile, Occupancy};
use std::net::Ipv4Addr;
use std::process::ExitCode;
use std::thread::sleep;
use std::time::Duration;

/// A scope's addresses, at most.
const ADDRESSES: u8 = 64;

fn main() -> ExitCode {
    let words: Vec<String> = std::env::args().skip(1).collect();
    let (path, seconds) = match &words[..] {
        [path] => (path, None),
        [path, seconds] => match seconds.parse() {
            Ok(seconds) => (path, Some(Duration::from_secs(seconds))),
            Err(_) => return usage(),
        },
        _ => return usage(),
    };
    let mut shown = None;
    loop {
        let campus = match read(path) {
            Ok(campus) => campus,
            Err(status) => return status,
        };
        let occupancy = campus.occupancy();
        show(&campus, shown.as_ref(), &occupancy);
        shown = Some(occupancy);
        match seconds {
            Some(seconds) => sleep(seconds),
            None => return ExitCode::SUCCESS,
        }
    }
}

fn usage() -> ExitCode {
    eprintln!("usage: occupancy FILE [SECONDS]");
    ExitCode::from(2)
}

/// The campus file as it is now. Its host puts a new one in its place as a whole, so that it is never read half written.
fn read(path: &str) -> Result<CampusFile, ExitCode> {
    let file = std::fs::read(path).map_err(|error| {
        eprintln!("{path}: {error}");
        ExitCode::from(2)
    })?;
    CampusFile::from_bytes(&file).map_err(|refusal| {
        println!("refused {}", refusal.number());
        ExitCode::from(1)
    })
}

/// The addresses that are somebody's, or those that aren't as they were.
fn show(campus: &CampusFile, before: Option<&Occupancy>, now: &Occupancy) {
    for (lowest, scope) in scopes(campus).into_iter().zip(1..) {
        for offset in 0..ADDRESSES {
            let entry = now.entry(scope, offset);
            let old = before.map_or((None, 0), |before| before.entry(scope, offset));
            let address = Ipv4Addr::from(u32::from(lowest) + u32::from(offset));
            match entry {
                _ if entry == old => {}
                (Some(house), count) => println!("{address} house {house}, {count} on it"),
                (None, _) => println!("{address} free"),
            }
        }
    }
}

/// The scopes' lowest addresses, in their order: the first word of the board's lines, of which a scope has one for each house.
fn scopes(campus: &CampusFile) -> Vec<Ipv4Addr> {
    let board = campus.board();
    let words = board.lines().filter_map(|line| line.split(' ').next());
    let mut lowest: Vec<Ipv4Addr> = words.filter_map(|word| word.parse().ok()).collect();
    lowest.dedup();
    lowest
}
