//! Says what becomes of each call, as a monitor does that looks on: a line for each verdict in words. No reply is written and no reply room is
//! lent.
//!
//!     cargo run --manifest-path host/Cargo.toml --example monitor -- FILE
//!
//! FILE is what the program `replay` reads: campus file length(2), the campus file, then for each call time(4), client address(4), reply room
//! length(2), datagram length(2) and the datagram, high octet first. The reply room's length is the server's affair: a verdict is without it.

use banshorra_host::{CampusFile, Refusal};
use std::net::Ipv4Addr;
use std::process::ExitCode;

fn main() -> ExitCode {
    let words: Vec<String> = std::env::args().skip(1).collect();
    let [path] = &words[..] else {
        eprintln!("usage: monitor FILE");
        return ExitCode::from(2);
    };
    let input = match std::fs::read(path) {
        Ok(input) => input,
        Err(error) => {
            eprintln!("{path}: {error}");
            return ExitCode::from(2);
        }
    };
    match watch(&input) {
        (lines, None) => {
            print!("{lines}");
            ExitCode::SUCCESS
        }
        (lines, Some(refusal)) => {
            println!("{lines}refused {}", refusal.number());
            ExitCode::from(1)
        }
    }
}

/// A line for each call, and why there is none for the rest.
pub fn watch(input: &[u8]) -> (String, Option<Refusal>) {
    let mut lines = String::new();
    let Some((file, mut rest)) = counted(input) else {
        return (lines, Some(Refusal::CutOff));
    };
    let mut campus = match CampusFile::from_bytes(file) {
        Ok(campus) => campus,
        Err(refusal) => return (lines, Some(refusal)),
    };
    while !rest.is_empty() {
        let Some(call) = call(rest) else {
            return (lines, Some(Refusal::CutOff));
        };
        let verdict = campus.judge(call.datagram, call.client, call.time);
        let words = verdict.in_words(call.datagram);
        lines += &format!("{} {}: {words}\n", call.time, call.client);
        rest = call.behind;
    }
    (lines, None)
}

struct Call<'a> {
    time: u32,
    client: Ipv4Addr,
    datagram: &'a [u8],
    /// The calls after it.
    behind: &'a [u8],
}

/// The first call of a list; `None` if it is cut off.
fn call(list: &[u8]) -> Option<Call<'_>> {
    let (&time, list) = list.split_first_chunk()?;
    let (&client, list) = list.split_first_chunk::<4>()?;
    let (datagram, behind) = counted(list.get(2..)?)?;
    Some(Call {
        time: u32::from_be_bytes(time),
        client: client.into(),
        datagram,
        behind,
    })
}

/// A length(2), and as many octets; and what is behind them.
fn counted(octets: &[u8]) -> Option<(&[u8], &[u8])> {
    let (&length, octets) = octets.split_first_chunk()?;
    octets.split_at_checked(u16::from_be_bytes(length).into())
}
