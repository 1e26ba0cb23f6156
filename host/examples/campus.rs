//! Reads a campus file, prints its board, serves one GETINFO, and prints the outcome and the reply in hex.
//!
//!     cargo run --manifest-path host/Cargo.toml --example campus -- FILE [CLIENT]
//!
//! CLIENT is an IPv4 address, 10.0.1.5 if it is left out. `campus.c` is the same in C.

use banshorra_host::{CampusFile, Discard, Outcome, REPLY_ROOM};
use std::net::Ipv4Addr;
use std::process::ExitCode;

/// Version 0, GETINFO, family 1, transaction id 1; Lease Identifier 00 41; Option Request List: scope list and time; Requested Language: de, in
/// which the scopes' names are to be, where they have one; End.
const GETINFO: &[u8] = &[
    0, 8, 0, 1, 0, 0, 0, 1, 0, 3, 0, 2, 0, 0x41, 0, 5, 0, 4, 0, 9, 0, 11, 0, 8, 0, 2, b'd', b'e',
    0, 0, 0, 0,
];

fn main() -> ExitCode {
    let words: Vec<String> = std::env::args().skip(1).collect();
    let (path, client) = match &words[..] {
        [path] => (path, Ok(Ipv4Addr::new(10, 0, 1, 5))),
        [path, client] => (path, client.parse()),
        _ => return usage(),
    };
    let Ok(client) = client else { return usage() };
    let file = match std::fs::read(path) {
        Ok(file) => file,
        Err(error) => {
            eprintln!("{path}: {error}");
            return ExitCode::from(2);
        }
    };
    let mut campus = match CampusFile::from_bytes(&file) {
        Ok(campus) => campus,
        Err(refusal) => {
            println!("refused {}", refusal.number());
            return ExitCode::from(1);
        }
    };
    print!("{}", campus.board());

    // A host passes the time of day. 0 is before the file's clock, which stays, so that this prints the same every time.
    let mut reply = [0; REPLY_ROOM];
    let outcome = campus.serve(GETINFO, client, 0, &mut reply).outcome;
    println!("outcome {}", outcome.number());
    if let Outcome::Discard(Discard::Options { offset }) = outcome {
        println!("wrong at octet {offset}");
    }
    if let Some(reply) = outcome.reply() {
        let hex: String = reply.iter().map(|octet| format!("{octet:02x}")).collect();
        println!("reply {hex}");
    }
    ExitCode::SUCCESS
}

fn usage() -> ExitCode {
    eprintln!("usage: campus FILE [CLIENT]");
    ExitCode::from(2)
}
