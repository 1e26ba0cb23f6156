//! `second replay`, `second board`, `second occupancy`, `second van` and `second salvage`: standard
//! input in, text out. `second report FILE..`: campus files in, text out.

#![forbid(unsafe_code)]

use second::programs::{board, occupancy, replay};
use second::report::report;
use second::salvage::salvage_text;
use second::van::van;
use std::ffi::OsString;
use std::io::{self, Read, Write};
use std::process::ExitCode;

fn main() -> ExitCode {
    let arguments: Vec<OsString> = std::env::args_os().skip(1).collect();
    let done = match arguments.as_slice() {
        [name] if name == "replay" => run(replay),
        [name] if name == "board" => run(board),
        [name] if name == "occupancy" => run(occupancy),
        [name] if name == "van" => run(van),
        [name] if name == "salvage" => run(salvage_text),
        [name, files @ ..] if name == "report" => print(&report(files)),
        _ => {
            eprintln!("usage: second replay | board | occupancy | van | salvage | report FILE..");
            return ExitCode::from(2);
        }
    };
    match done {
        Ok(()) => ExitCode::SUCCESS,
        Err(error) => {
            eprintln!("second: {error}");
            ExitCode::FAILURE
        }
    }
}

/// What a program prints for its standard input.
fn run(program: fn(&[u8]) -> String) -> io::Result<()> {
    let mut input = Vec::new();
    io::stdin().lock().read_to_end(&mut input)?;
    print(&program(&input))
}

fn print(text: &str) -> io::Result<()> {
    let mut output = io::stdout().lock();
    output.write_all(text.as_bytes())?;
    output.flush()
}
