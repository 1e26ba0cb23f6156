//! `banshorra`: a host that a campus can run. It serves MADCAP on a socket over the proved library, and has what a desk needs beside it.

#![forbid(unsafe_code)]

mod args;
mod ask;
mod board;
mod explain;
mod files;
mod inbox;
mod load;
mod log;
mod pcap;
mod report;
mod salvage;
mod serve;
mod store;

use args::{Args, Command, Failure};
use banshorra_host::library::fail_long_writes;
use std::io::Write;
use std::process::ExitCode;

const HELP: &str = "\
banshorra: a MADCAP server for a shared studio campus, and what its desk needs

  banshorra serve FILE       serve a campus file
  banshorra board FILE       who holds what, as a table
  banshorra check FILE       whether a campus file is accepted, and if not, why
  banshorra salvage FILE     what can be kept of one that is unsound
  banshorra text FILE        a campus file as text, to read and edit
  banshorra file TEXT FILE   the campus file of a text
  banshorra report FILE..    the address-seconds of a quarter, by scope and house
  banshorra explain ..       datagrams in words
  banshorra ask ..           ask a server as a client does
  banshorra load FILE        put a server under load, and measure

  banshorra COMMAND --help   says more of each; `banshorra --version` which one this is.

It ends with 0 when done; 1 where something is refused: a campus file, a text, a request; 2 for wrong usage; 3 where the machine failed it: a file that
can't be read or written, a socket, a file that another host has; 4 where no answer came.
";

const VERSION: &str = concat!("banshorra ", env!("CARGO_PKG_VERSION"), "\n");

const COMMANDS: [Command; 10] = [
    serve::COMMAND,
    board::COMMAND,
    files::CHECK,
    salvage::COMMAND,
    files::TEXT,
    files::FILE,
    report::COMMAND,
    explain::COMMAND,
    ask::COMMAND,
    load::COMMAND,
];

fn main() -> ExitCode {
    fail_long_writes();
    match run() {
        Ok(()) => ExitCode::SUCCESS,
        Err(failure) => {
            let text = failure.to_string();
            if !text.is_empty() {
                // Nobody may be there to read it.
                let _ = writeln!(std::io::stderr(), "{text}");
            }
            failure.status().into()
        }
    }
}

fn run() -> Result<(), Failure> {
    let words: Result<Vec<String>, _> = std::env::args_os()
        .skip(1)
        .map(|word| word.into_string())
        .collect();
    let words = words.map_err(|word| Failure::Usage(format!("{} isn't UTF-8", word.display())))?;
    let Some((name, rest)) = words.split_first() else {
        return Err(Failure::Usage(HELP.to_owned()));
    };
    if matches!(&name[..], "help" | "--help" | "-h") {
        return print(HELP);
    }
    if matches!(&name[..], "--version" | "-V") {
        return print(VERSION);
    }
    let Some(command) = COMMANDS.iter().find(|command| command.name == name) else {
        let help = "`banshorra --help` lists the commands";
        return Err(Failure::Usage(format!(
            "there is no command `{name}`; {help}"
        )));
    };
    if rest.iter().any(|word| word == "--help" || word == "-h") {
        return print(command.help);
    }
    let args = Args::read(command, rest)?;
    (command.run)(&args)
}

/// Prints what a command is for. A reader that has gone is no fault: it has what it wanted.
pub fn print(text: &str) -> Result<(), Failure> {
    let mut out = std::io::stdout().lock();
    match out.write_all(text.as_bytes()).and_then(|()| out.flush()) {
        Err(error) if error.kind() == std::io::ErrorKind::BrokenPipe => Err(Failure::Gone),
        Err(error) => Err(Failure::Machine(format!("standard output: {error}"))),
        Ok(()) => Ok(()),
    }
}
