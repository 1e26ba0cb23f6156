//! Campus files for the desk: whether one is accepted, and as text and back.

use crate::args::{Args, Command, Failure};
use crate::print;
use crate::store::{self, Store};
use banshorra_host::campus::Campus;
use banshorra_host::{count, lent, text, Broken, Refusal};
use std::io::{IsTerminal, Read, Write};
use std::path::Path;

pub const CHECK: Command = Command {
    name: "check",
    help: "\
banshorra check FILE

Says whether a campus file is accepted, and what is in it; if it is refused, the number, the first broken rule and what to do, with status 1.
",
    flags: &[],
    valued: &[],
    run: check,
};

pub const TEXT: Command = Command {
    name: "text",
    help: "\
banshorra text FILE

Prints a campus file as text, to read, edit and keep under version control. Every file of right form has one, also one that is refused as unsound (21).
`banshorra file` makes the same octets of it again.
",
    flags: &[],
    valued: &[],
    run: to_text,
};

pub const FILE: Command = Command {
    name: "file",
    help: "\
banshorra file TEXT [FILE] [--unsound]

Makes the campus file of a text (`-`: standard input) and writes it to FILE, the old or the new at every instant; without FILE to standard output. While a
host serves FILE it is refused: end the host first. A text with a fault is refused with line, column and what was expected.

  --unsound   write it although a host will refuse it
",
    flags: &["unsound"],
    valued: &[],
    run: from_text,
};

/// Reads a campus file.
pub fn read(path: &str) -> Result<Vec<u8>, Failure> {
    let path = Path::new(path);
    store::read(path).map_err(|error| store::failed(path, error))
}

/// Why a file is refused, and what to do about it.
pub fn refused(name: &str, file: &[u8], refusal: Refusal) -> Failure {
    let (what, todo) = match Campus::from_octets(file) {
        Err(fault) if fault.offset == file.len() => (
            fault.to_string(),
            "The file is cut off, or from before the sections for names, releases and holds: take the last good copy, or put what lacks behind it.",
        ),
        Err(fault) => (
            fault.to_string(),
            "It is no campus file, or a damaged one: take the last good copy, or make it again with `banshorra file`.",
        ),
        Ok(campus) => match Broken::first(&judged(campus, refusal)) {
            Some(broken) => (broken.to_string(), broken.what_to_do()),
            None => ("no broken rule was found".to_owned(), "Report this file: the two ought to agree."),
        },
    };
    Failure::Refused(format!("{name}: {refusal}\n  {what}\n  {todo}"))
}

/// What a refusal is about: with 25 the settings alone.
fn judged(campus: Campus, refusal: Refusal) -> Campus {
    match refusal {
        Refusal::Settings => Campus {
            leases: vec![],
            releases: vec![],
            holds: vec![],
            ..campus
        },
        _ => campus,
    }
}

/// Why the campus of a text is refused. The text is there to be corrected.
fn unsound_text(name: &str, campus: &Campus, refusal: Refusal) -> Failure {
    let what = match Broken::first(campus) {
        Some(broken) => broken.to_string(),
        None => "no broken rule was found".to_owned(),
    };
    let todo = "Correct it in the text. (With --unsound the file is written all the same, and a host will refuse it.)";
    Failure::Refused(format!("{name}: {refusal}\n  {what}\n  {todo}"))
}

/// What is in a campus file, in a line.
pub fn contents(campus: &Campus) -> String {
    [
        count(campus.houses.len(), "house"),
        count(campus.scopes.len(), "scope"),
        count(campus.leases.len(), "lease"),
        count(campus.holds.len(), "hold"),
        count(campus.releases.len(), "release"),
    ]
    .join(", ")
}

fn check(args: &Args) -> Result<(), Failure> {
    let name = args.word("FILE")?;
    let file = read(name)?;
    lent::check(&file).map_err(|refusal| refused(name, &file, refusal))?;
    let campus = Campus::from_octets(&file).map_err(|fault| Failure::Refused(fault.to_string()))?;
    let clock = banshorra_host::utc::in_words(campus.clock);
    print(&format!(
        "{name}: accepted; {}; the clock is {clock}\n",
        contents(&campus)
    ))
}

fn to_text(args: &Args) -> Result<(), Failure> {
    let name = args.word("FILE")?;
    let file = read(name)?;
    match Campus::from_octets(&file) {
        Ok(campus) => print(&text::write(&campus)),
        Err(_) => Err(refused(name, &file, Refusal::Form)),
    }
}

fn from_text(args: &Args) -> Result<(), Failure> {
    let (name, to) = match args.words() {
        [name] => (name, None),
        [name, to] => (name, Some(to)),
        _ => return args.usage("a TEXT and a FILE are wanted"),
    };
    let words = read_text(name)?;
    let campus =
        text::read(&words).map_err(|fault| Failure::Refused(format!("{name}: {fault}")))?;
    let file = campus.to_octets();
    if let Err(refusal) = lent::check(&file) {
        if !args.has("unsound") {
            return Err(unsound_text(name, &campus, refusal));
        }
    }
    match to {
        Some(to) => {
            let path = Path::new(to);
            let mut store = Store::take(path, true)?;
            store
                .keep(&file)
                .map_err(|error| store::failed(path, error))?;
            Ok(())
        }
        None if std::io::stdout().is_terminal() => {
            args.usage("a FILE is wanted, or standard output that isn't a terminal")
        }
        None => {
            let mut out = std::io::stdout().lock();
            let written = out.write_all(&file).and_then(|()| out.flush());
            written.map_err(|error| Failure::Machine(format!("standard output: {error}")))
        }
    }
}

/// A text; of octets that are none it is said where.
fn read_text(name: &str) -> Result<String, Failure> {
    let octets = match name {
        "-" => {
            let mut octets = vec![];
            let read = std::io::stdin().lock().read_to_end(&mut octets);
            read.map(|_| octets)
        }
        _ => std::fs::read(name),
    };
    let octets = octets.map_err(|error| store::failed(Path::new(name), error))?;
    String::from_utf8(octets).map_err(|error| {
        let (at, octets) = (error.utf8_error().valid_up_to(), error.as_bytes());
        let line = 1 + octets[..at].iter().filter(|octet| **octet == b'\n').count();
        let before = String::from_utf8_lossy(&octets[..at]);
        let column = 1 + before
            .rsplit('\n')
            .next()
            .map_or(0, |line| line.chars().count());
        Failure::Refused(format!(
            "{name}: line {line}, column {column}: expected UTF-8, found octet 0x{:02x}",
            octets[at]
        ))
    })
}
