//! Datagrams in words, and what a campus makes of them.

use crate::args::{Args, Command, Failure};
use crate::files::{read, refused};
use crate::pcap;
use crate::print;
use crate::serve::{now, PORT};
use crate::store::{self, Store};
use banshorra_host::campus::{Campus, Scope};
use banshorra_host::message::Message;
use banshorra_host::{count, quoted, utc, CampusFile, Case, Discard, Outcome, REPLY_ROOM};
use std::fmt::Write;
use std::io::Read;
use std::net::Ipv4Addr;
use std::path::Path;

pub const COMMAND: Command = Command {
    name: "explain",
    help: "\
banshorra explain HEX .. | - | --pcap CAPTURE [--port PORT] | --calls LIST
                  [--campus FILE [--from ADDRESS] [--at TIME]] [--short] [--hex] [--keep FILE]

Says datagrams in words, option by option, each after the octet that it begins at.

  HEX ..            one datagram, its digits in one word or in several
  -                 a datagram a line, from standard input
  --pcap CAPTURE    those of a capture file from or to MADCAP's port (--port for another)
  --calls LIST      the input of `replay`: a campus file and calls on it
  --campus FILE     also serve them, one after the other, on a copy of this campus file, and say what comes of each and why
  --from ADDRESS    the client's address then; of a capture its own. If not given, the first of house 1
  --at TIME         the time then, as 2026-11-17T09:30:00Z; of a capture its own. If not given, now
  --short           a line for each
  --hex             also the octets
  --keep FILE       write the campus file afterwards to FILE, the old or the new at every instant; while a host serves FILE it is refused
",
    flags: &["short", "hex"],
    valued: &["pcap", "port", "calls", "campus", "from", "at", "keep"],
    run: explain,
};

/// A datagram to be explained.
struct Heard {
    time: u32,
    client: Ipv4Addr,
    /// What a `replay` gives it for its reply.
    room: usize,
    datagram: Vec<u8>,
    /// Where it comes from, for a heading.
    of: String,
    /// Whether a client sent it, so that a campus is asked.
    is_call: bool,
}

fn explain(args: &Args) -> Result<(), Failure> {
    let sources = [
        !args.words().is_empty(),
        args.has("pcap"),
        args.has("calls"),
    ];
    if sources.iter().filter(|is_there| **is_there).count() != 1 {
        return args.usage("one of HEX, `-`, --pcap and --calls is wanted");
    }
    if args.has("keep") && !args.has("campus") && !args.has("calls") {
        return args.usage("--keep goes with --campus or --calls");
    }
    // Taken before the campus is read, which may be the same file.
    let store = args.value("keep").map(|name| {
        let path = Path::new(name);
        Ok((path, Store::take(path, true)?))
    });
    let store = store.transpose()?;
    let mut campus = match args.value("campus") {
        Some(name) => Some(accepted(name, &read(name)?)?),
        None => None,
    };
    let mut cut = None;
    let heard = match (args.value("pcap"), args.value("calls")) {
        (Some(name), _) => {
            let (heard, why) = captured(args, name)?;
            cut = why;
            heard
        }
        (_, Some(name)) => {
            let (file, calls) = calls(name)?;
            campus = campus.or(Some(file));
            calls
        }
        _ => typed(args, campus.as_ref())?,
    };
    for heard in &heard {
        print(&one(args, campus.as_mut(), heard))?;
    }
    if let Some(cut) = cut {
        return Err(Failure::Refused(cut));
    }
    if let (Some((path, mut store)), Some(campus)) = (store, &campus) {
        let written = store.keep(campus.as_bytes());
        written.map_err(|error| store::failed(path, error))?;
    }
    Ok(())
}

fn accepted(name: &str, file: &[u8]) -> Result<CampusFile, Failure> {
    CampusFile::from_bytes(file).map_err(|refusal| refused(name, file, refusal))
}

/// The words for one datagram.
fn one(args: &Args, campus: Option<&mut CampusFile>, heard: &Heard) -> String {
    let message = Message(&heard.datagram);
    let mut text = String::new();
    if !args.has("short") {
        let fault = wrong(&heard.datagram).filter(|_| heard.is_call);
        let _ = writeln!(text, "{}{}", heard.of, pointed(&message, fault));
    }
    if args.has("hex") {
        let _ = writeln!(text, "  octets {}", quoted::hex(&heard.datagram));
    }
    let Some(campus) = campus.filter(|_| heard.is_call) else {
        if args.has("short") {
            let _ = writeln!(text, "{}{}", heard.of, message.in_short());
        }
        return text;
    };
    let Ok(book) = Campus::from_octets(campus.as_bytes()) else {
        return text;
    };
    let mut room = vec![0; heard.room];
    let answer = campus.serve(&heard.datagram, heard.client, heard.time, &mut room);
    let outcome = answer.outcome;
    let client = u32::from(heard.client);
    let case = Case {
        settings: &book,
        book: Some(&book),
        clock: book.clock.max(heard.time),
        client,
    };
    let why = case.why(&heard.datagram, outcome);
    let came = match outcome {
        Outcome::Reply(reply) => Message(reply).reply_in_short(),
        Outcome::Discard(discard) if discard.number() == 5 => {
            format!("discard 5 at octet {}", outcome.offset())
        }
        Outcome::Discard(discard) => format!("discard {}", discard.number()),
    };
    let came = why.map_or(came.clone(), |why| format!("{came}, {why}"));
    if args.has("short") {
        let house = book
            .house_of(client)
            .map_or("no house".to_owned(), |house| format!("house {house}"));
        let _ = writeln!(
            text,
            "{} {house} {}\n    {came}",
            utc::in_words(heard.time),
            short(&message)
        );
    } else {
        let _ = writeln!(text, "  -> {came}");
        if let Outcome::Reply(reply) = outcome {
            let words = Message(reply).to_string().replace('\n', "\n     ");
            let _ = writeln!(text, "     {words}");
        }
    }
    if let (Outcome::Reply(reply), true) = (outcome, args.has("hex")) {
        let _ = writeln!(text, "  reply {}", quoted::hex(reply));
    }
    text
}

/// The call in a line; of one without a header how long it is.
fn short(message: &Message) -> String {
    match message.header_fault() {
        Some(_) => count(message.0.len(), "octet"),
        None => message.in_short(),
    }
}

/// A datagram in words; what tests 4 to 6 find in it stands behind the option that is wrong, or in a line of its own.
fn pointed(message: &Message, fault: Option<Discard>) -> String {
    let mut words = message.to_string();
    let Some(fault) = fault else {
        return words;
    };
    let what = match fault {
        Discard::Header => format!("discard 4: {}", message.header_fault().unwrap_or_default()),
        _ => fault.in_words(message.0),
    };
    let Discard::Options { offset } = fault else {
        return format!("{words}\n  {what}");
    };
    let start = format!("\n  {offset:>5}  ");
    match words.find(&start) {
        Some(at) => {
            let line = at + 1;
            let end = words[line..]
                .find('\n')
                .map_or(words.len(), |length| line + length);
            words.insert_str(end, &format!("   <-- {what}"));
        }
        None => words += &format!("{start}<-- {what}"),
    }
    words
}

/// What tests 4 to 6 find in a datagram: the library serves it on a campus with one house of all addresses.
fn wrong(datagram: &[u8]) -> Option<Discard> {
    let scope = Scope {
        lowest: 0xE000_0000,
        size: 1,
        ttl: 1,
        parts: vec![(0, 0)],
        names: vec![vec![]; 2],
    };
    let every = Campus {
        server: 0,
        clock: 0,
        houses: vec![(0, u32::MAX)],
        scopes: vec![scope],
        leases: vec![],
        releases: vec![],
        holds: vec![],
    };
    let mut campus = CampusFile::from_bytes(&every.to_octets()).expect("a sound campus");
    let mut room = [0; REPLY_ROOM];
    let answer = campus.serve(datagram, Ipv4Addr::UNSPECIFIED, 0, &mut room);
    match answer.outcome {
        Outcome::Discard(discard) if (4..=6).contains(&discard.number()) => Some(discard),
        _ => None,
    }
}

/// Datagrams as hex digits.
fn typed(args: &Args, campus: Option<&CampusFile>) -> Result<Vec<Heard>, Failure> {
    let first = campus.and_then(|campus| Campus::from_octets(campus.as_bytes()).ok());
    let first = first.and_then(|campus| campus.houses.first().map(|house| Ipv4Addr::from(house.0)));
    let client = args
        .address("from")?
        .or(first)
        .unwrap_or(Ipv4Addr::UNSPECIFIED);
    let time = args.time("at")?.unwrap_or_else(now);
    let lines = match args.words() {
        [word] if word == "-" => {
            let mut text = String::new();
            let read = std::io::stdin().lock().read_to_string(&mut text);
            read.map_err(|error| Failure::Machine(format!("standard input: {error}")))?;
            text.lines()
                .map(str::to_owned)
                .filter(|line| !line.trim().is_empty())
                .collect()
        }
        words => vec![words.concat()],
    };
    let heard = |(line, number): (String, usize)| {
        let digits: String = line
            .chars()
            .filter(|c| !c.is_whitespace() && *c != ':')
            .collect();
        let Some(datagram) = quoted::from_hex(digits.trim_start_matches("0x")) else {
            return Err(Failure::Refused(format!(
                "datagram {number}: hex digits in pairs are wanted, not `{line}`"
            )));
        };
        Ok(Heard {
            time,
            client,
            room: REPLY_ROOM,
            datagram,
            of: String::new(),
            is_call: true,
        })
    };
    lines.into_iter().zip(1..).map(heard).collect()
}

/// The datagrams of a capture, and in words where it is cut off. That none is MADCAP's is said.
fn captured(args: &Args, name: &str) -> Result<(Vec<Heard>, Option<String>), Failure> {
    let file = std::fs::read(name).map_err(|error| store::failed(Path::new(name), error))?;
    let port = args.number("port")?.unwrap_or(PORT);
    let (from, at) = (args.address("from")?, args.time("at")?);
    let capture = pcap::read(&file).map_err(|what| Failure::Refused(format!("{name}: {what}")))?;
    let cut = capture.cut.map(|at| {
        let kept = match args.has("keep") {
            true => ", and no campus file is written",
            false => "",
        };
        format!("{name}: the capture is cut off in the packet at octet {at}; only what stands before it is shown{kept}")
    });
    let (ours, others): (Vec<_>, Vec<_>) = capture
        .datagrams
        .into_iter()
        .partition(|one| one.from.port() == port || one.to.port() == port);
    if ours.is_empty() {
        let others = count(others.len(), "datagram");
        print(&format!(
            "{name}: no datagram from or to port {port}; {others} of other ports (--port takes another)\n"
        ))?;
    }
    let heard = |one: pcap::Captured| {
        let cut = if one.is_cut {
            " (cut off in the capture)"
        } else {
            ""
        };
        Heard {
            time: at.unwrap_or(one.time),
            client: from.unwrap_or(*one.from.ip()),
            room: REPLY_ROOM,
            is_call: one.to.port() == port,
            of: format!(
                "{} {} to {}{cut}: ",
                utc::in_words(one.time),
                one.from,
                one.to
            ),
            datagram: one.payload,
        }
    };
    Ok((ours.into_iter().map(heard).collect(), cut))
}

/// The input of `replay`: length(2), campus file, then time(4), client(4), room(2), length(2), datagram.
fn calls(name: &str) -> Result<(CampusFile, Vec<Heard>), Failure> {
    let list = std::fs::read(name).map_err(|error| store::failed(Path::new(name), error))?;
    let cut = || Failure::Refused(format!("{name}: refused 24: it is cut off"));
    let (&length, rest) = list.split_first_chunk().ok_or_else(cut)?;
    let (file, mut rest) = rest
        .split_at_checked(u16::from_be_bytes(length).into())
        .ok_or_else(cut)?;
    let campus = accepted(name, file)?;
    let mut heard = vec![];
    while !rest.is_empty() {
        let (head, behind) = rest.split_first_chunk::<12>().ok_or_else(cut)?;
        let pair = |at: usize| u16::from_be_bytes([head[at], head[at + 1]]);
        let (datagram, behind) = behind.split_at_checked(pair(10).into()).ok_or_else(cut)?;
        let time = u32::from_be_bytes([0, 1, 2, 3].map(|at| head[at]));
        let client = Ipv4Addr::from([4, 5, 6, 7].map(|at| head[at]));
        rest = behind;
        heard.push(Heard {
            time,
            client,
            room: pair(8).into(),
            datagram: datagram.to_vec(),
            of: format!("{} {client}: ", utc::in_words(time)),
            is_call: true,
        });
    }
    Ok((campus, heard))
}
