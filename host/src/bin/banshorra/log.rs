//! The host's log: a line for each call, in words or as JSON, on standard output.

use banshorra_host::campus::Campus;
use banshorra_host::message::{self, Message};
use banshorra_host::{count, quoted, utc, Answer, Case, Discard, Outcome};
use std::fmt::Write as _;
use std::io::Write as _;
use std::net::SocketAddrV4;

/// How calls are told.
#[derive(Clone, Copy, PartialEq, Eq)]
pub enum Form {
    Words,
    Json,
    /// Not at all; only what the host itself does and what fails.
    Quiet {
        json: bool,
    },
}

/// A call as the host had it.
pub struct Told<'a> {
    pub time: u32,
    /// The clock, raised to the call's time.
    pub clock: u32,
    pub from: SocketAddrV4,
    /// As it came, which may be longer than what is kept of it.
    pub length: usize,
    pub datagram: &'a [u8],
    pub answer: Answer<'a>,
    /// Why a reply was not sent.
    pub unsent: Option<&'a str>,
}

pub struct Log {
    form: Form,
    lines: String,
    /// The last second in words, as calls come many to a second.
    second: (u32, String),
}

impl Log {
    pub fn new(form: Form) -> Log {
        let second = (0, utc::in_words(0));
        let lines = String::new();
        Log {
            form,
            lines,
            second,
        }
    }

    /// Something that the host does, or that fails it.
    pub fn event(&mut self, time: u32, event: &str, what: &str) {
        let time = utc::in_words(time);
        let lines = &mut self.lines;
        let _ = match self.form {
            Form::Json | Form::Quiet { json: true } => {
                let (event, what) = (json(event), json(what));
                writeln!(
                    lines,
                    "{{\"time\":\"{time}\",\"event\":{event},\"what\":{what}}}"
                )
            }
            _ => writeln!(lines, "{time} {event}: {what}"),
        };
        self.flush();
    }

    /// A call; `book` is the book before it, where that is known.
    pub fn call(&mut self, settings: &Campus, book: Option<&Campus>, told: &Told) {
        if matches!(self.form, Form::Quiet { .. }) {
            return;
        }
        let case = Case {
            settings,
            book,
            clock: told.clock,
            client: (*told.from.ip()).into(),
        };
        let outcome = told.answer.outcome;
        // Of a long datagram only the front is kept, so that its length is wrong there.
        let too_long = message::length_fault(told.length)
            .filter(|_| outcome == Outcome::Discard(Discard::Header));
        let why = too_long.or_else(|| case.why(told.datagram, outcome));
        let house = settings.house_of(case.client);
        if self.second.0 != told.time {
            self.second = (told.time, utc::in_words(told.time));
        }
        match self.form {
            Form::Words => self.words(house, why, told),
            Form::Json => self.json(house, why, told),
            Form::Quiet { .. } => {}
        }
    }

    fn words(&mut self, house: Option<u8>, why: Option<String>, told: &Told) {
        let (lines, time) = (&mut self.lines, &self.second.1);
        let message = Message(told.datagram);
        let _ = match house {
            Some(house) => write!(lines, "{time} house {house} {} ", told.from),
            None => write!(lines, "{time} no house {} ", told.from),
        };
        let _ = match message.transaction() {
            Some(xid) => write!(lines, "{} xid 0x{xid:08x}: ", message.in_short()),
            None => write!(lines, "{}: ", count(told.length, "octet")),
        };
        let outcome = told.answer.outcome;
        let _ = match (outcome, told.unsent) {
            (Outcome::Reply(reply), None) => write!(lines, "{}", Message(reply).reply_in_short()),
            (Outcome::Reply(_), Some(unsent)) => write!(lines, "not answered, {unsent}"),
            (Outcome::Discard(why), _) => write!(lines, "discard {}", why.number()),
        };
        if outcome.number() == 5 {
            let _ = write!(lines, " at octet {}", outcome.offset());
        }
        let _ = match why.filter(|_| told.unsent.is_none()) {
            Some(why) => writeln!(lines, ", {why}"),
            None => writeln!(lines),
        };
    }

    fn json(&mut self, house: Option<u8>, why: Option<String>, told: &Told) {
        let (lines, time) = (&mut self.lines, &self.second.1);
        let message = Message(told.datagram);
        let house = house.map_or("null".to_owned(), |house| house.to_string());
        let _ = write!(
            lines,
            "{{\"time\":\"{time}\",\"house\":{house},\"client\":\"{}\",\"octets\":{}",
            told.from, told.length
        );
        if let Some(xid) = message.transaction() {
            let _ = write!(
                lines,
                ",\"asked\":\"{}\",\"xid\":\"0x{xid:08x}\"",
                message::name(message.kind())
            );
        }
        if let Some(identifier) = message.value(3) {
            let _ = write!(lines, ",\"id\":\"{}\"", quoted::hex(identifier));
        }
        if let Some(scope) = message.number(4) {
            let _ = write!(lines, ",\"scope\":\"{}\"", std::net::Ipv4Addr::from(scope));
        }
        let (outcome, compared) = (told.answer.outcome, told.answer.count);
        let number = outcome.number();
        let _ = write!(lines, ",\"outcome\":{number},\"compared\":{compared}");
        if let Some(reply) = outcome.reply().map(Message) {
            reply_json(lines, &reply);
        }
        if number == 5 {
            let _ = write!(lines, ",\"octet\":{}", outcome.offset());
        }
        if let Some(unsent) = told.unsent {
            let _ = write!(lines, ",\"unsent\":{}", json(unsent));
        }
        if let Some(why) = why {
            let _ = write!(lines, ",\"why\":{}", json(&why));
        }
        lines.push_str("}\n");
    }

    /// Writes what has gathered. A log that can't be written doesn't keep anybody from being served.
    pub fn flush(&mut self) {
        let mut out = std::io::stdout().lock();
        let _ = out
            .write_all(self.lines.as_bytes())
            .and_then(|()| out.flush());
        self.lines.clear();
    }
}

fn reply_json(lines: &mut String, reply: &Message) {
    let _ = write!(lines, ",\"answer\":\"{}\"", message::name(reply.kind()));
    if let Some(error) = reply.error() {
        let _ = write!(lines, ",\"error\":{error}");
    }
    let ranges = reply.ranges();
    if let (false, Some(start), Some(length)) =
        (ranges.is_empty(), reply.number(6), reply.number(1))
    {
        let (from, to) = (
            utc::in_words(start),
            utc::in_words(start.saturating_add(length)),
        );
        let addresses = message::words_of(&ranges);
        let _ = write!(
            lines,
            ",\"addresses\":\"{addresses}\",\"from\":\"{from}\",\"to\":\"{to}\""
        );
    }
}

/// A text as JSON has it.
fn json(text: &str) -> String {
    let mut quoted = String::from("\"");
    for character in text.chars() {
        match character {
            '"' | '\\' => quoted.extend(['\\', character]),
            '\0'..='\x1F' => {
                let _ = write!(quoted, "\\u{:04x}", u32::from(character));
            }
            _ => quoted.push(character),
        }
    }
    quoted.push('"');
    quoted
}
