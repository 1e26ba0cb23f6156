//! Words of a command line, and how a command can fail.

use banshorra_host::{quoted, utc};
use std::fmt;
use std::net::{Ipv4Addr, SocketAddrV4};

/// A command: its name, what it takes, its help, what it does.
pub struct Command {
    pub name: &'static str,
    pub help: &'static str,
    /// Options without a value, as `--quiet`.
    pub flags: &'static [&'static str],
    /// Options with one, as `--listen ADDRESS`.
    pub valued: &'static [&'static str],
    pub run: fn(&Args) -> Result<(), Failure>,
}

/// How a command failed.
#[derive(Debug)]
pub enum Failure {
    /// Something is refused: a file, a text, a request.
    Refused(String),
    /// It was asked for wrongly.
    Usage(String),
    /// The machine failed it.
    Machine(String),
    /// No answer came.
    Silence(String),
    /// Nobody reads what it prints any more.
    Gone,
}

impl Failure {
    pub fn status(&self) -> u8 {
        match self {
            Failure::Gone => 0,
            Failure::Refused(_) => 1,
            Failure::Usage(_) => 2,
            Failure::Machine(_) => 3,
            Failure::Silence(_) => 4,
        }
    }
}

impl fmt::Display for Failure {
    fn fmt(&self, f: &mut fmt::Formatter<'_>) -> fmt::Result {
        match self {
            Failure::Refused(what) | Failure::Usage(what) => write!(f, "{what}"),
            Failure::Machine(what) | Failure::Silence(what) => write!(f, "{what}"),
            Failure::Gone => Ok(()),
        }
    }
}

/// A command's words, read.
pub struct Args {
    command: &'static str,
    words: Vec<String>,
    options: Vec<(String, String)>,
}

impl Args {
    pub fn read(command: &Command, words: &[String]) -> Result<Args, Failure> {
        let mut args = Args {
            command: command.name,
            words: vec![],
            options: vec![],
        };
        let mut words = words.iter();
        while let Some(word) = words.next() {
            let Some(option) = word.strip_prefix("--") else {
                args.words.push(word.clone());
                continue;
            };
            let (name, value) = match option.split_once('=') {
                Some((name, value)) => (name, Some(value.to_owned())),
                None => (option, None),
            };
            if args.options.iter().any(|(before, _)| before == name) {
                return args.usage(&format!("--{name} is there twice"));
            }
            let value = match (
                command.flags.contains(&name),
                command.valued.contains(&name),
                value,
            ) {
                (true, _, None) => String::new(),
                (_, true, Some(value)) => value,
                (_, true, None) => match words.next() {
                    Some(value) => value.clone(),
                    None => return args.usage(&format!("--{name} lacks its value")),
                },
                (true, _, Some(_)) => return args.usage(&format!("--{name} takes no value")),
                _ => return args.usage(&format!("there is no option --{name}")),
            };
            args.options.push((name.to_owned(), value));
        }
        Ok(args)
    }

    pub fn usage<T>(&self, what: &str) -> Result<T, Failure> {
        let command = self.command;
        Err(Failure::Usage(format!(
            "banshorra {command}: {what}; see `banshorra {command} --help`"
        )))
    }

    pub fn words(&self) -> &[String] {
        &self.words
    }

    /// The one word that the command takes.
    pub fn word(&self, what: &str) -> Result<&str, Failure> {
        match &self.words[..] {
            [word] => Ok(word),
            [] => self.usage(&format!("{what} is missing")),
            [_, word, ..] => self.usage(&format!("`{word}` is one word too many")),
        }
    }

    pub fn has(&self, name: &str) -> bool {
        self.value(name).is_some()
    }

    pub fn value(&self, name: &str) -> Option<&str> {
        let found = self.options.iter().find(|option| option.0 == name)?;
        Some(&found.1)
    }

    /// An option's value, read; `expected` says what it should be.
    pub fn read_as<T>(
        &self,
        name: &str,
        expected: &str,
        read: impl Fn(&str) -> Option<T>,
    ) -> Result<Option<T>, Failure> {
        let Some(value) = self.value(name) else {
            return Ok(None);
        };
        match read(value) {
            Some(value) => Ok(Some(value)),
            None => self.usage(&format!("--{name} takes {expected}, not `{value}`")),
        }
    }

    pub fn number<T: std::str::FromStr>(&self, name: &str) -> Result<Option<T>, Failure> {
        self.read_as(name, "a number", |value| value.parse().ok())
    }

    pub fn address(&self, name: &str) -> Result<Option<Ipv4Addr>, Failure> {
        self.read_as(name, "an IPv4 address", |value| value.parse().ok())
    }

    /// `ADDRESS`, `ADDRESS:PORT` or `:PORT`.
    pub fn socket(
        &self,
        name: &str,
        address: Ipv4Addr,
        port: u16,
    ) -> Result<SocketAddrV4, Failure> {
        let read = |value: &str| {
            let (host, behind) = value.split_once(':').unwrap_or((value, ""));
            let host = if host.is_empty() {
                Some(address)
            } else {
                host.parse().ok()
            };
            let behind = if behind.is_empty() {
                Some(port)
            } else {
                behind.parse().ok()
            };
            Some(SocketAddrV4::new(host?, behind?))
        };
        let found = self.read_as(name, "an IPv4 address and a port, as 10.1.1.1:2535", read)?;
        Ok(found.unwrap_or(SocketAddrV4::new(address, port)))
    }

    pub fn time(&self, name: &str) -> Result<Option<u32>, Failure> {
        self.read_as(name, "a time in UTC, as 2026-11-17T09:30:00Z", utc::read)
    }

    /// An identifier: hex behind 0x, else the text's octets.
    pub fn identifier(&self, name: &str) -> Result<Option<Vec<u8>>, Failure> {
        self.read_as(
            name,
            "a text, or octets in hex as 0x004c31",
            |value| match value.strip_prefix("0x") {
                Some(digits) => quoted::from_hex(digits),
                None => Some(value.as_bytes().to_vec()),
            },
        )
    }
}
