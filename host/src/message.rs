//! MADCAP datagrams in words, option by option. Any octets have words; what is wrong with them is [`Fault`](crate::Fault)'s to say.

use crate::count;
use crate::quoted::{self, hex, identifier, quoted};
use crate::text::range;
use crate::utc;
use std::fmt;
use std::net::Ipv4Addr;

/// The types that a client sends or hears.
pub const DISCOVER: u8 = 1;
/// An answer to DISCOVER.
pub const OFFER: u8 = 2;
/// Wants addresses.
pub const REQUEST: u8 = 3;
/// Wants another period.
pub const RENEW: u8 = 4;
/// Yes.
pub const ACK: u8 = 5;
/// No.
pub const NAK: u8 = 6;
/// Gives addresses back.
pub const RELEASE: u8 = 7;
/// Asks for scopes or the time.
pub const GETINFO: u8 = 8;

const LEAST: usize = 12;
const MOST: usize = 1472;

/// A datagram's octets, whatever they are.
#[derive(Clone, Copy, Debug)]
pub struct Message<'a>(pub &'a [u8]);

/// An option as it stands in a datagram.
#[derive(Clone, Copy, Debug, PartialEq, Eq)]
pub struct Coded<'a> {
    /// The octet that it begins at.
    pub offset: usize,
    /// Its code.
    pub code: u16,
    /// The length that it says.
    pub length: u16,
    /// Its value, or what is there of it.
    pub value: &'a [u8],
}

impl<'a> Message<'a> {
    /// The type; 0, which is none, for an octet or less.
    pub fn kind(&self) -> u8 {
        self.0.get(1).copied().unwrap_or(0)
    }

    /// The transaction id.
    pub fn transaction(&self) -> Option<u32> {
        self.0.get(4..8).and_then(u32_of)
    }

    /// The options, to the first that isn't whole.
    pub fn options(&self) -> impl Iterator<Item = Coded<'a>> + use<'a> {
        let (octets, mut offset) = (self.0, 8);
        std::iter::from_fn(move || {
            let (&[a, b, c, d], rest) = octets.get(offset..)?.split_first_chunk()?;
            let (code, length) = (u16::from_be_bytes([a, b]), u16::from_be_bytes([c, d]));
            let value = &rest[..rest.len().min(length.into())];
            let option = Coded {
                offset,
                code,
                length,
                value,
            };
            offset += 4 + usize::from(length);
            Some(option)
        })
    }

    /// The value of the first option with a code.
    pub fn value(&self, code: u16) -> Option<&'a [u8]> {
        let found = self.options().find(|option| option.code == code)?;
        Some(found.value)
    }

    /// The value of an option that has four octets.
    pub fn number(&self, code: u16) -> Option<u32> {
        u32_of(self.value(code)?)
    }

    /// Least and desired number of addresses.
    pub fn counts(&self) -> Option<(u16, u16)> {
        match *self.value(7)? {
            [a, b, c, d] => Some((u16::from_be_bytes([a, b]), u16::from_be_bytes([c, d]))),
            _ => None,
        }
    }

    /// The ranges of option 10, first and last address of each.
    pub fn ranges(&self) -> Vec<(u32, u32)> {
        self.value(10).map_or_else(Vec::new, ranges)
    }

    /// What is wrong with the header (discard 4), in words.
    pub fn header_fault(&self) -> Option<String> {
        let octets = self.0;
        if let Some(fault) = length_fault(octets.len()) {
            return Some(fault);
        }
        let family = u16::from_be_bytes([octets[2], octets[3]]);
        match (octets[0], family, self.kind()) {
            (0, 1, DISCOVER | REQUEST | RENEW | RELEASE | GETINFO) => None,
            (0, 1, kind) => Some(format!("type {} isn't a client's", name(kind))),
            (0, family, _) => Some(format!("address family {family}, not 1 (IPv4)")),
            (version, ..) => Some(format!("version {version}, not 0")),
        }
    }

    /// A line: the type and what it is about.
    pub fn in_short(&self) -> String {
        let mut words = vec![name(self.kind())];
        let mut add = |label: &str, value: String| words.push(format!("{label} {value}"));
        if let Some(value) = self.value(3) {
            add("id", identifier(value));
        }
        if let Some(scope) = self.number(4) {
            add("scope", Ipv4Addr::from(scope).to_string());
        }
        if let Some((least, desired)) = self.counts() {
            add("number", format!("{least}-{desired}"));
        }
        for (code, label) in [(1, "for"), (14, "at least")] {
            if let Some(seconds) = self.number(code) {
                add(label, format!("{seconds} s"));
            }
        }
        for (code, label) in [(6, "from"), (15, "no later than")] {
            if let Some(time) = self.number(code) {
                add(label, utc::in_words(time));
            }
        }
        words.join(" ")
    }

    /// A reply in a line: the type, and what the client has then.
    pub fn reply_in_short(&self) -> String {
        let kind = name(self.kind());
        if let Some(error) = self.error() {
            return format!("{kind}, error {error}");
        }
        if let Some(list) = self.value(9) {
            let scopes = list.first().copied().unwrap_or(0);
            return format!("{kind}, {}", count(scopes.into(), "scope"));
        }
        let ranges = self.ranges();
        let (Some(start), Some(length)) = (self.number(6), self.number(1)) else {
            return kind;
        };
        let (from, to) = (
            utc::in_words(start),
            utc::in_words(start.saturating_add(length)),
        );
        format!("{kind} {} from {from} to {to}", words_of(&ranges))
    }

    /// A NAK's error.
    pub fn error(&self) -> Option<u16> {
        match *self.value(16)? {
            [a, b, ..] => Some(u16::from_be_bytes([a, b])),
            _ => None,
        }
    }
}

/// The header, then a line for each option, after the octet that it begins at.
impl fmt::Display for Message<'_> {
    fn fmt(&self, f: &mut fmt::Formatter<'_>) -> fmt::Result {
        let length = count(self.0.len(), "octet");
        match self.transaction() {
            Some(xid) => write!(
                f,
                "{}, transaction 0x{xid:08x}, {length}",
                name(self.kind())
            )?,
            None => write!(f, "{length}: {}", hex(self.0))?,
        }
        let mut end = 8;
        for option in self.options() {
            write!(f, "\n  {:>5}  {option}", option.offset)?;
            end = option.offset + 4 + usize::from(option.length);
        }
        match self.0.get(end..) {
            Some(rest) if !rest.is_empty() => write!(f, "\n  {end:>5}  left over: {}", hex(rest)),
            _ => Ok(()),
        }
    }
}

impl fmt::Display for Coded<'_> {
    fn fmt(&self, f: &mut fmt::Formatter<'_>) -> fmt::Result {
        let (code, value) = (self.code, self.value);
        if code == 0 && value.is_empty() {
            return write!(f, "End");
        }
        write!(f, "option {code}, {}: ", option_name(code))?;
        if value.len() < self.length.into() {
            return write!(
                f,
                "{} of {}: {}",
                value.len(),
                count(self.length.into(), "octet"),
                hex(value)
            );
        }
        match value_in_words(code, value) {
            Some(words) => write!(f, "{words}"),
            None if value.is_empty() => write!(f, "no octets"),
            None => write!(f, "{}", hex(value)),
        }
    }
}

/// A client's datagram: type, transaction id, and options by code and value; End is put behind them.
///
/// # Panics
/// Where a value has more than 65,535 octets.
pub fn draft(kind: u8, transaction: u32, options: &[(u16, Vec<u8>)]) -> Vec<u8> {
    let mut octets = vec![0, kind, 0, 1];
    octets.extend(transaction.to_be_bytes());
    for (code, value) in options {
        let length = u16::try_from(value.len()).expect("an option's length");
        octets.extend(code.to_be_bytes());
        octets.extend(length.to_be_bytes());
        octets.extend(value);
    }
    octets.extend([0; 4]);
    octets
}

/// What is wrong with a datagram's length (discard 4), in words.
pub fn length_fault(length: usize) -> Option<String> {
    let octets = count(length, "octet");
    match length {
        0..LEAST => Some(format!("{octets}, below {LEAST}")),
        LEAST..=MOST => None,
        _ => Some(format!("{octets}, above {MOST}")),
    }
}

/// A message type's name.
pub fn name(kind: u8) -> String {
    let names = [
        "DISCOVER", "OFFER", "REQUEST", "RENEW", "ACK", "NAK", "RELEASE", "GETINFO",
    ];
    match names.get(usize::from(kind).wrapping_sub(1)) {
        Some(name) => (*name).to_owned(),
        None => format!("type {kind}"),
    }
}

/// An option's name, as RFC 2730 has it.
pub fn option_name(code: u16) -> &'static str {
    match code {
        0 => "End",
        1 => "Lease Time",
        2 => "Server Identifier",
        3 => "Lease Identifier",
        4 => "Multicast Scope",
        5 => "Option Request List",
        6 => "Start Time",
        7 => "Number of Addresses Requested",
        8 => "Requested Language",
        9 => "Multicast Scope List",
        10 => "List of Address Ranges",
        11 => "Current Time",
        12 => "Feature List",
        13 => "Retry Time",
        14 => "Minimum Lease Time",
        15 => "Maximum Start Time",
        16 => "Error",
        _ => "unknown, passed over",
    }
}

/// What a NAK's error means.
pub fn error_name(error: u16) -> &'static str {
    match error {
        0 => "the request can't be met",
        1 => "the request is invalid",
        2 => "the clocks are too far apart",
        3 => "the lease isn't known",
        _ => "unknown error",
    }
}

fn u32_of(octets: &[u8]) -> Option<u32> {
    octets.try_into().ok().map(u32::from_be_bytes)
}

fn codes(octets: &[u8]) -> Option<Vec<u16>> {
    let pairs = octets.chunks(2);
    let code = |pair: &[u8]| pair.try_into().ok().map(u16::from_be_bytes);
    pairs.map(code).collect()
}

fn ranges(value: &[u8]) -> Vec<(u32, u32)> {
    let range = |entry: &[u8]| {
        let first = u32_of(&entry[..4])?;
        let count = u16::from_be_bytes([entry[4], entry[5]]);
        Some((
            first,
            first.saturating_add(u32::from(count).saturating_sub(1)),
        ))
    };
    value.chunks_exact(6).filter_map(range).collect()
}

/// Ranges of addresses in words.
pub fn words_of(ranges: &[(u32, u32)]) -> String {
    let words = ranges.iter().map(|&(first, last)| range(first, last));
    words.collect::<Vec<_>>().join(" ")
}

/// An option's value in words; `None` for one of another length than its code has.
fn value_in_words(code: u16, value: &[u8]) -> Option<String> {
    match code {
        1 | 13 | 14 => Some(utc::span(u32_of(value)?)),
        2 => Some(server(value)?),
        3 => Some(identifier(value)),
        4 => Some(Ipv4Addr::from(u32_of(value)?).to_string()),
        5 => {
            let name = |code: &u16| format!("{code} ({})", option_name(*code));
            Some(
                codes(value)?
                    .iter()
                    .map(name)
                    .collect::<Vec<_>>()
                    .join(", "),
            )
        }
        6 | 11 | 15 => Some(utc::in_words(u32_of(value)?)),
        7 => {
            let counts = codes(value).filter(|codes| codes.len() == 2)?;
            Some(format!("at least {}, up to {}", counts[0], counts[1]))
        }
        8 => Some(quoted(value)),
        9 => scopes(value),
        10 => value
            .len()
            .is_multiple_of(6)
            .then(|| words_of(&ranges(value))),
        12 => features(value),
        16 => {
            let (&[a, b], _) = value.split_first_chunk()?;
            let error = u16::from_be_bytes([a, b]);
            Some(format!("{error}, {}", error_name(error)))
        }
        _ => None,
    }
}

fn server(value: &[u8]) -> Option<String> {
    let (family, address) = value.split_first_chunk()?;
    match (u16::from_be_bytes(*family), address.len()) {
        (1, 4) => Some(Ipv4Addr::from(u32_of(address)?).to_string()),
        (family, _) => Some(format!("family {family}, {}", hex(address))),
    }
}

fn features(value: &[u8]) -> Option<String> {
    let (mut rest, mut words) = (value, vec![]);
    for label in ["supported", "requested", "required"] {
        let (&count, behind) = rest.split_first_chunk()?;
        let count = 2 * usize::from(u16::from_be_bytes(count));
        let list = codes(behind.get(..count)?)?;
        let list: Vec<String> = list.iter().map(u16::to_string).collect();
        let list = if list.is_empty() {
            "none".to_owned()
        } else {
            list.join(" ")
        };
        words.push(format!("{label} {list}"));
        rest = &behind[count..];
    }
    rest.is_empty().then(|| words.join(", "))
}

/// The scopes of option 9: addresses, TTL, names.
fn scopes(value: &[u8]) -> Option<String> {
    let (&count, mut rest) = value.split_first()?;
    let mut words = vec![];
    for _ in 0..count {
        let (head, behind) = rest.split_first_chunk::<10>()?;
        let (lowest, highest) = (u32_of(&head[..4])?, u32_of(&head[4..8])?);
        let mut scope = format!("{} TTL {}", range(lowest, highest), head[8]);
        rest = behind;
        for _ in 0..head[9] {
            let (&[_, tag], behind) = rest.split_first_chunk()?;
            let (language, behind) = behind.split_at_checked(tag.into())?;
            let (&length, behind) = behind.split_first()?;
            let (name, behind) = behind.split_at_checked(length.into())?;
            scope += &format!(" {} ({})", quoted(name), quoted::tag(language));
            rest = behind;
        }
        words.push(scope);
    }
    let words = if words.is_empty() {
        "none".to_owned()
    } else {
        words.join("; ")
    };
    rest.is_empty().then_some(words)
}
