//! What is wrong at the octet that discard 5 carries, in words for the desk and the client's maker.

use crate::count;
use std::fmt;

/// The first option that breaks a rule, as it stands in the datagram.
#[derive(Clone, Copy, Debug, PartialEq, Eq)]
pub enum Fault {
    /// One to three octets are left over, too few for a code(2) and a length(2).
    LeftOver {
        /// How many.
        octets: usize,
    },
    /// An option's value goes past the datagram's end.
    PastEnd {
        /// The option's code.
        code: u16,
        /// The length of its value, as it stands there.
        length: u16,
        /// How many octets there are.
        left: usize,
    },
    /// Document 01's table has another length for the code.
    Length {
        /// The option's code.
        code: u16,
        /// The length of its value, as it stands there.
        length: u16,
        /// What the table has.
        table: &'static str,
    },
    /// The three lists of option 12 don't fill its value exactly.
    Features,
    /// End isn't the last four octets.
    EarlyEnd {
        /// How many octets stand after it.
        after: usize,
    },
    /// The option's code has been there before.
    Repeat {
        /// The code.
        code: u16,
        /// The octet at which the first with that code stands.
        first: usize,
    },
    /// There is no End.
    NoEnd,
    /// There is no option 3.
    NoIdentifier,
}

impl Fault {
    /// What is wrong at an octet of a datagram, the one that discard 5 carries. `None` for an octet at which nothing is.
    pub fn at(datagram: &[u8], offset: usize) -> Option<Fault> {
        if offset == datagram.len() {
            return missing(datagram);
        }
        let rest = datagram.get(offset..)?;
        let Some((code, length, value)) = head(rest) else {
            let octets = rest.len();
            return Some(Fault::LeftOver { octets });
        };
        let Some(after) = value.len().checked_sub(length.into()) else {
            let left = value.len();
            return Some(Fault::PastEnd { code, length, left });
        };
        if let Some(table) = other_length(code, length) {
            return Some(Fault::Length {
                code,
                length,
                table,
            });
        }
        match code {
            0 => (after > 0).then_some(Fault::EarlyEnd { after }),
            12 if !is_filled(&value[..length.into()]) => Some(Fault::Features),
            1..=16 => {
                let first = options(datagram).find(|option| option.code == code)?.offset;
                (first < offset).then_some(Fault::Repeat { code, first })
            }
            _ => None,
        }
    }
}

/// What a datagram lacks in which no option breaks a rule.
fn missing(datagram: &[u8]) -> Option<Fault> {
    let has = |code| options(datagram).any(|option| option.code == code);
    if !has(0) {
        return Some(Fault::NoEnd);
    }
    (!has(3)).then_some(Fault::NoIdentifier)
}

/// An option that the walk over them passes: its place and its code.
struct Passed {
    offset: usize,
    code: u16,
}

/// Code and length of an option, and the octets after them.
fn head(option: &[u8]) -> Option<(u16, u16, &[u8])> {
    let (&[a, b, c, d], value) = option.split_first_chunk()?;
    Some((
        u16::from_be_bytes([a, b]),
        u16::from_be_bytes([c, d]),
        value,
    ))
}

/// The options of a datagram, which stand after a header of eight octets.
fn options(datagram: &[u8]) -> impl Iterator<Item = Passed> + '_ {
    let mut next = 8;
    std::iter::from_fn(move || {
        let (offset, (code, length, _)) = (next, head(datagram.get(next..)?)?);
        next += 4 + usize::from(length);
        Some(Passed { offset, code })
    })
}

/// What document 01's table has for a code, where it isn't this length. Codes above 16 may have any.
fn other_length(code: u16, length: u16) -> Option<&'static str> {
    let (is_right, table) = match code {
        0 => (length == 0, "0"),
        1 | 4 | 6 | 7 | 11 | 13..=15 => (length == 4, "4"),
        2 => (matches!(length, 6 | 18), "6 or 18"),
        3 => ((2..=32).contains(&length), "2 to 32"),
        5 => (length >= 2 && length % 2 == 0, "an even one from 2 on"),
        8 | 9 => (length >= 1, "1 or more"),
        10 => (length >= 6 && length % 6 == 0, "a multiple of 6 from 6 on"),
        12 => (length >= 6, "6 or more"),
        16 => (length >= 2, "2 or more"),
        _ => (true, "any"),
    };
    (!is_right).then_some(table)
}

/// Whether supported, requested and required, each count(2) and codes(2), fill the value of option 12.
fn is_filled(mut value: &[u8]) -> bool {
    for _ in 0..3 {
        let Some((&count, rest)) = value.split_first_chunk() else {
            return false;
        };
        let Some(rest) = rest.get(2 * usize::from(u16::from_be_bytes(count))..) else {
            return false;
        };
        value = rest;
    }
    value.is_empty()
}

impl fmt::Display for Fault {
    fn fmt(&self, f: &mut fmt::Formatter<'_>) -> fmt::Result {
        let option = |code: &u16| match code {
            0 => "End".to_owned(),
            _ => format!("option {code}"),
        };
        let octets = |number: &usize| count(*number, "octet");
        match self {
            Fault::LeftOver { octets: count } => write!(f, "{} left over", octets(count)),
            Fault::PastEnd { code, length, left } => {
                let (option, left) = (option(code), octets(left));
                write!(f, "{option} has length {length}, with {left} left")
            }
            Fault::Length {
                code,
                length,
                table,
            } => write!(f, "{} has length {length}, not {table}", option(code)),
            Fault::Features => write!(f, "option 12 isn't filled exactly by its three lists"),
            Fault::EarlyEnd { after } => {
                write!(f, "End isn't last, with {} after it", octets(after))
            }
            Fault::Repeat { code, first } => {
                write!(f, "option {code} again, after the one at octet {first}")
            }
            Fault::NoEnd => write!(f, "End is missing"),
            Fault::NoIdentifier => write!(f, "option 3 is missing"),
        }
    }
}
