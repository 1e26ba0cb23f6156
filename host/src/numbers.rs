//! The numbers that the library returns.

use crate::fault::Fault;
use std::fmt;

/// What a call tells: what became of the datagram, and how much was read for it.
#[derive(Clone, Copy, Debug, PartialEq, Eq)]
pub struct Answer<'r> {
    /// What became of it.
    pub outcome: Outcome<'r>,
    /// How many of the house's records were compared to find the identifier: for each lookup the place of the match, or else all of its leases and
    /// holds. At most 32; 0 with discards 1 to 7.
    pub count: usize,
}

/// What became of a datagram.
#[derive(Clone, Copy, Debug, PartialEq, Eq)]
pub enum Outcome<'r> {
    /// 0: a reply, to be sent to the client.
    Reply(&'r [u8]),
    /// 1 to 8: no reply.
    Discard(Discard),
}

impl<'r> Outcome<'r> {
    /// Document 01's number.
    pub fn number(&self) -> u8 {
        match self {
            Outcome::Reply(_) => 0,
            Outcome::Discard(why) => why.number(),
        }
    }

    /// With discard 5 the octet of the datagram at which the first option stands that breaks a rule, or the datagram's length where End or
    /// option 3 is missing; 0 with every other outcome.
    pub fn offset(&self) -> usize {
        match self {
            Outcome::Discard(Discard::Options { offset }) => *offset,
            _ => 0,
        }
    }

    /// The reply's octets.
    pub fn reply(&self) -> Option<&'r [u8]> {
        match self {
            Outcome::Reply(octets) => Some(octets),
            Outcome::Discard(_) => None,
        }
    }
}

impl<'r> Answer<'r> {
    /// The answer of a number, the offset and the count that go with it and a reply's octets. `None` for a number above 8.
    pub(crate) fn of_number(
        number: u8,
        offset: usize,
        count: usize,
        reply: &'r [u8],
    ) -> Option<Self> {
        let outcome = match number {
            0 => Outcome::Reply(reply),
            _ => Outcome::Discard(Discard::of_number(number, offset)?),
        };
        Some(Self { outcome, count })
    }
}

/// Why a datagram is discarded: the first that holds.
#[derive(Clone, Copy, Debug, PartialEq, Eq, Hash)]
pub enum Discard {
    /// 1: the book is unsound. Never of a campus file, which is refused then.
    Unsound,
    /// 2: the reply buffer is below 512 octets.
    ReplyRoom,
    /// 3: the client's address is in no house.
    NoHouse,
    /// 4: the datagram's length, version, family or type.
    Header,
    /// 5: the options break the layout, length, repeat, End or Lease Identifier rules.
    Options {
        /// The octet of the datagram at which the first of them stands that does (of a repeat the later; one to three octets left over count
        /// as one), or the datagram's length where End or option 3 is missing.
        offset: usize,
    },
    /// 6: a feature is required. None is supported.
    Feature,
    /// 7: a REQUEST to another server.
    OtherServer,
    /// 8: a DISCOVER or GETINFO that draws an error, which they don't hear of.
    Error,
}

impl Discard {
    /// Document 01's number.
    pub fn number(self) -> u8 {
        match self {
            Discard::Unsound => 1,
            Discard::ReplyRoom => 2,
            Discard::NoHouse => 3,
            Discard::Header => 4,
            Discard::Options { .. } => 5,
            Discard::Feature => 6,
            Discard::OtherServer => 7,
            Discard::Error => 8,
        }
    }

    pub(crate) fn of_number(number: u8, offset: usize) -> Option<Self> {
        Some(match number {
            1 => Discard::Unsound,
            2 => Discard::ReplyRoom,
            3 => Discard::NoHouse,
            4 => Discard::Header,
            5 => Discard::Options { offset },
            6 => Discard::Feature,
            7 => Discard::OtherServer,
            8 => Discard::Error,
            _ => return None,
        })
    }

    /// The discard in words, with what is wrong in the datagram that drew it: `discard 5 at octet 23: option 6 has length 3, not 4`.
    pub fn in_words(&self, datagram: &[u8]) -> String {
        match self {
            Discard::Options { offset } => match Fault::at(datagram, *offset) {
                Some(fault) => format!("discard 5 at octet {offset}: {fault}"),
                None => self.to_string(),
            },
            _ => self.to_string(),
        }
    }
}

impl fmt::Display for Discard {
    fn fmt(&self, f: &mut fmt::Formatter<'_>) -> fmt::Result {
        let why = match self {
            Discard::Unsound => "book unsound",
            Discard::ReplyRoom => "reply room below 512",
            Discard::NoHouse => "client address in no house",
            Discard::Header => "datagram length, version, family or type",
            Discard::Options { offset } => {
                return write!(f, "discard 5 at octet {offset}: options break a rule")
            }
            Discard::Feature => "a feature is required",
            Discard::OtherServer => "for another server",
            Discard::Error => "DISCOVER or GETINFO that draws an error",
        };
        write!(f, "discard {}: {why}", self.number())
    }
}

/// Why a campus file, a buffer or a list of calls is refused.
#[derive(Clone, Copy, Debug, PartialEq, Eq, Hash)]
#[repr(u8)]
pub enum Refusal {
    /// The file's form is wrong: layout, order, names, excess octets, or above 32,768 octets.
    Form = 20,
    /// The file is unsound.
    Unsound = 21,
    /// The file's buffer is below 32,768 octets, or a salvage's is too short.
    FileRoom = 23,
    /// A call's record is cut off.
    CutOff = 24,
    /// The settings of a file to be salvaged are unsound by themselves.
    Settings = 25,
    /// Fewer than 518 octets are left for the next answer.
    AnswersRoom = 27,
    /// The file's length is above its buffer's.
    FileLength = 28,
}

impl Refusal {
    const ALL: [Refusal; 7] = [
        Refusal::Form,
        Refusal::Unsound,
        Refusal::FileRoom,
        Refusal::CutOff,
        Refusal::Settings,
        Refusal::AnswersRoom,
        Refusal::FileLength,
    ];

    /// The number, as the C header has it.
    pub fn number(self) -> u8 {
        self as u8
    }

    pub(crate) fn of_number(number: u8) -> Option<Self> {
        Self::ALL.into_iter().find(|why| why.number() == number)
    }
}

impl fmt::Display for Refusal {
    fn fmt(&self, f: &mut fmt::Formatter<'_>) -> fmt::Result {
        let why = match self {
            Refusal::Form => "the campus file's form is wrong",
            Refusal::Unsound => "the campus file is unsound",
            Refusal::FileRoom => "the campus file's buffer is too short",
            Refusal::CutOff => "a call's record is cut off",
            Refusal::Settings => "the campus file's settings are unsound",
            Refusal::AnswersRoom => "too little room for the next answer",
            Refusal::FileLength => "the campus file's length goes past its buffer",
        };
        write!(f, "refused {}: {why}", self.number())
    }
}

impl std::error::Error for Refusal {}
