//! The verdict: what the first half of a call gives.

use crate::numbers::Discard;
use crate::VERDICT_SIZE;
use std::fmt;

/// What became of a datagram, before a reply is written: the outcome, and what the reply is going to say. It is 75 octets, laid out as
/// `include/banshorra.h` says, and needs no reply room.
#[derive(Clone, Copy, PartialEq, Eq, Hash)]
pub struct Verdict {
    octets: [u8; VERDICT_SIZE],
}

/// What a verdict's reply is.
#[derive(Clone, Copy, Debug, PartialEq, Eq, Hash)]
pub enum Ruling<'v> {
    /// The OFFER of addresses, which are held.
    Offer(Given),
    /// The ACK to a REQUEST or RENEW, with the lease.
    Lease(Given),
    /// The ACK to a RELEASE.
    Released,
    /// The ACK to a GETINFO.
    Info(Asked<'v>),
    /// The NAK to a REQUEST, RENEW or RELEASE.
    Nak {
        /// Document 01's number, 0 to 3.
        error: u8,
    },
}

/// The addresses and the period of an OFFER or a lease.
#[derive(Clone, Copy, Debug, PartialEq, Eq, Hash)]
pub struct Given {
    /// The scope, counted from 1.
    pub scope: u8,
    /// When the period begins, in whole seconds since 1970.
    pub start: u32,
    /// When it ends, which is no longer in it.
    pub end: u32,
    /// The addresses: bit a stands for the scope's lowest address plus a.
    pub addresses: u64,
}

impl Given {
    /// How many addresses there are.
    pub fn count(&self) -> u32 {
        self.addresses.count_ones()
    }

    /// The addresses' offsets in the scope, rising.
    pub fn offsets(&self) -> impl Iterator<Item = u8> {
        let addresses = self.addresses;
        (0..64).filter(move |offset| addresses >> offset & 1 == 1)
    }
}

/// What a GETINFO asks for.
#[derive(Clone, Copy, Debug, PartialEq, Eq, Hash)]
pub struct Asked<'v> {
    /// Its option 5 names 9, the scope list.
    pub scope_list: bool,
    /// Its option 5 names 11, the time.
    pub time: bool,
    /// Its option 8: the language tag, of one that is longer than 8 octets, which no name has, the first 8.
    pub language: Option<&'v [u8]>,
}

/// Where the fields stand; `include/banshorra.h` has them in words.
mod at {
    pub const OUTCOME: usize = 0;
    pub const REPLY: usize = 1;
    pub const ERROR: usize = 2;
    pub const SCOPE: usize = 3;
    pub const OFFSET: usize = 4;
    pub const HOUSE: usize = 6;
    pub const TRANSACTION: usize = 7;
    pub const START: usize = 11;
    pub const END: usize = 15;
    pub const ADDRESSES: usize = 19;
    pub const FEATURES: usize = 27;
    pub const LIST: usize = 28;
    pub const TIME: usize = 29;
    pub const LANGUAGE: usize = 30;
    pub const LANGUAGE_LENGTH: usize = 31;
    pub const TAG: usize = 33;
    pub const IDENTIFIER_LENGTH: usize = 41;
    pub const IDENTIFIER: usize = 42;
    pub const COUNT: usize = 74;
}

impl Verdict {
    /// A verdict of octets that [`as_bytes`](Self::as_bytes) gave. Octets that no [`judge`](crate::CampusFile::judge) gave are taken too; what
    /// [`reply`](crate::CampusFile::reply) makes of them may be anything.
    pub fn from_bytes(octets: [u8; VERDICT_SIZE]) -> Self {
        Self { octets }
    }

    /// The octets.
    pub fn as_bytes(&self) -> &[u8; VERDICT_SIZE] {
        &self.octets
    }

    /// Document 01's number: 0 for a reply, or the discard's.
    pub fn number(&self) -> u8 {
        self.octets[at::OUTCOME]
    }

    /// Why there is no reply.
    pub fn discard(&self) -> Option<Discard> {
        let [high, low] = self.part(at::OFFSET);
        Discard::of_number(self.number(), u16::from_be_bytes([high, low]).into())
    }

    /// What the reply is; `None` for a discard.
    pub fn ruling(&self) -> Option<Ruling<'_>> {
        match (self.number(), self.octets[at::REPLY]) {
            (0, 1) => Some(Ruling::Offer(self.given())),
            (0, 2) => Some(Ruling::Lease(self.given())),
            (0, 3) => Some(Ruling::Released),
            (0, 4) => Some(Ruling::Info(self.asked())),
            (0, 5) => Some(Ruling::Nak {
                error: self.octets[at::ERROR],
            }),
            _ => None,
        }
    }

    /// The client's house, counted from 1 as in the campus file, of a message that gets a reply.
    pub fn house(&self) -> Option<u8> {
        self.ruling()?;
        self.octets[at::HOUSE].checked_add(1)
    }

    /// The message's transaction id. 0 where a discard came before the message was read, so with 3 to 7.
    pub fn transaction(&self) -> u32 {
        u32::from_be_bytes(self.part(at::TRANSACTION))
    }

    /// The message's Lease Identifier. Empty where a discard came before the message was read, so with 3 to 7.
    pub fn identifier(&self) -> &[u8] {
        self.counted(at::IDENTIFIER, self.octets[at::IDENTIFIER_LENGTH].into())
    }

    /// How many of the house's records were compared to find the identifier, as [`Answer::count`](crate::Answer::count) has it.
    pub fn count(&self) -> usize {
        self.octets[at::COUNT].into()
    }

    /// Whether the client sent option 12, which the reply then has as well.
    pub fn features(&self) -> bool {
        self.octets[at::FEATURES] != 0
    }

    /// The verdict in words, of a discard with what is wrong in the datagram that drew it: `OFFER to house 2: 4 addresses of scope 1 from
    /// 1700000000 to 1700003600`, `NAK error 3 to house 1`, `discard 5 at octet 23: option 6 has length 3, not 4`.
    pub fn in_words(&self, datagram: &[u8]) -> String {
        match self.discard() {
            Some(why) => why.in_words(datagram),
            None => self.to_string(),
        }
    }

    fn given(&self) -> Given {
        Given {
            scope: self.octets[at::SCOPE],
            start: u32::from_be_bytes(self.part(at::START)),
            end: u32::from_be_bytes(self.part(at::END)),
            addresses: u64::from_be_bytes(self.part(at::ADDRESSES)),
        }
    }

    fn asked(&self) -> Asked<'_> {
        let length = u16::from_be_bytes(self.part(at::LANGUAGE_LENGTH));
        let tag = self.counted(at::TAG, length.into());
        Asked {
            scope_list: self.octets[at::LIST] != 0,
            time: self.octets[at::TIME] != 0,
            language: (self.octets[at::LANGUAGE] != 0).then_some(tag),
        }
    }

    /// The octets of a number.
    fn part<const N: usize>(&self, at: usize) -> [u8; N] {
        std::array::from_fn(|place| self.octets[at + place])
    }

    /// So many octets of the tag or the identifier, or as many as there is room for.
    fn counted(&self, at: usize, length: usize) -> &[u8] {
        let end = match at {
            at::TAG => at::IDENTIFIER_LENGTH,
            _ => at::COUNT,
        };
        &self.octets[at..end.min(at + length)]
    }
}

impl fmt::Display for Verdict {
    fn fmt(&self, f: &mut fmt::Formatter<'_>) -> fmt::Result {
        let (Some(ruling), Some(house)) = (self.ruling(), self.house()) else {
            return match self.discard() {
                Some(why) => why.fmt(f),
                None => write!(f, "no verdict"),
            };
        };
        match ruling {
            Ruling::Offer(given) => write!(f, "OFFER to house {house}: {given}"),
            Ruling::Lease(given) => write!(f, "ACK to house {house}: {given}"),
            Ruling::Released => write!(f, "ACK to house {house}: released"),
            Ruling::Info(asked) => write!(f, "ACK to house {house}: {asked}"),
            Ruling::Nak { error } => write!(f, "NAK error {error} to house {house}"),
        }
    }
}

impl fmt::Display for Given {
    fn fmt(&self, f: &mut fmt::Formatter<'_>) -> fmt::Result {
        let addresses = match self.count() {
            1 => "1 address".to_owned(),
            count => format!("{count} addresses"),
        };
        let (scope, start, end) = (self.scope, self.start, self.end);
        write!(f, "{addresses} of scope {scope} from {start} to {end}")
    }
}

impl fmt::Display for Asked<'_> {
    fn fmt(&self, f: &mut fmt::Formatter<'_>) -> fmt::Result {
        match (self.scope_list, self.time) {
            (false, false) => write!(f, "neither scope list nor time")?,
            (false, true) => write!(f, "time")?,
            (true, false) => write!(f, "scope list")?,
            (true, true) => write!(f, "scope list and time")?,
        }
        match self.language {
            Some(tag) if self.scope_list => write!(f, ", names in {}", tag.escape_ascii()),
            _ => Ok(()),
        }
    }
}

impl fmt::Debug for Verdict {
    fn fmt(&self, f: &mut fmt::Formatter<'_>) -> fmt::Result {
        write!(f, "Verdict({self}, {:?})", self.octets)
    }
}
