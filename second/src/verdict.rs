//! The verdict: what the first half of a call gives beside the book afterwards, and all that the second half needs
//! besides that book to write the reply.

use crate::book::Lease;

/// What becomes of a datagram.
#[derive(Clone, Debug, PartialEq, Eq)]
pub enum Verdict {
    /// Outcome 0.
    Reply(Ruling),
    /// Outcome 1, or 3 to 8. The first half has no reply room, so that it never gives 2.
    Discard(Discard),
}

/// A discard's number, offset and count.
#[derive(Clone, Copy, Debug, PartialEq, Eq)]
pub struct Discard {
    pub outcome: u8,
    /// Where in the datagram the options went wrong. Discard 5 carries it, every other outcome 0.
    pub offset: usize,
    /// How many records the lookups by identifier compared. Discard 8 carries it, every other 0.
    pub count: usize,
}

/// A number by itself has no offset and no count.
impl From<u8> for Discard {
    fn from(outcome: u8) -> Discard {
        Discard {
            outcome,
            offset: 0,
            count: 0,
        }
    }
}

/// What a message that passed test 7 is answered, and what the reply repeats of it.
#[derive(Clone, Debug, PartialEq, Eq)]
pub struct Ruling {
    /// The client's house, from 1.
    pub house: u8,
    pub transaction: u32,
    pub identifier: Vec<u8>,
    /// Whether the client sent option 12.
    pub has_features: bool,
    /// How many records the lookups by identifier compared.
    pub count: usize,
    pub answer: Answer,
}

/// The answer to a message. What the book says of it, the second half takes from the book.
#[derive(Clone, Debug, PartialEq, Eq)]
pub enum Answer {
    Offer(Given),
    /// The ACK to REQUEST and RENEW, sent again or not.
    Lease(Given),
    /// The ACK to RELEASE, sent again or not.
    Released,
    /// The ACK to GETINFO.
    Info(Asked),
    /// The NAK with this error.
    Error(u16),
}

/// What an OFFER offers or an ACK grants. The scope counts from 1; the offsets are those in it, rising.
#[derive(Clone, Debug, PartialEq, Eq)]
pub struct Given {
    pub scope: u8,
    pub start: u32,
    pub end: u32,
    pub offsets: Vec<u8>,
}

impl Given {
    pub fn of(lease: &Lease) -> Given {
        Given {
            scope: lease.scope,
            start: lease.start,
            end: lease.end,
            offsets: lease.offsets.clone(),
        }
    }

    /// The length of its period, in seconds.
    pub fn length(&self) -> u32 {
        self.end.saturating_sub(self.start)
    }
}

/// What a GETINFO asks for: by option 5 the scope list and the time, by option 8 a language for the scopes' names.
#[derive(Clone, Debug, PartialEq, Eq)]
pub struct Asked {
    pub scope_list: bool,
    pub current_time: bool,
    pub language: Option<Vec<u8>>,
}
