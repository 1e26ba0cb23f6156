//! The second half of a call: the reply to a verdict, octet by octet.

use crate::book::Book;
use crate::message::{code, ACK, FAMILY, NAK, OFFER, VERSION};
use crate::server::{NO_ROOM, REPLY};
use crate::verdict::{Answer, Asked, Given, Ruling, Verdict};
use std::collections::BTreeMap;

/// The shortest reply room. No reply is longer.
pub const SHORTEST_ROOM: usize = 512;

/// The second half of a call: writes the reply to a verdict from the book that the first half left with it. Gives the
/// outcome, its offset and count, and the length of the reply, which stands in the front of the room; the rest of the
/// room is left as it was. "Writing into room below 512 is 2, tested first; writing a discard returns it; neither
/// writes."
pub fn write(book: &Book, verdict: &Verdict, room: &mut [u8]) -> (u8, usize, usize, usize) {
    let Some(room) = room.get_mut(..SHORTEST_ROOM) else {
        return (NO_ROOM, 0, 0, 0);
    };
    let ruling = match verdict {
        Verdict::Reply(ruling) => ruling,
        Verdict::Discard(discard) => {
            return (discard.outcome, discard.offset, discard.count, 0);
        }
    };
    let octets = reply(book, ruling);
    // No reply that the first half rules comes near 512 octets. A verdict that it didn't give may be of any length.
    let Some(front) = room.get_mut(..octets.len()) else {
        return (NO_ROOM, 0, 0, 0);
    };
    front.copy_from_slice(&octets);
    (REPLY, 0, ruling.count, octets.len())
}

/// The reply's octets.
fn reply(book: &Book, ruling: &Ruling) -> Vec<u8> {
    match &ruling.answer {
        Answer::Offer(given) => of_lease(OFFER, book, ruling, given),
        Answer::Lease(given) => of_lease(ACK, book, ruling, given),
        // ACK to RELEASE: 2, 3.
        Answer::Released => Reply::new(ACK, book, ruling).octets(),
        Answer::Info(asked) => of_getinfo(book, ruling, asked),
        Answer::Error(error) => of_error(*error, book, ruling),
    }
}

/// A reply under way. Its options come out in rising order of code.
struct Reply {
    message_type: u8,
    transaction: u32,
    options: BTreeMap<u16, Vec<u8>>,
}

impl Reply {
    /// What every reply has: the transaction id echoed, options 2 and 3,
    /// and 12 with three zero counts if the client sent 12.
    fn new(message_type: u8, book: &Book, ruling: &Ruling) -> Reply {
        let mut reply = Reply {
            message_type,
            transaction: ruling.transaction,
            options: BTreeMap::new(),
        };
        reply.put(code::SERVER_IDENTIFIER, server_identifier(book));
        reply.put(code::LEASE_IDENTIFIER, &ruling.identifier[..]);
        if ruling.has_features {
            reply.put(code::FEATURES, [0; 6]);
        }
        reply
    }

    fn put(&mut self, code: u16, value: impl Into<Vec<u8>>) {
        self.options.insert(code, value.into());
    }

    fn octets(self) -> Vec<u8> {
        let mut octets = vec![VERSION, self.message_type];
        octets.extend(FAMILY.to_be_bytes());
        octets.extend(self.transaction.to_be_bytes());
        for (code, value) in self.options {
            octets.extend(code.to_be_bytes());
            octets.extend((value.len() as u16).to_be_bytes());
            octets.extend(value);
        }
        octets.extend(code::END.to_be_bytes());
        octets.extend([0, 0]);
        octets
    }
}

/// The six octets of family 1 and our address.
pub fn server_identifier(book: &Book) -> Vec<u8> {
    let mut value = FAMILY.to_be_bytes().to_vec();
    value.extend(book.server.to_be_bytes());
    value
}

/// OFFER and the ACK to REQUEST and RENEW: 1 (length), 2, 3, 4, 6, 10, 11.
fn of_lease(message_type: u8, book: &Book, ruling: &Ruling, given: &Given) -> Vec<u8> {
    let lowest = book.scope(given.scope).map_or(0, |scope| scope.lowest);
    let mut reply = Reply::new(message_type, book, ruling);
    reply.put(code::LEASE_TIME, given.length().to_be_bytes());
    reply.put(code::SCOPE, lowest.to_be_bytes());
    reply.put(code::START_TIME, given.start.to_be_bytes());
    reply.put(code::RANGES, ranges_value(lowest, &given.offsets));
    reply.put(code::CURRENT_TIME, book.clock.to_be_bytes());
    reply.octets()
}

/// ACK to GETINFO: 2, 3, and 9 and 11 if option 5 names them. The names in 9 are those for the client's house
/// and for the language of option 8.
fn of_getinfo(book: &Book, ruling: &Ruling, asked: &Asked) -> Vec<u8> {
    let mut reply = Reply::new(ACK, book, ruling);
    if asked.scope_list {
        let language = asked.language.as_deref();
        reply.put(code::SCOPE_LIST, scope_list(book, ruling.house, language));
    }
    if asked.current_time {
        reply.put(code::CURRENT_TIME, book.clock.to_be_bytes());
    }
    reply.octets()
}

/// NAK: 2, 3, 16.
fn of_error(error: u16, book: &Book, ruling: &Ruling) -> Vec<u8> {
    let mut reply = Reply::new(NAK, book, ruling);
    reply.put(code::ERROR, error.to_be_bytes());
    reply.octets()
}

/// Runs of neighbouring offsets, each its first and its count: the fewest ranges, rising.
fn runs(offsets: &[u8]) -> Vec<(u8, u16)> {
    let mut runs: Vec<(u8, u16)> = Vec::new();
    for &offset in offsets {
        match runs.last_mut() {
            Some((first, count)) if u16::from(*first) + *count == u16::from(offset) => *count += 1,
            _ => runs.push((offset, 1)),
        }
    }
    runs
}

/// Ranges: first address(4), count(2).
fn ranges_value(lowest: u32, offsets: &[u8]) -> Vec<u8> {
    let mut value = Vec::new();
    for (first, count) in runs(offsets) {
        value.extend(lowest.wrapping_add(u32::from(first)).to_be_bytes());
        value.extend(count.to_be_bytes());
    }
    value
}

/// A count(1), and per scope lowest address, highest address, TTL(1), number of names(1), at most 1, and the name.
fn scope_list(book: &Book, house: u8, language: Option<&[u8]>) -> Vec<u8> {
    let mut value = vec![book.scopes.len() as u8];
    for (scope, names) in book.scopes.iter().zip(&book.names) {
        let highest = scope
            .lowest
            .wrapping_add(u32::from(scope.size))
            .wrapping_sub(1);
        value.extend(scope.lowest.to_be_bytes());
        value.extend(highest.to_be_bytes());
        value.push(scope.ttl);
        match names.sent(house, language) {
            Some(name) => {
                value.push(1);
                value.extend(name.octets());
            }
            None => value.push(0),
        }
    }
    value
}
