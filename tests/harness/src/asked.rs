//! A call that is asked on a campus, by its octets alone: what releases, holds and the bounds of a period have due of it is read off this.

use crate::{DEFAULT_LEASE, LONGEST_LEASE, SKEW};
use builder::*;

/// A call whose client has a house and whose options are laid out.
pub struct Asked<'a> {
    pub campus: &'a Campus,
    pub clock: u32,
    pub house: u8,
    pub kind: u8,
    pub transaction: u32,
    pub identifier: &'a [u8],
    pub datagram: &'a [u8],
}

impl<'a> Asked<'a> {
    pub fn new(campus: &'a Campus, call: &'a Call) -> Option<Asked<'a>> {
        let datagram = &call.datagram[..];
        let inside = |range: &(u32, u32)| range.0 <= call.client && call.client <= range.1;
        Some(Asked {
            campus,
            clock: campus.clock.max(call.time),
            house: campus.houses.iter().position(inside)? as u8 + 1,
            kind: *datagram.get(1)?,
            transaction: u32::from_be_bytes(datagram.get(4..8)?.try_into().ok()?),
            identifier: value_of(datagram, 3)?,
            datagram,
        })
    }

    /// The value of an option of four octets.
    pub fn number(&self, code: u16) -> Option<u32> {
        number_of(self.datagram, code)
    }

    pub fn has(&self, code: u16) -> bool {
        value_of(self.datagram, code).is_some()
    }

    /// Whether a lease or hold is the house's on the identifier.
    fn is_named(&self, lease: &Lease) -> bool {
        lease.key() == (self.house, self.identifier)
    }

    /// The house's lease on the identifier, ended or not.
    pub fn lease(&self) -> Option<&'a Lease> {
        let mut leases = self.campus.leases.iter();
        leases.find(|lease| self.is_named(lease))
    }

    pub fn is_leased(&self) -> bool {
        self.lease().is_some_and(|lease| lease.end > self.clock)
    }

    /// The house's hold on the identifier, lapsed or not.
    pub fn any_hold(&self) -> Option<&'a Hold> {
        let mut holds = self.campus.holds.iter();
        holds.find(|hold| self.is_named(&hold.lease))
    }

    /// The same, as long as it is live.
    pub fn hold(&self) -> Option<&'a Hold> {
        self.any_hold().filter(|hold| hold.lapse > self.clock)
    }

    /// The scope that option 4 names, from 1, if it is ours.
    pub fn scope(&self) -> Option<u8> {
        let lowest = self.number(4)?;
        let mut scopes = self.campus.scopes.iter();
        let place = scopes.position(|scope| scope.lowest == lowest)?;
        Some(place as u8 + 1)
    }

    /// Number: 1 and 1 where it is absent.
    pub fn least_and_desired(&self) -> (u16, u16) {
        match value_of(self.datagram, 7) {
            Some(&[a, b, c, d]) => (u16::from_be_bytes([a, b]), u16::from_be_bytes([c, d])),
            _ => (1, 1),
        }
    }

    /// Whether the lease records this message: a REQUEST or RENEW sent again.
    pub fn is_resend(&self) -> bool {
        let sent = (self.kind, self.transaction);
        let records = |lease: &Lease| (lease.kind, lease.transaction) == sent;
        self.is_leased() && self.lease().is_some_and(records)
    }

    /// Whether it has an option that isn't allowed; codes above 16 are stepped over.
    pub fn has_forbidden(&self) -> bool {
        let allowed: &[u16] = match self.kind {
            DISCOVER => &[1, 4, 6, 7, 10, 11, 14, 15],
            REQUEST => &[1, 2, 4, 6, 7, 10, 11, 14, 15],
            RENEW => &[1, 6, 11, 14, 15],
            GETINFO => &[5, 8],
            _ => &[],
        };
        let mut others = (1..=16).filter(|code| ![3, 12].contains(code) && !allowed.contains(code));
        others.any(|code| self.has(code))
    }

    /// Error 1 or 2, as far as the message by itself and the scopes draw it. What is held or leased isn't asked.
    pub fn error(&self) -> Option<u16> {
        let asks = [DISCOVER, REQUEST].contains(&self.kind);
        let (least, desired) = self.least_and_desired();
        let (start, latest, current) = (self.number(6), self.number(15), self.number(11));
        let is_first = latest
            .zip(start)
            .is_some_and(|(latest, start)| latest < start);
        let is_bad = self.has_forbidden()
            || asks && self.scope().is_none()
            || self.number(1) == Some(0)
            || least == 0
            || least > desired
            || start.or(latest).is_some() && current.is_none()
            || is_first;
        let is_apart = current.is_some_and(|current| current.abs_diff(self.clock) > SKEW);
        match (is_bad, is_apart) {
            (true, _) => Some(1),
            (false, true) => Some(2),
            (false, false) => None,
        }
    }

    /// The start, raised, and the length, cut, that a DISCOVER or REQUEST wishes.
    pub fn wished(&self) -> (u32, u32) {
        let start = self.number(6).unwrap_or(self.clock).max(self.clock);
        let length = self.number(1).unwrap_or(DEFAULT_LEASE);
        (start, length.min(LONGEST_LEASE))
    }

    /// A REQUEST with a Server Identifier other than ours.
    pub fn is_anothers(&self) -> bool {
        let server = value_of(self.datagram, 2);
        let ours = server_identifier(self.campus.server).1;
        self.kind == REQUEST && server.is_some_and(|server| server != ours)
    }

    /// The ACK to a RELEASE, or the NAK with an error.
    pub fn reply(&self, refused: Option<u16>) -> Vec<u8> {
        let kind = if refused.is_some() { NAK } else { ACK };
        let mut options = vec![
            server_identifier(self.campus.server),
            identifier(self.identifier),
        ];
        options.extend(self.features());
        options.extend(refused.map(error));
        Message::new(kind, self.transaction, options).octets()
    }

    /// The OFFER or ACK with a lease or hold.
    pub fn lease_reply(&self, kind: u8, lease: &Lease) -> Vec<u8> {
        let lowest = self.campus.scopes[usize::from(lease.scope) - 1].lowest;
        let mut options = vec![
            lease_time(lease.end - lease.start),
            server_identifier(self.campus.server),
            identifier(self.identifier),
            scope(lowest),
            start_time(lease.start),
            ranges(lowest, &lease.offsets),
            current_time(self.clock),
        ];
        options.extend(self.features());
        Message::new(kind, self.transaction, options).octets()
    }

    /// What option 12 is answered with.
    fn features(&self) -> Option<Coded> {
        self.has(12).then(|| features([&[]; 3]))
    }
}

/// The value of an option of four octets.
pub fn number_of(datagram: &[u8], code: u16) -> Option<u32> {
    let value = value_of(datagram, code)?.try_into().ok()?;
    Some(u32::from_be_bytes(value))
}

/// Option 10 of rising offsets: the fewest ranges.
fn ranges(lowest: u32, offsets: &[u8]) -> Coded {
    let mut value = Vec::new();
    let begins = |place: usize| place == 0 || offsets[place - 1] + 1 < offsets[place];
    let starts: Vec<usize> = (0..offsets.len()).filter(|&place| begins(place)).collect();
    for (number, &start) in starts.iter().enumerate() {
        let end = starts.get(number + 1).unwrap_or(&offsets.len()) - start;
        value.extend(range(lowest + u32::from(offsets[start]), end as u16).1);
    }
    (10, value)
}

/// The offsets that option 10 of a reply names, in a scope.
pub fn offsets_of(reply: &[u8], lowest: u32) -> Vec<u8> {
    let ranges = value_of(reply, 10).unwrap_or(&[]).chunks_exact(6);
    let offsets = ranges.flat_map(|range| {
        let first = u32::from_be_bytes([range[0], range[1], range[2], range[3]]);
        let count = u32::from(u16::from_be_bytes([range[4], range[5]]));
        (0..count).map(move |n| (first + n).wrapping_sub(lowest) as u8)
    });
    offsets.collect()
}
