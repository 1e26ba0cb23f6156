//! The records of a replay: calls in, answers out. High octet first.

use crate::numbers::Answer;
use std::net::Ipv4Addr;

/// A call of a list.
#[derive(Clone, Copy, Debug, PartialEq, Eq)]
pub struct Call<'a> {
    /// When it came, in whole seconds since 1970.
    pub time: u32,
    /// Where it came from.
    pub client: Ipv4Addr,
    /// The length of its reply buffer. Above 512 it counts as 512.
    pub reply_room: u16,
    /// What came.
    pub datagram: &'a [u8],
}

impl Call<'_> {
    /// Adds the call's record to a list: time(4), client address(4), reply room length(2), datagram length(2), the datagram.
    ///
    /// # Panics
    /// Where the datagram has more than 65,535 octets, which none from a socket has.
    pub fn append_to(&self, calls: &mut Vec<u8>) {
        let length = u16::try_from(self.datagram.len()).expect("a datagram's length");
        calls.extend(self.time.to_be_bytes());
        calls.extend(self.client.octets());
        calls.extend(self.reply_room.to_be_bytes());
        calls.extend(length.to_be_bytes());
        calls.extend(self.datagram);
    }
}

/// The answers in the octets that a replay filled, each outcome(1), the offset that it carries(2), how many records were read(1), reply
/// length(2), the reply.
pub fn answers(filled: &[u8]) -> Answers<'_> {
    Answers { rest: filled }
}

/// See [`answers`].
#[derive(Clone, Debug)]
pub struct Answers<'a> {
    rest: &'a [u8],
}

impl<'a> Iterator for Answers<'a> {
    type Item = Answer<'a>;

    /// Ends at the first octets that are no answer.
    fn next(&mut self) -> Option<Answer<'a>> {
        let (&[number, a, b, count, c, d], rest) = self.rest.split_first_chunk()?;
        let (reply, rest) = rest.split_at_checked(u16::from_be_bytes([c, d]).into())?;
        self.rest = rest;
        Answer::of_number(
            number,
            u16::from_be_bytes([a, b]).into(),
            count.into(),
            reply,
        )
    }
}
