//! A campus file that is owned.

use crate::lent::{self, Replayed};
use crate::numbers::{Answer, Refusal};
use crate::occupancy::Occupancy;
use crate::salvage::Dropped;
use crate::verdict::Verdict;
use crate::{BOARD_ROOM, FILE_ROOM, LIST_ROOM};
use std::fmt;
use std::net::Ipv4Addr;

/// An accepted campus file, in a buffer of the greatest length. Every call leaves an accepted file, so that none is refused.
#[derive(Clone)]
pub struct CampusFile {
    buffer: Box<[u8; FILE_ROOM]>,
    length: usize,
}

impl CampusFile {
    /// Takes a campus file, or refuses it: 20 for a wrong form, 21 for an unsound one.
    pub fn from_bytes(file: &[u8]) -> Result<Self, Refusal> {
        lent::check(file)?;
        let mut buffer = Box::new([0; FILE_ROOM]);
        // An accepted file is no longer than the buffer.
        buffer[..file.len()].copy_from_slice(file);
        Ok(Self {
            buffer,
            length: file.len(),
        })
    }

    /// What can be kept of a campus file that may be refused as 21, and what was dropped of it; see [`lent::salvage`]. Refusal 20 for a wrong form, 25
    /// where the settings alone are unsound.
    pub fn salvage(file: &[u8]) -> Result<(Self, Vec<Dropped>), Refusal> {
        let mut buffer = Box::new([0; FILE_ROOM]);
        let salvaged = lent::salvage(file, &mut buffer[..], &mut [0; LIST_ROOM])?;
        let (length, dropped) = (salvaged.file.len(), salvaged.dropped);
        Ok((Self { buffer, length }, dropped))
    }

    /// The file's octets as they are now.
    pub fn as_bytes(&self) -> &[u8] {
        &self.buffer[..self.length]
    }

    /// Serves a datagram that came from `client` at `time`, in whole seconds since 1970. The reply stands in the front of `reply`, which
    /// has at least [`REPLY_ROOM`](crate::REPLY_ROOM) octets (else discard 2); octets past it are left as they were.
    pub fn serve<'r>(
        &mut self,
        datagram: &[u8],
        client: Ipv4Addr,
        time: u32,
        reply: &'r mut [u8],
    ) -> Answer<'r> {
        lent::serve(
            &mut self.buffer[..],
            &mut self.length,
            datagram,
            client,
            time,
            reply,
        )
        .expect("an accepted file stays accepted")
    }

    /// The first half of [`serve`](Self::serve): what becomes of a datagram, without a reply buffer. The file is left as a call leaves it; who only
    /// looks on judges on a clone.
    pub fn judge(&mut self, datagram: &[u8], client: Ipv4Addr, time: u32) -> Verdict {
        lent::judge(
            &mut self.buffer[..],
            &mut self.length,
            datagram,
            client,
            time,
        )
        .expect("an accepted file stays accepted")
    }

    /// The second half: the reply to a verdict, from the file as [`judge`](Self::judge) left it. It stands in the front of `reply`, which has at
    /// least [`REPLY_ROOM`](crate::REPLY_ROOM) octets (else discard 2, of a discard too); octets past it are left as they were. A discard
    /// comes back as it is. After another call, or for a verdict of another file, the outcome may be any.
    pub fn reply<'r>(&self, verdict: &Verdict, reply: &'r mut [u8]) -> Answer<'r> {
        lent::reply(self.as_bytes(), verdict, reply).expect("an accepted file stays accepted")
    }

    /// Serves a list of calls one after the other; see [`lent::replay`]. It stops at a record that is cut off (24) or where fewer than
    /// [`ANSWER_ROOM`](crate::ANSWER_ROOM) octets are left for an answer (27), and can go on from `calls_used` with another buffer.
    pub fn replay(&mut self, calls: &[u8], answers: &mut [u8]) -> Replayed {
        lent::replay(&mut self.buffer[..], &mut self.length, calls, answers)
    }

    /// The board's text: a header and, by scope then house, lowest address, house, share, limit, holding.
    pub fn board(&self) -> String {
        let mut text = [0; BOARD_ROOM];
        let text = lent::board(self.as_bytes(), &mut text);
        text.expect("the room is enough").to_owned()
    }

    /// Who has which address, and what each house holds. It is as of the file's clock, which calls alone raise: to have it as of now, serve
    /// first. A call with no octets will do, which is discarded and drops what has ended.
    pub fn occupancy(&self) -> Occupancy {
        lent::occupancy(self.as_bytes()).expect("an accepted file stays accepted")
    }
}

impl PartialEq for CampusFile {
    fn eq(&self, other: &Self) -> bool {
        self.as_bytes() == other.as_bytes()
    }
}

impl Eq for CampusFile {}

impl fmt::Debug for CampusFile {
    fn fmt(&self, f: &mut fmt::Formatter<'_>) -> fmt::Result {
        f.debug_tuple("CampusFile").field(&self.as_bytes()).finish()
    }
}
