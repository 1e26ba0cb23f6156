//! Campus files, datagrams and lists of calls as octets, laid out as documents 01 and 02 say, high octet first. It rests on no implementation,
//! and builds what is unsound or damaged as well as what is right.

mod campus;
mod message;
mod read;

pub use campus::{Campus, Hold, Lease, Name, Release, Scope};
pub use message::*;

use std::borrow::Cow;

/// One call of a list.
#[derive(Clone, Debug)]
pub struct Call<'a> {
    pub time: u32,
    pub client: u32,
    pub room: u16,
    pub datagram: Cow<'a, [u8]>,
}

impl Call<'_> {
    /// Time(4), client address(4), reply room length(2), datagram length(2), the datagram.
    pub fn record(&self) -> Vec<u8> {
        let mut octets = self.time.to_be_bytes().to_vec();
        octets.extend(self.client.to_be_bytes());
        octets.extend(self.room.to_be_bytes());
        octets.extend((self.datagram.len() as u16).to_be_bytes());
        octets.extend(&*self.datagram);
        octets
    }

    /// The octets of its record.
    pub fn length(&self) -> usize {
        12 + self.datagram.len()
    }

    /// The call whose record a list begins with; `None` if it is cut off.
    pub fn read(list: &[u8]) -> Option<Call<'_>> {
        let (head, rest) = list.split_first_chunk::<12>()?;
        let u32_at = |at: usize| u32::from_be_bytes([0, 1, 2, 3].map(|n| head[at + n]));
        let u16_at = |at: usize| u16::from_be_bytes([head[at], head[at + 1]]);
        Some(Call {
            time: u32_at(0),
            client: u32_at(4),
            room: u16_at(8),
            datagram: rest.get(..u16_at(10).into())?.into(),
        })
    }
}
