//! Datagrams: a header, options by code and value, End.

use crate::campus::{Name, Scope};

pub const DISCOVER: u8 = 1;
pub const OFFER: u8 = 2;
pub const REQUEST: u8 = 3;
pub const RENEW: u8 = 4;
pub const ACK: u8 = 5;
pub const NAK: u8 = 6;
pub const RELEASE: u8 = 7;
pub const GETINFO: u8 = 8;

/// An option's code and value.
pub type Coded = (u16, Vec<u8>);

/// A datagram before it is octets.
#[derive(Clone, Debug)]
pub struct Message {
    pub version: u8,
    pub kind: u8,
    pub family: u16,
    pub transaction: u32,
    pub options: Vec<Coded>,
}

impl Message {
    pub fn new(kind: u8, transaction: u32, options: Vec<Coded>) -> Message {
        Message {
            version: 0,
            kind,
            family: 1,
            transaction,
            options,
        }
    }

    pub fn put(&mut self, code: u16, value: impl Into<Vec<u8>>) {
        self.options.push((code, value.into()));
    }

    pub fn put_u32(&mut self, code: u16, value: u32) {
        self.put(code, value.to_be_bytes());
    }

    pub fn has(&self, code: u16) -> bool {
        self.options.iter().any(|option| option.0 == code)
    }

    pub fn remove(&mut self, code: u16) {
        self.options.retain(|option| option.0 != code);
    }

    /// Header and options, without End.
    pub fn front(&self) -> Vec<u8> {
        let mut octets = vec![self.version, self.kind];
        octets.extend(self.family.to_be_bytes());
        octets.extend(self.transaction.to_be_bytes());
        for (code, value) in &self.options {
            octets.extend(option(*code, value));
        }
        octets
    }

    pub fn octets(&self) -> Vec<u8> {
        let mut octets = self.front();
        octets.extend([0; 4]);
        octets
    }
}

/// An option's octets: code, length, value.
pub fn option(code: u16, value: &[u8]) -> Vec<u8> {
    let length = value.len() as u16;
    [&code.to_be_bytes(), &length.to_be_bytes(), value].concat()
}

pub fn lease_time(seconds: u32) -> Coded {
    (1, seconds.to_be_bytes().to_vec())
}

/// Of IPv4, family 1.
pub fn server_identifier(address: u32) -> Coded {
    (2, [&[0, 1], &address.to_be_bytes()[..]].concat())
}

pub fn identifier(octets: &[u8]) -> Coded {
    (3, octets.to_vec())
}

pub fn scope(lowest: u32) -> Coded {
    (4, lowest.to_be_bytes().to_vec())
}

pub fn option_request_list(codes: &[u16]) -> Coded {
    (5, numbers(codes))
}

pub fn start_time(seconds: u32) -> Coded {
    (6, seconds.to_be_bytes().to_vec())
}

pub fn number(least: u16, desired: u16) -> Coded {
    (7, numbers(&[least, desired]))
}

pub fn requested_language(tag: &[u8]) -> Coded {
    (8, tag.to_vec())
}

/// A count(1), and per scope lowest address, highest address, TTL(1), number of names(1) and the name that is shown, if there is one.
pub fn scope_list<'a>(shown: impl IntoIterator<Item = (&'a Scope, Option<&'a Name>)>) -> Coded {
    let mut value = vec![0];
    for (scope, name) in shown {
        value[0] += 1;
        value.extend(scope.lowest.to_be_bytes());
        value.extend((scope.lowest + u32::from(scope.size) - 1).to_be_bytes());
        value.extend([scope.ttl, name.iter().count() as u8]);
        value.extend(name.map_or_else(Vec::new, Name::octets));
    }
    (9, value)
}

/// One range.
pub fn range(lowest: u32, count: u16) -> Coded {
    (
        10,
        [&lowest.to_be_bytes()[..], &count.to_be_bytes()].concat(),
    )
}

pub fn current_time(seconds: u32) -> Coded {
    (11, seconds.to_be_bytes().to_vec())
}

/// The codes of features that are supported, requested and required, each list after its length.
pub fn features(lists: [&[u16]; 3]) -> Coded {
    let list = |codes: &[u16]| [numbers(&[codes.len() as u16]), numbers(codes)].concat();
    (12, lists.map(list).concat())
}

pub fn error(code: u16) -> Coded {
    (16, numbers(&[code]))
}

fn numbers(numbers: &[u16]) -> Vec<u8> {
    numbers.iter().flat_map(|n| n.to_be_bytes()).collect()
}

/// The same datagram without the options of some codes, if its options have their layout.
pub fn without(datagram: &[u8], codes: &[u16]) -> Option<Vec<u8>> {
    let (header, mut rest) = datagram.split_at_checked(8)?;
    let mut octets = header.to_vec();
    while let Some((&[high, low, length_high, length_low], tail)) = rest.split_first_chunk() {
        let length = u16::from_be_bytes([length_high, length_low]);
        let (value, behind) = tail.split_at_checked(length.into())?;
        let code = u16::from_be_bytes([high, low]);
        if !codes.contains(&code) {
            octets.extend(option(code, value));
        }
        rest = behind;
    }
    rest.is_empty().then_some(octets)
}

/// The value of an option, in a datagram whose options have their layout.
pub fn value_of(datagram: &[u8], code: u16) -> Option<&[u8]> {
    let mut rest = datagram.get(8..)?;
    while let Some((&[high, low, length_high, length_low], tail)) = rest.split_first_chunk() {
        let length = u16::from_be_bytes([length_high, length_low]);
        let (value, behind) = tail.split_at_checked(length.into())?;
        if u16::from_be_bytes([high, low]) == code {
            return Some(value);
        }
        rest = behind;
    }
    None
}
