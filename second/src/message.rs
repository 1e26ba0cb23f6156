//! A client's datagram: header, options and what each type allows.

use crate::octets::Octets;
use std::collections::BTreeMap;

/// Length of a datagram.
pub const SHORTEST_DATAGRAM: usize = 12;
pub const LONGEST_DATAGRAM: usize = 1_472;
/// Version(1), type(1), family(2), transaction id(4).
const HEADER: usize = 8;
/// The version and the family (IPv4) that the header must have.
pub const VERSION: u8 = 0;
pub const FAMILY: u16 = 1;

/// The types of the server's replies.
pub const OFFER: u8 = 2;
pub const ACK: u8 = 5;
pub const NAK: u8 = 6;

/// Option codes.
pub mod code {
    pub const END: u16 = 0;
    pub const LEASE_TIME: u16 = 1;
    pub const SERVER_IDENTIFIER: u16 = 2;
    pub const LEASE_IDENTIFIER: u16 = 3;
    pub const SCOPE: u16 = 4;
    pub const OPTION_REQUEST_LIST: u16 = 5;
    pub const START_TIME: u16 = 6;
    pub const NUMBER: u16 = 7;
    pub const REQUESTED_LANGUAGE: u16 = 8;
    pub const SCOPE_LIST: u16 = 9;
    pub const RANGES: u16 = 10;
    pub const CURRENT_TIME: u16 = 11;
    pub const FEATURES: u16 = 12;
    pub const RETRY: u16 = 13;
    pub const MINIMUM_LEASE: u16 = 14;
    pub const MAXIMUM_START: u16 = 15;
    pub const ERROR: u16 = 16;
    /// Codes above this one are stepped over.
    pub const LAST_KNOWN: u16 = 16;
}

/// The types of a client's messages.
#[derive(Clone, Copy, Debug, PartialEq, Eq)]
pub enum Kind {
    Discover,
    Request,
    Renew,
    Release,
    GetInfo,
}

impl Kind {
    pub fn from_number(number: u8) -> Option<Kind> {
        match number {
            1 => Some(Kind::Discover),
            3 => Some(Kind::Request),
            4 => Some(Kind::Renew),
            7 => Some(Kind::Release),
            8 => Some(Kind::GetInfo),
            _ => None,
        }
    }

    pub fn number(self) -> u8 {
        match self {
            Kind::Discover => 1,
            Kind::Request => 3,
            Kind::Renew => 4,
            Kind::Release => 7,
            Kind::GetInfo => 8,
        }
    }

    /// Whether an option is allowed in a message of this type.
    pub fn allows(self, code: u16) -> bool {
        let besides_3_and_12: &[u16] = match self {
            Kind::GetInfo => &[5, 8],
            Kind::Discover => &[1, 4, 6, 7, 10, 11, 14, 15],
            Kind::Request => &[1, 2, 4, 6, 7, 10, 11, 14, 15],
            Kind::Renew => &[1, 6, 11, 14, 15],
            Kind::Release => &[],
        };
        code == code::LEASE_IDENTIFIER || code == code::FEATURES || besides_3_and_12.contains(&code)
    }
}

/// What the header says once length, version, family and type are right.
#[derive(Clone, Copy, Debug, PartialEq, Eq)]
pub struct Header {
    pub kind: Kind,
    pub transaction: u32,
}

impl Header {
    pub fn read(datagram: &[u8]) -> Option<Header> {
        if !(SHORTEST_DATAGRAM..=LONGEST_DATAGRAM).contains(&datagram.len()) {
            return None;
        }
        let mut octets = Octets::new(datagram);
        let version = octets.u8()?;
        let kind = Kind::from_number(octets.u8()?)?;
        let family = octets.u16()?;
        let transaction = octets.u32()?;
        (version == VERSION && family == FAMILY).then_some(Header { kind, transaction })
    }
}

/// The options 1 to 16 of a message, by code, and its Lease Identifier.
#[derive(Clone, Debug)]
pub struct Options<'a> {
    pub identifier: &'a [u8],
    by_code: BTreeMap<u16, &'a [u8]>,
}

impl<'a> Options<'a> {
    /// Walks over the options of a datagram. `Err` if they break the layout, length, repeat, End or option 3 rules:
    /// the offset in the datagram of the first option that breaks one, of a repeat the later; one to three octets
    /// left over count as an option. Where End or option 3 is missing and no option is at fault it is the
    /// datagram's length.
    pub fn read(datagram: &'a [u8]) -> Result<Options<'a>, usize> {
        let mut octets = Octets::new(datagram.get(HEADER..).unwrap_or_default());
        let mut by_code = BTreeMap::new();
        let mut has_end = false;
        while !octets.is_empty() {
            let offset = datagram.len() - octets.left();
            let (code, value) = read_option(&mut octets).ok_or(offset)?;
            let keeps_its_place = match code {
                // End is the last four octets of the datagram.
                code::END => octets.is_empty(),
                1..=code::LAST_KNOWN => by_code.insert(code, value).is_none(),
                _ => true,
            };
            if !keeps_its_place || !length_fits(code, value) {
                return Err(offset);
            }
            has_end = code == code::END;
        }
        match by_code.get(&code::LEASE_IDENTIFIER) {
            Some(&identifier) if has_end => Ok(Options {
                identifier,
                by_code,
            }),
            _ => Err(datagram.len()),
        }
    }

    pub fn codes(&self) -> impl Iterator<Item = u16> + '_ {
        self.by_code.keys().copied()
    }

    pub fn has(&self, code: u16) -> bool {
        self.by_code.contains_key(&code)
    }

    pub fn value(&self, code: u16) -> Option<&'a [u8]> {
        self.by_code.get(&code).copied()
    }

    /// The value of a four-octet option.
    pub fn u32(&self, code: u16) -> Option<u32> {
        Octets::new(self.value(code)?).u32()
    }

    /// Number: least and desired. Absent Number is least 1, desired 1.
    pub fn number(&self) -> (u16, u16) {
        self.value(code::NUMBER)
            .and_then(|value| {
                let mut octets = Octets::new(value);
                Some((octets.u16()?, octets.u16()?))
            })
            .unwrap_or((1, 1))
    }

    /// Whether the Option Request List names a code.
    pub fn asks_for(&self, code: u16) -> bool {
        self.value(code::OPTION_REQUEST_LIST)
            .is_some_and(|list| list.chunks(2).any(|named| named == code.to_be_bytes()))
    }

    /// Whether the list of required features is not empty.
    pub fn requires_a_feature(&self) -> bool {
        self.value(code::FEATURES)
            .and_then(feature_counts)
            .is_some_and(|[_, _, required]| required > 0)
    }
}

/// An option: code(2), length(2), value.
fn read_option<'a>(octets: &mut Octets<'a>) -> Option<(u16, &'a [u8])> {
    let code = octets.u16()?;
    let length = octets.u16()?;
    Some((code, octets.take(usize::from(length))?))
}

/// The table's column "value length". Codes above 16 have no length rule.
fn length_fits(code: u16, value: &[u8]) -> bool {
    let length = value.len();
    match code {
        code::END => length == 0,
        code::LEASE_TIME | code::START_TIME | code::CURRENT_TIME => length == 4,
        code::SERVER_IDENTIFIER => length == 6 || length == 18,
        code::LEASE_IDENTIFIER => (2..=32).contains(&length),
        code::SCOPE => length == 4,
        code::OPTION_REQUEST_LIST => length >= 2 && length.is_multiple_of(2),
        code::NUMBER => length == 4,
        code::REQUESTED_LANGUAGE | code::SCOPE_LIST => length >= 1,
        code::RANGES => length >= 6 && length.is_multiple_of(6),
        code::FEATURES => feature_counts(value).is_some(),
        code::RETRY | code::MINIMUM_LEASE | code::MAXIMUM_START => length == 4,
        code::ERROR => length >= 2,
        _ => true,
    }
}

/// The counts of the supported, requested and required features, if the three lists fill the value exactly.
fn feature_counts(value: &[u8]) -> Option<[u16; 3]> {
    let mut octets = Octets::new(value);
    let mut counts = [0; 3];
    for count in &mut counts {
        *count = octets.u16()?;
        octets.take(2 * usize::from(*count))?;
    }
    octets.is_empty().then_some(counts)
}
