//! What the tests share: hex, the specimens' book and calls with a watched room.
#![allow(dead_code)]

use second::{serve, Book, Hold, House, Lease, Quota, Release, Scope, ScopeNames};

pub const CLIENT_1: u32 = 0x0A01_0005;
pub const CLIENT_2: u32 = 0x0A02_0005;
pub const STRANGER: u32 = 0x0A03_0005;

/// The octets of hex digits; blanks and line ends are passed over.
pub fn hex(text: &str) -> Vec<u8> {
    let digits: Vec<u8> = text
        .chars()
        .filter_map(|character| character.to_digit(16))
        .map(|digit| digit as u8)
        .collect();
    assert_eq!(digits.len() % 2, 0, "half an octet in {text:?}");
    digits
        .chunks(2)
        .map(|pair| pair[0] * 16 + pair[1])
        .collect()
}

/// Scope 239.192.0.0, size 4; house 1 share 2 limit 3; house 2 share 1 limit 4; clock 1000; server 10.1.1.1.
/// No names, no release remembered and nothing held.
pub fn specimen_book() -> Book {
    Book {
        server: 0x0A01_0101,
        clock: 1000,
        houses: vec![
            House {
                lowest: 0x0A01_0000,
                highest: 0x0A01_00FF,
            },
            House {
                lowest: 0x0A02_0000,
                highest: 0x0A02_00FF,
            },
        ],
        scopes: vec![Scope {
            lowest: 0xEFC0_0000,
            size: 4,
            ttl: 15,
            quotas: vec![Quota { share: 2, limit: 3 }, Quota { share: 1, limit: 4 }],
        }],
        leases: vec![],
        names: vec![ScopeNames::none(2)],
        releases: vec![],
        holds: vec![],
    }
}

pub fn lease(house: u8, identifier: &[u8], start: u32, end: u32, offsets: &[u8]) -> Lease {
    Lease {
        house,
        scope: 1,
        identifier: identifier.to_vec(),
        message_type: 3,
        transaction: 1,
        start,
        end,
        offsets: offsets.to_vec(),
    }
}

/// A hold of type 1 with the transaction id 1.
pub fn hold(house: u8, identifier: &[u8], period: (u32, u32), offsets: &[u8], lapse: u32) -> Hold {
    let mut lease = lease(house, identifier, period.0, period.1, offsets);
    lease.message_type = 1;
    Hold { lease, lapse }
}

pub fn release(house: u8, identifier: &[u8], transaction: u32, time: u32) -> Release {
    Release {
        house,
        identifier: identifier.to_vec(),
        transaction,
        time,
    }
}

/// A datagram with its options and End.
pub fn datagram(message_type: u8, transaction: u32, options: &[(u16, &[u8])]) -> Vec<u8> {
    let mut octets = vec![0, message_type, 0, 1];
    octets.extend(transaction.to_be_bytes());
    for (code, value) in options {
        octets.extend(code.to_be_bytes());
        octets.extend((value.len() as u16).to_be_bytes());
        octets.extend(*value);
    }
    octets.extend([0; 4]);
    octets
}

/// Serves in a room of 600 octets of a pattern, and sees to it that nothing past the reply is touched, that discard 5
/// alone has an offset, which is never inside the header, and that discards 1 to 7 have looked nothing up.
pub fn call(book: &mut Book, client: u32, time: u32, datagram: &[u8]) -> (u8, Vec<u8>) {
    let (outcome, offset, reply) = call_with_offset(book, client, time, datagram);
    let offsets = if outcome == 5 {
        8..=datagram.len()
    } else {
        0..=0
    };
    assert!(offsets.contains(&offset), "{outcome} @{offset}");
    (outcome, reply)
}

/// The same with the offset, whatever it is.
pub fn call_with_offset(
    book: &mut Book,
    client: u32,
    time: u32,
    datagram: &[u8],
) -> (u8, usize, Vec<u8>) {
    let (outcome, offset, _, reply) = call_with_count(book, client, time, datagram);
    (outcome, offset, reply)
}

/// The same with the count too: at most that of two lookups in a full house.
pub fn call_with_count(
    book: &mut Book,
    client: u32,
    time: u32,
    datagram: &[u8],
) -> (u8, usize, usize, Vec<u8>) {
    let pattern: Vec<u8> = (0..600u32)
        .map(|place| (place % 251) as u8 ^ 0xA5)
        .collect();
    let mut room = pattern.clone();
    let (outcome, offset, count, length) = serve(book, datagram, client, time, &mut room);
    assert_eq!(room[length..], pattern[length..], "octets past the reply");
    assert_eq!(outcome == 0, length > 0);
    let most = if [0, 8].contains(&outcome) { 32 } else { 0 };
    assert!(count <= most, "{outcome} #{count}");
    (outcome, offset, count, room[..length].to_vec())
}

/// The error of a NAK.
pub fn error_of(reply: &[u8]) -> Option<u16> {
    let place = reply.len().checked_sub(10)?;
    let option_16 = reply[1] == 6 && reply[place..place + 4] == [0, 16, 0, 2];
    option_16.then(|| u16::from_be_bytes([reply[place + 4], reply[place + 5]]))
}

/// A call that is to draw a NAK: its error.
pub fn error(book: &mut Book, client: u32, time: u32, datagram: &[u8]) -> u16 {
    let (outcome, reply) = call(book, client, time, datagram);
    assert_eq!(outcome, 0);
    error_of(&reply).expect("a NAK")
}

/// The value of an option in a reply.
pub fn option_of(reply: &[u8], wanted: u16) -> Option<Vec<u8>> {
    let mut rest = &reply[8..];
    while rest.len() >= 4 {
        let code = u16::from_be_bytes([rest[0], rest[1]]);
        let length = usize::from(u16::from_be_bytes([rest[2], rest[3]]));
        let value = &rest[4..4 + length];
        if code == wanted {
            return Some(value.to_vec());
        }
        rest = &rest[4 + length..];
    }
    None
}

/// Random numbers from a seed (splitmix64), the same on every machine.
pub struct Random(u64);

impl Random {
    pub fn new(seed: u64) -> Random {
        Random(seed)
    }

    pub fn draw(&mut self) -> u64 {
        self.0 = self.0.wrapping_add(0x9E37_79B9_7F4A_7C15);
        let mut z = self.0;
        z = (z ^ (z >> 30)).wrapping_mul(0xBF58_476D_1CE4_E5B9);
        z = (z ^ (z >> 27)).wrapping_mul(0x94D0_49BB_1331_11EB);
        z ^ (z >> 31)
    }

    /// A number below `n`, which isn't 0.
    pub fn below(&mut self, n: usize) -> usize {
        (self.draw() % n as u64) as usize
    }

    /// True in so many of a hundred.
    pub fn chance(&mut self, percent: usize) -> bool {
        self.below(100) < percent
    }

    pub fn pick<T: Clone>(&mut self, choices: &[T]) -> T {
        choices[self.below(choices.len())].clone()
    }
}
