//! What the tests share: the specimens' campus, its datagrams and replies, and calls with a watched reply room.
#![allow(dead_code, unused_imports)]

use banshorra_host::{CampusFile, Outcome};
pub use builder::*;
use std::net::Ipv4Addr;

/// 10.1.1.1
pub const SERVER: u32 = 0x0A01_0101;
/// 239.192.0.0
pub const POOL: u32 = 0xEFC0_0000;
pub const CLOCK: u32 = 1000;
pub const HOUSE_1: Ipv4Addr = Ipv4Addr::new(10, 0, 1, 5);
pub const HOUSE_2: Ipv4Addr = Ipv4Addr::new(10, 0, 2, 5);
pub const STRANGER: Ipv4Addr = Ipv4Addr::new(10, 0, 3, 5);

/// Scope 239.192.0.0, size 4; house 1 share 2 limit 3; house 2 share 1 limit 4. The campus calls it Studio, Studio A or Plateau, and house 1 by
/// names of its own.
pub fn pool() -> Scope {
    let campus = vec![
        Name::new(0, b"en-GB", b"Studio"),
        Name::new(128, b"en", b"Studio A"),
        Name::new(0, b"fr", b"Plateau"),
    ];
    let house_1 = vec![
        Name::new(128, b"de", b"B\xFChne"),
        Name::new(0, b"en", b"Stage"),
    ];
    Scope {
        lowest: POOL,
        size: 4,
        ttl: 15,
        parts: vec![(2, 3), (1, 4)],
        names: vec![campus, house_1, vec![]],
    }
}

/// The specimens' campus at a clock, with one scope. Leases in the file's order.
pub fn campus_at(clock: u32, pool: Scope, leases: &[Lease]) -> Campus {
    Campus {
        server: SERVER,
        clock,
        houses: vec![(0x0A00_0100, 0x0A00_01FF), (0x0A00_0200, 0x0A00_02FF)],
        scopes: vec![pool],
        leases: leases.to_vec(),
        releases: vec![],
        holds: vec![],
    }
}

/// Its file.
pub fn file_at(clock: u32, leases: &[Lease]) -> Vec<u8> {
    campus_at(clock, pool(), leases).octets()
}

/// The file of the campus with these releases, in the file's order.
pub fn file_with(clock: u32, leases: &[Lease], releases: &[Release]) -> Vec<u8> {
    Campus {
        releases: releases.to_vec(),
        ..campus_at(clock, pool(), leases)
    }
    .octets()
}

/// The specimens' campus before any call.
pub fn specimen_file() -> Vec<u8> {
    file_at(CLOCK, &[])
}

pub fn specimen() -> CampusFile {
    CampusFile::from_bytes(&specimen_file()).expect("sound")
}

pub fn message(kind: u8, transaction: u32, options: &[Coded]) -> Vec<u8> {
    Message::new(kind, transaction, options.to_vec()).octets()
}

/// The NAK of document 01: 2, 3, 16.
pub fn nak(transaction: u32, of: &[u8], code: u16) -> Vec<u8> {
    let options = [server_identifier(SERVER), identifier(of), error(code)];
    message(NAK, transaction, &options)
}

/// The ACK to a REQUEST or RENEW: 1, 2, 3, 4, 6, 10, 11. One range; the period is start and length; then the clock.
pub fn ack(
    transaction: u32,
    of: &[u8],
    period: (u32, u32),
    (offset, count): (u8, u16),
    clock: u32,
) -> Vec<u8> {
    let options = [
        lease_time(period.1),
        server_identifier(SERVER),
        identifier(of),
        scope(POOL),
        start_time(period.0),
        range(POOL + u32::from(offset), count),
        current_time(clock),
    ];
    message(ACK, transaction, &options)
}

/// The ACK to a RELEASE: 2, 3.
pub fn release_ack(transaction: u32, of: &[u8]) -> Vec<u8> {
    let options = [server_identifier(SERVER), identifier(of)];
    message(ACK, transaction, &options)
}

/// Octets to see a write by.
pub fn pattern(length: usize) -> Vec<u8> {
    (0..length).map(|at| (at % 251) as u8 ^ 0xA5).collect()
}

/// Serves in a room of 600 octets, of which those past the reply have to stay. Gives the outcome's number and the reply.
pub fn call(
    campus: &mut CampusFile,
    client: Ipv4Addr,
    time: u32,
    datagram: &[u8],
) -> (u8, Vec<u8>) {
    let mut room = pattern(600);
    let outcome = campus.serve(datagram, client, time, &mut room).outcome;
    let number = outcome.number();
    let reply = match outcome {
        Outcome::Reply(octets) => octets.to_vec(),
        Outcome::Discard(_) => vec![],
    };
    assert_eq!(number == 0, !reply.is_empty());
    assert_eq!(room[..reply.len()], reply);
    assert_eq!(room[reply.len()..], pattern(600)[reply.len()..]);
    (number, reply)
}

/// So many houses, scopes of 64 addresses, lists of so many of the longest names, and as many releases of each house.
pub fn settings(houses: u32, scopes: u32, names: usize) -> Campus {
    let name = Name::new(128, b"language", b"a name of the thirty-two octets.");
    let scope = |number: u32| Scope {
        lowest: POOL + (number << 8),
        size: 64,
        ttl: 15,
        parts: vec![(8, 64); houses as usize],
        names: vec![vec![name.clone(); names]; houses as usize + 1],
    };
    let release = |(house, number): (u32, u8)| Release {
        house: house as u8 + 1,
        identifier: vec![number; 32],
        transaction: 9,
        time: CLOCK,
    };
    let releases = (0..houses).flat_map(|house| (0..names as u8).map(move |n| (house, n)));
    Campus {
        server: SERVER,
        clock: CLOCK,
        houses: (0..houses)
            .map(|house| (0x0A00_0100 + (house << 8), 0x0A00_01FF + (house << 8)))
            .collect(),
        scopes: (0..scopes).map(scope).collect(),
        leases: vec![],
        releases: releases.map(release).collect(),
        holds: vec![],
    }
}
