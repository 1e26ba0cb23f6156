//! Writes campus.bin, a campus file, and morning.bin, the input of the program `replay`: the length of the campus file (2 octets), the
//! file, and then each call as time (4), client address (4), length of the reply room (2), length of the datagram (2) and the datagram. Also
//! van.bin, the input of the program `van`: its settings, and each call as time (4), client address (4), length (2) and the datagram. And
//! quarter/1.bin to 4.bin, the campus file at four times, for the program `report`, whose own sample they are, too.
//!
//!     cargo run --offline --manifest-path tests/builder/Cargo.toml --example samples

use builder::*;
use std::fs;
use std::net::Ipv4Addr;

const FOLDER: &str = concat!(env!("CARGO_MANIFEST_DIR"), "/../../samples");
const REPORT: &str = concat!(env!("CARGO_MANIFEST_DIR"), "/../../crates/report/data");
const CLOCK: u32 = 1_700_000_000;
const SERVER: u32 = address(10, 1, 1, 1);
const SMALL: u32 = address(239, 192, 0, 0);
const LARGE: u32 = address(239, 192, 1, 0);
const VAN: u32 = address(10, 1, 9, 1);
const POOL: u32 = address(239, 195, 0, 0);

const fn address(a: u8, b: u8, c: u8, d: u8) -> u32 {
    Ipv4Addr::new(a, b, c, d).to_bits()
}

/// Two houses, two scopes, one lease, one release that is remembered, one offer that is held. The small scope has names for the campus, of
/// which the English one is the default, and house 2 has one of its own for it; the large one has no names.
fn campus() -> Campus {
    let scope = |lowest, size, ttl, parts: [(u8, u8); 2], names| Scope {
        lowest,
        size,
        ttl,
        parts: parts.to_vec(),
        names,
    };
    let small = vec![
        vec![
            Name::new(0, b"de", b"Kleine B\xC3\xBChne"),
            Name::new(128, b"en", b"Small stage"),
        ],
        vec![],
        vec![Name::new(0, b"de", b"Probe")],
    ];
    let lease = Lease {
        house: 2,
        scope: 2,
        identifier: b"\0L1".to_vec(),
        kind: REQUEST,
        transaction: 0x00C0_FFEE,
        start: CLOCK - 600,
        end: CLOCK + 3000,
        offsets: vec![0, 1, 3],
    };
    let release = Release {
        house: 2,
        identifier: b"\0L0".to_vec(),
        transaction: 0x00C0_FFED,
        time: CLOCK - 120,
    };
    let hold = Hold {
        lease: Lease {
            identifier: b"\0L2".to_vec(),
            kind: DISCOVER,
            transaction: 0x00C0_FFEF,
            start: CLOCK - 10,
            end: CLOCK + 3590,
            offsets: vec![2],
            ..lease.clone()
        },
        lapse: CLOCK + 20,
    };
    Campus {
        server: SERVER,
        clock: CLOCK,
        houses: vec![
            (address(10, 0, 1, 0), address(10, 0, 1, 255)),
            (address(10, 0, 2, 0), address(10, 0, 2, 255)),
        ],
        scopes: vec![
            scope(SMALL, 4, 15, [(2, 3), (1, 4)], small),
            scope(LARGE, 16, 31, [(4, 8), (4, 12)], vec![]),
        ],
        leases: vec![lease],
        releases: vec![release],
        holds: vec![hold],
    }
}

/// The morning's calls: when each comes (seconds after the file's clock), from where, the datagram, the reply room.
#[rustfmt::skip]
fn calls() -> Vec<(u32, u32, Vec<u8>, u16)> {
    let (one, two, stranger) = (address(10, 0, 1, 5), address(10, 0, 2, 200), address(192, 168, 7, 7));
    let (a, b, c): (&[u8], &[u8], &[u8]) = (b"\0A", b"\0B", b"\0C");
    let (d, e): (&[u8], &[u8]) = (b"\0D", b"\0E");
    let message = |kind: u8, transaction: u32, of: &[u8], options: &[Coded]| {
        Message::new(kind, transaction, [&[identifier(of)], options].concat()).octets()
    };
    let requested = message(REQUEST, 3, a, &[server_identifier(SERVER), scope(SMALL), number(1, 2), lease_time(3600)]);
    let released = message(RELEASE, 7, a, &[]);
    let info = |transaction, options: &[Coded]| message(GETINFO, transaction, c, options);
    let two_small = message(REQUEST, 33, d, &[scope(SMALL), number(2, 2)]);
    vec![
        // GETINFO asking for the scope list and the time: the default name
        (10, one, message(GETINFO, 1, a, &[option_request_list(&[9, 11])]), 512),
        // in German: the campus's name, and for house 2 its own
        (11, one, message(GETINFO, 21, a, &[option_request_list(&[9]), requested_language(b"de")]), 512),
        (12, two, message(GETINFO, 22, a, &[option_request_list(&[9]), requested_language(b"de")]), 512),
        // a RELEASE of before the file was written, sent again
        (15, two, message(RELEASE, 0x00C0_FFED, b"\0L0", &[]), 512),
        // a REQUEST of what was offered before the file was written: the hold becomes the lease, with its period
        (19, two, message(REQUEST, 23, b"\0L2", &[scope(LARGE)]), 512),
        // DISCOVER, then a REQUEST of what was offered, and the same REQUEST again: a Resend
        (20, one, message(DISCOVER, 2, a, &[scope(SMALL), number(1, 2), lease_time(3600)]), 512),
        (21, one, requested.clone(), 512),
        (25, one, requested, 512),
        // DISCOVER, and again: the offer that is held, until thirty seconds after the first
        (40, one, message(DISCOVER, 31, e, &[scope(SMALL)]), 512),
        (50, one, message(DISCOVER, 32, e, &[scope(SMALL), number(1, 2)]), 512),
        // error 0: what is held isn't there for house 2; error 3: a hold is no lease
        (55, two, two_small.clone(), 512),
        (60, one, message(RENEW, 34, e, &[]), 512),
        // a REQUEST in another scope drops the hold, although error 0 refuses it: nine are above the limit. So house 2 gets its two
        (65, one, message(REQUEST, 35, e, &[scope(LARGE), number(9, 9)]), 512),
        (66, two, two_small, 512),
        // an offer that lapses before it is asked for: the REQUEST is judged as new, from its own time on
        (70, one, message(DISCOVER, 36, e, &[scope(LARGE), number(3, 3)]), 512),
        (100, one, message(REQUEST, 37, e, &[scope(LARGE), number(3, 3)]), 512),
        // RENEW for two hours, with Features
        (600, one, message(RENEW, 4, a, &[lease_time(7200), features([&[1], &[], &[]])]), 512),
        // house 2 from an hour on: its own four addresses, which are free then
        (700, two, message(REQUEST, 5, b, &[scope(LARGE), number(2, 4), start_time(CLOCK + 3600), current_time(CLOCK + 700)]), 512),
        // a call whose time is before the clock: the clock stays
        (650, two, message(GETINFO, 6, b, &[option_request_list(&[11])]), 512),
        // RELEASE, and the same again, whose ACK was lost; with another transaction id: error 3
        (900, one, released.clone(), 512),
        (905, one, released.clone(), 512),
        (910, one, message(RELEASE, 8, a, &[]), 512),
        // error 0: four addresses are above house 1's limit
        (920, one, message(REQUEST, 9, c, &[scope(SMALL), number(4, 4)]), 512),
        // error 1: no scope
        (930, one, message(REQUEST, 10, c, &[number(1, 1)]), 512),
        // error 2: skew 1,801, with Features
        (940, one, message(REQUEST, 11, c, &[scope(SMALL), current_time(CLOCK + 940 + 1801), features([&[]; 3])]), 512),
        // error 3: house 1 has no such lease, house 2 has
        (950, one, message(RENEW, 12, b, &[]), 512),
        // 2: the reply room is too short
        (960, one, info(13, &[]), 511),
        // 3: a stranger
        (970, stranger, info(14, &[]), 512),
        // 4: 11 octets
        (980, one, info(15, &[])[..11].to_vec(), 512),
        // 5: damaged, the last two octets are gone
        (990, one, info(16, &[])[..16].to_vec(), 512),
        // 6: a required feature
        (1000, one, info(17, &[features([&[], &[], &[1]])]), 512),
        // 7: a REQUEST to another server
        (1010, one, message(REQUEST, 18, c, &[server_identifier(SERVER + 1), scope(SMALL)]), 512),
        // 8: a DISCOVER of an identifier that the house has a lease on
        (1020, two, message(DISCOVER, 19, b, &[scope(LARGE)]), 512),
        // the same RELEASE again: 299 seconds after it an ACK, 300 after it error 3
        (1199, one, released.clone(), 512),
        (1200, one, released, 512),
        // the lease of the file has ended: house 2 doesn't hold it any more
        (3000, two, message(RELEASE, 20, b"\0L1", &[]), 512),
        // an offer that the file afterwards holds
        (3010, one, message(DISCOVER, 38, c, &[scope(SMALL), lease_time(7200)]), 512),
    ]
}

fn morning() -> Vec<u8> {
    let file = campus().octets();
    let mut octets = [&(file.len() as u16).to_be_bytes()[..], &file].concat();
    for (after, client, datagram, room) in calls() {
        let call = Call {
            time: CLOCK + after,
            client,
            room,
            datagram: datagram.into(),
        };
        octets.extend(call.record());
    }
    octets
}

/// The van's settings: server address, lowest and highest client address, lowest pool address, size and TTL.
fn settings() -> Vec<u8> {
    let addresses = [VAN, address(10, 0, 9, 0), address(10, 0, 9, 255), POOL];
    [&addresses.map(u32::to_be_bytes).concat()[..], &[6, 15]].concat()
}

/// The van's day: when each datagram comes (seconds after the first), from where, the datagram.
#[rustfmt::skip]
fn datagrams() -> Vec<(u32, u32, Vec<u8>)> {
    let (crew, stranger) = (address(10, 0, 9, 20), address(192, 168, 7, 7));
    let (a, b, c): (&[u8], &[u8], &[u8]) = (b"\0A", b"\0B", b"\0C");
    let (d, e): (&[u8], &[u8]) = (b"\0D", b"\0E");
    let message = |kind: u8, transaction: u32, of: &[u8], options: &[Coded]| {
        Message::new(kind, transaction, [&[identifier(of)], options].concat()).octets()
    };
    let six = message(REQUEST, 3, a, &[scope(POOL), number(1, 6), lease_time(3600)]);
    let released = message(RELEASE, 6, a, &[]);
    let info = |transaction, options: &[Coded]| message(GETINFO, transaction, e, options);
    vec![
        // GETINFO asking for the scope list and the time: the one scope, without names
        (0, crew, message(GETINFO, 1, a, &[option_request_list(&[9, 11])])),
        // DISCOVER of all six, the REQUEST of what was offered, and the same again: a Resend
        (10, crew, message(DISCOVER, 2, a, &[scope(POOL), number(1, 6), lease_time(3600)])),
        (20, crew, six.clone()),
        (25, crew, six),
        // from the second on at which they end: all six once more, where 64 are desired
        (30, crew, message(REQUEST, 4, b, &[scope(POOL), number(1, 64), start_time(CLOCK + 3610), current_time(CLOCK + 30)])),
        // error 0: none is left now
        (40, crew, message(REQUEST, 5, c, &[scope(POOL), number(1, 6)])),
        // RELEASE, and the same again, whose ACK was lost
        (900, crew, released.clone()),
        (905, crew, released),
        // two of them, an offer of one, and then just the three that neither has, where nine are desired
        (910, crew, message(REQUEST, 7, c, &[scope(POOL), number(1, 2), lease_time(600)])),
        (920, crew, message(DISCOVER, 8, d, &[scope(POOL), number(1, 1), lease_time(1200)])),
        (930, crew, message(REQUEST, 9, e, &[scope(POOL), number(1, 9), lease_time(1800)])),
        // a time before the clock: the clock stays
        (925, crew, message(GETINFO, 10, e, &[option_request_list(&[11])])),
        // RENEW for a quarter of an hour; for two hours it is error 0, as the six are leased from an hour on
        (1000, crew, message(RENEW, 11, c, &[lease_time(900)])),
        (1010, crew, message(RENEW, 12, c, &[lease_time(7200)])),
        // error 0: seven are above the size
        (1020, crew, message(REQUEST, 13, d, &[scope(POOL), number(7, 9)])),
        // 3: a stranger
        (1030, stranger, info(14, &[])),
        // 4: 11 octets
        (1040, crew, info(15, &[])[..11].to_vec()),
        // 5: damaged, the last two octets are gone
        (1050, crew, info(16, &[])[..16].to_vec()),
        // 6: a required feature
        (1060, crew, info(17, &[features([&[], &[], &[1]])])),
        // 7: a REQUEST to another server
        (1070, crew, message(REQUEST, 18, d, &[server_identifier(VAN + 1), scope(POOL)])),
        // 8: a DISCOVER of an identifier that has a lease
        (1080, crew, message(DISCOVER, 19, c, &[scope(POOL)])),
        // 4: an octet more than a datagram may have
        (1090, crew, vec![0; 1473]),
        // all leases have ended: all six
        (8000, crew, message(REQUEST, 20, a, &[scope(POOL), number(6, 65)])),
    ]
}

fn van() -> Vec<u8> {
    let mut octets = settings();
    for (after, client, datagram) in datagrams() {
        octets.extend((CLOCK + after).to_be_bytes());
        octets.extend(client.to_be_bytes());
        octets.extend((datagram.len() as u16).to_be_bytes());
        octets.extend(datagram);
    }
    octets
}

/// The campus now, an hour later, a day later and a day after that. Of house 2's first lease 3,000 seconds count, on three addresses. Then house 1 has two for
/// the 7,200 seconds that are left, and house 2 eight from noon on for a week, of which the last file says that they are released after a day. House 1's four of the
/// third file begin and end before the fourth, whose own lease counts nothing; nor does a hold.
fn quarter() -> Vec<Vec<u8>> {
    let first = campus();
    let lease = |house, scope, (start, end): (u32, u32), offsets: &[u8]| Lease {
        house,
        scope,
        start: CLOCK + start,
        end: CLOCK + end,
        offsets: offsets.to_vec(),
        ..first.leases[0].clone()
    };
    let at = |after, leases| Campus {
        clock: CLOCK + after,
        leases,
        holds: vec![],
        ..first.clone()
    };
    let day = 86_400;
    let week = lease(2, 2, (day / 2, 15 * day / 2), &[0, 1, 2, 3, 4, 5, 6, 7]);
    let evening = lease(1, 1, (3_000, 10_800), &[0, 1]);
    let hours = lease(1, 2, (day + 3_600, day + 9_000), &[10, 11, 12, 13]);
    let mut third = at(day, vec![hours, week.clone()]);
    third.holds = vec![Hold {
        lapse: third.clock + 30,
        lease: Lease {
            identifier: b"\0L2".to_vec(),
            kind: DISCOVER,
            ..lease(2, 1, (day, day + 3_600), &[3])
        },
    }];
    // Names may differ.
    third.scopes[1].names = vec![vec![Name::new(0, b"en", b"Large stage")]];
    let fourth = at(2 * day, vec![lease(1, 1, (day, 3 * day), &[0, 1, 2])]);
    let campuses = [first.clone(), at(3_600, vec![evening, week]), third, fourth];
    campuses.iter().map(Campus::octets).collect()
}

/// What this writes: where, and which octets.
fn samples() -> Vec<(String, Vec<u8>)> {
    let mut samples = vec![
        (format!("{FOLDER}/campus.bin"), campus().octets()),
        (format!("{FOLDER}/morning.bin"), morning()),
        (format!("{FOLDER}/van.bin"), van()),
    ];
    for (number, file) in (1..).zip(quarter()) {
        samples.push((format!("{FOLDER}/quarter/{number}.bin"), file.clone()));
        samples.push((format!("{REPORT}/{number}.bin"), file));
    }
    samples
}

fn main() -> std::io::Result<()> {
    samples()
        .iter()
        .try_for_each(|(name, octets)| fs::write(name, octets))
}

#[test]
fn the_samples_are_as_this_writes_them() -> std::io::Result<()> {
    for (name, octets) in samples() {
        assert!(fs::read(&name)? == octets, "{name}");
    }
    Ok(())
}
