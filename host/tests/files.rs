//! Campus files that are taken and refused.

mod common;

use banshorra_host::{lent, CampusFile, Refusal, FILE_ROOM};
use common::*;

fn refusal(file: &[u8]) -> Option<Refusal> {
    let refusal = CampusFile::from_bytes(file).err();
    assert_eq!(lent::check(file).err(), refusal);
    assert_eq!(lent::occupancy(file).err(), refusal);
    let mut text = [0; 1100];
    let text = lent::board(file, &mut text).expect("the room is enough");
    match refusal {
        Some(refusal) => assert_eq!(text, format!("refused {}\n", refusal.number())),
        None => assert!(text.starts_with("scope house share limit holds\n")),
    }
    refusal
}

fn lease(house: u8, identifier: &[u8]) -> Lease {
    Lease {
        house,
        scope: 1,
        identifier: identifier.to_vec(),
        kind: REQUEST,
        transaction: 7,
        start: 900,
        end: 1001,
        offsets: vec![house - 1],
    }
}

fn hold(house: u8, identifier: &[u8]) -> Hold {
    Hold {
        lease: Lease {
            kind: DISCOVER,
            ..lease(house, identifier)
        },
        lapse: 1001,
    }
}

/// Two leases, and a hold after them.
fn file_of_both() -> Vec<u8> {
    let mut campus = campus_at(CLOCK, pool(), &[lease(1, b"ab"), lease(2, b"ab")]);
    campus.holds = vec![hold(1, b"cd")];
    campus.holds[0].lease.offsets = vec![2];
    campus.octets()
}

#[test]
fn an_accepted_file_keeps_its_octets() {
    let file = file_of_both();
    assert_eq!(refusal(&file), None);
    let mut campus = CampusFile::from_bytes(&file).expect("sound");
    assert_eq!(campus.as_bytes(), file);
    // Time 0 is before the clock, which stays: the file that is written is the one that was read.
    let getinfo = message(GETINFO, 1, &[identifier(b"ab")]);
    assert_eq!(call(&mut campus, HOUSE_1, 0, &getinfo).0, 0);
    assert_eq!(campus.as_bytes(), file);
}

#[test]
fn a_file_cut_off_anywhere_is_20() {
    let file = file_of_both();
    for length in 0..file.len() {
        assert_eq!(refusal(&file[..length]), Some(Refusal::Form), "{length}");
    }
}

#[test]
fn an_octet_more_is_20() {
    for more in 0..=255 {
        let mut file = specimen_file();
        file.push(more);
        assert_eq!(refusal(&file), Some(Refusal::Form));
    }
}

#[test]
fn server_count_other_than_1_is_20() {
    for count in [0, 2, 255] {
        let mut file = specimen_file();
        file[0] = count;
        assert_eq!(refusal(&file), Some(Refusal::Form));
    }
}

#[test]
fn leases_out_of_order_are_20_and_equal_ones_21() {
    let file = file_at(CLOCK, &[lease(1, b"ac"), lease(1, b"ab")]);
    assert_eq!(refusal(&file), Some(Refusal::Form));
    let file = file_at(CLOCK, &[lease(1, b"ab"), lease(1, b"ab")]);
    assert_eq!(refusal(&file), Some(Refusal::Unsound));
}

#[test]
fn unsound_files_are_21() {
    // The scope's TTL; house 1's share above its limit; the scope's size; houses that overlap; a pool outside of 224.0.0.0/4.
    for (place, octet) in [(32, 0), (33, 4), (31, 0), (12, 2), (27, 223)] {
        let mut file = specimen_file();
        file[place] = octet;
        assert_eq!(refusal(&file), Some(Refusal::Unsound), "{place}");
    }
    let ended = file_at(1001, &[lease(1, b"ab")]);
    assert_eq!(refusal(&ended), Some(Refusal::Unsound));
    let wrong_house = file_at(CLOCK, &[lease(3, b"ab")]);
    assert_eq!(refusal(&wrong_house), Some(Refusal::Unsound));
}

/// 8 houses, 4 scopes, 128 holds with 32 octets of identifier and 64 addresses, four names of 8 and 32 octets in each list, 32 releases with 32
/// octets of identifier: the longest file that has the limits' counts; or with leases in the place of the holds. Its form is right, and as each
/// house has all addresses of a scope it is unsound.
fn longest(is_held: bool) -> Campus {
    let name = Name::new(128, b"language", b"a name of the thirty-two octets.");
    let pool = |number: u32| Scope {
        lowest: POOL + (number << 8),
        size: 64,
        ttl: 15,
        parts: vec![(8, 64); 8],
        names: vec![vec![name.clone(); 4]; 9],
    };
    let hold = |number: u8| {
        let mut hold = hold(number / 16 + 1, &[number; 32]);
        hold.lease.scope = number / 32 + 1;
        hold.lease.offsets = (0..64).collect();
        hold
    };
    let lease = |number: u8| Lease {
        kind: REQUEST,
        ..hold(number).lease
    };
    let (leases, holds) = if is_held { (0, 128) } else { (128, 0) };
    let release = |number: u8| Release {
        house: number / 4 + 1,
        identifier: vec![200 + number; 32],
        transaction: 7,
        time: CLOCK,
    };
    Campus {
        server: SERVER,
        clock: CLOCK,
        houses: (1..=8)
            .map(|house| (house << 8, (house << 8) + 255))
            .collect(),
        scopes: (0..4).map(pool).collect(),
        leases: (0..leases).map(lease).collect(),
        releases: (0..32).map(release).collect(),
        holds: (0..holds).map(hold).collect(),
    }
}

#[test]
fn the_longest_file_fits_and_an_overlong_one_is_20() {
    for (is_held, length) in [(true, 22_715), (false, 22_203)] {
        let campus = longest(is_held);
        let mut file = campus.octets();
        let sections = (campus.names().len(), campus.releases().len());
        assert_eq!((file.len(), sections), (length, (6_229, 1_345)));
        assert_eq!(refusal(&file), Some(Refusal::Unsound));
        file.push(0);
        assert_eq!(refusal(&file), Some(Refusal::Form));
    }
    // Longer identifiers are unsound, and their file is of right form up to 32,768 octets.
    let mut campus = longest(false);
    let mut left = FILE_ROOM - 22_203;
    for lease in &mut campus.leases {
        let more = left.min(255 - 32);
        lease.identifier.resize(32 + more, 0);
        left -= more;
    }
    assert_eq!(campus.octets().len(), FILE_ROOM);
    assert_eq!(refusal(&campus.octets()), Some(Refusal::Unsound));
    campus.leases[127].identifier.push(0);
    assert_eq!(campus.octets().len(), FILE_ROOM + 1);
    assert_eq!(refusal(&campus.octets()), Some(Refusal::Form));
    assert_eq!(refusal(&vec![0; 100_000]), Some(Refusal::Form));
}
