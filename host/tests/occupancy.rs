//! The occupancy board: who has which address, and what each house holds.

mod common;

use banshorra_host::{lent, CampusFile, Occupancy, OCCUPANCY_ROOM};
use common::*;

const ID: &[u8] = &[0x00, 0x41];
const OTHER: &[u8] = &[0x00, 0x42];
/// 239.193.0.0
const ELSEWHERE: u32 = 0xEFC1_0000;

/// An entry: the house, or 0 for none, and the count.
type Pair = (u8, u8);

const FREE: [Pair; 4] = [(0, 0); 4];

fn pair(occupancy: &Occupancy, scope: u8, offset: u8) -> Pair {
    let (house, count) = occupancy.entry(scope, offset);
    assert_ne!(house, Some(0));
    (house.unwrap_or(0), count)
}

/// The first scope's four entries and two holdings, and the same by its file.
fn first(campus: &CampusFile) -> ([Pair; 4], [u8; 2]) {
    let occupancy = campus.occupancy();
    assert_eq!(lent::occupancy(campus.as_bytes()), Ok(occupancy.clone()));
    let entries = [0, 1, 2, 3].map(|offset| pair(&occupancy, 1, offset));
    (entries, [1, 2].map(|house| occupancy.holding(1, house)))
}

fn lease(house: u8, of: &[u8], period: (u32, u32), offsets: &[u8]) -> Lease {
    Lease {
        house,
        scope: 1,
        identifier: of.to_vec(),
        kind: REQUEST,
        transaction: 1,
        start: period.0,
        end: period.1,
        offsets: offsets.to_vec(),
    }
}

fn leased(leases: &[Lease]) -> CampusFile {
    CampusFile::from_bytes(&file_at(CLOCK, leases)).expect("sound")
}

/// A call that draws a reply of this type.
fn draws(campus: &mut CampusFile, client: std::net::Ipv4Addr, datagram: &[u8], kind: u8) {
    let (number, reply) = call(campus, client, CLOCK, datagram);
    assert_eq!((number, reply.get(1)), (0, Some(&kind)));
}

/// A call of no octets, which is discarded.
fn pass(campus: &mut CampusFile, time: u32) {
    assert_eq!(call(campus, STRANGER, time, &[]), (3, vec![]));
}

#[test]
fn nobody_has_an_address_before_any_call() {
    let campus = specimen();
    assert_eq!(first(&campus), (FREE, [0, 0]));
    assert_eq!(campus.occupancy().as_bytes(), &[0; OCCUPANCY_ROOM]);
    assert_eq!(OCCUPANCY_ROOM, 544);
}

#[test]
fn leases_count_on_their_addresses_at_any_time() {
    // P1, P3 and P5: house 2 gets .0 and .1, and house 1 .2 and .3 twice, the second time from 2000 on.
    let mut campus = specimen();
    let p1 = [identifier(ID), scope(POOL), number(1, 4)];
    draws(&mut campus, HOUSE_2, &message(REQUEST, 1, &p1), ACK);
    let entries = [(2, 1), (2, 1), (0, 0), (0, 0)];
    assert_eq!(first(&campus), (entries, [0, 2]));
    let p3 = [lease_time(1000), identifier(ID), scope(POOL), number(2, 3)];
    draws(&mut campus, HOUSE_1, &message(REQUEST, 3, &p3), ACK);
    let entries = [(2, 1), (2, 1), (1, 1), (1, 1)];
    assert_eq!(first(&campus), (entries, [2, 2]));
    let p5 = [
        identifier(OTHER),
        scope(POOL),
        start_time(2000),
        number(2, 2),
        current_time(1000),
    ];
    draws(&mut campus, HOUSE_1, &message(REQUEST, 5, &p5), ACK);
    let entries = [(2, 1), (2, 1), (1, 2), (1, 2)];
    assert_eq!(first(&campus), (entries, [2, 2]));
    // P7 and P8: refused and renewed, they count as before.
    for (length, kind) in [(1001, NAK), (1000, ACK)] {
        let renew = message(RENEW, length, &[lease_time(length), identifier(ID)]);
        draws(&mut campus, HOUSE_1, &renew, kind);
        assert_eq!(first(&campus), (entries, [2, 2]));
    }
    // P9.
    pass(&mut campus, 1999);
    assert_eq!(first(&campus), (entries, [2, 2]));
    pass(&mut campus, 2000);
    let entries = [(2, 1), (2, 1), (1, 1), (1, 1)];
    assert_eq!(first(&campus), (entries, [2, 2]));
}

#[test]
fn a_release_frees_what_no_other_lease_has() {
    let mut campus = leased(&[
        lease(1, ID, (900, 2000), &[0, 1]),
        lease(1, OTHER, (2000, 3000), &[1, 2]),
        lease(2, ID, (900, 2000), &[3]),
    ]);
    let entries = [(1, 1), (1, 2), (1, 1), (2, 1)];
    assert_eq!(first(&campus), (entries, [3, 1]));
    // Sent again it frees no more.
    let release = message(RELEASE, 7, &[identifier(ID)]);
    for _ in 0..2 {
        draws(&mut campus, HOUSE_1, &release, ACK);
        let entries = [(0, 0), (1, 1), (1, 1), (2, 1)];
        assert_eq!(first(&campus), (entries, [2, 1]));
    }
    // What is free is another house's next.
    let request = message(REQUEST, 8, &[identifier(OTHER), scope(POOL)]);
    draws(&mut campus, HOUSE_2, &request, ACK);
    let entries = [(2, 1), (1, 1), (1, 1), (2, 1)];
    assert_eq!(first(&campus), (entries, [2, 2]));
}

#[test]
fn an_owner_changes_within_a_call() {
    let mut campus = leased(&[lease(1, ID, (900, 1500), &[0])]);
    let request = message(REQUEST, 1, &[identifier(ID), scope(POOL)]);
    let (number, reply) = call(&mut campus, HOUSE_2, 1500, &request);
    assert_eq!((number, reply[1]), (0, ACK));
    assert_eq!(first(&campus), ([(2, 1), (0, 0), (0, 0), (0, 0)], [0, 1]));
}

#[test]
fn a_hold_counts_as_a_lease() {
    let mut campus = specimen();
    let options = [identifier(ID), scope(POOL), number(1, 2)];
    draws(&mut campus, HOUSE_1, &message(DISCOVER, 1, &options), OFFER);
    let held = ([(1, 1), (1, 1), (0, 0), (0, 0)], [2, 0]);
    assert_eq!(first(&campus), held);
    // It becomes the lease, which counts as the hold did.
    let mut turned = campus.clone();
    draws(&mut turned, HOUSE_1, &message(REQUEST, 2, &options), ACK);
    assert_eq!(first(&turned), held);
    pass(&mut turned, CLOCK + 30);
    assert_eq!(first(&turned), held);
    // The board is as of the file's clock: by a call it lapses, and by discard 2 it doesn't.
    let mut short = [0; 511];
    let answer = campus.serve(&[], STRANGER, CLOCK + 30, &mut short);
    assert_eq!((answer.outcome.number(), first(&campus)), (2, held));
    pass(&mut campus, CLOCK + 29);
    assert_eq!(first(&campus), held);
    pass(&mut campus, CLOCK + 30);
    assert_eq!(first(&campus), (FREE, [0, 0]));
}

/// The specimens' campus with a second scope, 239.193.0.0 of size 2.
fn two_scopes() -> Campus {
    let mut campus = campus_at(CLOCK, pool(), &[]);
    campus.scopes.push(Scope {
        lowest: ELSEWHERE,
        size: 2,
        parts: vec![(0, 2), (0, 2)],
        ..pool()
    });
    campus
}

#[test]
fn a_hold_dropped_for_another_scope_is_off_the_board() {
    let campus = CampusFile::from_bytes(&two_scopes().octets()).expect("sound");
    let request = |least| {
        let options = [identifier(ID), scope(ELSEWHERE), number(least, 3)];
        message(REQUEST, 2, &options)
    };
    for (least, kind, entry, holding) in [(2, ACK, (1, 1), 2), (3, NAK, (0, 0), 0)] {
        let mut campus = campus.clone();
        let discover = message(DISCOVER, 1, &[identifier(ID), scope(POOL)]);
        draws(&mut campus, HOUSE_1, &discover, OFFER);
        assert_eq!(first(&campus), ([(1, 1), (0, 0), (0, 0), (0, 0)], [1, 0]));
        draws(&mut campus, HOUSE_1, &request(least), kind);
        assert_eq!(first(&campus), (FREE, [0, 0]));
        let occupancy = campus.occupancy();
        let entries = [0, 1].map(|offset| pair(&occupancy, 2, offset));
        assert_eq!(entries, [entry; 2]);
        let holdings = [1, 2].map(|house| occupancy.holding(2, house));
        assert_eq!(holdings, [holding, 0]);
    }
}

/// Eight houses and four scopes of 64 addresses, of which each house has eight in each scope.
fn full() -> Campus {
    let scope = |number: u32| Scope {
        lowest: POOL + (number << 8),
        size: 64,
        ttl: 15,
        parts: vec![(8, 8); 8],
        names: vec![],
    };
    let leases = (1..=8).flat_map(|house| {
        (1..=4).map(move |scope| Lease {
            scope,
            ..lease(
                house,
                &[0, scope],
                (900, 2000),
                &Vec::from_iter(8 * house - 8..8 * house),
            )
        })
    });
    Campus {
        houses: (0..8)
            .map(|house| (house << 8, (house << 8) + 255))
            .collect(),
        scopes: (0..4).map(scope).collect(),
        leases: leases.collect(),
        ..campus_at(CLOCK, pool(), &[])
    }
}

#[test]
fn a_full_campus_fills_the_board_and_what_it_hasnt_is_0() {
    let campus = CampusFile::from_bytes(&full().octets()).expect("sound");
    let occupancy = campus.occupancy();
    for scope in 0..=u8::MAX {
        for offset in 0..=u8::MAX {
            let is_there = (1..=4).contains(&scope) && offset < 64;
            let due = if is_there {
                (offset / 8 + 1, 1)
            } else {
                (0, 0)
            };
            assert_eq!(pair(&occupancy, scope, offset), due, "{scope}, {offset}");
        }
        for house in 0..=u8::MAX {
            let is_there = (1..=4).contains(&scope) && (1..=8).contains(&house);
            let due = if is_there { 8 } else { 0 };
            assert_eq!(occupancy.holding(scope, house), due, "{scope}, {house}");
        }
    }
    // Past the size, the houses and the scopes there is nothing.
    let specimen = leased(&[lease(2, ID, (900, 2000), &[0, 3])]);
    let mut due = [0; OCCUPANCY_ROOM];
    due[..8].copy_from_slice(&[2, 1, 0, 0, 0, 0, 2, 1]);
    due[129] = 2;
    assert_eq!(specimen.occupancy().as_bytes(), &due);
}

#[test]
fn each_octet_stands_where_the_header_says() {
    let mut campus = full();
    campus.leases.remove(31);
    let file = CampusFile::from_bytes(&campus.octets()).expect("sound");
    let occupancy = file.occupancy();
    let octets = occupancy.as_bytes();
    for scope in 1..=4_u8 {
        let at = 136 * (usize::from(scope) - 1);
        for offset in 0..64 {
            let entry = at + 2 * usize::from(offset);
            let found = (octets[entry], octets[entry + 1]);
            assert_eq!(pair(&occupancy, scope, offset), found);
        }
        for house in 1..=8 {
            let holding = octets[at + 128 + (usize::from(house) - 1)];
            assert_eq!(occupancy.holding(scope, house), holding);
        }
    }
    // The lease that isn't there was house 8's in the fourth scope.
    assert_eq!(
        (pair(&occupancy, 4, 55), pair(&occupancy, 4, 56)),
        ((7, 1), (0, 0))
    );
    assert_eq!(octets[543], 0);
}

#[test]
fn the_holdings_are_those_of_the_boards_text() {
    let mut campus = two_scopes();
    campus.leases = vec![
        lease(1, ID, (900, 2000), &[0, 1]),
        lease(1, OTHER, (2000, 3000), &[1, 2]),
        Lease {
            scope: 2,
            ..lease(2, ID, (900, 2000), &[1])
        },
    ];
    campus.holds = vec![Hold {
        lease: Lease {
            kind: DISCOVER,
            ..lease(2, OTHER, (900, 2000), &[3])
        },
        lapse: CLOCK + 1,
    }];
    for campus in [campus, full()] {
        let file = CampusFile::from_bytes(&campus.octets()).expect("sound");
        let (occupancy, text) = (file.occupancy(), file.board());
        let mut lines = text.lines().skip(1);
        for scope in 1..=campus.scopes.len() as u8 {
            for house in 1..=campus.houses.len() as u8 {
                let held = lines.next().and_then(|line| line.rsplit(' ').next());
                let holding = occupancy.holding(scope, house).to_string();
                assert_eq!(held, Some(&holding[..]));
                // And as many addresses are the house's.
                let own = (0..64).filter(|&o| occupancy.entry(scope, o).0 == Some(house));
                assert_eq!(own.count().to_string(), holding);
            }
        }
    }
}
