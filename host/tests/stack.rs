//! The stack that the header asks of a thread is enough: for the longest files, for the deepest walk over names and for as many holds as there can be.

mod common;

use banshorra_host::{lent, CampusFile, Refusal, ANSWER_ROOM};
use common::*;
use std::thread::Builder;

/// What `banshorra.h` says.
const STACK: usize = 256 << 10;

fn on_that_stack(work: impl FnOnce() + Send + 'static) {
    let thread = Builder::new().stack_size(STACK).spawn(work);
    thread.expect("a thread").join().expect("no panic");
}

#[test]
fn the_most_scopes_and_lists_are_walked() {
    // As many scopes as a count can say, and then as many houses as a file has room for; and the other way round.
    for (houses, scopes) in [(40, 255), (255, 39), (0, 255)] {
        let file = settings(houses, scopes, 0).octets();
        assert!(file.len() <= 32_768, "{} octets", file.len());
        on_that_stack(move || assert_eq!(lent::check(&file), Err(Refusal::Unsound)));
    }
}

#[test]
fn a_full_campus_is_served() {
    let mut full = settings(8, 4, 4);
    on_that_stack(move || {
        let mut campus = CampusFile::from_bytes(&full.octets()).expect("sound");
        let options = [identifier(b"ab"), scope(POOL), number(1, 8)];
        let getinfo = [
            identifier(b"ab"),
            option_request_list(&[9, 11]),
            requested_language(b"language"),
        ];
        // The RELEASE is the fifth of its house.
        let mut remember = |house: u8| {
            let places = usize::from(house - 1) * 4..usize::from(house) * 4;
            full.releases[places.clone()].rotate_left(1);
            full.releases[places.end - 1] = Release {
                house,
                identifier: b"ab".to_vec(),
                transaction: RELEASE.into(),
                time: CLOCK,
            };
            full.octets()
        };
        let mut calls = vec![];
        for (kind, options) in [
            (DISCOVER, &options[..]),
            (REQUEST, &options),
            (RENEW, &options[..1]),
            (GETINFO, &getinfo),
            (RELEASE, &options[..1]),
            (RELEASE, &options[..1]),
        ] {
            let datagram = message(kind, u32::from(kind), options);
            // In two halves, and whole.
            let mut halves = campus.clone();
            let verdict = halves.judge(&datagram, HOUSE_1, CLOCK);
            assert_eq!(halves.reply(&verdict, &mut [0; 512]).outcome.number(), 0);
            assert_eq!(call(&mut campus, HOUSE_1, CLOCK, &datagram).0, 0);
            assert_eq!(halves, campus);
            let call = banshorra_host::Call {
                time: CLOCK,
                client: HOUSE_2,
                reply_room: 512,
                datagram: &datagram,
            };
            call.append_to(&mut calls);
        }
        assert_eq!(campus.as_bytes(), remember(1));
        let mut answers = vec![0; 6 * ANSWER_ROOM];
        assert_eq!(campus.replay(&calls, &mut answers).stopped, None);
        assert_eq!(campus.as_bytes(), remember(2));
        campus.board();
        campus.occupancy();
    });
}

#[test]
fn a_campus_of_holds_is_served() {
    let mut full = settings(8, 4, 4);
    // Sixteen of each house, one after the other on its half of a scope.
    let hold = |house: u8, number: u8| Hold {
        lease: Lease {
            house: house + 1,
            scope: house / 2 + 1,
            identifier: vec![100 + number; 32],
            kind: DISCOVER,
            transaction: 9,
            start: CLOCK + u32::from(number),
            end: CLOCK + u32::from(number) + 1,
            offsets: (house % 2 * 32..house % 2 * 32 + 32).collect(),
        },
        lapse: CLOCK + 1,
    };
    let holds = (0..8).flat_map(|house| (0..16).map(move |number| (house, number)));
    full.holds = holds.map(|(house, number)| hold(house, number)).collect();
    let parts = |scope: &mut Scope| scope.parts.fill((0, 32));
    full.scopes.iter_mut().for_each(parts);
    on_that_stack(move || {
        let mut campus = CampusFile::from_bytes(&full.octets()).expect("sound");
        campus.board();
        assert_eq!(campus.occupancy().entry(1, 0), (Some(1), 16));
        // Refused: the house has no record left. Then the last of them is taken up.
        let options = [identifier(b"ab"), scope(POOL + 256)];
        let refused = message(DISCOVER, 1, &options);
        assert_eq!(call(&mut campus, HOUSE_1, CLOCK, &refused).0, 8);
        let last = [identifier(&[115; 32]), scope(POOL)];
        let request = message(REQUEST, 1, &last);
        assert_eq!(call(&mut campus, HOUSE_1, CLOCK, &request).1[1], ACK);
        let held = full.holds.remove(15).lease;
        full.leases.push(Lease {
            kind: REQUEST,
            transaction: 1,
            ..held
        });
        assert_eq!(campus.as_bytes(), full.octets());
        // A second later all others have lapsed.
        assert_eq!(call(&mut campus, HOUSE_1, CLOCK + 1, &refused).0, 0);
    });
}

#[test]
fn the_most_that_a_file_can_have_is_salvaged() {
    let mut wreck = settings(8, 4, 4);
    let lease = |number: u8| Lease {
        house: number % 8 + 1,
        scope: number % 4 + 1,
        identifier: vec![number; 2],
        kind: REQUEST,
        transaction: 9,
        start: CLOCK,
        end: CLOCK + 9,
        offsets: vec![number % 64],
    };
    wreck.leases = (0..255).map(lease).collect();
    wreck
        .leases
        .sort_by_key(|lease| (lease.house, lease.identifier.clone()));
    let hold = |lease: &Lease| Hold {
        lease: Lease {
            kind: DISCOVER,
            ..lease.clone()
        },
        lapse: CLOCK + 9,
    };
    wreck.holds = wreck.leases.iter().map(hold).collect();
    wreck.releases = vec![wreck.releases[0].clone(); 255];
    on_that_stack(move || {
        let (kept, dropped) = CampusFile::salvage(&wreck.octets()).expect("settings are sound");
        assert_eq!(lent::check(kept.as_bytes()), Ok(()));
        assert!(dropped.len() > 600, "{}", dropped.len());
    });
}
