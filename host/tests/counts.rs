//! How many records were read: what a call's lookups compare, through the whole call, its halves and a list.

mod common;

use banshorra_host::{answers, CampusFile, ANSWER_ROOM, REPLY_ROOM};
use common::*;
use std::net::Ipv4Addr;

/// What the campus has of house 1 at most.
const RECORDS: u32 = 16;

/// The count of a call on a copy, which is the same by every way to make it; and its outcome.
fn count(campus: &CampusFile, client: Ipv4Addr, datagram: &[u8]) -> (u8, usize) {
    let mut room = [0; REPLY_ROOM];
    let answer = campus.clone().serve(datagram, client, CLOCK, &mut room);
    let mut halves = campus.clone();
    let verdict = halves.judge(datagram, client, CLOCK);
    assert_eq!(verdict.count(), answer.count);
    assert_eq!(halves.reply(&verdict, &mut [0; REPLY_ROOM]), answer);
    let call = banshorra_host::Call {
        time: CLOCK,
        client,
        reply_room: 512,
        datagram,
    };
    let (mut calls, mut filled) = (vec![], [0; ANSWER_ROOM]);
    call.append_to(&mut calls);
    let replayed = campus.clone().replay(&calls, &mut filled);
    let listed: Vec<_> = answers(&filled[..replayed.answers_filled]).collect();
    assert_eq!(listed, [answer]);
    (answer.outcome.number(), answer.count)
}

/// House 1's lease that ends in the place-th of as many periods, by identifiers that fall from first to last.
fn lease(place: u32) -> Lease {
    Lease {
        house: 1,
        scope: 1,
        identifier: vec![0, 99 - place as u8],
        kind: REQUEST,
        transaction: place,
        start: CLOCK + 100 * place,
        end: CLOCK + 100 * place + 100,
        offsets: vec![0],
    }
}

fn campus(leases: u32, holds: &[Hold]) -> CampusFile {
    let mut leases: Vec<_> = (1..=leases).map(lease).collect();
    leases.reverse();
    let campus = Campus {
        holds: holds.to_vec(),
        ..campus_at(CLOCK, pool(), &leases)
    };
    CampusFile::from_bytes(&campus.octets()).expect("sound")
}

fn of(place: u32) -> Coded {
    identifier(&lease(place).identifier)
}

#[test]
fn the_place_of_the_match_counts_from_1_in_order_of_ending() {
    let campus = campus(RECORDS, &[]);
    for place in 1..=RECORDS {
        let once = usize::try_from(place).expect("a small number");
        let told =
            |kind, options: &[Coded]| count(&campus, HOUSE_1, &message(kind, 900 + place, options));
        assert_eq!(told(RELEASE, &[of(place)]), (0, once));
        assert_eq!(told(DISCOVER, &[of(place), scope(POOL)]), (8, once));
        assert_eq!(told(REQUEST, &[of(place), scope(POOL)]), (0, 2 * once));
        assert_eq!(told(RENEW, &[of(place)]), (0, 2 * once));
    }
}

#[test]
fn what_is_not_found_counts_all_records_in_use() {
    for records in 0..=RECORDS {
        let campus = campus(records, &[]);
        let all = usize::try_from(records).expect("a small number");
        let new = [identifier(b"new"), scope(POOL)];
        let told = |kind, options: &[Coded]| count(&campus, HOUSE_1, &message(kind, 7, options));
        // The sixteenth record is the last.
        let outcome = if records == RECORDS { 8 } else { 0 };
        assert_eq!(told(DISCOVER, &new), (outcome, all));
        assert_eq!(told(REQUEST, &new), (0, 2 * all));
        assert_eq!(told(RENEW, &new[..1]), (0, 2 * all));
        assert_eq!(told(RELEASE, &new[..1]), (0, all));
        // Another house's are not compared.
        let told = count(&campus, HOUSE_2, &message(REQUEST, 7, &new));
        assert_eq!(told, (0, 0));
    }
}

#[test]
fn a_hold_stands_by_its_lapse() {
    // It lapses before any lease ends, and its period ends after them.
    let hold = Hold {
        lease: Lease {
            identifier: b"held".to_vec(),
            kind: DISCOVER,
            end: CLOCK + 9000,
            offsets: vec![1],
            ..lease(20)
        },
        lapse: CLOCK + 30,
    };
    let campus = campus(3, &[hold]);
    let held = [identifier(b"held"), scope(POOL)];
    let told = |kind, options: &[Coded]| count(&campus, HOUSE_1, &message(kind, 7, options));
    assert_eq!(told(DISCOVER, &held), (0, 1));
    assert_eq!(told(REQUEST, &held), (0, 2));
    assert_eq!(told(RENEW, &held[..1]), (0, 2));
    assert_eq!(told(RELEASE, &held[..1]), (0, 1));
    assert_eq!(told(RELEASE, &[of(3)]), (0, 4));
    assert_eq!(told(RELEASE, &[identifier(b"new")]), (0, 4));
}

#[test]
fn an_earlier_test_ends_the_matter() {
    let campus = campus(5, &[]);
    let told = |kind, xid, options: &[Coded]| count(&campus, HOUSE_1, &message(kind, xid, options));
    let skewed = current_time(CLOCK + 1801);
    // Sent again.
    assert_eq!(told(REQUEST, 4, &[of(4), scope(POOL)]), (0, 4));
    // Error 1 by a test before the identifier's, which is the last.
    let zero = lease_time(0);
    assert_eq!(told(DISCOVER, 7, &[of(4)]), (8, 0));
    assert_eq!(told(REQUEST, 7, &[of(4)]), (0, 4));
    let options = [of(4), scope(POOL), zero.clone()];
    assert_eq!(told(REQUEST, 7, &options), (0, 4));
    assert_eq!(told(RENEW, 7, &[of(4), zero]), (0, 4));
    assert_eq!(told(RELEASE, 7, &[of(4), scope(POOL)]), (0, 0));
    // Error 2 stands between error 1 and error 3.
    let options = [identifier(b"new"), scope(POOL), skewed.clone()];
    assert_eq!(told(DISCOVER, 7, &options), (8, 5));
    assert_eq!(told(REQUEST, 7, &options), (0, 10));
    assert_eq!(told(RENEW, 7, &[of(4), skewed]), (0, 4));
}

#[test]
fn discards_1_to_7_and_a_getinfo_count_nothing() {
    let campus = campus(5, &[]);
    let anothers = [of(4), server_identifier(SERVER + 1)];
    let required = [of(4), features([&[], &[], &[7]])];
    for (client, datagram, number) in [
        (HOUSE_1, message(GETINFO, 7, &[of(4)]), 0),
        (STRANGER, message(REQUEST, 7, &[of(4)]), 3),
        (HOUSE_1, vec![0; 11], 4),
        (HOUSE_1, message(REQUEST, 7, &[]), 5),
        (HOUSE_1, message(REQUEST, 7, &required), 6),
        (HOUSE_1, message(REQUEST, 7, &anothers), 7),
    ] {
        assert_eq!(count(&campus, client, &datagram), (number, 0));
    }
}

#[test]
fn a_release_sent_again_counts_nothing() {
    let mut campus = campus(5, &[]);
    let release = message(RELEASE, 7, &[of(4)]);
    assert_eq!(count(&campus, HOUSE_1, &release), (0, 4));
    assert_eq!(call(&mut campus, HOUSE_1, CLOCK, &release).0, 0);
    assert_eq!(count(&campus, HOUSE_1, &release), (0, 0));
    // With another id it isn't: all that are left are compared.
    let other = message(RELEASE, 8, &[of(4)]);
    assert_eq!(count(&campus, HOUSE_1, &other), (0, 4));
}
