//! An offer that is held: how long, what repeats it, takes it up and drops it, what it counts for, the file that has it, and holds that are refused.

mod common;

use banshorra_host::{CampusFile, Refusal};
use common::*;
use std::net::Ipv4Addr;

const OF_1: &[u8] = b"ab";
/// 239.192.1.0
const OTHER: u32 = POOL + 256;
const LAST: u32 = u32::MAX;

/// The specimens' campus with another scope: size 8, share 2 and limit 6 for both houses.
fn campus(clock: u32, leases: &[Lease], holds: &[Hold]) -> Campus {
    let mut campus = campus_at(clock, pool(), leases);
    campus.scopes.push(Scope {
        lowest: OTHER,
        size: 8,
        ttl: 31,
        parts: vec![(2, 6), (2, 6)],
        names: vec![],
    });
    campus.holds = holds.to_vec();
    campus
}

fn file(clock: u32, leases: &[Lease], holds: &[Hold]) -> Vec<u8> {
    campus(clock, leases, holds).octets()
}

fn taken(clock: u32, leases: &[Lease], holds: &[Hold]) -> CampusFile {
    CampusFile::from_bytes(&file(clock, leases, holds)).expect("sound")
}

/// House 1's hold of .0 and .1 for 500 seconds, as `discover(9)` leaves it.
fn hold() -> Hold {
    Hold {
        lease: Lease {
            house: 1,
            scope: 1,
            identifier: OF_1.to_vec(),
            kind: DISCOVER,
            transaction: 9,
            start: CLOCK,
            end: CLOCK + 500,
            offsets: vec![0, 1],
        },
        lapse: CLOCK + 30,
    }
}

/// The lease that a REQUEST makes of it.
fn lease(transaction: u32) -> Lease {
    Lease {
        kind: REQUEST,
        transaction,
        ..hold().lease
    }
}

fn asking(kind: u8, transaction: u32, lowest: u32, more: &[Coded]) -> Vec<u8> {
    let options = [&[identifier(OF_1), scope(lowest)], more].concat();
    message(kind, transaction, &options)
}

fn discover(transaction: u32) -> Vec<u8> {
    asking(
        DISCOVER,
        transaction,
        POOL,
        &[number(1, 2), lease_time(500)],
    )
}

/// OFFER or ACK with what is held, at a clock.
fn held(kind: u8, transaction: u32, clock: u32) -> Vec<u8> {
    let mut reply = ack(transaction, OF_1, (CLOCK, 500), (0, 2), clock);
    reply[1] = kind;
    reply
}

/// A call's answer, and the file afterwards.
fn draws(
    campus: &mut CampusFile,
    (client, time): (Ipv4Addr, u32),
    datagram: &[u8],
    answer: (u8, Vec<u8>),
    (leases, holds): (&[Lease], &[Hold]),
) {
    assert_eq!(call(campus, client, time, datagram), answer, "{datagram:?}");
    let clock = time.max(CLOCK);
    assert_eq!(
        campus.as_bytes(),
        file(clock, leases, holds),
        "{datagram:?}"
    );
}

#[test]
fn an_offer_is_held_for_thirty_seconds() {
    let mut one = taken(CLOCK, &[], &[]);
    let offer = (0, held(OFFER, 9, CLOCK));
    draws(
        &mut one,
        (HOUSE_1, CLOCK),
        &discover(9),
        offer,
        (&[], &[hold()]),
    );
    let getinfo = message(GETINFO, 1, &[identifier(OF_1)]);
    let reply = (0, release_ack(1, OF_1));
    for (after, holds) in [(29, &[hold()][..]), (30, &[])] {
        let at = (HOUSE_1, CLOCK + after);
        draws(&mut one, at, &getinfo, reply.clone(), (&[], holds));
    }
    // A stranger's call drops it too.
    let mut one = taken(CLOCK, &[], &[hold()]);
    draws(
        &mut one,
        (STRANGER, CLOCK + 30),
        &getinfo,
        (3, vec![]),
        (&[], &[]),
    );
}

#[test]
fn it_lapses_at_its_end_if_that_is_sooner() {
    for (clock, length) in [(CLOCK, 10), (CLOCK, 29), (CLOCK, 30), (LAST - 5, 5)] {
        let mut one = taken(clock, &[], &[]);
        let discover = asking(DISCOVER, 9, POOL, &[lease_time(length)]);
        assert_eq!(call(&mut one, HOUSE_1, clock, &discover).0, 0);
        let mut due = hold();
        (due.lease.start, due.lease.end) = (clock, clock + length);
        (due.lease.offsets, due.lapse) = (vec![0], clock + length);
        assert_eq!(one.as_bytes(), file(clock, &[], &[due]));
        let getinfo = message(GETINFO, 1, &[identifier(OF_1)]);
        assert_eq!(call(&mut one, HOUSE_1, clock + length, &getinfo).0, 0);
        assert_eq!(one.as_bytes(), file(clock + length, &[], &[]));
    }
}

#[test]
fn a_request_turns_it_into_the_lease() {
    for after in [0, 29] {
        let time = CLOCK + after;
        let mut one = taken(CLOCK, &[], &[hold()]);
        // With the hold's own id it is no Resend either.
        for id in [9, 5] {
            let mut one = one.clone();
            let reply = (0, held(ACK, id, time));
            let request = asking(REQUEST, id, POOL, &[]);
            draws(
                &mut one,
                (HOUSE_1, time),
                &request,
                reply,
                (&[lease(id)], &[]),
            );
        }
        // Its period and number are those that were offered, whatever is asked for now; sent again it is a Resend.
        let wishes = [
            number(1, 1),
            lease_time(7200),
            start_time(LAST),
            current_time(time),
        ];
        let request = asking(REQUEST, 6, POOL, &wishes);
        for _ in 0..2 {
            let reply = (0, held(ACK, 6, time));
            draws(
                &mut one,
                (HOUSE_1, time),
                &request,
                reply,
                (&[lease(6)], &[]),
            );
        }
        let leased = (&[lease(6)][..], &[][..]);
        draws(&mut one, (HOUSE_1, time), &discover(9), (8, vec![]), leased);
    }
    // Thirty seconds after it is judged as new.
    let mut one = taken(CLOCK, &[], &[hold()]);
    let reply = ack(5, OF_1, (CLOCK + 30, 3600), (0, 1), CLOCK + 30);
    let new = Lease {
        start: CLOCK + 30,
        end: CLOCK + 3630,
        offsets: vec![0],
        ..lease(5)
    };
    let request = asking(REQUEST, 5, POOL, &[]);
    draws(
        &mut one,
        (HOUSE_1, CLOCK + 30),
        &request,
        (0, reply),
        (&[new], &[]),
    );
}

#[test]
fn a_discover_repeats_it_and_leaves_it() {
    let mut one = taken(CLOCK, &[], &[hold()]);
    for (after, id) in [(0, 9), (3, 9), (29, 8)] {
        let time = CLOCK + after;
        let wishes = [number(2, 3), lease_time(1)];
        for discover in [discover(id), asking(DISCOVER, id, POOL, &wishes)] {
            let offer = (0, held(OFFER, id, time));
            draws(
                &mut one,
                (HOUSE_1, time),
                &discover,
                offer,
                (&[], &[hold()]),
            );
        }
    }
}

#[test]
fn only_least_minimum_and_latest_start_are_held_against_it() {
    let time = CLOCK + 20;
    let latest = |latest: u32| [(15, latest.to_be_bytes().to_vec()), current_time(time)];
    let minimum = |minimum: u32| [(14, minimum.to_be_bytes().to_vec())];
    for (options, is_given) in [
        (&[number(2, 2)][..], true),
        (&[number(3, 3)], false),
        (&minimum(500), true),
        (&minimum(501), false),
        // Its start is before the clock, and isn't raised.
        (&latest(CLOCK), true),
        (&latest(CLOCK - 1), false),
    ] {
        let mut one = taken(CLOCK, &[], &[hold()]);
        let at = (HOUSE_1, time);
        let offered = match is_given {
            true => (0, held(OFFER, 7, time)),
            false => (8, vec![]),
        };
        let discover = asking(DISCOVER, 7, POOL, options);
        draws(&mut one, at, &discover, offered, (&[], &[hold()]));
        let request = asking(REQUEST, 7, POOL, options);
        match is_given {
            true => draws(
                &mut one,
                at,
                &request,
                (0, held(ACK, 7, time)),
                (&[lease(7)], &[]),
            ),
            false => draws(
                &mut one,
                at,
                &request,
                (0, nak(7, OF_1, 0)),
                (&[], &[hold()]),
            ),
        }
    }
}

#[test]
fn errors_1_and_2_and_discards_keep_it() {
    let (at, kept) = ((HOUSE_1, CLOCK), (&[][..], &[hold()][..]));
    for lowest in [POOL, OTHER] {
        for (option, error) in [
            (lease_time(0), 1),
            (number(0, 1), 1),
            (start_time(CLOCK), 1),
            (option_request_list(&[9]), 1),
            (current_time(CLOCK + 1801), 2),
        ] {
            let mut one = taken(CLOCK, &[], &[hold()]);
            let request = asking(REQUEST, 7, lowest, std::slice::from_ref(&option));
            draws(&mut one, at, &request, (0, nak(7, OF_1, error)), kept);
            // With the hold's id it isn't sent again, so the errors count.
            let discover = asking(DISCOVER, 9, lowest, &[option]);
            draws(&mut one, at, &discover, (8, vec![]), kept);
        }
        let mut one = taken(CLOCK, &[], &[hold()]);
        let elsewhere = asking(REQUEST, 7, lowest, &[server_identifier(SERVER + 1)]);
        draws(&mut one, at, &elsewhere, (7, vec![]), kept);
        let required = asking(REQUEST, 7, lowest, &[features([&[], &[], &[1]])]);
        draws(&mut one, at, &required, (6, vec![]), kept);
    }
    let mut one = taken(CLOCK, &[], &[hold()]);
    let nowhere = message(REQUEST, 7, &[identifier(OF_1)]);
    draws(&mut one, at, &nowhere, (0, nak(7, OF_1, 1)), kept);
}

#[test]
fn in_another_scope_a_discover_is_error_1_and_a_request_drops_it() {
    let (at, kept) = ((HOUSE_1, CLOCK), (&[][..], &[hold()][..]));
    let mut one = taken(CLOCK, &[], &[hold()]);
    let discover = asking(DISCOVER, 9, OTHER, &[]);
    draws(&mut one, at, &discover, (8, vec![]), kept);
    // Refused: seven are above the limit. The drop stands.
    let mut dropped = one.clone();
    let request = asking(REQUEST, 7, OTHER, &[number(7, 7)]);
    let refused = (0, nak(7, OF_1, 0));
    draws(&mut dropped, at, &request, refused, (&[], &[]));
    let reply = Message::new(
        ACK,
        7,
        vec![
            lease_time(3600),
            server_identifier(SERVER),
            identifier(OF_1),
            scope(OTHER),
            start_time(CLOCK),
            range(OTHER, 1),
            current_time(CLOCK),
        ],
    );
    let new = Lease {
        scope: 2,
        end: CLOCK + 3600,
        offsets: vec![0],
        ..lease(7)
    };
    let request = asking(REQUEST, 7, OTHER, &[]);
    draws(&mut one, at, &request, (0, reply.octets()), (&[new], &[]));
}

#[test]
fn renew_and_release_of_it_are_error_3() {
    let (at, kept) = ((HOUSE_1, CLOCK), (&[][..], &[hold()][..]));
    let mut one = taken(CLOCK, &[], &[hold()]);
    for kind in [RENEW, RELEASE] {
        let message = message(kind, 9, &[identifier(OF_1)]);
        draws(&mut one, at, &message, (0, nak(9, OF_1, 3)), kept);
    }
    let message = message(RELEASE, 9, &[identifier(OF_1), lease_time(1)]);
    draws(&mut one, at, &message, (0, nak(9, OF_1, 1)), kept);
}

#[test]
fn it_counts_as_a_lease_does() {
    let board = taken(CLOCK, &[], &[hold()]).board();
    let lines = "239.192.0.0 1 2 3 2\n239.192.0.0 2 1 4 0\n239.192.1.0 1 2 6 0\n";
    assert!(board.contains(lines), "{board}");
    let request = |kind, of: &[u8], count| {
        let options = [identifier(of), scope(POOL), number(count, count)];
        message(kind, 3, &options)
    };
    // House 2 gets the two others, and not three.
    let mut one = taken(CLOCK, &[], &[hold()]);
    let answer = call(&mut one, HOUSE_2, CLOCK, &request(REQUEST, b"cd", 3));
    assert_eq!(answer, (0, nak(3, b"cd", 0)));
    let answer = call(&mut one, HOUSE_2, CLOCK, &request(REQUEST, b"cd", 2));
    let reply = ack(3, b"cd", (CLOCK, 3600), (2, 2), CLOCK);
    assert_eq!(answer, (0, reply));
    // Once it has lapsed, two more.
    let answer = call(&mut one, HOUSE_1, CLOCK + 30, &request(REQUEST, b"ef", 2));
    let reply = ack(3, b"ef", (CLOCK + 30, 3600), (0, 2), CLOCK + 30);
    assert_eq!(answer, (0, reply));
}

#[test]
fn it_takes_a_record_of_its_house() {
    let named = |number: u8| -> Vec<u8> { vec![b'x', number] };
    let leases = |count: u8| -> Vec<Lease> {
        let later = |number: u8| Lease {
            identifier: named(number),
            start: CLOCK + 500 + u32::from(number),
            end: CLOCK + 501 + u32::from(number),
            ..lease(1)
        };
        (0..count).map(later).collect()
    };
    let discover = |number| message(DISCOVER, 3, &[identifier(&named(number)), scope(OTHER)]);
    let mut one = taken(CLOCK, &leases(14), &[hold()]);
    assert_eq!(call(&mut one, HOUSE_1, CLOCK, &discover(14)).0, 0);
    assert_eq!(call(&mut one, HOUSE_1, CLOCK, &discover(15)).0, 8);
    // What is held needs no further record, neither repeated nor taken up; nor does what takes its place.
    let repeated = call(&mut one, HOUSE_1, CLOCK, &discover(14)).1;
    let other = message(REQUEST, 4, &[identifier(&named(14)), scope(POOL)]);
    assert_eq!(repeated.get(1), Some(&OFFER));
    assert_eq!(call(&mut one, HOUSE_1, CLOCK, &other).1.get(1), Some(&ACK));
    let request = asking(REQUEST, 5, POOL, &[]);
    assert_eq!(
        call(&mut one, HOUSE_1, CLOCK, &request),
        (0, held(ACK, 5, CLOCK))
    );
    assert_eq!(call(&mut one, HOUSE_1, CLOCK + 30, &discover(15)).0, 8);
}

#[test]
fn a_renew_may_not_overlap_it() {
    let earlier = Lease {
        identifier: b"aa".to_vec(),
        offsets: vec![1],
        ..lease(1)
    };
    let mut later = hold();
    (later.lease.start, later.lease.end) = (CLOCK + 500, CLOCK + 600);
    for (length, error) in [(500, None), (501, Some(0))] {
        let mut one = taken(
            CLOCK,
            std::slice::from_ref(&earlier),
            std::slice::from_ref(&later),
        );
        let renew = message(RENEW, 3, &[identifier(b"aa"), lease_time(length)]);
        let reply = match error {
            None => ack(3, b"aa", (CLOCK, length), (1, 1), CLOCK),
            Some(error) => nak(3, b"aa", error),
        };
        assert_eq!(call(&mut one, HOUSE_1, CLOCK, &renew), (0, reply));
    }
}

#[test]
fn it_forgets_its_identifiers_release_for_good() {
    let release = |house| Release {
        house,
        identifier: OF_1.to_vec(),
        transaction: 7,
        time: CLOCK,
    };
    let file = |clock, holds: &[Hold], releases: &[Release]| {
        let mut campus = campus(clock, &[], holds);
        campus.releases = releases.to_vec();
        campus.octets()
    };
    let both = file(CLOCK, &[], &[release(1), release(2)]);
    let mut one = CampusFile::from_bytes(&both).expect("sound");
    // What isn't offered forgets nothing.
    let refused = asking(DISCOVER, 9, POOL, &[number(4, 4)]);
    assert_eq!(call(&mut one, HOUSE_1, CLOCK, &refused), (8, vec![]));
    assert_eq!(one.as_bytes(), both);
    assert_eq!(call(&mut one, HOUSE_1, CLOCK, &discover(9)).0, 0);
    assert_eq!(one.as_bytes(), file(CLOCK, &[hold()], &[release(2)]));
    let again = message(RELEASE, 7, &[identifier(OF_1)]);
    for after in [0, 30] {
        let answer = call(&mut one, HOUSE_1, CLOCK + after, &again);
        assert_eq!(answer, (0, nak(7, OF_1, 3)));
    }
    assert_eq!(one.as_bytes(), file(CLOCK + 30, &[], &[release(2)]));
}

fn refusal(leases: &[Lease], holds: &[Hold]) -> Option<Refusal> {
    CampusFile::from_bytes(&file(CLOCK, leases, holds)).err()
}

#[test]
fn unsound_holds_are_21() {
    let with = |change: fn(&mut Hold)| {
        let mut hold = hold();
        change(&mut hold);
        hold
    };
    for (hold, is_sound) in [
        (hold(), true),
        (with(|h| h.lapse = CLOCK + 1), true),
        (with(|h| h.lapse = CLOCK), false),
        (with(|h| h.lapse = CLOCK + 31), false),
        (
            with(|h| (h.lapse, h.lease.end) = (CLOCK + 20, CLOCK + 20)),
            true,
        ),
        (
            with(|h| (h.lapse, h.lease.end) = (CLOCK + 21, CLOCK + 20)),
            false,
        ),
        (with(|h| h.lease.start = 0), true),
        (
            with(|h| (h.lease.start, h.lease.end) = (LAST - 1, LAST)),
            true,
        ),
        (with(|h| h.lease.start = h.lease.end), false),
        (with(|h| h.lease.kind = REQUEST), false),
        (with(|h| h.lease.kind = RENEW), false),
        (with(|h| h.lease.kind = OFFER), false),
        (with(|h| h.lease.house = 3), false),
        (with(|h| h.lease.scope = 3), false),
        (with(|h| h.lease.identifier = b"a".to_vec()), false),
        (with(|h| h.lease.identifier = vec![b'a'; 33]), false),
        (with(|h| h.lease.offsets = vec![]), false),
        (with(|h| h.lease.offsets = vec![4]), false),
        // Four are above house 1's limit.
        (with(|h| h.lease.offsets = vec![0, 1, 2, 3]), false),
    ] {
        let due = (!is_sound).then_some(Refusal::Unsound);
        assert_eq!(refusal(&[], std::slice::from_ref(&hold)), due, "{hold:?}");
    }
    let of = |house: u8, of: &[u8], offset: u8| {
        let mut hold = hold();
        (hold.lease.house, hold.lease.identifier) = (house, of.to_vec());
        hold.lease.offsets = vec![offset];
        hold
    };
    let leased = |hold: Hold| Lease {
        kind: REQUEST,
        ..hold.lease
    };
    for (leases, holds, is_sound) in [
        (vec![], vec![of(1, b"aa", 0), of(2, b"aa", 1)], true),
        (vec![], vec![of(1, b"aa", 0), of(1, b"aa", 1)], false),
        (vec![], vec![of(1, b"aa", 0), of(1, b"ab", 0)], false),
        (vec![], vec![of(1, b"aa", 0), of(2, b"ab", 0)], false),
        (vec![leased(of(1, b"aa", 0))], vec![of(2, b"aa", 1)], true),
        (vec![leased(of(1, b"aa", 0))], vec![of(1, b"aa", 1)], false),
        (vec![leased(of(1, b"aa", 0))], vec![of(1, b"ab", 0)], false),
        (vec![of(1, b"aa", 0).lease], vec![], false),
    ] {
        let due = (!is_sound).then_some(Refusal::Unsound);
        assert_eq!(refusal(&leases, &holds), due, "{leases:?} {holds:?}");
    }
    // A release on its identifier; another house's is no matter.
    for (house, due) in [(1, Some(Refusal::Unsound)), (2, None)] {
        let mut campus = campus(CLOCK, &[], &[hold()]);
        campus.releases = vec![Release {
            house,
            identifier: OF_1.to_vec(),
            transaction: 7,
            time: CLOCK,
        }];
        assert_eq!(CampusFile::from_bytes(&campus.octets()).err(), due);
    }
}

#[test]
fn a_section_out_of_order_or_of_another_length_is_20() {
    let of = |house: u8, of: &[u8], offsets: &[u8]| {
        let mut hold = hold();
        (hold.lease.house, hold.lease.identifier) = (house, of.to_vec());
        hold.lease.offsets = offsets.to_vec();
        hold
    };
    for holds in [
        &[of(2, b"aa", &[0]), of(1, b"bb", &[1])][..],
        &[of(200, b"aa", &[0]), of(9, b"bb", &[1])],
        &[of(1, b"ab", &[0]), of(1, b"aa", &[1])],
        &[of(1, b"aaa", &[0]), of(1, b"aa", &[1])],
        &[of(1, b"aa", &[1, 0])],
        &[of(1, b"aa", &[1, 1])],
    ] {
        assert_eq!(refusal(&[], holds), Some(Refusal::Form), "{holds:?}");
    }
    let [front, names, releases, _] = campus(CLOCK, &[], &[]).sections();
    let (one, lease) = (hold().octets(), hold().lease.octets());
    for (section, due) in [
        (vec![0], None),
        ([&[1], &one[..]].concat(), None),
        (vec![], Some(Refusal::Form)),
        (vec![0, 0], Some(Refusal::Form)),
        (vec![1], Some(Refusal::Form)),
        ([&[1], &lease[..]].concat(), Some(Refusal::Form)),
        ([&[0], &one[..]].concat(), Some(Refusal::Form)),
        ([&[2], &one[..]].concat(), Some(Refusal::Form)),
        ([&[1], &one[..one.len() - 1]].concat(), Some(Refusal::Form)),
        ([&[1], &one[..], &[0]].concat(), Some(Refusal::Form)),
    ] {
        let file = [&front[..], &names, &releases, &section].concat();
        assert_eq!(CampusFile::from_bytes(&file).err(), due, "{section:?}");
    }
}
