//! Holds: what an OFFER leaves, and what later messages make of it (W-205).

mod common;

use common::*;
use second::programs::board_text;
use second::{serve, sound, Book, Hold, Lease, Quota, Scope, ScopeNames};

const ID: &[u8] = &[0, 0x41];
const OTHER: &[u8] = &[0, 0x42];
const SCOPE: &[u8] = &[0xEF, 0xC0, 0, 0];
const ELSEWHERE: &[u8] = &[0xEF, 0xC1, 0, 0];

/// Types of messages.
const DISCOVER: u8 = 1;
const REQUEST: u8 = 3;
const RENEW: u8 = 4;
const RELEASE: u8 = 7;

/// An option of four octets.
type Seconds = (u16, u32);

/// A message on an identifier, in this scope if one is given, and with these options.
fn on(identifier: &[u8], kind: u8, id: u32, scope: &[u8], more: &[Seconds]) -> Vec<u8> {
    let values: Vec<(u16, [u8; 4])> = more
        .iter()
        .map(|(code, value)| (*code, value.to_be_bytes()))
        .collect();
    let mut options: Vec<(u16, &[u8])> = vec![(3, identifier)];
    if !scope.is_empty() {
        options.push((4, scope));
    }
    options.extend(values.iter().map(|(code, value)| (*code, &value[..])));
    datagram(kind, id, &options)
}

/// A DISCOVER or REQUEST on ID in the first scope.
fn message(kind: u8, id: u32, more: &[Seconds]) -> Vec<u8> {
    on(ID, kind, id, SCOPE, more)
}

/// Option 7.
fn number(least: u16, desired: u16) -> Seconds {
    (7, u32::from(least) << 16 | u32::from(desired))
}

/// The specimens' book with a second scope, 239.193.0.0 of size 2.
fn two_scopes() -> Book {
    let mut book = specimen_book();
    book.scopes.push(Scope {
        lowest: 0xEFC1_0000,
        size: 2,
        ttl: 15,
        quotas: vec![Quota { share: 0, limit: 2 }; 2],
    });
    book.names.push(ScopeNames::none(2));
    book
}

/// The answer to house 1: its type and octets, or `Err` with the error of a NAK or the discard.
/// The book is sound afterwards.
fn answer(book: &mut Book, time: u32, message: &[u8]) -> Result<(u8, Vec<u8>), u16> {
    let (outcome, reply) = call(book, CLIENT_1, time, message);
    assert!(sound(book));
    if outcome != 0 {
        return Err(u16::from(outcome));
    }
    match error_of(&reply) {
        Some(error) => Err(error),
        None => Ok((reply[1], reply)),
    }
}

/// The type of the answer to house 1, or the error or discard.
fn kind(book: &mut Book, time: u32, message: &[u8]) -> Result<u8, u16> {
    answer(book, time, message).map(|(kind, _)| kind)
}

const OFFER: Result<u8, u16> = Ok(2);
const ACK: Result<u8, u16> = Ok(5);
/// Errors of a NAK, and the discard of a DISCOVER that draws one.
const CANT: Result<u8, u16> = Err(0);
const BAD: Result<u8, u16> = Err(1);
const SKEW: Result<u8, u16> = Err(2);
const NOT_HELD: Result<u8, u16> = Err(3);
const SILENT: Result<u8, u16> = Err(8);

/// House 1 has been offered .0 and .1 from 1000 to 1500, by a DISCOVER of id 9 at 1000.
fn offered() -> Book {
    let mut book = two_scopes();
    let discover = message(DISCOVER, 9, &[number(1, 2), (1, 500)]);
    assert_eq!(kind(&mut book, 1000, &discover), OFFER);
    assert_eq!(book.holds, [the_hold()]);
    assert!(book.leases.is_empty());
    book
}

fn the_hold() -> Hold {
    let mut hold = hold(1, ID, (1000, 1500), &[0, 1], 1030);
    hold.lease.transaction = 9;
    hold
}

/// The lease that a REQUEST turns the hold into.
fn the_lease(id: u32) -> Lease {
    let mut lease = lease(1, ID, 1000, 1500, &[0, 1]);
    lease.transaction = id;
    lease
}

/// `offered`, with the clock raised.
fn offered_at(time: u32) -> Book {
    let mut book = offered();
    book.clock = time;
    book
}

#[test]
fn an_offer_leaves_a_hold_and_a_request_turns_it_into_the_lease() {
    for time in [1000_u32, 1001, 1029] {
        let mut book = offered();
        let ack = hex(
            "00 05 0001 0000000A  0001 0004 000001F4  0002 0006 0001 0A010101  0003 0002 0041
             0004 0004 EFC00000  0006 0004 000003E8  000A 0006 EFC00000 0002  000B 0004",
        );
        let ack = [ack, time.to_be_bytes().to_vec(), vec![0; 4]].concat();
        let request = message(REQUEST, 10, &[number(1, 2), (1, 500)]);
        assert_eq!(answer(&mut book, time, &request), Ok((5, ack.clone())));
        // With the REQUEST's type and id, and with its period and addresses.
        let mut expected = two_scopes();
        expected.clock = time;
        expected.leases = vec![the_lease(10)];
        assert_eq!(book, expected);
        // The same again is a resend, the DISCOVER again is error 1, and so is another REQUEST.
        assert_eq!(answer(&mut book, time, &request), Ok((5, ack)));
        let discover = message(DISCOVER, 9, &[number(1, 2), (1, 500)]);
        assert_eq!(kind(&mut book, time, &discover), SILENT);
        assert_eq!(kind(&mut book, time, &message(REQUEST, 11, &[])), BAD);
        assert_eq!(book, expected);
    }
    // The REQUEST may have the DISCOVER's id.
    let mut book = offered();
    assert_eq!(kind(&mut book, 1000, &message(REQUEST, 9, &[])), ACK);
    assert_eq!(book.leases, [the_lease(9)]);
}

#[test]
fn another_house_between_finds_the_addresses_held() {
    let greedy = on(OTHER, REQUEST, 1, SCOPE, &[number(1, 4)]);
    let mut alone = two_scopes();
    let (_, reply) = call(&mut alone, CLIENT_2, 1000, &greedy);
    assert_eq!(option_of(&reply, 10), Some(hex("EFC00000 0002")));
    let mut book = offered();
    let (_, reply) = call(&mut book, CLIENT_2, 1010, &greedy);
    assert_eq!(option_of(&reply, 10), Some(hex("EFC00002 0002")));
    // Presentation has asked the editor, and gets them still.
    assert_eq!(kind(&mut book, 1029, &message(REQUEST, 10, &[])), ACK);
    assert_eq!(book.leases[0], the_lease(10));
    // Its own identifier of the same octets is another.
    let mut book = offered();
    let same = message(REQUEST, 9, &[number(1, 4)]);
    let (_, reply) = call(&mut book, CLIENT_2, 1000, &same);
    assert_eq!(option_of(&reply, 10), Some(hex("EFC00002 0002")));
    assert_eq!(book.holds, [the_hold()]);
    // After the lapse the addresses are nobody's.
    let mut book = offered();
    let (_, reply) = call(&mut book, CLIENT_2, 1030, &greedy);
    assert_eq!(option_of(&reply, 10), Some(hex("EFC00000 0002")));
    assert!(book.holds.is_empty());
}

#[test]
fn a_hold_lapses_when_the_clock_reaches_thirty_seconds() {
    // Every call that isn't discard 1 or 2 drops it.
    let calls: [(u32, Vec<u8>, u8); 5] = [
        (STRANGER, vec![], 3),
        (CLIENT_2, vec![0; 11], 4),
        (CLIENT_1, datagram(3, 1, &[]), 5),
        (CLIENT_1, on(ID, RELEASE, 1, &[], &[]), 0),
        (CLIENT_2, datagram(8, 1, &[(3, ID)]), 0),
    ];
    for (client, datagram, outcome) in calls {
        let mut book = offered();
        assert_eq!(call(&mut book, client, 1029, &datagram).0, outcome);
        assert_eq!(book, offered_at(1029));
        assert_eq!(call(&mut book, client, 1030, &datagram).0, outcome);
        assert!(book.holds.is_empty());
    }
    let mut book = offered();
    assert_eq!(
        serve(&mut book, &[], STRANGER, 9999, &mut [0; 511]),
        (2, 0, 0, 0)
    );
    let mut unsound = book.clone();
    unsound.scopes[0].ttl = 0;
    assert_eq!(call(&mut unsound, STRANGER, 9999, &[]).0, 1);
    assert_eq!((&book, &unsound.holds), (&offered(), &book.holds));
    // A REQUEST is then judged as new.
    assert_eq!(kind(&mut book, 1030, &message(REQUEST, 10, &[])), ACK);
    assert_eq!((book.leases[0].start, book.leases[0].end), (1030, 4630));
    assert_eq!(book.leases[0].offsets, [0]);
}

/// The lapse of the hold that a DISCOVER at this clock leaves, with Current Time.
fn lapse_of(clock: u32, more: &[Seconds]) -> u32 {
    let mut book = specimen_book();
    book.clock = clock;
    let discover = message(DISCOVER, 9, &[more, &[(11, clock)]].concat());
    assert_eq!(kind(&mut book, 0, &discover), OFFER);
    book.holds[0].lapse
}

#[test]
fn a_hold_lapses_at_the_periods_end_if_that_is_sooner() {
    for (length, lapse) in [(1, 1001), (10, 1010), (29, 1029), (30, 1030), (31, 1030)] {
        assert_eq!(lapse_of(1000, &[(1, length)]), lapse);
    }
    // Next week's lapses in thirty seconds too, and no period is too long.
    assert_eq!(lapse_of(1000, &[(6, 605_800)]), 1030);
    assert_eq!(lapse_of(1000, &[(1, u32::MAX)]), 1030);
    assert_eq!(lapse_of(1000, &[(6, 1005), (1, 10)]), 1015);
    // No sum wraps at the clock's end.
    assert_eq!(lapse_of(u32::MAX - 5, &[(1, 5)]), u32::MAX);
    assert_eq!(lapse_of(u32::MAX - 29, &[(1, 29)]), u32::MAX);
    assert_eq!(lapse_of(u32::MAX - 30, &[(1, 30)]), u32::MAX);
    assert_eq!(lapse_of(u32::MAX - 31, &[(1, 31)]), u32::MAX - 1);
    // The short one is gone at its end.
    let mut book = specimen_book();
    kind(&mut book, 1000, &message(DISCOVER, 9, &[(1, 10)])).expect("an OFFER");
    assert_eq!(call(&mut book, STRANGER, 1009, &[]).0, 3);
    assert_eq!(book.holds.len(), 1);
    assert_eq!(call(&mut book, STRANGER, 1010, &[]).0, 3);
    assert!(book.holds.is_empty());
}

#[test]
fn a_hold_takes_one_of_the_houses_records() {
    let mut book = two_scopes();
    book.leases = (0..15u8)
        .map(|number| {
            let start = 5000 + u32::from(number);
            lease(1, &[1, number], start, start + 1, &[0])
        })
        .collect();
    assert_eq!(kind(&mut book, 1000, &message(DISCOVER, 9, &[])), OFFER);
    let full = book.clone();
    // The sixteenth record is the hold's: none is left for another identifier, in either scope.
    for scope in [SCOPE, ELSEWHERE] {
        assert_eq!(
            kind(&mut book, 1000, &on(OTHER, REQUEST, 1, scope, &[])),
            CANT
        );
        assert_eq!(
            kind(&mut book, 1000, &on(OTHER, DISCOVER, 1, scope, &[])),
            SILENT
        );
    }
    assert_eq!(book, full);
    // Its own REQUEST needs none, and one for another scope has the one that its drop leaves.
    for scope in [SCOPE, ELSEWHERE] {
        let mut book = full.clone();
        assert_eq!(kind(&mut book, 1000, &on(ID, REQUEST, 1, scope, &[])), ACK);
        assert_eq!((book.leases.len(), book.holds.len()), (16, 0));
    }
    // The other house has records of its own, and the lapse leaves one.
    let other = on(OTHER, REQUEST, 1, SCOPE, &[]);
    assert_eq!(call(&mut book, CLIENT_2, 1029, &other).1[1], 5);
    assert_eq!(kind(&mut book, 1029, &other), CANT);
    assert_eq!(kind(&mut book, 1030, &other), ACK);
}

#[test]
fn a_hold_forgets_its_identifiers_release() {
    let remembered = [
        release(1, ID, 6, 990),
        release(1, OTHER, 6, 1000),
        release(2, ID, 6, 1000),
    ];
    let mut book = two_scopes();
    book.releases = remembered.to_vec();
    let again = on(ID, RELEASE, 6, &[], &[]);
    assert_eq!(kind(&mut book, 1000, &again), ACK);
    // An OFFER that isn't given forgets nothing.
    let refused = message(DISCOVER, 9, &[number(9, 9)]);
    assert_eq!(kind(&mut book, 1000, &refused), SILENT);
    assert_eq!(book.releases, remembered);
    assert_eq!(kind(&mut book, 1000, &message(DISCOVER, 9, &[])), OFFER);
    assert_eq!(book.releases, remembered[1..]);
    assert_eq!(kind(&mut book, 1000, &again), NOT_HELD);
    // It comes back neither with the lapse nor with the drop.
    let mut lapsed = book.clone();
    assert_eq!(kind(&mut lapsed, 1030, &again), NOT_HELD);
    let elsewhere = on(ID, REQUEST, 1, ELSEWHERE, &[number(9, 9)]);
    assert_eq!(kind(&mut book, 1000, &elsewhere), CANT);
    assert!(book.holds.is_empty() && lapsed.holds.is_empty());
    for book in [book, lapsed] {
        assert_eq!(book.releases, remembered[1..]);
    }
}

#[test]
fn held_addresses_count_in_holding_limits_and_shares() {
    let mut book = offered();
    let text = "scope house share limit holds
239.192.0.0 1 2 3 2
239.192.0.0 2 1 4 0
239.193.0.0 1 0 2 0
239.193.0.0 2 0 2 0
";
    assert_eq!(board_text(&book), text);
    // House 1's limit is 3.
    let two = on(OTHER, REQUEST, 1, SCOPE, &[number(2, 2)]);
    let one = on(OTHER, REQUEST, 1, SCOPE, &[number(1, 4)]);
    assert_eq!(kind(&mut book, 1000, &two), CANT);
    assert_eq!(kind(&mut book, 1000, &one), ACK);
    assert_eq!(book.leases[0].offsets, [2]);
    assert!(board_text(&book).contains("239.192.0.0 1 2 3 3\n"));
    // With three held only the share of house 2 is left.
    let message = message(REQUEST, 1, &[number(1, 4)]);
    let (_, reply) = call(&mut book, CLIENT_2, 1000, &message);
    assert_eq!(option_of(&reply, 10), Some(hex("EFC00003 0001")));
    // A lease and a hold on one address are one address.
    let mut book = offered();
    book.leases = vec![lease(1, OTHER, 1500, 2000, &[1, 2])];
    assert!(sound(&book));
    assert!(board_text(&book).contains("239.192.0.0 1 2 3 3\n"));
}

#[test]
fn a_held_address_is_the_houses_own() {
    // From 1500 on the hold leaves its addresses free: they are the lowest of the f.
    let from = |start| {
        on(
            OTHER,
            REQUEST,
            1,
            SCOPE,
            &[(6, start), (11, 1000), number(2, 3)],
        )
    };
    let mut book = offered();
    assert_eq!(kind(&mut book, 1000, &from(1500)), ACK);
    assert_eq!(book.leases[0].offsets, [0, 1, 2]);
    // At 1499 they overlap it, and new ones would be above the limit.
    assert_eq!(kind(&mut offered(), 1000, &from(1499)), CANT);
}

#[test]
fn a_renew_may_not_overlap_a_hold() {
    // The lease on .1 ends where the hold on .1 starts.
    let mut book = specimen_book();
    book.leases = vec![lease(1, OTHER, 1000, 1500, &[1])];
    let later = message(DISCOVER, 9, &[(6, 1500), (11, 1000), number(1, 1)]);
    assert_eq!(kind(&mut book, 1000, &later), OFFER);
    assert_eq!(book.holds[0].lease.offsets, [1]);
    let before = book.clone();
    let renew = |length| on(OTHER, RENEW, 2, &[], &[(1, length)]);
    assert_eq!(kind(&mut book, 1000, &renew(501)), CANT);
    assert_eq!(book, before);
    assert_eq!(kind(&mut book.clone(), 1000, &renew(500)), ACK);
    // Once it has lapsed there is nothing to overlap.
    assert_eq!(kind(&mut book, 1030, &renew(5000)), ACK);
}

#[test]
fn error_1_is_about_leases_and_a_discover_for_a_hold_elsewhere() {
    let mut book = offered();
    // The last test of error 1, and so before error 2.
    for more in [&[][..], &[(11, 9000)], &[number(9, 9)]] {
        let elsewhere = on(ID, DISCOVER, 9, ELSEWHERE, more);
        assert_eq!(kind(&mut book, 1000, &elsewhere), SILENT);
        assert_eq!(book, offered());
    }
    // Another identifier, and another house's, are free to.
    let other = on(OTHER, DISCOVER, 9, ELSEWHERE, &[]);
    assert_eq!(kind(&mut book, 1000, &other), OFFER);
    let (_, reply) = call(
        &mut book,
        CLIENT_2,
        1000,
        &on(ID, DISCOVER, 9, ELSEWHERE, &[]),
    );
    assert_eq!(option_of(&reply, 10), Some(hex("EFC10001 0001")));
    // They stand by house, then identifier.
    let keys: Vec<_> = book
        .holds
        .iter()
        .map(|hold| (hold.lease.house, &hold.lease.identifier[..]))
        .collect();
    assert_eq!(keys, [(1, ID), (1, OTHER), (2, ID)]);
    // After the lapse the identifier is free for the other scope.
    let elsewhere = on(ID, DISCOVER, 9, ELSEWHERE, &[]);
    assert_eq!(kind(&mut book, 1030, &elsewhere), OFFER);
    // Of a leased identifier every DISCOVER and REQUEST is refused, in its scope and in the other.
    let mut book = two_scopes();
    book.leases = vec![the_lease(1)];
    for scope in [SCOPE, ELSEWHERE] {
        assert_eq!(kind(&mut book, 1000, &on(ID, REQUEST, 9, scope, &[])), BAD);
        assert_eq!(
            kind(&mut book, 1000, &on(ID, DISCOVER, 9, scope, &[])),
            SILENT
        );
    }
    assert_eq!((book.leases, book.holds), (vec![the_lease(1)], vec![]));
}

#[test]
fn a_discover_for_a_hold_repeats_the_held_offer() {
    let offer = |id: u32, time: u32| {
        let head = hex("00 02 0001");
        let options = hex("0001 0004 000001F4  0002 0006 0001 0A010101  0003 0002 0041
             0004 0004 EFC00000  0006 0004 000003E8  000A 0006 EFC00000 0002  000B 0004");
        let end = vec![0; 4];
        let (id, time) = (id.to_be_bytes().to_vec(), time.to_be_bytes().to_vec());
        [head, id, options, time, end].concat()
    };
    // Whatever the id and the wishes: the period and addresses held, and the hold as it was.
    let wishes: [&[Seconds]; 5] = [
        &[],
        &[number(1, 2), (1, 500)],
        &[(1, 7), number(2, 64)],
        &[(6, 2000), (11, 1000)],
        &[(1, u32::MAX), (6, u32::MAX), (11, 1000)],
    ];
    for more in wishes {
        for (id, time) in [(9, 1000), (10, 1000), (11, 1029)] {
            let mut book = offered();
            let again = message(DISCOVER, id, more);
            let expected = Ok((2, offer(id, time)));
            assert_eq!(answer(&mut book, time, &again), expected);
            assert_eq!(book, offered_at(time));
        }
    }
    // It isn't renewed: at 1030 there is a new one.
    let mut book = offered();
    assert_eq!(kind(&mut book, 1029, &message(DISCOVER, 9, &[])), OFFER);
    assert_eq!(kind(&mut book, 1030, &message(DISCOVER, 9, &[])), OFFER);
    assert_eq!(
        (book.holds[0].lapse, book.holds[0].lease.start),
        (1060, 1030)
    );
}

/// What becomes of `offered` with a DISCOVER and with a REQUEST of these options for the hold, at a clock.
/// A refusal keeps the hold, and an answer gives what is held.
fn for_the_hold(time: u32, more: &[Seconds]) -> [Result<u8, u16>; 2] {
    let mut discovered = offered();
    let discover = kind(&mut discovered, time, &message(DISCOVER, 9, more));
    assert_eq!(discovered, offered_at(time));
    let mut requested = offered();
    let request = kind(&mut requested, time, &message(REQUEST, 10, more));
    let mut expected = offered_at(time);
    if request.is_ok() {
        expected.holds.clear();
        expected.leases = vec![the_lease(10)];
    }
    assert_eq!(requested, expected);
    [discover, request]
}

#[test]
fn it_is_no_resend_and_errors_1_and_2_come_first() {
    for bad in [
        (5, 9 << 16),
        (13, 1),
        (1, 0),
        number(0, 1),
        number(2, 1),
        (6, 1000),
    ] {
        assert_eq!(for_the_hold(1000, &[bad]), [SILENT, BAD], "{bad:?}");
    }
    let before_start = [(6, 1000), (15, 999), (11, 1000)];
    assert_eq!(for_the_hold(1000, &before_start), [SILENT, BAD]);
    assert_eq!(for_the_hold(1000, &[(15, 1000)]), [SILENT, BAD]);
    assert_eq!(for_the_hold(1000, &[(11, 2800)]), [OFFER, ACK]);
    assert_eq!(for_the_hold(1000, &[(11, 2801)]), [SILENT, SKEW]);
    // Within error 0's reach too.
    assert_eq!(
        for_the_hold(1000, &[(11, 2801), number(9, 9)]),
        [SILENT, SKEW]
    );
}

#[test]
fn fewer_held_than_least_are_error_0_and_the_hold_is_kept() {
    assert_eq!(for_the_hold(1000, &[number(1, 1)]), [OFFER, ACK]);
    assert_eq!(for_the_hold(1000, &[number(2, 2)]), [OFFER, ACK]);
    assert_eq!(for_the_hold(1000, &[number(3, 3)]), [SILENT, CANT]);
    assert_eq!(for_the_hold(1029, &[number(3, 4)]), [SILENT, CANT]);
    assert_eq!(for_the_hold(1000, &[number(258, 258)]), [SILENT, CANT]);
    // More held than desired: all are given.
    assert_eq!(for_the_hold(1000, &[number(1, 1), (1, 7)]), [OFFER, ACK]);
}

#[test]
fn a_period_that_the_minimum_or_latest_start_forbids_is_error_0() {
    assert_eq!(for_the_hold(1000, &[(14, 500)]), [OFFER, ACK]);
    assert_eq!(for_the_hold(1000, &[(14, 501)]), [SILENT, CANT]);
    // The hold's length counts, not the message's.
    assert_eq!(for_the_hold(1000, &[(14, 500), (1, 7)]), [OFFER, ACK]);
    assert_eq!(for_the_hold(1000, &[(14, 501), (1, 900)]), [SILENT, CANT]);
    // So does its start, even where the clock has passed it.
    assert_eq!(for_the_hold(1000, &[(15, 1000), (11, 1000)]), [OFFER, ACK]);
    assert_eq!(for_the_hold(1029, &[(15, 1000), (11, 1000)]), [OFFER, ACK]);
    assert_eq!(for_the_hold(1000, &[(15, 999), (11, 1000)]), [SILENT, CANT]);
    assert_eq!(for_the_hold(1000, &[(15, 0), (11, 1000)]), [SILENT, CANT]);
    // A held length isn't cut to the longest lease.
    let mut book = specimen_book();
    book.holds = vec![hold(1, ID, (0, 4_000_000), &[0], 1001)];
    let minimum = |length| message(REQUEST, 9, &[(14, length)]);
    assert_eq!(kind(&mut book, 1000, &minimum(4_000_001)), CANT);
    assert_eq!(kind(&mut book, 1000, &minimum(4_000_000)), ACK);
}

#[test]
fn horizon_end_and_grant_are_not_asked_for_a_hold() {
    let far = [(6, u32::MAX), (11, 1000), (1, u32::MAX)];
    assert_eq!(for_the_hold(1000, &far), [OFFER, ACK]);
    let beyond = [(6, 1000 + 2_592_001), (11, 1000)];
    assert_eq!(for_the_hold(1000, &beyond), [OFFER, ACK]);
    assert_eq!(for_the_hold(1000, &[number(1, u16::MAX)]), [OFFER, ACK]);
    // A hold that starts beyond the horizon, from a file.
    let mut book = specimen_book();
    book.holds = vec![hold(1, ID, (u32::MAX - 1, u32::MAX), &[3], 1030)];
    assert_eq!(kind(&mut book, 1000, &message(REQUEST, 9, &[])), ACK);
    assert_eq!(book.leases[0].start, u32::MAX - 1);
}

#[test]
fn a_request_for_another_scope_drops_the_hold_and_is_judged_as_new() {
    let mut book = offered();
    let elsewhere = on(ID, REQUEST, 10, ELSEWHERE, &[number(1, 3)]);
    let (_, reply) = answer(&mut book, 1000, &elsewhere).expect("an ACK");
    assert_eq!(option_of(&reply, 10), Some(hex("EFC10000 0002")));
    let mut alone = two_scopes();
    assert_eq!(answer(&mut alone, 1000, &elsewhere), Ok((5, reply)));
    assert_eq!(book, alone);
    // The drop stands if it is refused: more than there are, W-203, the horizon.
    let refused: [&[Seconds]; 3] = [
        &[number(3, 3)],
        &[(14, 3601)],
        &[(6, 1000 + 2_592_001), (11, 1000)],
    ];
    for more in refused {
        let mut book = offered();
        let elsewhere = on(ID, REQUEST, 10, ELSEWHERE, more);
        assert_eq!(kind(&mut book, 1000, &elsewhere), CANT);
        assert_eq!(book, two_scopes());
    }
    // Other holds stay, the other house's on the same identifier too.
    let mut book = offered();
    call(&mut book, CLIENT_2, 1000, &message(DISCOVER, 1, &[]));
    kind(&mut book, 1000, &on(OTHER, DISCOVER, 1, SCOPE, &[])).expect("an OFFER");
    let others = book.holds[1..].to_vec();
    assert_eq!(others.len(), 2);
    assert_eq!(kind(&mut book, 1000, &elsewhere), ACK);
    assert_eq!(book.holds, others);
}

#[test]
fn errors_1_and_2_and_discards_keep_the_hold() {
    let mut book = offered();
    let options: [(Seconds, Result<u8, u16>); 4] = [
        ((1, 0), BAD),
        ((13, 1), BAD),
        ((6, 1000), BAD),
        ((11, 2801), SKEW),
    ];
    for (more, expected) in options {
        let elsewhere = on(ID, REQUEST, 10, ELSEWHERE, &[more]);
        assert_eq!(kind(&mut book, 1000, &elsewhere), expected);
    }
    // A scope that isn't ours, and none.
    let not_ours = on(ID, REQUEST, 10, &[0xEF, 0xC0, 0, 1], &[]);
    assert_eq!(kind(&mut book, 1000, &not_ours), BAD);
    assert_eq!(kind(&mut book, 1000, &on(ID, REQUEST, 10, &[], &[])), BAD);
    // Discards 3 to 7: a stranger, family 2, no identifier, a required feature, another server.
    let elsewhere = on(ID, REQUEST, 10, ELSEWHERE, &[]);
    assert_eq!(call(&mut book, STRANGER, 1000, &elsewhere).0, 3);
    let mut family_2 = elsewhere.clone();
    family_2[3] = 2;
    assert_eq!(kind(&mut book, 1000, &family_2), Err(4));
    assert_eq!(
        kind(&mut book, 1000, &datagram(3, 9, &[(4, ELSEWHERE)])),
        Err(5)
    );
    let feature: &[u8] = &[0, 0, 0, 0, 0, 1, 0, 1];
    let requiring = datagram(3, 9, &[(3, ID), (4, ELSEWHERE), (12, feature)]);
    assert_eq!(kind(&mut book, 1000, &requiring), Err(6));
    for scope in [SCOPE, ELSEWHERE] {
        let to_another = datagram(3, 9, &[(2, &[0, 1, 1, 2, 3, 4]), (3, ID), (4, scope)]);
        assert_eq!(kind(&mut book, 1000, &to_another), Err(7));
    }
    assert_eq!(book, offered());
}

#[test]
fn renew_and_release_for_a_hold_draw_error_3() {
    let mut book = offered();
    for (kind_of, id) in [(RENEW, 9), (RENEW, 10), (RELEASE, 9), (RELEASE, 10)] {
        let plain = on(ID, kind_of, id, &[], &[]);
        assert_eq!(kind(&mut book, 1000, &plain), NOT_HELD);
        // Errors 1 and 2 come first; 11 is not allowed in a RELEASE.
        assert_eq!(kind(&mut book, 1000, &on(ID, kind_of, id, SCOPE, &[])), BAD);
        let skew = on(ID, kind_of, id, &[], &[(11, 2801)]);
        let expected = if kind_of == RENEW { SKEW } else { BAD };
        assert_eq!(kind(&mut book, 1000, &skew), expected);
    }
    // Nothing is remembered, and the hold stays.
    assert_eq!(book, offered());
    assert_eq!(kind(&mut book, 1000, &message(REQUEST, 10, &[])), ACK);
    assert_eq!(kind(&mut book, 1000, &on(ID, RELEASE, 11, &[], &[])), ACK);
    assert_eq!(book.releases, [release(1, ID, 11, 1000)]);
}

#[test]
fn without_a_hold_an_offer_is_drawn_where_a_request_would_be_granted() {
    let wishes: [&[Seconds]; 7] = [
        &[],
        &[number(1, 4)],
        &[number(3, 3), (1, 7)],
        &[number(4, 4)],
        &[(14, 3601)],
        &[(6, 1500), (11, 1000), number(2, 2)],
        &[(6, 1000 + 2_592_001), (11, 1000)],
    ];
    for more in wishes {
        let mut book = specimen_book();
        let offer = answer(&mut book, 1000, &message(DISCOVER, 9, more));
        let mut alone = specimen_book();
        let ack = answer(&mut alone, 1000, &message(REQUEST, 9, more));
        match (offer, ack) {
            (Ok((2, mut offer)), Ok((5, ack))) => {
                // Then the REQUEST gets just that, and leaves the book as without the DISCOVER.
                offer[1] = 5;
                assert_eq!(offer, ack);
                let after = answer(&mut book, 1000, &message(REQUEST, 9, more));
                assert_eq!(after, Ok((5, ack)));
            }
            (offer, ack) => assert_eq!((offer, ack), (Err(8), Err(0))),
        }
        assert_eq!(book, alone);
    }
}

#[test]
fn getinfo_has_nothing_to_do_with_holds() {
    let mut book = offered();
    let getinfo = datagram(8, 9, &[(3, ID), (5, &[0, 9, 0, 11])]);
    assert_eq!(kind(&mut book, 1000, &getinfo), ACK);
    assert_eq!(book, offered());
}
