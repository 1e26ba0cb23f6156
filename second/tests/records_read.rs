//! How many records were read (W-210): the count that is returned with each outcome.

mod common;

use common::*;
use second::ending::compared;
use second::programs::replay;
use second::{file, serve, sound, Book, Quota, Scope, ScopeNames};

/// Types of messages.
const DISCOVER: u8 = 1;
const REQUEST: u8 = 3;
const RENEW: u8 = 4;
const RELEASE: u8 = 7;
const GETINFO: u8 = 8;

const FIRST: u32 = 0xEFC0_0000;
const SECOND: u32 = 0xEFC1_0000;

/// House 1 has, in order of ending, a hold on `cc` that lapses at 1020, a lease on `bb` that ends at 2000 and one on
/// `aa` that ends at 3000; house 2 has one on `aa`. There is a second scope, where house 1 has nothing.
fn three() -> Book {
    let mut book = specimen_book();
    book.scopes.push(Scope {
        lowest: SECOND,
        size: 2,
        ttl: 15,
        quotas: vec![Quota { share: 0, limit: 2 }; 2],
    });
    book.names.push(ScopeNames::none(2));
    book.leases = vec![
        lease(1, b"aa", 1000, 3000, &[0]),
        lease(1, b"bb", 1000, 2000, &[1]),
        lease(2, b"aa", 1000, 5000, &[3]),
    ];
    book.holds = vec![hold(1, b"cc", (4000, 5000), &[0], 1020)];
    assert!(sound(&book));
    book
}

/// A message on an identifier with these options of four octets.
fn message(kind: u8, id: u32, identifier: &[u8], more: &[(u16, u32)]) -> Vec<u8> {
    let values: Vec<_> = more
        .iter()
        .map(|(code, n)| (*code, n.to_be_bytes()))
        .collect();
    let mut options: Vec<(u16, &[u8])> = vec![(3, identifier)];
    options.extend(values.iter().map(|(code, value)| (*code, &value[..])));
    datagram(kind, id, &options)
}

/// What house 1's message draws at 1000: outcome, error of a NAK, count.
fn drawn(book: &mut Book, message: &[u8]) -> (u8, Option<u16>, usize) {
    let (outcome, _, count, reply) = call_with_count(book, CLIENT_1, 1000, message);
    (outcome, error_of(&reply), count)
}

/// The same in that book.
fn draws(message: &[u8]) -> (u8, Option<u16>, usize) {
    drawn(&mut three(), message)
}

#[test]
fn a_lookup_reads_up_to_the_match_or_all_of_the_houses_records() {
    let book = three();
    for (identifier, count) in [(b"cc", 1), (b"bb", 2), (b"aa", 3), (b"zz", 3)] {
        assert_eq!(compared(&book, 1, identifier), count);
    }
    assert_eq!(compared(&book, 2, b"aa"), 1);
    assert_eq!(compared(&book, 2, b"cc"), 1);
    assert_eq!(compared(&specimen_book(), 1, b"aa"), 0);
}

#[test]
fn a_discover_has_the_lookup_of_error_1_alone() {
    let asking = |identifier| message(DISCOVER, 9, identifier, &[(4, FIRST)]);
    // New: an OFFER. Leased: error 1. Held: the offer is repeated.
    assert_eq!(draws(&asking(b"zz")), (0, None, 3));
    assert_eq!(draws(&asking(b"aa")), (8, None, 3));
    assert_eq!(draws(&asking(b"bb")), (8, None, 2));
    assert_eq!(draws(&asking(b"cc")), (0, None, 1));
}

#[test]
fn a_request_has_two_though_they_find_the_same() {
    let asking = |identifier| message(REQUEST, 9, identifier, &[(4, FIRST)]);
    assert_eq!(draws(&asking(b"zz")), (0, None, 6));
    assert_eq!(draws(&asking(b"aa")), (0, Some(1), 6));
    assert_eq!(draws(&asking(b"bb")), (0, Some(1), 4));
    assert_eq!(draws(&asking(b"cc")), (0, None, 2));
}

#[test]
fn a_request_sent_again_has_the_resend_tests_alone() {
    // Their transaction id is 1. Nothing else is asked, the scope neither.
    assert_eq!(draws(&message(REQUEST, 1, b"aa", &[])), (0, None, 3));
    assert_eq!(draws(&message(REQUEST, 1, b"bb", &[(16, 0)])), (0, None, 2));
    // The hold's id is 1 too, and it is no lease.
    let held = message(REQUEST, 1, b"cc", &[(4, FIRST)]);
    assert_eq!(draws(&held), (0, None, 2));
}

#[test]
fn a_renew_has_the_resend_tests_and_error_3s() {
    let asking = |id, identifier| message(RENEW, id, identifier, &[]);
    assert_eq!(draws(&asking(9, b"aa")), (0, None, 6));
    assert_eq!(draws(&asking(9, b"bb")), (0, None, 4));
    assert_eq!(draws(&asking(9, b"zz")), (0, Some(3), 6));
    // A hold is found, and is no lease.
    assert_eq!(draws(&asking(9, b"cc")), (0, Some(3), 2));
    // A REQUEST's id is no RENEW's; sent again, a RENEW has the first alone. Its lease now ends last of all.
    let mut book = three();
    let renew = message(RENEW, 1, b"bb", &[(1, 6000)]);
    assert_eq!(drawn(&mut book, &renew), (0, None, 4));
    assert_eq!(drawn(&mut book, &renew), (0, None, 3));
    assert_eq!(
        drawn(&mut book, &message(RENEW, 9, b"aa", &[])),
        (0, None, 4)
    );
}

#[test]
fn a_release_has_error_3s_alone() {
    let asking = |identifier| message(RELEASE, 9, identifier, &[]);
    assert_eq!(draws(&asking(b"aa")), (0, None, 3));
    assert_eq!(draws(&asking(b"bb")), (0, None, 2));
    assert_eq!(draws(&asking(b"zz")), (0, Some(3), 3));
    assert_eq!(draws(&asking(b"cc")), (0, Some(3), 1));
}

#[test]
fn what_is_remembered_of_releases_is_no_lookup() {
    let mut book = three();
    let release = message(RELEASE, 9, b"bb", &[]);
    assert_eq!(drawn(&mut book, &release), (0, None, 2));
    // Sent again: no lookup. With another id: those that are left.
    assert_eq!(drawn(&mut book, &release), (0, None, 0));
    let other = message(RELEASE, 10, b"bb", &[]);
    assert_eq!(drawn(&mut book, &other), (0, Some(3), 2));
    // An option that isn't allowed doesn't keep it from being known.
    let odd = message(RELEASE, 9, b"bb", &[(11, 1000)]);
    assert_eq!(drawn(&mut book, &odd), (0, None, 0));
    // 300 seconds later it is error 3.
    let (_, _, count, reply) = call_with_count(&mut book, CLIENT_1, 1300, &release);
    assert_eq!((error_of(&reply), count), (Some(3), 1));
}

#[test]
fn a_getinfo_has_none() {
    assert_eq!(draws(&message(GETINFO, 1, b"aa", &[])), (0, None, 0));
    // With an option that isn't allowed it is discard 8, and still none.
    assert_eq!(draws(&message(GETINFO, 1, b"aa", &[(1, 5)])), (8, None, 0));
}

/// What draws error 1 before the identifier is asked for, in the paper's order.
const BAD: [&[(u16, u32)]; 9] = [
    &[(4, FIRST), (13, 0)],
    &[],
    &[(4, FIRST + 1)],
    &[(4, FIRST), (1, 0)],
    &[(4, FIRST), (7, 0)],
    &[(4, FIRST), (7, 2 << 16 | 1)],
    &[(4, FIRST), (6, 1000)],
    &[(4, FIRST), (15, 1000)],
    &[(4, FIRST), (6, 1001), (11, 1000), (15, 1000)],
];

#[test]
fn every_other_test_of_error_1_ends_the_matter_before_the_identifier() {
    for bad in BAD {
        for (identifier, place) in [(b"aa", 3), (b"bb", 2), (b"cc", 1), (b"zz", 3)] {
            let discover = message(DISCOVER, 9, identifier, bad);
            assert_eq!(draws(&discover), (8, None, 0), "{bad:?}");
            let request = message(REQUEST, 9, identifier, bad);
            assert_eq!(draws(&request), (0, Some(1), place), "{bad:?}");
        }
    }
    // RENEW and RELEASE are not asked for their identifier by error 1 at all.
    for bad in [&[(4, FIRST)][..], &[(1, 0)], &[(15, 1000)]] {
        let renew = message(RENEW, 9, b"bb", bad);
        assert_eq!(draws(&renew), (0, Some(1), 2), "{bad:?}");
    }
    let release = message(RELEASE, 9, b"bb", &[(1, 5)]);
    assert_eq!(draws(&release), (0, Some(1), 0));
}

#[test]
fn error_2_comes_after_error_1s_lookup_and_before_error_3s() {
    let late = (11, 2801);
    let discover = message(DISCOVER, 9, b"zz", &[(4, FIRST), late]);
    assert_eq!(draws(&discover), (8, None, 3));
    let request = message(REQUEST, 9, b"zz", &[(4, FIRST), late]);
    assert_eq!(draws(&request), (0, Some(2), 6));
    // The hold is found, and kept.
    let request = message(REQUEST, 9, b"cc", &[(4, FIRST), late]);
    assert_eq!(draws(&request), (0, Some(2), 2));
    for (identifier, place) in [(b"aa", 3), (b"bb", 2), (b"cc", 1), (b"zz", 3)] {
        let renew = message(RENEW, 9, identifier, &[late]);
        assert_eq!(draws(&renew), (0, Some(2), place));
    }
}

#[test]
fn error_0_has_all_the_lookups() {
    let many = (7, 4 << 16 | 4);
    assert_eq!(
        draws(&message(DISCOVER, 9, b"zz", &[(4, FIRST), many])),
        (8, None, 3)
    );
    assert_eq!(
        draws(&message(REQUEST, 9, b"zz", &[(4, FIRST), many])),
        (0, Some(0), 6)
    );
    assert_eq!(
        draws(&message(REQUEST, 9, b"cc", &[(4, FIRST), many])),
        (0, Some(0), 2)
    );
    let far = [(6, 1000 + 2_592_001), (11, 1000)];
    assert_eq!(draws(&message(RENEW, 9, b"aa", &far)), (0, Some(0), 6));
}

#[test]
fn repeating_turning_and_dropping_a_hold_cost_nothing_more() {
    let in_scope = |kind, scope| message(kind, 9, b"cc", &[(4, scope)]);
    assert_eq!(draws(&in_scope(DISCOVER, FIRST)), (0, None, 1));
    assert_eq!(draws(&in_scope(REQUEST, FIRST)), (0, None, 2));
    // Another scope: the DISCOVER draws error 1, the REQUEST drops the hold and is granted or refused.
    assert_eq!(draws(&in_scope(DISCOVER, SECOND)), (8, None, 1));
    assert_eq!(draws(&in_scope(REQUEST, SECOND)), (0, None, 2));
    let too_many = message(REQUEST, 9, b"cc", &[(4, SECOND), (7, 3 << 16 | 3)]);
    assert_eq!(draws(&too_many), (0, Some(0), 2));
}

#[test]
fn what_has_ended_or_lapsed_is_dropped_before() {
    let release = message(RELEASE, 9, b"aa", &[]);
    for (time, count) in [(1019, 3), (1020, 2), (1999, 2), (2000, 1), (2999, 1)] {
        let (_, _, found, _) = call_with_count(&mut three(), CLIENT_1, time, &release);
        assert_eq!(found, count, "{time}");
    }
    let (_, _, count, reply) = call_with_count(&mut three(), CLIENT_1, 3000, &release);
    assert_eq!((error_of(&reply), count), (Some(3), 0));
}

#[test]
fn only_the_records_of_the_clients_house_are_read() {
    let request = message(REQUEST, 9, b"bb", &[(4, FIRST)]);
    let (outcome, _, count, _) = call_with_count(&mut three(), CLIENT_2, 1000, &request);
    assert_eq!((outcome, count), (0, 2));
    let release = message(RELEASE, 9, b"aa", &[]);
    let (outcome, _, count, _) = call_with_count(&mut three(), CLIENT_2, 1000, &release);
    assert_eq!((outcome, count), (0, 1));
}

#[test]
fn the_place_is_that_in_order_of_ending_and_not_the_files() {
    // `aa` is the file's first and the last to end. As its lease is cut short it comes to the front.
    let mut book = three();
    book.holds.clear();
    let release = message(RELEASE, 9, b"aa", &[]);
    assert_eq!(drawn(&mut book.clone(), &release), (0, None, 2));
    let renew = message(RENEW, 9, b"aa", &[(1, 500)]);
    assert_eq!(drawn(&mut book, &renew), (0, None, 4));
    assert_eq!(drawn(&mut book, &release), (0, None, 1));
    // A hold whose period ends last is found first.
    assert_eq!(draws(&message(RELEASE, 9, b"cc", &[])).2, 1);
}

#[test]
fn sixteen_records_a_lookup_and_thirty_two_a_datagram() {
    let mut book = specimen_book();
    for number in 0..14_u8 {
        let start = 2000 + u32::from(number);
        book.insert(lease(1, &[1, number], start, start + 1, &[0]));
    }
    for number in 0..2_u8 {
        let start = 3000 + u32::from(number);
        let held = hold(1, &[0, number], (start, start + 1), &[0], 1030);
        book.insert_hold(held);
    }
    assert!(sound(&book));
    let unknown = message(REQUEST, 9, b"zz", &[(4, FIRST)]);
    assert_eq!(drawn(&mut book, &unknown), (0, Some(0), 32));
    let last = message(REQUEST, 9, &[1, 13], &[(4, FIRST)]);
    assert_eq!(drawn(&mut book, &last), (0, Some(1), 32));
    assert_eq!(
        drawn(&mut book, &message(RELEASE, 9, b"zz", &[])),
        (0, Some(3), 16)
    );
    let first = message(RELEASE, 9, &[1, 0], &[]);
    assert_eq!(drawn(&mut book, &first), (0, None, 3));
}

#[test]
fn discards_1_to_7_have_none() {
    let good = message(REQUEST, 9, b"aa", &[(4, FIRST)]);
    let served = |book: &mut Book, octets: &[u8], client, room| {
        let (outcome, _, count, _) = serve(book, octets, client, 1000, &mut vec![0; room]);
        (outcome, count)
    };
    let mut unsound = three();
    unsound.scopes[0].ttl = 0;
    assert_eq!(served(&mut unsound, &good, CLIENT_1, 512), (1, 0));
    let mut book = three();
    assert_eq!(served(&mut book, &good, CLIENT_1, 511), (2, 0));
    assert_eq!(served(&mut book, &good, STRANGER, 512), (3, 0));
    assert_eq!(served(&mut book, &good[..11], CLIENT_1, 512), (4, 0));
    assert_eq!(served(&mut book, &good[..20], CLIENT_1, 512), (5, 0));
    let features = datagram(REQUEST, 9, &[(3, b"aa"), (12, &[0, 0, 0, 0, 0, 1, 0, 1])]);
    assert_eq!(served(&mut book, &features, CLIENT_1, 512), (6, 0));
    let elsewhere = datagram(REQUEST, 9, &[(3, b"aa"), (2, &[0, 1, 10, 1, 1, 2])]);
    assert_eq!(served(&mut book, &elsewhere, CLIENT_1, 512), (7, 0));
    // The same is looked up twice where nothing keeps it.
    assert_eq!(served(&mut book, &good, CLIENT_1, 512), (0, 6));
}

#[test]
fn replay_ends_each_calls_line_in_the_count() {
    let mut room = vec![0; file::LONGEST_FILE];
    let length = file::write(&three(), &mut room).expect("sound");
    let mut input = (length as u16).to_be_bytes().to_vec();
    input.extend(&room[..length]);
    let calls = [
        (CLIENT_1, message(RELEASE, 9, b"zz", &[])),
        (CLIENT_1, message(DISCOVER, 9, b"bb", &[(4, FIRST)])),
        (CLIENT_1, vec![0; 12]),
        (CLIENT_1, datagram(RELEASE, 1, &[])),
        (STRANGER, vec![]),
    ];
    for (client, datagram) in &calls {
        input.extend(1000_u32.to_be_bytes());
        input.extend(client.to_be_bytes());
        input.extend(512_u16.to_be_bytes());
        input.extend((datagram.len() as u16).to_be_bytes());
        input.extend(datagram);
    }
    let text = replay(&input);
    let lines: Vec<&str> = text.lines().collect();
    let nak = "0 00060001000000090002000600010a0101010003000\
               27a7a00100002000300000000 #3";
    assert_eq!(lines[..5], [nak, "8 #2", "4 #0", "5 @12 #0", "3 #0"]);
    assert!(lines[5].starts_with("book ") && !lines[5].contains('#'));
}
