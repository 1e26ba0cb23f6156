//! A house's records in order of ending (W-209): by end, a hold's by lapse, ties by identifier. The campus file keeps
//! its own order.

mod common;

use common::*;
use second::ending::records_by_ending;
use second::file::{read, write, LONGEST_FILE};
use second::{sound, Book};

/// The identifiers of a house's records in order of ending.
fn order(book: &Book, house: u8) -> Vec<Vec<u8>> {
    let records = records_by_ending(book, house);
    let identifiers = records.iter().map(|record| record.lease.identifier.clone());
    identifiers.collect()
}

/// A sound book with these leases of house 1, each an identifier, end and address, in the file's order.
fn leased(leases: &[(&[u8], u32, u8)]) -> Book {
    let mut book = specimen_book();
    for (identifier, end, offset) in leases {
        book.insert(lease(1, identifier, end - 1, *end, &[*offset]));
    }
    assert!(sound(&book));
    book
}

#[test]
fn a_record_that_ends_sooner_comes_first() {
    // The identifiers and the starts rise the other way.
    let mut book = specimen_book();
    book.leases = vec![
        lease(1, b"aa", 1000, 4000, &[0]),
        lease(1, b"bb", 1100, 3000, &[1]),
        lease(1, b"cc", 1200, 2000, &[2]),
    ];
    assert!(sound(&book));
    assert_eq!(order(&book, 1), [b"cc", b"bb", b"aa"]);
}

#[test]
fn a_second_is_enough() {
    let book = leased(&[(b"aa", 2001, 0), (b"bb", 2000, 1)]);
    assert_eq!(order(&book, 1), [b"bb", b"aa"]);
}

#[test]
fn ends_are_compared_as_numbers() {
    // By their octets, low octet first, or as signed numbers it would be otherwise.
    let book = leased(&[
        (b"aa", u32::MAX, 0),
        (b"bb", 0x8000_0000, 0),
        (b"cc", 0x7FFF_FFFF, 0),
        (b"dd", 0x0001_0002, 0),
        (b"ee", 0x0001_0001, 1),
        (b"ff", 0x0000_FFFF, 0),
    ]);
    assert_eq!(order(&book, 1), [b"ff", b"ee", b"dd", b"cc", b"bb", b"aa"]);
}

#[test]
fn ties_go_by_identifier_and_a_prefix_is_first() {
    let ties: [&[u8]; 6] = [&[0, 0], &[0, 0, 0], &[0, 1], &[1, 0], &[127, 9], &[128, 0]];
    let mut book = specimen_book();
    for (identifier, start) in ties.iter().zip([3000, 2500, 2000, 1500, 1400, 1300]) {
        // The periods fall as the identifiers rise.
        book.insert_hold(hold(1, identifier, (start, start + 9), &[0], 1020));
    }
    assert!(sound(&book));
    assert_eq!(order(&book, 1), ties);
    // A second later is last, whatever the identifier.
    book.holds[0].lapse = 1021;
    assert_eq!(order(&book, 1)[5], [0, 0]);
    // Leases, as many as the house may have addresses.
    let book = leased(&[
        (&[0, 1], 2000, 0),
        (&[0, 0, 9], 2000, 1),
        (&[0, 0], 2000, 2),
    ]);
    assert_eq!(order(&book, 1), [&[0, 0][..], &[0, 0, 9], &[0, 1]]);
}

#[test]
fn a_hold_goes_by_its_lapse_and_never_by_its_periods_end() {
    // The hold's period ends last of all, and it goes first.
    let mut book = leased(&[(b"bb", 1031, 0), (b"cc", 1029, 1)]);
    book.holds = vec![hold(1, b"aa", (5000, 9000), &[0], 1030)];
    assert!(sound(&book));
    assert_eq!(order(&book, 1), [b"cc", b"aa", b"bb"]);
    let records = records_by_ending(&book, 1);
    let endings: Vec<u32> = records.iter().map(|record| record.ending()).collect();
    assert_eq!(endings, [1029, 1030, 1031]);
    // Two holds, the one with the earlier end lapsing later.
    book.leases.clear();
    book.holds = vec![
        hold(1, b"aa", (1000, 1020), &[0], 1015),
        hold(1, b"bb", (1000, 9000), &[1], 1010),
    ];
    assert!(sound(&book));
    assert_eq!(order(&book, 1), [b"bb", b"aa"]);
}

#[test]
fn leases_and_holds_are_mixed_and_tie_with_one_another() {
    let mut book = leased(&[(b"ab", 1010, 0), (b"ad", 1010, 1), (b"ae", 1020, 2)]);
    book.holds = vec![
        hold(1, b"aa", (1030, 1040), &[0], 1010),
        hold(1, b"ac", (1030, 1040), &[1], 1010),
        hold(1, b"af", (1030, 1040), &[2], 1019),
    ];
    assert!(sound(&book));
    let due = [b"aa", b"ab", b"ac", b"ad", b"af", b"ae"];
    assert_eq!(order(&book, 1), due);
}

#[test]
fn each_house_has_its_own_order() {
    let mut book = specimen_book();
    book.leases = vec![
        lease(1, b"aa", 1000, 3000, &[0]),
        lease(1, b"bb", 1000, 2000, &[1]),
        lease(2, b"aa", 1000, 1500, &[2]),
        lease(2, b"cc", 1000, 1400, &[3]),
    ];
    book.holds = vec![hold(2, b"bb", (3000, 4000), &[2], 1001)];
    assert!(sound(&book));
    assert_eq!(order(&book, 1), [b"bb", b"aa"]);
    assert_eq!(order(&book, 2), [b"bb", b"cc", b"aa"]);
    assert!(order(&book, 3).is_empty());
}

#[test]
fn what_a_call_drops_stands_in_front() {
    let mut before = leased(&[(b"ab", 1010, 0), (b"ac", 1030, 0), (b"ad", 1010, 1)]);
    before.holds = vec![
        hold(1, b"aa", (2000, 3000), &[0], 1020),
        hold(1, b"ae", (1000, 1005), &[2], 1005),
    ];
    assert!(sound(&before));
    assert_eq!(order(&before, 1), [b"ae", b"ab", b"ad", b"aa", b"ac"]);
    // So many are gone at each time, and the others stay as they stood.
    for (time, gone) in [
        (1004, 0),
        (1005, 1),
        (1009, 1),
        (1010, 3),
        (1020, 4),
        (1030, 5),
    ] {
        let mut book = before.clone();
        assert_eq!(call(&mut book, STRANGER, time, &[]).0, 3);
        assert_eq!(order(&book, 1), order(&before, 1)[gone..], "{time}");
    }
}

#[test]
fn the_campus_file_keeps_its_own_order() {
    // Grants whose ends fall as their identifiers rise, and two offers.
    let mut book = specimen_book();
    let asking = |kind: u8, identifier: &[u8], seconds: u32| {
        let time = seconds.to_be_bytes();
        let scope = 0xEFC0_0000_u32.to_be_bytes();
        datagram(kind, 1, &[(3, identifier), (1, &time), (4, &scope)])
    };
    for (kind, identifier, seconds) in [
        (3, b"ab", 900),
        (3, b"ad", 800),
        (1, b"ac", 700),
        (1, b"aa", 20),
    ] {
        let message = asking(kind, identifier, seconds);
        let client = if identifier == b"aa" {
            CLIENT_2
        } else {
            CLIENT_1
        };
        assert_eq!(call(&mut book, client, 1000, &message).0, 0);
    }
    assert_eq!(order(&book, 1), [b"ac", b"ad", b"ab"]);
    let mut room = vec![0; LONGEST_FILE];
    let length = write(&book, &mut room).expect("sound");
    let again = read(&room[..length]).expect("accepted");
    let leases: Vec<&[u8]> = again.leases.iter().map(|l| &l.identifier[..]).collect();
    let holds: Vec<_> = again
        .holds
        .iter()
        .map(|h| &h.lease.identifier[..])
        .collect();
    assert_eq!(leases, [b"ab", b"ad"]);
    assert_eq!(holds, [b"ac", b"aa"]);
    assert_eq!(again, book);
}

#[test]
fn a_full_house_has_all_sixteen_in_order() {
    let mut book = specimen_book();
    for number in 0..16_u8 {
        // The ends go up and down: 7 and 16 have no common divisor.
        let end = 2000 + u32::from(number * 7 % 16);
        book.insert(lease(1, &[1, number], end - 1, end, &[0]));
    }
    assert!(sound(&book));
    let records = records_by_ending(&book, 1);
    let endings: Vec<u32> = records.iter().map(|record| record.ending()).collect();
    assert_eq!(endings, (2000..2016).collect::<Vec<u32>>());
}
