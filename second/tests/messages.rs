//! Discards, form of the datagram, errors, periods, grants and replies.

mod common;

use common::*;
use second::{serve, Book, Quota, Scope, ScopeNames};

const ID: &[u8] = &[0, 0x41];
const SCOPE: &[u8] = &[0xEF, 0xC0, 0, 0];
const NOW: &[u8] = &[0, 0, 3, 0xE8];
const OUR_SERVER: &[u8] = &[0, 1, 10, 1, 1, 1];

/// The outcome at clock 1000 in the specimens' book, from house 1.
fn outcome(datagram: &[u8]) -> u8 {
    call(&mut specimen_book(), CLIENT_1, 1000, datagram).0
}

/// The outcome of a RELEASE with option 3 and one more: 0 is a NAK.
fn release_with(code: u16, value: &[u8]) -> u8 {
    outcome(&datagram(7, 1, &[(3, ID), (code, value)]))
}

fn seconds(value: u32) -> [u8; 4] {
    value.to_be_bytes()
}

#[test]
fn discards_in_the_tables_order() {
    let mut unsound = specimen_book();
    unsound.scopes[0].ttl = 0;
    assert_eq!(serve(&mut unsound, &[], STRANGER, 9, &mut []), (1, 0, 0, 0));
    let mut book = specimen_book();
    book.leases = vec![lease(1, ID, 1000, 1500, &[0])];
    let before = book.clone();
    let mut room = [7; 511];
    assert_eq!(
        serve(&mut book, &[], STRANGER, 1500, &mut room),
        (2, 0, 0, 0)
    );
    assert_eq!((&book, room), (&before, [7; 511]));
    // From test 3 on the clock is raised and ended leases are dropped.
    assert_eq!(call(&mut book, STRANGER, 1499, &[]).0, 3);
    assert_eq!((book.clock, book.leases.len()), (1499, 1));
    assert_eq!(call(&mut book, STRANGER, 1500, &[]).0, 3);
    assert_eq!((book.clock, book.leases.len()), (1500, 0));
    // The clock never moves back.
    assert_eq!(call(&mut book, CLIENT_1, 7, &[]).0, 4);
    assert_eq!(book.clock, 1500);
}

#[test]
fn both_ends_of_a_client_range_belong_to_it() {
    let getinfo = datagram(8, 1, &[(3, ID)]);
    for (client, expected) in [
        (0x0A00_FFFF, 3),
        (0x0A01_0000, 0),
        (0x0A01_00FF, 0),
        (0x0A01_0100, 3),
    ] {
        assert_eq!(call(&mut specimen_book(), client, 0, &getinfo).0, expected);
    }
}

#[test]
fn header_rules() {
    let good = datagram(8, 1, &[(3, ID)]);
    assert_eq!(outcome(&good), 0);
    for (place, octet) in [(0, 1), (2, 1), (3, 2), (3, 0)] {
        let mut bad = good.clone();
        bad[place] = octet;
        assert_eq!(outcome(&bad), 4);
    }
    for message_type in 0..=255 {
        let known = [1, 3, 4, 7, 8].contains(&message_type);
        let answer = outcome(&datagram(message_type, 1, &[(3, ID)]));
        assert_eq!(answer == 4, !known, "type {message_type}");
    }
    let filled = |length: usize| datagram(8, 1, &[(3, ID), (99, &vec![0; length - 22])]);
    assert_eq!(filled(1472).len(), 1472);
    assert_eq!(outcome(&filled(1472)), 0);
    assert_eq!(outcome(&filled(1473)), 4);
}

#[test]
fn layout_and_end_rules() {
    let head = "00 07 0001 00000001";
    let with = |options: &str| outcome(&hex(&format!("{head} {options}")));
    assert_eq!(with("0003 0002 0041 0000 0000"), 0);
    assert_eq!(with("0003 0002 0041"), 5, "no End");
    assert_eq!(with("0003 0002 0041 0000 0000 00"), 5, "an octet left over");
    assert_eq!(
        with("0003 0002 0041 0000 0000 000000"),
        5,
        "three left over"
    );
    assert_eq!(with("0003 0002 0041 0000 0000 0000 0000"), 5, "two Ends");
    assert_eq!(with("0000 0000 0003 0002 0041 0000 0000"), 5, "End first");
    assert_eq!(with("0003 0002 0041 0000 0001 00"), 5, "End with a value");
    assert_eq!(with("0003 0002 0041 0000 0004 00000000"), 5, "End of zeros");
    assert_eq!(
        with("0003 0002 0041 0063 0004 0000 0000"),
        5,
        "End in a value"
    );
    assert_eq!(
        with("0003 0002 0041 0063 0005 0000 0000"),
        5,
        "value too long"
    );
    assert_eq!(with("0003 0002 0000 0000 0000"), 0, "zeros in a value");
    assert_eq!(
        with("0003 0002 0041 0063 0000 0063 0000 0000 0000"),
        0,
        "99 twice"
    );
    assert_eq!(
        with("0003 0002 0041 0003 0002 0041 0000 0000"),
        5,
        "3 twice"
    );
    assert_eq!(with("0063 0002 0041 0000 0000"), 5, "no 3");
}

#[test]
fn length_rules_hold_in_every_type() {
    let fits: &[(u16, &[usize])] = &[
        (1, &[4]),
        (2, &[6, 18]),
        (4, &[4]),
        (5, &[2, 4, 6, 8, 10, 12, 14, 16, 18, 20]),
        (6, &[4]),
        (7, &[4]),
        (10, &[6, 12, 18]),
        (11, &[4]),
        (13, &[4]),
        (14, &[4]),
        (15, &[4]),
    ];
    for length in 0..=20 {
        let value = vec![0; length];
        for (code, lengths) in fits {
            let expected = if lengths.contains(&length) { 0 } else { 5 };
            assert_eq!(release_with(*code, &value), expected, "{code} of {length}");
        }
        for (code, from) in [(8, 1), (9, 1), (16, 2), (17, 0), (65535, 0)] {
            let expected = if length >= from { 0 } else { 5 };
            assert_eq!(release_with(code, &value), expected, "{code} of {length}");
        }
    }
    for length in 0..=40 {
        let expected = if (2..=32).contains(&length) { 0 } else { 5 };
        let release = datagram(7, 1, &[(3, &vec![0; length])]);
        assert_eq!(outcome(&release), expected, "3 of {length}");
    }
}

#[test]
fn features() {
    let with = |value: &str| release_with(12, &hex(value));
    assert_eq!(with("0000 0000 0000"), 0);
    assert_eq!(with("0001 0000 0002 0001 0002 0000"), 0);
    assert_eq!(with("0000 0000"), 5);
    assert_eq!(with("0000 0000 0000 0000"), 5);
    assert_eq!(with("0000 0000 0001"), 5);
    assert_eq!(with("FFFF 0000 0000"), 5);
    assert_eq!(with("0000 0000 0001 0000"), 6);
    // Test 6 comes before test 7 and before resend and errors.
    let request = datagram(
        3,
        1,
        &[(2, &[0; 6]), (3, ID), (12, &hex("0000 0000 0001 0001"))],
    );
    assert_eq!(outcome(&request), 6);
}

#[test]
fn server_identifier() {
    let with = |message_type, value: &[u8]| {
        let message = datagram(message_type, 1, &[(2, value), (3, ID), (4, SCOPE)]);
        outcome(&message)
    };
    assert_eq!(with(3, OUR_SERVER), 0);
    assert_eq!(with(3, &[0, 1, 10, 1, 1, 2]), 7);
    assert_eq!(with(3, &[0, 2, 10, 1, 1, 1]), 7);
    assert_eq!(with(3, &[&[0, 1, 10, 1, 1, 1][..], &[0; 12]].concat()), 7);
    // In a DISCOVER even ours is error 1.
    assert_eq!(with(1, OUR_SERVER), 8);
    for message_type in [4, 7] {
        let message = datagram(message_type, 1, &[(2, OUR_SERVER), (3, ID)]);
        assert_eq!(error(&mut specimen_book(), CLIENT_1, 0, &message), 1);
    }
}

/// A value of a right length for each option.
fn fair_value(code: u16) -> Vec<u8> {
    match code {
        2 => OUR_SERVER.to_vec(),
        4 => SCOPE.to_vec(),
        5 | 16 => vec![0, 0],
        7 => vec![0, 1, 0, 1],
        8 | 9 => vec![65],
        10 | 12 => vec![0; 6],
        _ => NOW.to_vec(),
    }
}

#[test]
fn options_allowed_by_type() {
    let allowed: &[(u8, &[u16])] = &[
        (8, &[5, 8, 12]),
        (1, &[1, 4, 6, 7, 10, 11, 12, 14, 15]),
        (3, &[1, 2, 4, 6, 7, 10, 11, 12, 14, 15]),
        (4, &[1, 6, 11, 12, 14, 15]),
        (7, &[12]),
    ];
    for (message_type, codes) in allowed {
        for code in (1..=17).filter(|code| *code != 3) {
            let mut options: Vec<(u16, Vec<u8>)> = vec![(3, ID.to_vec())];
            if [1, 3].contains(message_type) && code != 4 {
                options.push((4, SCOPE.to_vec()));
            }
            if [6, 15].contains(&code) {
                options.push((11, NOW.to_vec()));
            }
            options.push((code, fair_value(code)));
            let lent: Vec<(u16, &[u8])> = options
                .iter()
                .map(|(code, value)| (*code, &value[..]))
                .collect();
            let mut book = specimen_book();
            if [4, 7].contains(message_type) {
                book.leases = vec![lease(1, ID, 1000, 2000, &[0])];
            }
            let (outcome, reply) = call(
                &mut book,
                CLIENT_1,
                1000,
                &datagram(*message_type, 7, &lent),
            );
            let is_allowed = codes.contains(&code) || code == 17;
            if is_allowed {
                assert_eq!((outcome, reply[1] % 3), (0, 2), "{code} in {message_type}");
            } else if [1, 8].contains(message_type) {
                assert_eq!(outcome, 8, "{code} in {message_type}");
            } else {
                assert_eq!(error_of(&reply), Some(1), "{code} in {message_type}");
            }
        }
    }
}

/// The answer to a REQUEST with option 3, scope and more: `Ok` its Ranges or `Err` its error.
fn request(book: &mut Book, more: &[(u16, &[u8])]) -> Result<Vec<u8>, u16> {
    let options = [&[(3, ID), (4, SCOPE)], more].concat();
    let (outcome, reply) = call(book, CLIENT_1, 1000, &datagram(3, 77, &options));
    assert_eq!(outcome, 0);
    match error_of(&reply) {
        Some(error) => Err(error),
        None => Ok(option_of(&reply, 10).expect("Ranges")),
    }
}

#[test]
fn error_1_in_a_request() {
    let one = Ok(hex("EFC00000 0001"));
    let number = |value: &str| request(&mut specimen_book(), &[(7, &hex(value))]);
    assert_eq!(number("0001 0001"), one);
    assert_eq!(number("0000 0001"), Err(1));
    assert_eq!(number("0000 0000"), Err(1));
    assert_eq!(number("0002 0001"), Err(1));
    let lease_time = |length| request(&mut specimen_book(), &[(1, &seconds(length))]);
    assert_eq!(lease_time(0), Err(1));
    assert_eq!(lease_time(1), one);
    let unknown_scope = datagram(3, 1, &[(3, ID), (4, &[0xEF, 0xC0, 0, 1])]);
    assert_eq!(error(&mut specimen_book(), CLIENT_1, 0, &unknown_scope), 1);
    let no_scope = datagram(3, 1, &[(3, ID)]);
    assert_eq!(error(&mut specimen_book(), CLIENT_1, 0, &no_scope), 1);
    assert_eq!(request(&mut specimen_book(), &[(6, NOW)]), Err(1));
    assert_eq!(request(&mut specimen_book(), &[(15, NOW)]), Err(1));
    assert_eq!(request(&mut specimen_book(), &[(14, NOW)]), one);
    assert_eq!(request(&mut specimen_book(), &[(15, NOW), (11, NOW)]), one);
    // Error 1 comes before error 2.
    let skewed = [(11, &[0xFF; 4][..]), (1, &[0; 4])];
    assert_eq!(request(&mut specimen_book(), &skewed), Err(1));
    // An identifier that the house holds; another house's is no matter.
    let mut book = specimen_book();
    book.leases = vec![lease(1, ID, 5000, 6000, &[1])];
    assert_eq!(request(&mut book, &[]), Err(1));
    book.leases[0].house = 2;
    assert_eq!(request(&mut book, &[]), one);
}

#[test]
fn a_house_holds_an_identifier_in_any_scope() {
    let mut book = specimen_book();
    let mut other = book.scopes[0].clone();
    other.lowest += 4;
    book.scopes.push(other);
    book.names.push(ScopeNames::none(2));
    book.leases = vec![lease(1, ID, 1000, 2000, &[0])];
    book.leases[0].scope = 2;
    assert_eq!(request(&mut book, &[]), Err(1));
    let release = datagram(7, 1, &[(3, ID)]);
    let (outcome, reply) = call(&mut book, CLIENT_1, 0, &release);
    assert_eq!((outcome, reply[1]), (0, 5));
}

#[test]
fn resend_comes_before_the_errors() {
    let mut book = specimen_book();
    let first = datagram(3, 9, &[(3, ID), (4, SCOPE)]);
    let (_, reply) = call(&mut book, CLIENT_1, 1000, &first);
    let before = book.clone();
    // The same again, with skew and with options that aren't allowed; the period asked for is no matter.
    let again = datagram(
        3,
        9,
        &[(3, ID), (9, &[1]), (11, &[0; 4]), (1, &[0; 4]), (6, NOW)],
    );
    assert_eq!(call(&mut book, CLIENT_1, 1000, &again), (0, reply));
    assert_eq!(book, before);
    // Another transaction, type or house isn't a resend.
    let other = datagram(3, 10, &[(3, ID), (4, SCOPE)]);
    assert_eq!(error(&mut book, CLIENT_1, 1000, &other), 1);
    let discover = datagram(1, 9, &[(3, ID), (4, SCOPE)]);
    assert_eq!(call(&mut book, CLIENT_1, 1000, &discover).0, 8);
    let (_, reply) = call(&mut book, CLIENT_2, 1000, &first);
    assert_eq!(option_of(&reply, 10), Some(hex("EFC00001 0001")));
    // A RENEW is resent too, and its lease no longer is that of the REQUEST.
    let renew = datagram(4, 9, &[(3, ID), (1, &seconds(50))]);
    let (_, renewed) = call(&mut book, CLIENT_1, 1010, &renew);
    assert_eq!(option_of(&renewed, 6), Some(seconds(1010).to_vec()));
    let (_, again) = call(&mut book, CLIENT_1, 1059, &renew);
    assert_eq!(option_of(&again, 6), Some(seconds(1010).to_vec()));
    assert_eq!(option_of(&again, 11), Some(seconds(1059).to_vec()));
    assert_eq!(error(&mut book, CLIENT_1, 1059, &first), 1);
    // It works as long as the lease lives.
    assert_eq!(error(&mut book, CLIENT_1, 1060, &renew), 3);
}

#[test]
fn resend_gives_a_recorded_length_above_the_longest() {
    let mut book = specimen_book();
    book.leases = vec![lease(1, ID, 0, u32::MAX, &[0])];
    let resent = datagram(3, 1, &[(3, ID)]);
    let (_, reply) = call(&mut book, CLIENT_1, 1000, &resent);
    assert_eq!(option_of(&reply, 1), Some(seconds(u32::MAX).to_vec()));
    assert_eq!(option_of(&reply, 6), Some(seconds(0).to_vec()));
}

#[test]
fn error_3_for_renew_and_release() {
    for message_type in [4, 7] {
        let message = datagram(message_type, 5, &[(3, ID)]);
        assert_eq!(error(&mut specimen_book(), CLIENT_1, 0, &message), 3);
        let mut book = specimen_book();
        book.leases = vec![lease(1, ID, 1000, 2000, &[0])];
        assert_eq!(error(&mut book.clone(), CLIENT_2, 0, &message), 3);
        assert_eq!(call(&mut book, CLIENT_1, 1999, &message).1[1], 5);
    }
    // Error 2 comes before error 3.
    let skewed = datagram(4, 5, &[(3, ID), (11, &[0xFF; 4])]);
    assert_eq!(error(&mut specimen_book(), CLIENT_1, 0, &skewed), 2);
}

#[test]
fn release_removes_the_lease() {
    let mut book = specimen_book();
    book.leases = vec![
        lease(1, ID, 1000, 2000, &[0]),
        lease(1, &[0, 0x42], 1000, 2000, &[1]),
    ];
    let kept = book.leases[1].clone();
    let release = hex("00 07 0001 00000006  0003 0002 0041  000C 0006 0000 0000 0000  0000 0000");
    let ack = hex(
        "00 05 0001 00000006  0002 0006 0001 0A010101  0003 0002 0041
         000C 0006 0000 0000 0000  0000 0000",
    );
    assert_eq!(call(&mut book, CLIENT_1, 1000, &release), (0, ack));
    assert_eq!(book.leases, [kept]);
    assert_eq!(book.releases, [common::release(1, ID, 6, 1000)]);
}

#[test]
fn lease_time_default_and_cut() {
    for (asked, given) in [
        (None, 3_600),
        (Some(1), 1),
        (Some(604_800), 604_800),
        (Some(604_801), 604_800),
        (Some(u32::MAX), 604_800),
    ] {
        let mut book = specimen_book();
        let value = seconds(asked.unwrap_or(0));
        let more: &[(u16, &[u8])] = match asked {
            Some(_) => &[(1, &value)],
            None => &[],
        };
        assert!(request(&mut book, more).is_ok());
        assert_eq!(
            (book.leases[0].start, book.leases[0].end),
            (1000, 1000 + given)
        );
    }
}

#[test]
fn start_is_raised_to_the_clock_and_keeps_the_length() {
    let mut book = specimen_book();
    let more: &[(u16, &[u8])] = &[(1, &seconds(10)), (6, &seconds(5)), (11, NOW)];
    assert!(request(&mut book, more).is_ok());
    assert_eq!((book.leases[0].start, book.leases[0].end), (1000, 1010));
}

#[test]
fn horizon() {
    let from = |start| request(&mut specimen_book(), &[(6, &seconds(start)), (11, NOW)]);
    assert!(from(1000 + 2_592_000).is_ok());
    assert_eq!(from(1000 + 2_592_001), Err(0));
    assert_eq!(from(u32::MAX), Err(0));
}

#[test]
fn end_at_most_4_294_967_295() {
    let at = |clock: u32, length: u32| {
        let message = datagram(3, 1, &[(3, ID), (4, SCOPE), (1, &seconds(length))]);
        call(&mut specimen_book(), CLIENT_1, clock, &message).1[1]
    };
    assert_eq!(at(u32::MAX - 10, 10), 5);
    assert_eq!(at(u32::MAX - 10, 11), 6);
    assert_eq!(at(u32::MAX, 1), 6);
}

#[test]
fn records_left_are_counted_after_the_drop_and_over_all_scopes() {
    let mut book = specimen_book();
    book.leases = (0..16u32)
        .map(|number| lease(1, &[1, number as u8], 1001 + number, 1002 + number, &[0]))
        .collect();
    let message = datagram(3, 9, &[(3, ID), (4, SCOPE)]);
    assert_eq!(error(&mut book.clone(), CLIENT_1, 1001, &message), 0);
    let discover = datagram(1, 9, &[(3, ID), (4, SCOPE)]);
    assert_eq!(call(&mut book.clone(), CLIENT_1, 1001, &discover).0, 8);
    assert_eq!(call(&mut book.clone(), CLIENT_1, 1002, &discover).0, 0);
    // Another house has records of its own.
    assert_eq!(call(&mut book.clone(), CLIENT_2, 1001, &message).1[1], 5);
    assert_eq!(call(&mut book, CLIENT_1, 1002, &message).1[1], 5);
    assert_eq!(book.leases.len(), 16);
}

#[test]
fn offer_shows_what_a_request_would_get() {
    let discover = hex(
        "00 01 0001 00000021  0003 0002 0041  0004 0004 EFC00000  0007 0004 0001 FFFF
         000A 0006 E0000001 0001  000C 0006 000000000000  0000 0000",
    );
    let offer = hex(
        "00 02 0001 00000021  0001 0004 00000E10  0002 0006 0001 0A010101  0003 0002 0041
         0004 0004 EFC00000  0006 0004 000003E8  000A 0006 EFC00000 0003  000B 0004 000003E8
         000C 0006 000000000000  0000 0000",
    );
    let mut book = specimen_book();
    assert_eq!(
        call(&mut book, CLIENT_1, 1000, &discover),
        (0, offer.clone())
    );
    // It leaves a hold of that, with its transaction id, and nothing else.
    let mut expected = specimen_book();
    expected.holds = vec![hold(1, ID, (1000, 4600), &[0, 1, 2], 1030)];
    expected.holds[0].lease.transaction = 0x21;
    assert_eq!(book, expected);
    let mut as_request = discover;
    as_request[1] = 3;
    let mut ack = offer;
    ack[1] = 5;
    let mut without_a_hold = specimen_book();
    for book in [&mut book, &mut without_a_hold] {
        let answer = call(book, CLIENT_1, 1000, &as_request);
        assert_eq!(answer, (0, ack.clone()));
    }
    assert_eq!((book.leases.len(), book.holds.len()), (1, 0));
    assert_eq!(book, without_a_hold);
}

#[test]
fn ranges_are_merged() {
    // House 1 has .1 and .3 at other times, .0 and .2 are nobody's.
    let mut book = specimen_book();
    book.scopes[0] = Scope {
        lowest: 0xEFC0_0000,
        size: 6,
        ttl: 1,
        quotas: vec![Quota { share: 0, limit: 6 }, Quota { share: 0, limit: 6 }],
    };
    book.leases = vec![
        lease(1, &[9, 9], 9000, 9001, &[1, 3]),
        lease(2, &[9, 9], 9000, 9001, &[4]),
    ];
    let number = |value: &str| request(&mut book.clone(), &[(7, &hex(value))]);
    assert_eq!(number("0001 0001"), Ok(hex("EFC00001 0001")));
    assert_eq!(number("0002 0002"), Ok(hex("EFC00001 0001 EFC00003 0001")));
    assert_eq!(number("0001 0003"), Ok(hex("EFC00000 0002 EFC00003 0001")));
    assert_eq!(number("0001 0004"), Ok(hex("EFC00000 0004")));
    assert_eq!(number("0001 FFFF"), Ok(hex("EFC00000 0004 EFC00005 0001")));
    assert_eq!(number("0006 FFFF"), Err(0));
}

#[test]
fn renew_sets_the_period() {
    let mut book = specimen_book();
    book.leases = vec![lease(1, ID, 500, 700_000, &[0])];
    let renew = |more: &[(u16, &[u8])], time: u32| {
        let mut book = book.clone();
        let message = datagram(4, 8, &[&[(3, ID)], more].concat());
        let (_, reply) = call(&mut book, CLIENT_1, time, &message);
        match error_of(&reply) {
            Some(error) => Err(error),
            None => Ok((book.leases[0].start, book.leases[0].end)),
        }
    };
    // No options: the larger of old start and clock, the old length cut to the longest lease.
    assert_eq!(renew(&[], 1000), Ok((1000, 605_800)));
    assert_eq!(renew(&[(1, &seconds(20))], 1000), Ok((1000, 1020)));
    assert_eq!(
        renew(&[(6, &seconds(3000)), (11, NOW)], 1000),
        Ok((3000, 607_800))
    );
    assert_eq!(
        renew(&[(6, &seconds(3)), (11, NOW)], 1000),
        Ok((1000, 605_800))
    );
    assert_eq!(renew(&[(1, &seconds(0))], 1000), Err(1));
    assert_eq!(renew(&[(6, &seconds(3000))], 1000), Err(1));
    assert_eq!(renew(&[(15, &seconds(3000))], 1000), Err(1));
    let late = 1000 + 2_592_000;
    assert_eq!(
        renew(&[(6, &seconds(late)), (11, NOW)], 1000),
        Ok((late, late + 604_800))
    );
    assert_eq!(renew(&[(6, &seconds(late + 1)), (11, NOW)], 1000), Err(0));
}

#[test]
fn renew_of_a_far_lease_keeps_horizon_and_end() {
    let mut book = specimen_book();
    book.leases = vec![lease(1, ID, 2_593_001, 2_593_101, &[0])];
    let renew = datagram(4, 8, &[(3, ID)]);
    assert_eq!(error(&mut book.clone(), CLIENT_1, 1000, &renew), 0);
    assert_eq!(call(&mut book, CLIENT_1, 1001, &renew).1[1], 5);
    book.leases = vec![lease(1, ID, 1000, u32::MAX, &[0])];
    assert_eq!(error(&mut book.clone(), CLIENT_1, u32::MAX - 1, &renew), 0);
    assert_eq!(
        call(&mut book, CLIENT_1, u32::MAX - 604_800, &renew).1[1],
        5
    );
}

#[test]
fn renew_tests_only_leases_that_share_an_address() {
    let mut book = specimen_book();
    book.leases = vec![
        lease(1, ID, 1000, 2000, &[0]),
        lease(1, &[1, 1], 2000, 3000, &[0, 1]),
        lease(2, &[1, 1], 1000, 9000, &[2]),
    ];
    let renew = |length| datagram(4, 8, &[(3, ID), (1, &seconds(length))]);
    assert_eq!(error(&mut book.clone(), CLIENT_1, 1000, &renew(1001)), 0);
    assert_eq!(
        call(&mut book.clone(), CLIENT_1, 1000, &renew(1000)).1[1],
        5
    );
    book.leases[1].offsets = vec![1];
    assert_eq!(call(&mut book, CLIENT_1, 1000, &renew(1001)).1[1], 5);
}

#[test]
fn getinfo() {
    let mut book = specimen_book();
    let bare = hex("00 08 0001 00000031  0003 0002 0041  0000 0000");
    let plain = hex("00 05 0001 00000031  0002 0006 0001 0A010101  0003 0002 0041  0000 0000");
    assert_eq!(call(&mut book, CLIENT_1, 1000, &bare), (0, plain));
    let asking = hex("00 08 0001 00000031  000C 0006 000000000000  0008 0002 656E
         0005 0008 000B 0009 0001 0900  0003 0002 0041  0000 0000");
    let full = hex(
        "00 05 0001 00000031  0002 0006 0001 0A010101  0003 0002 0041
         0009 000B 01 EFC00000 EFC00003 0F 00  000B 0004 000003E8  000C 0006 000000000000  0000 0000",
    );
    assert_eq!(call(&mut book, CLIENT_1, 1000, &asking), (0, full));
    // Codes are pairs of octets: 00 00 09 00 doesn't name 9.
    let shifted = datagram(8, 1, &[(3, ID), (5, &[0, 0, 9, 0])]);
    let (_, reply) = call(&mut book, CLIENT_1, 1000, &shifted);
    assert_eq!(option_of(&reply, 9), None);
}

#[test]
fn nak_has_12_in_its_place() {
    let release = datagram(7, 1, &[(12, &hex("0001 0001 0000 0000")), (3, ID)]);
    let nak = hex(
        "00 06 0001 00000001  0002 0006 0001 0A010101  0003 0002 0041
         000C 0006 000000000000  0010 0002 0003  0000 0000",
    );
    assert_eq!(
        call(&mut specimen_book(), CLIENT_1, 1000, &release),
        (0, nak)
    );
}

#[test]
fn another_houses_future_lease_blocks_the_address() {
    let mut book = specimen_book();
    book.leases = vec![lease(2, ID, 5000, 6000, &[0])];
    assert_eq!(request(&mut book, &[]), Ok(hex("EFC00001 0001")));
}
