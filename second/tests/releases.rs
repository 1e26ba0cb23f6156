//! A RELEASE sent again, and what is remembered and forgotten for it (W-202).

mod common;

use common::*;
use second::{serve, sound, Book};

const ID: &[u8] = &[0, 0x41];
const SCOPE: &[u8] = &[0xEF, 0xC0, 0, 0];

/// A REQUEST for one address.
fn request(transaction: u32, identifier: &[u8]) -> Vec<u8> {
    datagram(3, transaction, &[(3, identifier), (4, SCOPE)])
}

fn released(transaction: u32, identifier: &[u8]) -> Vec<u8> {
    datagram(7, transaction, &[(3, identifier)])
}

/// A call that is to draw an ACK: the reply. The book is sound afterwards.
fn ack(book: &mut Book, client: u32, time: u32, datagram: &[u8]) -> Vec<u8> {
    let (outcome, reply) = call(book, client, time, datagram);
    assert_eq!((outcome, reply[1]), (0, 5));
    assert!(sound(book));
    reply
}

/// A lease of a house taken and given back, with this transaction id.
fn take_and_release(book: &mut Book, client: u32, time: u32, transaction: u32, identifier: &[u8]) {
    ack(book, client, time, &request(transaction, identifier));
    ack(book, client, time, &released(transaction, identifier));
}

/// House 1 has released ID at 1000 with the transaction id 6.
fn after_release() -> Book {
    let mut book = specimen_book();
    take_and_release(&mut book, CLIENT_1, 1000, 6, ID);
    assert_eq!(book.releases, [release(1, ID, 6, 1000)]);
    assert!(book.leases.is_empty());
    book
}

#[test]
fn at_299_seconds_ack_and_at_300_error_3() {
    let reply = hex("00 05 0001 00000006  0002 0006 0001 0A010101  0003 0002 0041  0000 0000");
    for time in [1000, 1001, 1298, 1299] {
        let mut book = after_release();
        assert_eq!(ack(&mut book, CLIENT_1, time, &released(6, ID)), reply);
        // Nothing but the clock has changed.
        let mut expected = after_release();
        expected.clock = time;
        assert_eq!(book, expected);
    }
    for time in [1300, 1301, u32::MAX] {
        let mut book = after_release();
        assert_eq!(error(&mut book, CLIENT_1, time, &released(6, ID)), 3);
        // It is no longer known, but it stays.
        assert_eq!(book.releases, after_release().releases);
    }
}

#[test]
fn the_raised_clock_counts_and_not_the_given_time() {
    let mut book = after_release();
    ack(&mut book, CLIENT_1, 0, &released(6, ID));
    assert_eq!(call(&mut book, STRANGER, 1299, &[]).0, 3);
    ack(&mut book, CLIENT_1, 1000, &released(6, ID));
    assert_eq!(call(&mut book, STRANGER, 1300, &[]).0, 3);
    assert_eq!(error(&mut book, CLIENT_1, 1000, &released(6, ID)), 3);
    // The clock at release is the raised one too.
    let mut book = specimen_book();
    ack(&mut book, CLIENT_1, 1000, &request(6, ID));
    assert_eq!(call(&mut book, STRANGER, 1500, &[]).0, 3);
    ack(&mut book, CLIENT_1, 7, &released(6, ID));
    assert_eq!(book.releases, [release(1, ID, 6, 1500)]);
}

#[test]
fn no_sum_wraps_at_the_clocks_end() {
    let mut book = specimen_book();
    book.clock = u32::MAX - 299;
    book.releases = vec![release(1, ID, 6, u32::MAX - 299)];
    ack(&mut book.clone(), CLIENT_1, u32::MAX, &released(6, ID));
    book.releases[0].time -= 1;
    assert_eq!(error(&mut book, CLIENT_1, u32::MAX, &released(6, ID)), 3);
    // A time of 0 is a time like any other.
    let mut book = specimen_book();
    book.clock = 0;
    book.releases = vec![release(1, ID, 6, 0)];
    ack(&mut book, CLIENT_1, 299, &released(6, ID));
    assert_eq!(error(&mut book, CLIENT_1, 300, &released(6, ID)), 3);
}

#[test]
fn a_resent_release_is_not_remembered_anew() {
    let mut book = after_release();
    take_and_release(&mut book, CLIENT_1, 1010, 7, &[0, 0x42]);
    let releases = book.releases.clone();
    for time in [1200, 1250, 1299] {
        ack(&mut book, CLIENT_1, time, &released(6, ID));
        assert_eq!(book.releases, releases);
    }
    assert_eq!(error(&mut book, CLIENT_1, 1300, &released(6, ID)), 3);
    ack(&mut book, CLIENT_1, 1309, &released(7, &[0, 0x42]));
    assert_eq!(
        error(&mut book, CLIENT_1, 1310, &released(7, &[0, 0x42])),
        3
    );
    assert_eq!(book.releases, releases);
}

#[test]
fn house_identifier_and_id_must_agree() {
    let mut book = after_release();
    for transaction in [0, 5, 7, 0x0600_0000, 0x0106, u32::MAX] {
        assert_eq!(
            error(&mut book, CLIENT_1, 1000, &released(transaction, ID)),
            3
        );
    }
    for identifier in [&[0, 0x42][..], &[0, 0x41, 0], &[0x41, 0]] {
        assert_eq!(
            error(&mut book, CLIENT_1, 1000, &released(6, identifier)),
            3
        );
    }
    // Another house's equal identifier is no matter.
    assert_eq!(error(&mut book, CLIENT_2, 1000, &released(6, ID)), 3);
    assert_eq!(book, after_release());
    // A lease of another house on the identifier neither.
    ack(&mut book, CLIENT_2, 1000, &request(6, ID));
    let before = book.clone();
    ack(&mut book, CLIENT_1, 1000, &released(6, ID));
    assert_eq!(book, before);
    ack(&mut book, CLIENT_2, 1100, &released(6, ID));
    assert_eq!(
        book.releases,
        [release(1, ID, 6, 1000), release(2, ID, 6, 1100)]
    );
    assert_eq!(error(&mut book, CLIENT_1, 1300, &released(6, ID)), 3);
    ack(&mut book, CLIENT_2, 1399, &released(6, ID));
}

#[test]
fn no_other_type_is_a_resent_release() {
    let mut book = after_release();
    let renew = datagram(4, 6, &[(3, ID)]);
    assert_eq!(error(&mut book, CLIENT_1, 1000, &renew), 3);
    let discover = datagram(1, 6, &[(3, ID), (4, SCOPE)]);
    let (outcome, reply) = call(&mut book.clone(), CLIENT_1, 1000, &discover);
    assert_eq!((outcome, reply[1]), (0, 2));
    let getinfo = datagram(8, 6, &[(3, ID), (7, &[0; 4])]);
    assert_eq!(call(&mut book, CLIENT_1, 1000, &getinfo).0, 8);
    // A REQUEST with the same id is a new one.
    assert_eq!(book, after_release());
    let reply = ack(&mut book, CLIENT_1, 1000, &request(6, ID));
    assert_eq!(option_of(&reply, 10), Some(hex("EFC00000 0001")));
    assert_eq!((book.leases.len(), book.releases.len()), (1, 0));
}

#[test]
fn in_the_place_of_the_resend_test() {
    // Before error 1: options that aren't allowed. 11 is one of them, so error 2 isn't asked either.
    let mut book = after_release();
    for (code, value) in [(4, SCOPE), (11, &[0; 4]), (1, &[0; 4]), (16, &[0; 2])] {
        let again = datagram(7, 6, &[(3, ID), (code, value)]);
        let reply = ack(&mut book, CLIENT_1, 1000, &again);
        assert_eq!(option_of(&reply, code), None);
        let other = datagram(7, 7, &[(3, ID), (code, value)]);
        assert_eq!(error(&mut book, CLIENT_1, 1000, &other), 1);
    }
    // After the discards 1 to 6.
    let again = released(6, ID);
    let mut unsound = book.clone();
    unsound.scopes[0].ttl = 0;
    assert_eq!(call(&mut unsound, CLIENT_1, 1000, &again).0, 1);
    assert_eq!(
        serve(&mut book, &again, CLIENT_1, 1000, &mut [0; 511]),
        (2, 0, 0, 0)
    );
    assert_eq!(call(&mut book, STRANGER, 1000, &again).0, 3);
    assert_eq!(
        call(&mut book, CLIENT_1, 1000, &again[..again.len() - 4]).0,
        5
    );
    let requiring = datagram(7, 6, &[(3, ID), (12, &hex("0000 0000 0001 0001"))]);
    assert_eq!(call(&mut book, CLIENT_1, 1000, &requiring).0, 6);
    assert_eq!(book, after_release());
}

#[test]
fn twelve_is_echoed_if_this_message_has_it() {
    let mut book = after_release();
    let again = datagram(7, 6, &[(12, &hex("0001 0001 0000 0000")), (3, ID)]);
    let reply = hex(
        "00 05 0001 00000006  0002 0006 0001 0A010101  0003 0002 0041
         000C 0006 000000000000  0000 0000",
    );
    assert_eq!(ack(&mut book, CLIENT_1, 1000, &again), reply);
    let plain = ack(&mut book, CLIENT_1, 1000, &released(6, ID));
    assert_eq!(option_of(&plain, 12), None);
}

#[test]
fn only_a_release_that_releases_is_remembered() {
    // Errors 3 and 1, an end reached, a RENEW.
    let mut book = specimen_book();
    assert_eq!(error(&mut book, CLIENT_1, 1000, &released(6, ID)), 3);
    assert!(book.releases.is_empty());
    ack(&mut book, CLIENT_1, 1000, &request(5, ID));
    let bad = datagram(7, 6, &[(3, ID), (4, SCOPE)]);
    assert_eq!(error(&mut book, CLIENT_1, 1000, &bad), 1);
    ack(&mut book, CLIENT_1, 1000, &datagram(4, 6, &[(3, ID)]));
    assert!(book.releases.is_empty());
    assert_eq!(call(&mut book, STRANGER, 4600, &[]).0, 3);
    assert!(book.leases.is_empty() && book.releases.is_empty());
    assert_eq!(error(&mut book, CLIENT_1, 4600, &released(6, ID)), 3);
    assert!(book.releases.is_empty());
}

#[test]
fn a_new_lease_forgets_the_release() {
    let mut book = after_release();
    take_and_release(&mut book, CLIENT_1, 1010, 7, &[0, 0x42]);
    take_and_release(&mut book, CLIENT_2, 1020, 6, ID);
    ack(&mut book, CLIENT_1, 1030, &request(8, ID));
    let others = [release(1, &[0, 0x42], 7, 1010), release(2, ID, 6, 1020)];
    assert_eq!(book.releases, others);
    // The old RELEASE's octets, sent again, now release the new lease, and that is the youngest release.
    ack(&mut book, CLIENT_1, 1040, &released(6, ID));
    assert!(book.leases.is_empty());
    let [first, last] = others;
    assert_eq!(book.releases, [first, release(1, ID, 6, 1040), last]);
    ack(&mut book, CLIENT_1, 1339, &released(6, ID));
    assert_eq!(error(&mut book, CLIENT_1, 1340, &released(6, ID)), 3);
    // A release that no longer counts is forgotten as well.
    let mut book = after_release();
    ack(&mut book, CLIENT_1, 5000, &request(8, ID));
    assert!(book.releases.is_empty());
    // With the new lease ended nothing comes back.
    let mut book = after_release();
    let short = datagram(3, 8, &[(3, ID), (4, SCOPE), (1, &[0, 0, 0, 10])]);
    ack(&mut book, CLIENT_1, 1000, &short);
    assert_eq!(error(&mut book, CLIENT_1, 1010, &released(6, ID)), 3);
    assert!(book.leases.is_empty() && book.releases.is_empty());
}

#[test]
fn what_is_no_new_lease_forgets_nothing() {
    let mut book = after_release();
    let other = &[0, 0x42];
    ack(&mut book, CLIENT_1, 1000, &request(9, other));
    let releases = book.releases.clone();
    assert_eq!(releases, after_release().releases);
    // A resend and a RENEW of another lease; a RENEW of the identifier draws error 3.
    ack(&mut book, CLIENT_1, 1000, &request(9, other));
    ack(&mut book, CLIENT_1, 1000, &datagram(4, 9, &[(3, other)]));
    assert_eq!(
        error(&mut book, CLIENT_1, 1000, &datagram(4, 9, &[(3, ID)])),
        3
    );
    // REQUESTs and DISCOVERs that are refused: errors 1, 2 and 0, and discard 7.
    let refused: [(u16, &[u8], u16); 3] =
        [(5, &[0; 2], 1), (11, &[0xFF; 4], 2), (7, &[0, 9, 0, 9], 0)];
    for (code, value, expected) in refused {
        let message = datagram(3, 9, &[(3, ID), (4, SCOPE), (code, value)]);
        assert_eq!(error(&mut book, CLIENT_1, 1000, &message), expected);
        let discover = datagram(1, 9, &[(3, ID), (4, SCOPE), (code, value)]);
        assert_eq!(call(&mut book, CLIENT_1, 1000, &discover).0, 8);
    }
    let elsewhere = datagram(3, 9, &[(2, &[0; 6]), (3, ID), (4, SCOPE)]);
    assert_eq!(call(&mut book, CLIENT_1, 1000, &elsewhere).0, 7);
    // Another house's new lease on the identifier.
    ack(&mut book, CLIENT_2, 1000, &request(9, ID));
    assert_eq!(book.releases, releases);
    ack(&mut book, CLIENT_1, 1299, &released(6, ID));
}

#[test]
fn a_fifth_release_forgets_the_oldest_of_the_house() {
    let mut book = specimen_book();
    let identifier = |number: u8| [7, number];
    take_and_release(&mut book, CLIENT_2, 1000, 1, &identifier(1));
    // Identifiers that fall, so that the order isn't theirs; two at one time.
    for number in [9, 8, 7, 6] {
        let time = 1020 - u32::from(number / 2);
        take_and_release(&mut book, CLIENT_1, time, 1, &identifier(number));
    }
    let of_house_2 = release(2, &identifier(1), 1, 1000);
    let mut expected = vec![
        release(1, &identifier(9), 1, 1016),
        release(1, &identifier(8), 1, 1016),
        release(1, &identifier(7), 1, 1017),
        release(1, &identifier(6), 1, 1017),
        of_house_2,
    ];
    assert_eq!(book.releases, expected);
    for number in [9, 8, 7, 6] {
        ack(&mut book, CLIENT_1, 1017, &released(1, &identifier(number)));
    }
    // The fifth.
    take_and_release(&mut book, CLIENT_1, 1017, 1, &identifier(5));
    expected.remove(0);
    expected.insert(3, release(1, &identifier(5), 1, 1017));
    assert_eq!(book.releases, expected);
    assert_eq!(
        error(&mut book, CLIENT_1, 1017, &released(1, &identifier(9))),
        3
    );
    for number in [8, 7, 6, 5] {
        ack(&mut book, CLIENT_1, 1017, &released(1, &identifier(number)));
    }
    ack(&mut book, CLIENT_2, 1017, &released(1, &identifier(1)));
    // One that a new lease forgets makes room: its release again is the fourth.
    take_and_release(&mut book, CLIENT_1, 1018, 2, &identifier(7));
    expected.remove(1);
    expected.insert(3, release(1, &identifier(7), 2, 1018));
    assert_eq!(book.releases, expected);
    ack(&mut book, CLIENT_1, 1018, &released(1, &identifier(8)));
    assert_eq!(
        error(&mut book, CLIENT_1, 1018, &released(1, &identifier(7))),
        3
    );
}

#[test]
fn time_alone_drops_no_release() {
    let mut book = specimen_book();
    for number in 0..4 {
        take_and_release(&mut book, CLIENT_1, 1000, 1, &[7, number]);
    }
    let releases = book.releases.clone();
    assert_eq!(call(&mut book, STRANGER, 1_000_000, &[]).0, 3);
    assert_eq!(book.releases, releases);
    take_and_release(&mut book, CLIENT_1, 1_000_000, 1, &[7, 4]);
    assert_eq!(book.releases[..3], releases[1..]);
    assert_eq!(book.releases[3], release(1, &[7, 4], 1, 1_000_000));
}

#[test]
fn p12_draws_error_3_still() {
    let p12 = hex("00 07 00 01 01 02 03 04 00 03 00 02 00 41 00 00 00 00");
    assert_eq!(error(&mut specimen_book(), CLIENT_1, 1000, &p12), 3);
    assert_eq!(error(&mut after_release(), CLIENT_1, 1000, &p12), 3);
}
