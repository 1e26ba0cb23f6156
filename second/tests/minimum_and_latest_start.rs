//! Minimum Lease Time and Maximum Start Time (W-203). All calls are house 1's, at clock 1000 where no other is given.

mod common;

use common::*;
use second::{sound, Book};

const ID: &[u8] = &[0, 0x41];
const SCOPE: &[u8] = &[0xEF, 0xC0, 0, 0];
const LONGEST: u32 = 604_800;
const HORIZON: u32 = 2_592_000;

/// An option of four octets.
type Seconds = (u16, u32);

/// A message with option 3, with the scope where the type needs one, and with these options.
fn message(message_type: u8, transaction: u32, more: &[Seconds]) -> Vec<u8> {
    let values: Vec<(u16, [u8; 4])> = more
        .iter()
        .map(|(code, value)| (*code, value.to_be_bytes()))
        .collect();
    let mut options: Vec<(u16, &[u8])> = vec![(3, ID)];
    if [1, 3].contains(&message_type) {
        options.push((4, SCOPE));
    }
    options.extend(values.iter().map(|(code, value)| (*code, &value[..])));
    datagram(message_type, transaction, &options)
}

/// What becomes of a message: `Ok` the start and the end that the reply gives, or `Err` the error. A NAK leaves
/// leases and releases as they were. The book is sound afterwards.
fn given(book: &mut Book, time: u32, message: &[u8]) -> Result<(u32, u64), u16> {
    let before = book.clone();
    let (outcome, reply) = call(book, CLIENT_1, time, message);
    assert_eq!(outcome, 0);
    assert!(sound(book));
    if let Some(error) = error_of(&reply) {
        assert_eq!(
            (&book.leases, &book.releases),
            (&before.leases, &before.releases)
        );
        return Err(error);
    }
    let number = |code| {
        let value = option_of(&reply, code).expect("a time");
        u32::from_be_bytes(value.try_into().expect("four octets"))
    };
    let (start, length) = (number(6), number(1));
    Ok((start, u64::from(start) + u64::from(length)))
}

/// A REQUEST in the specimens' book with these options and Current Time.
/// The same as a DISCOVER draws an OFFER of that period and leaves a hold of it, or draws discard 8 and leaves none.
fn requested_at(time: u32, more: &[Seconds]) -> Result<(u32, u64), u16> {
    let options = [more, &[(11, time)]].concat();
    let mut book = specimen_book();
    let answer = given(&mut book, time, &message(3, 5, &options));
    let recorded = book
        .leases
        .first()
        .map(|lease| (lease.start, u64::from(lease.end)));
    assert_eq!(answer.ok(), recorded);
    let mut book = specimen_book();
    let (outcome, offer) = call(&mut book, CLIENT_1, time, &message(1, 5, &options));
    match answer {
        Ok((start, _)) => {
            assert_eq!((outcome, offer[1]), (0, 2));
            assert_eq!(option_of(&offer, 6), Some(start.to_be_bytes().to_vec()));
        }
        Err(_) => assert_eq!((outcome, offer), (8, vec![])),
    }
    let held = book
        .holds
        .first()
        .map(|hold| (hold.lease.start, u64::from(hold.lease.end)));
    assert_eq!(answer.ok(), held);
    assert!(book.leases.is_empty() && sound(&book));
    answer
}

fn requested(more: &[Seconds]) -> Result<(u32, u64), u16> {
    requested_at(1000, more)
}

/// A RENEW at 1000 of a lease with this period.
fn renewed(start: u32, end: u32, more: &[Seconds]) -> Result<(u32, u64), u16> {
    let mut book = specimen_book();
    book.leases = vec![lease(1, ID, start, end, &[0])];
    given(&mut book, 1000, &message(4, 5, more))
}

#[test]
fn a_length_below_the_minimum_cant_be_given() {
    assert_eq!(requested(&[(1, 500), (14, 499)]), Ok((1000, 1500)));
    assert_eq!(requested(&[(1, 500), (14, 500)]), Ok((1000, 1500)));
    assert_eq!(requested(&[(1, 500), (14, 501)]), Err(0));
    assert_eq!(requested(&[(1, 500), (14, u32::MAX)]), Err(0));
    // A minimum of 0 or 1 is always met.
    assert_eq!(requested(&[(1, 1), (14, 0)]), Ok((1000, 1001)));
    assert_eq!(requested(&[(1, 1), (14, 1)]), Ok((1000, 1001)));
    assert_eq!(requested(&[(1, 1), (14, 2)]), Err(0));
}

#[test]
fn the_length_is_taken_after_the_cut() {
    let week = Ok((1000, 1000 + u64::from(LONGEST)));
    assert_eq!(requested(&[(1, LONGEST), (14, LONGEST)]), week);
    assert_eq!(requested(&[(1, LONGEST + 1), (14, LONGEST)]), week);
    assert_eq!(requested(&[(1, LONGEST + 1), (14, LONGEST + 1)]), Err(0));
    assert_eq!(requested(&[(1, LONGEST - 1), (14, LONGEST)]), Err(0));
    // The race broadcast: ten days, at least ten days.
    assert_eq!(requested(&[(1, 864_000), (14, 864_000)]), Err(0));
    assert_eq!(requested(&[(1, u32::MAX), (14, u32::MAX)]), Err(0));
}

#[test]
fn without_lease_time_the_default_is_tested_and_not_raised() {
    assert_eq!(requested(&[(14, 3_600)]), Ok((1000, 4_600)));
    assert_eq!(requested(&[(14, 1)]), Ok((1000, 4_600)));
    assert_eq!(requested(&[(14, 3_601)]), Err(0));
}

#[test]
fn a_start_raised_to_the_clock_keeps_its_length() {
    // From 5 for 500 seconds is from 1000 for 500.
    let raised = |minimum| requested(&[(1, 500), (6, 5), (14, minimum)]);
    assert_eq!(raised(500), Ok((1000, 1500)));
    assert_eq!(raised(501), Err(0));
}

#[test]
fn a_start_after_the_latest_cant_be_given() {
    // Without Start Time the start is the clock.
    for (latest, expected) in [(0, Err(0)), (999, Err(0)), (1000, Ok(())), (1001, Ok(()))] {
        assert_eq!(requested(&[(15, latest)]).map(|_| ()), expected);
    }
    assert_eq!(requested(&[(15, u32::MAX)]), Ok((1000, 4_600)));
    // The raised clock, not the given time: 2000 in the book, 1500 given.
    for (latest, expected) in [(1999, Err(0)), (2000, Ok((2000, 5_600)))] {
        let mut book = specimen_book();
        book.clock = 2000;
        let late = message(3, 5, &[(11, 1500), (15, latest)]);
        assert_eq!(given(&mut book, 1500, &late), expected);
    }
}

#[test]
fn the_start_is_taken_after_it_is_raised() {
    // Start Time 900 is raised to 1000: the latest start must reach 1000.
    let early = |latest| requested(&[(6, 900), (15, latest)]);
    assert_eq!(early(899), Err(1));
    assert_eq!(early(900), Err(0));
    assert_eq!(early(999), Err(0));
    assert_eq!(early(1000), Ok((1000, 4_600)));
    // Start Time 3000 isn't raised.
    let late = |latest| requested(&[(6, 3000), (15, latest)]);
    assert_eq!(late(2999), Err(1));
    assert_eq!(late(3000), Ok((3000, 6_600)));
    assert_eq!(late(3001), Ok((3000, 6_600)));
}

#[test]
fn a_latest_start_before_start_time_is_error_1() {
    for (start, latest) in [(1, 0), (1000, 999), (3000, 1000), (u32::MAX, 0)] {
        assert_eq!(requested(&[(6, start), (15, latest)]), Err(1));
        assert_eq!(
            renewed(500, 2000, &[(6, start), (11, 1000), (15, latest)]),
            Err(1)
        );
    }
    // Not by the clock, and not by a RENEW's old start: these are error 0.
    assert_eq!(requested(&[(15, 0)]), Err(0));
    assert_eq!(renewed(1500, 2000, &[(11, 1000), (15, 1499)]), Err(0));
    // Equal is fine, also where the start is out of reach: that is error 0.
    assert_eq!(requested(&[(6, 1000), (15, 1000)]), Ok((1000, 4_600)));
    let horizon = 1000 + HORIZON;
    assert_eq!(
        requested(&[(6, horizon), (15, horizon)]).map(|_| ()),
        Ok(())
    );
    assert_eq!(requested(&[(6, horizon + 1), (15, horizon + 1)]), Err(0));
    assert_eq!(requested(&[(6, u32::MAX), (15, u32::MAX)]), Err(0));
}

#[test]
fn error_1_comes_before_errors_2_3_and_0() {
    // Skew: Current Time 0 at the clock 10,000.
    let skewed = |start, latest| {
        let options = [(6, start), (11, 0), (15, latest)];
        given(&mut specimen_book(), 10_000, &message(3, 5, &options))
    };
    assert_eq!(skewed(10_001, 10_000), Err(1));
    assert_eq!(skewed(10_001, 10_001), Err(2));
    // And error 2 before error 0: a latest start before the clock.
    assert_eq!(skewed(0, 0), Err(2));
    // RENEW of an identifier that isn't held: error 1, then error 3, which comes before error 0.
    let unheld = |more: &[Seconds]| given(&mut specimen_book(), 1000, &message(4, 5, more));
    assert_eq!(unheld(&[(6, 3000), (11, 1000), (15, 2999)]), Err(1));
    assert_eq!(unheld(&[(6, 3000), (11, 1000), (15, 3000)]), Err(3));
    assert_eq!(unheld(&[(11, 1000), (14, u32::MAX), (15, 0)]), Err(3));
    // With another minimum that can't be met.
    assert_eq!(requested(&[(6, 2), (14, u32::MAX), (15, 1)]), Err(1));
    // Of an identifier that is held both reasons are error 1.
    let mut held = specimen_book();
    held.leases = vec![lease(1, ID, 1000, 2000, &[0])];
    for latest in [2999, 3000] {
        let options = [(6, 3000), (11, 1000), (15, latest)];
        assert_eq!(given(&mut held, 1000, &message(3, 5, &options)), Err(1));
    }
}

#[test]
fn fifteen_needs_11_and_14_doesnt() {
    for (options, expected) in [
        (&[(15, 5000)][..], Err(1)),
        (&[(15, 0)], Err(1)),
        (&[(6, 3000), (15, 3000)], Err(1)),
        (&[(14, 3600)], Ok((1000, 4_600))),
        (&[(14, 3601)], Err(0)),
    ] {
        let request = message(3, 5, options);
        assert_eq!(given(&mut specimen_book(), 1000, &request), expected);
    }
}

#[test]
fn skew_corrects_nothing() {
    // The client's clock is 1,800 behind or ahead; 15 is held against the book's clock as it stands.
    for current in [8_200, 11_800] {
        let latest_of = |latest| {
            let options = [(11, current), (15, latest)];
            given(&mut specimen_book(), 10_000, &message(3, 5, &options))
        };
        assert_eq!(latest_of(9_999), Err(0));
        assert_eq!(latest_of(10_000), Ok((10_000, 13_600)));
    }
}

#[test]
fn renew_with_a_minimum() {
    // With Lease Time, that.
    assert_eq!(
        renewed(500, 2000, &[(1, 700), (14, 700)]),
        Ok((1000, 1_700))
    );
    assert_eq!(renewed(500, 2000, &[(1, 700), (14, 701)]), Err(0));
    // Without, the old length of 1,500, and neither the seconds left of it nor 3,600.
    assert_eq!(renewed(500, 2000, &[(14, 1_500)]), Ok((1000, 2_500)));
    assert_eq!(renewed(500, 2000, &[(14, 1_501)]), Err(0));
    assert_eq!(renewed(500, 2000, &[(14, 0)]), Ok((1000, 2_500)));
    // The old length is cut too.
    let week = Ok((1000, 1000 + u64::from(LONGEST)));
    assert_eq!(renewed(0, 1_000_000, &[(14, LONGEST)]), week);
    assert_eq!(renewed(0, 1_000_000, &[(14, LONGEST + 1)]), Err(0));
}

#[test]
fn renew_with_a_latest_start() {
    let latest = |start, latest| renewed(start, 2000, &[(11, 1000), (15, latest)]);
    // The old start, raised to the clock.
    assert_eq!(latest(500, 999), Err(0));
    assert_eq!(latest(500, 1000), Ok((1000, 2_500)));
    assert_eq!(latest(1500, 1499), Err(0));
    assert_eq!(latest(1500, 1500), Ok((1500, 2_000)));
    // Or Start Time, raised.
    let from = |start, latest| renewed(500, 2000, &[(6, start), (11, 1000), (15, latest)]);
    assert_eq!(from(3000, 3000), Ok((3000, 4_500)));
    assert_eq!(from(3000, 2999), Err(1));
    assert_eq!(from(900, 900), Err(0));
    assert_eq!(from(900, 1000), Ok((1000, 2_500)));
    // 15 needs 11 in a RENEW too.
    assert_eq!(renewed(500, 2000, &[(15, 5000)]), Err(1));
}

#[test]
fn a_refused_renew_leaves_the_lease() {
    let mut book = specimen_book();
    book.leases = vec![lease(1, ID, 500, 2000, &[0])];
    let before = book.clone();
    for options in [&[(14, 1_501)][..], &[(11, 1000), (15, 999)]] {
        assert_eq!(given(&mut book, 1000, &message(4, 5, options)), Err(0));
        assert_eq!(book, before);
    }
}

#[test]
fn both_at_once() {
    let both = |minimum, latest| requested(&[(1, 500), (6, 2000), (14, minimum), (15, latest)]);
    assert_eq!(both(500, 2000), Ok((2000, 2_500)));
    assert_eq!(both(501, 2000), Err(0));
    assert_eq!(both(500, 1999), Err(1));
    let by_the_clock = |minimum, latest| requested(&[(1, 500), (14, minimum), (15, latest)]);
    assert_eq!(by_the_clock(500, 1000), Ok((1000, 1_500)));
    assert_eq!(by_the_clock(501, 1000), Err(0));
    assert_eq!(by_the_clock(500, 999), Err(0));
    assert_eq!(by_the_clock(501, 999), Err(0));
}

#[test]
fn a_resend_is_acknowledged_whatever_14_and_15_say() {
    for message_type in [3, 4] {
        let mut book = specimen_book();
        book.leases = vec![lease(1, ID, 500, 2000, &[0])];
        book.leases[0].message_type = message_type;
        book.leases[0].transaction = 5;
        let before = book.clone();
        for options in [
            &[(14, u32::MAX)][..],
            &[(15, 0)],
            &[(11, 1000), (15, 0)],
            &[(6, 3000), (11, 1000), (14, u32::MAX), (15, 2999)],
        ] {
            let again = message(message_type, 5, options);
            assert_eq!(given(&mut book, 1000, &again), Ok((500, 2_000)));
            assert_eq!(book, before);
        }
    }
}

#[test]
fn the_clocks_end() {
    // The end at 4,294,967,295 is reached with the minimum, and never passed for it.
    let clock = u32::MAX - 500;
    let last = u64::from(u32::MAX);
    assert_eq!(
        requested_at(clock, &[(1, 500), (14, 500), (15, clock)]),
        Ok((clock, last))
    );
    assert_eq!(requested_at(clock, &[(1, 500), (14, 501)]), Err(0));
    assert_eq!(requested_at(clock, &[(1, 501), (14, 500)]), Err(0));
    assert_eq!(requested_at(clock, &[(1, 500), (15, clock - 1)]), Err(0));
    // The last clock itself: no period is left.
    assert_eq!(requested_at(u32::MAX, &[(1, 1), (15, u32::MAX)]), Err(0));
}

#[test]
fn a_request_refused_by_either_forgets_no_release() {
    let mut book = specimen_book();
    book.releases = vec![release(1, ID, 6, 1000)];
    for options in [&[(14, 3_601)][..], &[(11, 1000), (15, 999)]] {
        assert_eq!(given(&mut book, 1000, &message(3, 5, options)), Err(0));
    }
    assert_eq!(book.releases.len(), 1);
    let met = message(3, 5, &[(11, 1000), (14, 3_600), (15, 1000)]);
    assert_eq!(given(&mut book, 1000, &met), Ok((1000, 4_600)));
    assert!(book.releases.is_empty());
}

#[test]
fn where_14_and_15_arent_allowed() {
    // GETINFO and RELEASE: error 1, whatever they say; a RELEASE sent again still draws the ACK.
    for code in [14, 15] {
        let getinfo = message(8, 5, &[(code, 1000)]);
        assert_eq!(call(&mut specimen_book(), CLIENT_1, 1000, &getinfo).0, 8);
        let mut book = specimen_book();
        book.leases = vec![lease(1, ID, 500, 2000, &[0])];
        let releasing = message(7, 5, &[(code, 0)]);
        assert_eq!(error(&mut book, CLIENT_1, 1000, &releasing), 1);
        assert_eq!(call(&mut book, CLIENT_1, 1000, &message(7, 5, &[])).1[1], 5);
        assert_eq!(call(&mut book, CLIENT_1, 1000, &releasing).1[1], 5);
    }
}
