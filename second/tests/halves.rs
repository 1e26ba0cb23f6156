//! The two halves of a call (W-208): the first gives the verdict and the book afterwards, the second writes the reply
//! from these.

mod common;

use common::*;
use second::reply::SHORTEST_ROOM;
use second::verdict::{Answer, Asked, Discard, Given, Ruling};
use second::{judge, serve, write, Book, Name, Verdict};

const ID: &[u8] = &[0, 0x41];
const SCOPE: &[u8] = &[0xEF, 0xC0, 0, 0];

/// Types of client messages.
const DISCOVER: u8 = 1;
const REQUEST: u8 = 3;
const RENEW: u8 = 4;
const RELEASE: u8 = 7;
const GETINFO: u8 = 8;

/// The specimens' book with names: the campus's in English, house 2's own in German.
fn book() -> Book {
    let name = |flags: u8, tag: &[u8], text: &[u8]| Name {
        flags,
        tag: tag.to_vec(),
        text: text.to_vec(),
    };
    let mut book = specimen_book();
    book.names[0].campus = vec![name(128, b"en", b"Stage")];
    book.names[0].houses[1] = vec![name(0, b"de", b"Probe")];
    book
}

/// Calls of one book after the other: client, time and datagram, and what the verdict is to be.
fn morning() -> Vec<(u32, u32, Vec<u8>, Verdict)> {
    let four: &[u8] = &[0, 0, 0, 4];
    let features: &[u8] = &[0; 6];
    let discover = datagram(DISCOVER, 1, &[(3, ID), (4, SCOPE), (7, &[0, 1, 0, 2])]);
    let request = datagram(REQUEST, 2, &[(3, ID), (4, SCOPE), (12, features)]);
    let required = [0, 0, 0, 0, 0, 1, 0, 9];
    let info = [(3, ID), (5, &[0, 9, 0, 11][..]), (8, b"de")];
    let given = |start, end, offsets: &[u8]| Given {
        scope: 1,
        start,
        end,
        offsets: offsets.to_vec(),
    };
    vec![
        (
            CLIENT_2,
            1000,
            discover.clone(),
            ruled(2, 1, Answer::Offer(given(1000, 4600, &[0, 1]))),
        ),
        // The offer that is held, as it stands.
        (
            CLIENT_2,
            1010,
            discover,
            counted(1, ruled(2, 1, Answer::Offer(given(1000, 4600, &[0, 1])))),
        ),
        (
            CLIENT_2,
            1020,
            request.clone(),
            counted(
                2,
                with_features(ruled(2, 2, Answer::Lease(given(1000, 4600, &[0, 1])))),
            ),
        ),
        // Sent again: the lease that is recorded.
        (
            CLIENT_2,
            1021,
            request,
            counted(
                1,
                with_features(ruled(2, 2, Answer::Lease(given(1000, 4600, &[0, 1])))),
            ),
        ),
        (
            CLIENT_2,
            1100,
            datagram(RENEW, 3, &[(3, ID), (1, &[0, 0, 0, 60])]),
            counted(2, ruled(2, 3, Answer::Lease(given(1100, 1160, &[0, 1])))),
        ),
        (
            CLIENT_2,
            1101,
            datagram(GETINFO, 4, &info),
            ruled(2, 4, asked(true, true, Some(b"de"))),
        ),
        (
            CLIENT_1,
            1101,
            datagram(GETINFO, 5, &info[..1]),
            ruled(1, 5, asked(false, false, None)),
        ),
        (
            CLIENT_1,
            1102,
            datagram(RELEASE, 6, &info[..1]),
            ruled(1, 6, Answer::Error(3)),
        ),
        (
            CLIENT_1,
            1102,
            datagram(REQUEST, 6, &[(3, ID)]),
            ruled(1, 6, Answer::Error(1)),
        ),
        (
            CLIENT_1,
            1102,
            datagram(REQUEST, 6, &[(3, ID), (4, SCOPE), (7, &[0, 3, 0, 3])]),
            ruled(1, 6, Answer::Error(0)),
        ),
        (
            CLIENT_1,
            3000,
            datagram(REQUEST, 6, &[(3, ID), (4, SCOPE), (11, four)]),
            ruled(1, 6, Answer::Error(2)),
        ),
        // An earlier time leaves the clock; house 2's lease has ended.
        (STRANGER, 0, vec![], discarded(3, 0)),
        (CLIENT_1, 0, vec![0; 11], discarded(4, 0)),
        (CLIENT_1, 0, datagram(GETINFO, 7, &[]), discarded(5, 12)),
        (
            CLIENT_1,
            0,
            datagram(GETINFO, 7, &[(3, ID), (12, &required)]),
            discarded(6, 0),
        ),
        (
            CLIENT_1,
            0,
            datagram(REQUEST, 7, &[(3, ID), (2, &[0, 1, 9, 9, 9, 9])]),
            discarded(7, 0),
        ),
        (
            CLIENT_1,
            0,
            datagram(DISCOVER, 7, &[(3, ID)]),
            discarded(8, 0),
        ),
    ]
}

fn ruled(house: u8, transaction: u32, answer: Answer) -> Verdict {
    Verdict::Reply(Ruling {
        house,
        transaction,
        identifier: ID.to_vec(),
        has_features: false,
        count: 0,
        answer,
    })
}

fn counted(count: usize, verdict: Verdict) -> Verdict {
    match verdict {
        Verdict::Reply(ruling) => Verdict::Reply(Ruling { count, ..ruling }),
        Verdict::Discard(discard) => Verdict::Discard(Discard { count, ..discard }),
    }
}

fn with_features(verdict: Verdict) -> Verdict {
    match verdict {
        Verdict::Reply(ruling) => Verdict::Reply(Ruling {
            has_features: true,
            ..ruling
        }),
        discard => discard,
    }
}

fn asked(scope_list: bool, current_time: bool, language: Option<&[u8]>) -> Answer {
    Answer::Info(Asked {
        scope_list,
        current_time,
        language: language.map(<[u8]>::to_vec),
    })
}

fn discarded(outcome: u8, offset: usize) -> Verdict {
    Verdict::Discard(Discard {
        offset,
        ..outcome.into()
    })
}

/// Octets to see a write by.
fn pattern(length: usize) -> Vec<u8> {
    (0..length)
        .map(|place| (place % 251) as u8 ^ 0xA5)
        .collect()
}

#[test]
fn the_call_is_made_of_the_two() {
    let (mut whole, mut halves) = (book(), book());
    for (client, time, datagram, due) in morning() {
        for room in [512, 513, 1500] {
            let (mut served, mut written) = (pattern(room), pattern(room));
            let (mut copy, mut other) = (whole.clone(), halves.clone());
            let told = serve(&mut copy, &datagram, client, time, &mut served);
            let verdict = judge(&mut other, &datagram, client, time);
            assert_eq!(verdict, due);
            assert_eq!(write(&other, &verdict, &mut written), told);
            assert_eq!((written, other), (served, copy));
        }
        serve(&mut whole, &datagram, client, time, &mut [0; 512]);
        judge(&mut halves, &datagram, client, time);
        assert_eq!(whole, halves);
    }
}

#[test]
fn the_first_half_leaves_an_unsound_book_and_gives_1() {
    for (client, time, datagram, _) in morning() {
        let mut unsound = book();
        unsound.scopes[0].ttl = 0;
        let before = unsound.clone();
        assert_eq!(
            judge(&mut unsound, &datagram, client, time),
            discarded(1, 0)
        );
        assert_eq!(unsound, before);
    }
}

#[test]
fn the_first_half_raises_the_clock_and_drops_what_has_ended_for_a_discard_too() {
    let mut full = book();
    full.leases = vec![lease(1, ID, 900, 1100, &[0])];
    full.holds = vec![hold(2, ID, (900, 1100), &[1], 1030)];
    assert_eq!(judge(&mut full, &[], STRANGER, 1099), discarded(3, 0));
    assert_eq!(
        (full.clock, full.leases.len(), full.holds.len()),
        (1099, 1, 0)
    );
    assert_eq!(judge(&mut full, &[], STRANGER, 1100), discarded(3, 0));
    assert_eq!((full.clock, full.leases.len()), (1100, 0));
}

#[test]
fn writing_into_room_below_512_is_2_also_for_a_discard() {
    let mut judged = book();
    for (client, time, datagram, due) in morning() {
        let verdict = judge(&mut judged, &datagram, client, time);
        assert_eq!(verdict, due);
        for length in [0, 1, 40, SHORTEST_ROOM - 1] {
            let mut room = pattern(length);
            assert_eq!(write(&judged, &verdict, &mut room), (2, 0, 0, 0));
            assert_eq!(room, pattern(length));
        }
    }
    // Of an unsound book too: what is written is the verdict, and it has no room.
    assert_eq!(
        write(&judged, &discarded(1, 0), &mut [0; 511]),
        (2, 0, 0, 0)
    );
}

#[test]
fn writing_a_discard_returns_it_and_writes_nothing() {
    for (outcome, offset, count) in [
        (1, 0, 0),
        (3, 0, 0),
        (4, 0, 0),
        (5, 12, 0),
        (5, 1472, 0),
        (8, 0, 0),
        (8, 0, 16),
    ] {
        for length in [512, 1500] {
            let mut room = pattern(length);
            let verdict = counted(count, discarded(outcome, offset));
            let told = write(&book(), &verdict, &mut room);
            assert_eq!(told, (outcome, offset, count, 0));
            assert_eq!(room, pattern(length));
        }
    }
}

#[test]
fn the_old_call_makes_tests_1_and_2_itself() {
    for (client, time, datagram, _) in morning() {
        for (ttl, length, outcome) in [
            (0, 511, 1),
            (0, 0, 1),
            (0, 512, 1),
            (15, 511, 2),
            (15, 0, 2),
        ] {
            let mut lent = book();
            lent.scopes[0].ttl = ttl;
            let (before, mut room) = (lent.clone(), pattern(length));
            let told = serve(&mut lent, &datagram, client, time, &mut room);
            assert_eq!(told, (outcome, 0, 0, 0));
            assert_eq!((lent, room), (before, pattern(length)));
        }
    }
}

#[test]
fn the_reply_is_of_the_book_that_the_first_half_left() {
    // Current Time and the scope list are the book's, not the verdict's.
    let mut judged = book();
    let info = datagram(GETINFO, 4, &[(3, ID), (5, &[0, 11])]);
    let verdict = judge(&mut judged, &info, CLIENT_1, 1234);
    let mut room = [0; 512];
    let (_, _, _, length) = write(&judged, &verdict, &mut room);
    let time = option_of(&room[..length], 11);
    assert_eq!(time, Some(1234_u32.to_be_bytes().to_vec()));
    judged.clock = 9999;
    let (_, _, _, length) = write(&judged, &verdict, &mut room);
    let time = option_of(&room[..length], 11);
    assert_eq!(time, Some(9999_u32.to_be_bytes().to_vec()));
}

#[test]
fn a_verdict_that_the_first_half_did_not_give_is_written_within_512_octets_or_not_at_all() {
    let odd: Vec<u8> = (0..=255).filter(|offset| offset % 2 == 1).collect();
    let answers = [
        Answer::Offer(Given {
            scope: 0,
            start: 9,
            end: 3,
            offsets: odd.clone(),
        }),
        Answer::Lease(Given {
            scope: 200,
            start: 0,
            end: u32::MAX,
            offsets: [&odd[..], &odd].concat(),
        }),
        Answer::Lease(Given {
            scope: 1,
            start: 0,
            end: 0,
            offsets: vec![],
        }),
        Answer::Released,
        asked(true, true, Some(&[0; 2000])),
        Answer::Error(65535),
    ];
    for answer in answers {
        for (house, length) in [(0, 0), (255, 33), (9, 460), (1, 2000)] {
            let verdict = Verdict::Reply(Ruling {
                house,
                transaction: 7,
                identifier: vec![1; length],
                has_features: true,
                count: 33,
                answer: answer.clone(),
            });
            let mut room = pattern(3000);
            let (outcome, offset, _, length) = write(&book(), &verdict, &mut room);
            assert!(outcome <= 8 && offset == 0 && length <= 512);
            assert_eq!(room[length..], pattern(3000)[length..]);
        }
    }
}
