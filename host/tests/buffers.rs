//! Buffers that are too short, lengths that are wrong, and octets that have to stay.

mod common;

use banshorra_host::{lent, library, Answer, Discard, Outcome, Refusal, Replayed};
use banshorra_host::{BOARD_ROOM, FILE_ROOM, OCCUPANCY_ROOM, REPLY_ROOM};
use common::*;

fn getinfo() -> Vec<u8> {
    message(GETINFO, 1, &[identifier(b"ab")])
}

/// A buffer of a length with octets to see writes by, and a file in its front as far as it fits.
fn buffer(room: usize, file: &[u8]) -> Vec<u8> {
    let mut buffer = pattern(room);
    let length = file.len().min(room);
    buffer[..length].copy_from_slice(&file[..length]);
    buffer
}

/// A serve and a replay that are refused, and change nothing.
fn refused(room: usize, length: usize, file: &[u8], refusal: Refusal) {
    let before = buffer(room, file);
    let (mut file, mut file_length) = (before.clone(), length);
    let mut reply = pattern(600);
    let outcome = lent::serve(
        &mut file,
        &mut file_length,
        &getinfo(),
        HOUSE_1,
        5000,
        &mut reply,
    );
    assert_eq!(outcome, Err(refusal));
    let mut answers = pattern(600);
    let replayed = lent::replay(&mut file, &mut file_length, &[0; 12], &mut answers);
    let nothing = Replayed {
        calls_used: 0,
        answers_filled: 0,
        stopped: Some(refusal),
    };
    assert_eq!(replayed, nothing);
    assert_eq!((file, file_length), (before, length));
    assert_eq!((reply, answers), (pattern(600), pattern(600)));
}

#[test]
fn a_short_file_buffer_is_23() {
    let file = specimen_file();
    for room in [0, 1, file.len(), FILE_ROOM - 1] {
        refused(room, file.len().min(room), &file, Refusal::FileRoom);
        // 23 comes before 28.
        refused(room, room + 1, &file, Refusal::FileRoom);
        refused(room, usize::MAX, &file, Refusal::FileRoom);
    }
}

#[test]
fn a_file_length_above_its_buffers_is_28() {
    let file = specimen_file();
    for room in [FILE_ROOM, FILE_ROOM + 1, 40_000] {
        refused(room, room + 1, &file, Refusal::FileLength);
        refused(room, usize::MAX, &file, Refusal::FileLength);
        // 28 comes before 20.
        refused(room, room + 1, &[], Refusal::FileLength);
    }
}

#[test]
fn a_wrong_file_length_is_20_or_21() {
    let file = specimen_file();
    for length in (0..file.len()).chain([file.len() + 1, FILE_ROOM]) {
        refused(FILE_ROOM, length, &file, Refusal::Form);
    }
    refused(40_000, FILE_ROOM + 1, &file, Refusal::Form);
    let mut unsound = file.clone();
    unsound[32] = 0;
    refused(FILE_ROOM, file.len(), &unsound, Refusal::Unsound);
}

#[test]
fn octets_past_the_file_and_the_reply_stay() {
    let lease = Lease {
        house: 1,
        scope: 1,
        identifier: b"ab".to_vec(),
        kind: REQUEST,
        transaction: 7,
        start: 900,
        end: 1500,
        offsets: vec![0, 1],
    };
    for room in [FILE_ROOM, FILE_ROOM + 1, 40_000] {
        // The file gets longer by a REQUEST, and shorter again as the leases end.
        let before = file_at(1000, std::slice::from_ref(&lease));
        let mut file = buffer(room, &before);
        let mut length = before.len();
        let request = message(
            REQUEST,
            1,
            &[identifier(b"cd"), scope(POOL), lease_time(50)],
        );
        for (time, datagram) in [(1001, &request), (1500, &getinfo())] {
            let stood = file.clone();
            let mut reply = pattern(1000);
            let answer = lent::serve(&mut file, &mut length, datagram, HOUSE_1, time, &mut reply);
            let Ok(Outcome::Reply(octets)) = answer.map(|answer| answer.outcome) else {
                panic!("{answer:?}");
            };
            let replied = octets.len();
            assert_eq!(reply[replied..], pattern(1000)[replied..]);
            assert_eq!(file[length..], stood[length..]);
        }
        assert_eq!(file[..length], file_at(1500, &[]));
    }
}

#[test]
fn a_reply_room_below_512_is_discard_2_and_changes_nothing() {
    for room in [0, 1, REPLY_ROOM - 1] {
        let mut campus = specimen();
        let mut reply = pattern(room);
        let answer = campus.serve(&getinfo(), HOUSE_1, 5000, &mut reply);
        let short = Answer {
            outcome: Outcome::Discard(Discard::ReplyRoom),
            count: 0,
        };
        assert_eq!(answer, short);
        assert_eq!((reply, campus), (pattern(room), specimen()));
    }
    let mut reply = pattern(REPLY_ROOM);
    let answer = specimen().serve(&getinfo(), HOUSE_1, 5000, &mut reply);
    assert_eq!(answer.outcome.number(), 0);
}

#[test]
fn a_discard_leaves_the_reply_room() {
    let mut campus = specimen();
    for (client, length, discard) in [
        (STRANGER, 18, Discard::NoHouse),
        (HOUSE_1, 11, Discard::Header),
        (HOUSE_1, 17, Discard::Options { offset: 14 }),
        (HOUSE_1, 0, Discard::Header),
    ] {
        let datagram = &getinfo()[..length];
        let number = discard.number();
        assert_eq!(call(&mut campus, client, 1000, datagram), (number, vec![]));
    }
}

#[test]
fn a_datagram_of_any_length_is_served() {
    // Codes above 16 are stepped over: one fills the datagram up. 1,472 octets are the most.
    for (length, number) in [(1471, 0), (1472, 0), (1473, 4), (60_000, 4)] {
        let filled = (17, vec![0xFF; length - 18 - 4]);
        let datagram = message(GETINFO, 1, &[identifier(b"ab"), filled]);
        assert_eq!(datagram.len(), length);
        assert_eq!(call(&mut specimen(), HOUSE_1, 1000, &datagram).0, number);
    }
}

#[test]
fn a_short_buffer_has_no_board() {
    for room in [0, 1, BOARD_ROOM - 1] {
        let mut text = pattern(room);
        assert_eq!(lent::board(&specimen_file(), &mut text), None);
        assert_eq!(text, pattern(room));
    }
    for file in [specimen_file(), vec![]] {
        let mut text = pattern(2000);
        let length = lent::board(&file, &mut text).expect("a text").len();
        assert_eq!(text[length..], pattern(2000)[length..]);
        // The least room has the same text.
        let mut least = pattern(BOARD_ROOM);
        lent::board(&file, &mut least).expect("a text");
        assert_eq!(least[..length], text[..length]);
    }
}

#[test]
fn a_short_buffer_has_no_occupancy_board() {
    let lease = Lease {
        house: 2,
        scope: 1,
        identifier: b"ab".to_vec(),
        kind: REQUEST,
        transaction: 7,
        start: 900,
        end: 1500,
        offsets: vec![1, 2],
    };
    let file = file_at(1000, &[lease]);
    let mut unsound = file.clone();
    unsound[32] = 0;
    for room in [0, 1, OCCUPANCY_ROOM - 1] {
        // A refused file is refused first.
        for (file, number) in [(&file[..], 23), (&file[1..], 20), (&unsound, 21)] {
            let mut board = pattern(room);
            assert_eq!(library::occupancy(file, &mut board), number);
            assert_eq!(board, pattern(room));
        }
    }
    let due = lent::occupancy(&file).expect("sound");
    for room in [OCCUPANCY_ROOM, OCCUPANCY_ROOM + 1, 2000] {
        let mut board = pattern(room);
        assert_eq!(library::occupancy(&file, &mut board), 0);
        assert_eq!(board[..OCCUPANCY_ROOM], due.as_bytes()[..]);
        assert_eq!(board[OCCUPANCY_ROOM..], pattern(room)[OCCUPANCY_ROOM..]);
        for (file, number) in [(&file[1..], 20), (&unsound, 21)] {
            let mut board = pattern(room);
            assert_eq!(library::occupancy(file, &mut board), number);
            assert_eq!(board, pattern(room));
        }
    }
}
