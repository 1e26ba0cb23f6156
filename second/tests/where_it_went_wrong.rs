//! Where the options went wrong: the offset that discard 5 carries (W-206).

mod common;

use common::*;
use second::message::Options;
use second::programs::replay;
use second::{file, serve};

const ID: &[u8] = &[0, 0x41];
const SCOPE: &[u8] = &[0xEF, 0xC0, 0, 0];

/// Types of client messages.
const TYPES: [u8; 5] = [1, 3, 4, 7, 8];

/// A header of a type and these options, in hex.
fn message(message_type: u8, options: &str) -> Vec<u8> {
    hex(&format!("00 {message_type:02x} 0001 00000001 {options}"))
}

/// The outcome and offset at clock 1000 in the specimens' book, from house 1.
fn verdict(datagram: &[u8]) -> (u8, usize) {
    let (outcome, offset, _) = call_with_offset(&mut specimen_book(), CLIENT_1, 1000, datagram);
    (outcome, offset)
}

/// Options that every type of message discards as 5 with this offset, given by the server and the reader alike.
fn wrong_at(options: &str, offset: usize) {
    for message_type in TYPES {
        let datagram = message(message_type, options);
        assert_eq!(verdict(&datagram), (5, offset), "{options}");
        assert_eq!(Options::read(&datagram).err(), Some(offset), "{options}");
    }
}

/// Options that break no rule of test 5 in any type of message.
fn nothing_wrong(options: &str) {
    for message_type in TYPES {
        let datagram = message(message_type, options);
        let (outcome, offset) = verdict(&datagram);
        assert!(outcome != 5 && offset == 0, "{options}");
        assert!(Options::read(&datagram).is_ok(), "{options}");
    }
}

#[test]
fn of_a_repeat_the_later() {
    wrong_at("0003 0002 0041 0003 0002 0041 0000 0000", 14);
    wrong_at("0003 0002 0041 0003 0002 0042 0000 0000", 14);
    // Not the neighbour, and not the third.
    wrong_at(
        "0001 0004 00000001 0003 0002 0041 0001 0004 00000001 0000 0000",
        22,
    );
    wrong_at("0003 0002 0041 0003 0002 0041 0003 0002 0041 0000 0000", 14);
    // Of two that are repeated, the one whose second comes first.
    wrong_at(
        "0003 0002 0041 0001 0004 00000001 0001 0004 00000001 0003 0002 0041 0000 0000",
        22,
    );
    // Options that a type doesn't allow, and such as no client sends, count too.
    wrong_at("0003 0002 0041 0010 0002 0001 0010 0002 0001 0000 0000", 20);
    // Above 16 they may repeat.
    nothing_wrong("0003 0002 0041 0011 0000 0011 0000 ffff 0000 ffff 0000 0000 0000");
}

#[test]
fn every_code_up_to_16_is_found_as_a_repeat() {
    for (code, length) in (1..=16).zip([4, 6, 2, 4, 2, 4, 4, 1, 1, 6, 4, 6, 4, 4, 4, 2]) {
        let value = vec![0; length];
        let option = (code, &value[..]);
        let mut options = vec![option, (99, b"x"), option];
        if code != 3 {
            options.push((3, ID));
        }
        assert_eq!(
            verdict(&datagram(7, 1, &options)),
            (5, 8 + 4 + length + 5),
            "{code}"
        );
    }
}

#[test]
fn one_to_three_octets_left_over_count_as_an_option() {
    for left_over in ["00", "0000", "000000", "ff", "0003", "000300"] {
        wrong_at(&format!("0003 0002 0041 {left_over}"), 14);
        // Without option 3, which is missed only after the walk.
        wrong_at(&format!("0063 0002 0041 {left_over}"), 14);
        // After an End it is the End's, which isn't last.
        wrong_at(&format!("0003 0002 0041 0000 0000 {left_over}"), 14);
    }
    // Four are an option: an End here.
    nothing_wrong("0003 0002 0041 0000 0000");
}

#[test]
fn an_end_that_is_not_last() {
    // Before options that are all right, and before a last End.
    wrong_at("0003 0002 0041 0000 0000 0001 0004 00000001 0000 0000", 14);
    wrong_at("0000 0000 0003 0002 0041 0000 0000", 8);
    wrong_at("0000 0000 0003 0002 0041", 8);
    // Before what isn't an option at all, or breaks another rule.
    wrong_at("0003 0002 0041 0000 0000 0001 0004 0000", 14);
    wrong_at("0003 0002 0041 0000 0000 0003 0002 0041 0000 0000", 14);
}

#[test]
fn of_two_ends_the_first() {
    wrong_at("0003 0002 0041 0000 0000 0000 0000", 14);
    wrong_at("0003 0002 0041 0000 0000 0000 0000 0000 0000", 14);
    wrong_at("0000 0000 0000 0000", 8);
}

#[test]
fn an_end_with_a_length() {
    wrong_at("0003 0002 0041 0000 0001 00", 14);
    wrong_at("0003 0002 0041 0000 0004 0000 0000", 14);
    wrong_at("0003 0002 0041 0000 0001 00 0000 0000", 14);
    // Past the datagram's end.
    wrong_at("0003 0002 0041 0000 0001", 14);
    wrong_at("0003 0002 0041 0000 ffff", 14);
}

#[test]
fn an_option_past_the_end() {
    wrong_at("0003 0002 0041 0063 0001", 14);
    wrong_at("0003 0002 0041 0063 0005 0000 0000", 14);
    wrong_at("0003 0002 0041 ffff ffff 0000 0000", 14);
    wrong_at("0003 0020 0041 0000 0000", 8);
    wrong_at("0001 0004 000000", 8);
    // One that takes End's octets as its value ends in place; only End is missing then.
    wrong_at("0003 0002 0041 0063 0004 0000 0000", 22);
}

#[test]
fn a_missing_end_is_the_datagrams_length() {
    wrong_at("0003 0002 0041", 14);
    wrong_at("0003 0002 0041 0001 0004 00000001", 22);
    // Option 3 missing as well.
    wrong_at("0063 0000", 12);
    wrong_at("0001 0004 00000001", 16);
}

#[test]
fn a_missing_option_3_is_the_datagrams_length() {
    wrong_at("0000 0000", 12);
    wrong_at("0001 0004 00000001 0000 0000", 20);
    wrong_at("0063 0002 0041 0000 0000", 18);
    // Up to the longest datagram.
    let longest = datagram(7, 1, &[(99, &vec![0; 1_456])]);
    assert_eq!(verdict(&longest), (5, 1_472));
}

#[test]
fn an_option_at_fault_comes_before_what_is_missing() {
    // A wrong length, with End, option 3 or both missing.
    wrong_at("0003 0002 0041 0001 0003 000001", 14);
    wrong_at("0063 0000 0001 0003 000001 0000 0000", 12);
    wrong_at("0063 0000 0001 0003 000001", 12);
}

#[test]
fn the_first_by_place_whatever_the_rule() {
    let id = "0003 0002 0041";
    let short = "0001 0003 000000";
    // A wrong length, then a repeat, an End that isn't last and octets left over.
    wrong_at(&format!("{short} {id} {id} 0000 0000 00"), 8);
    wrong_at(&format!("{id} {short} {id} 0000 0000 00"), 14);
    wrong_at(&format!("{id} {id} {short} 0000 0000 00"), 14);
    wrong_at(&format!("{id} 0000 0000 {short} {id} 00"), 14);
    wrong_at(&format!("{id} 0063 0001 00 {short} {short} 0000 0000"), 19);
    // A repeat of an option whose first has the wrong length: the first, which is at fault itself.
    wrong_at(
        "0001 0003 000000 0001 0004 00000001 0003 0002 0041 0000 0000",
        8,
    );
}

#[test]
fn a_wrong_length_is_the_options_own_offset() {
    for (code, length) in [
        (1, 3),
        (2, 7),
        (4, 5),
        (5, 0),
        (5, 3),
        (6, 0),
        (7, 2),
        (8, 0),
        (9, 0),
        (10, 0),
        (10, 7),
        (11, 5),
        (13, 8),
        (14, 3),
        (15, 5),
        (16, 1),
    ] {
        let value = vec![0; length];
        let after = datagram(7, 1, &[(3, ID), (code, &value)]);
        assert_eq!(verdict(&after), (5, 14), "{code} of {length}");
        let between = datagram(7, 1, &[(99, b"abc"), (code, &value), (3, ID)]);
        assert_eq!(verdict(&between), (5, 15), "{code} of {length}");
    }
    // Option 3 is there, but too short or too long.
    for length in [0, 1, 33, 255] {
        let value = vec![7; length];
        let wrong = datagram(7, 1, &[(99, b"x"), (3, &value)]);
        assert_eq!(verdict(&wrong), (5, 13), "3 of {length}");
    }
}

#[test]
fn option_12_wrongly_filled() {
    // Too short, too long, a count beyond the value, an odd octet.
    for (length, value) in [
        ("0000", ""),
        ("0005", "0000 0000 00"),
        ("0008", "0000 0000 0000 0000"),
        ("0006", "0001 0000 0000"),
        ("0006", "ffff 0000 0000"),
        ("0007", "0000 0000 0000 00"),
        ("0008", "0000 0000 0002 0001"),
    ] {
        wrong_at(
            &format!("0003 0002 0041 000c {length} {value} 0000 0000"),
            14,
        );
        wrong_at(
            &format!("000c {length} {value} 0003 0002 0041 0000 0000"),
            8,
        );
    }
    nothing_wrong("0003 0002 0041 000c 0008 0001 0001 0000 0000 0000 0000");
    // A required feature is discard 6, which has no offset.
    let required = message(8, "0003 0002 0041 000c 0008 0000 0000 0001 0001 0000 0000");
    assert_eq!(verdict(&required), (6, 0));
}

#[test]
fn every_other_outcome_has_0() {
    // What would be discard 5 at offset 8, had an earlier test not ended the matter.
    let bad = message(7, "0001 0000 0000 0000");
    assert_eq!(verdict(&bad), (5, 8));
    let mut unsound = specimen_book();
    unsound.scopes[0].ttl = 0;
    assert_eq!(
        serve(&mut unsound, &bad, CLIENT_1, 1000, &mut [0; 512]),
        (1, 0, 0, 0)
    );
    let mut book = specimen_book();
    assert_eq!(
        serve(&mut book, &bad, CLIENT_1, 1000, &mut [0; 511]),
        (2, 0, 0, 0)
    );
    assert_eq!(
        serve(&mut book, &bad, STRANGER, 1000, &mut [0; 512]),
        (3, 0, 0, 0)
    );
    assert_eq!(
        serve(&mut book, &bad, CLIENT_1, 1000, &mut [0; 512]),
        (5, 8, 0, 0)
    );
    for datagram in [
        message(2, "0001 0000 0000 0000"),
        bad[..11].to_vec(),
        vec![0; 1_473],
    ] {
        assert_eq!(verdict(&datagram), (4, 0));
    }
    // Past test 5: 6, 7, 8, a NAK and an ACK.
    let features: &[u8] = &[0, 0, 0, 0, 0, 1, 0, 1];
    assert_eq!(verdict(&datagram(3, 1, &[(3, ID), (12, features)])), (6, 0));
    let other_server: &[u8] = &[0, 1, 10, 1, 1, 2];
    assert_eq!(
        verdict(&datagram(3, 1, &[(3, ID), (2, other_server)])),
        (7, 0)
    );
    assert_eq!(verdict(&datagram(1, 1, &[(3, ID)])), (8, 0));
    assert_eq!(verdict(&datagram(3, 1, &[(3, ID)])), (0, 0));
    assert_eq!(verdict(&datagram(3, 1, &[(3, ID), (4, SCOPE)])), (0, 0));
}

#[test]
fn every_cut_of_a_good_datagram() {
    // Option 3 at 8, option 99 at 14, option 7 at 21, End at 29.
    let good = datagram(7, 1, &[(3, ID), (99, b"abc"), (7, &[0, 1, 0, 1])]);
    assert_eq!((good.len(), verdict(&good)), (33, (0, 0)));
    for length in 0..good.len() {
        let expected = match length {
            0..=11 => (4, 0),
            12..=13 => (5, 8),
            14..=20 => (5, 14),
            21..=28 => (5, 21),
            _ => (5, 29),
        };
        assert_eq!(verdict(&good[..length]), expected, "{length} octets");
    }
}

#[test]
fn replay_prints_the_offset_of_discard_5_alone() {
    let mut room = vec![0; file::LONGEST_FILE];
    let length = file::write(&specimen_book(), &mut room).expect("a length");
    let mut input = (length as u16).to_be_bytes().to_vec();
    input.extend(&room[..length]);
    let calls = [
        (
            CLIENT_1,
            512,
            message(7, "0003 0002 0041 0003 0002 0041 0000 0000"),
        ),
        (CLIENT_1, 511, message(7, "0000 0000")),
        (STRANGER, 512, message(7, "0000 0000")),
        (CLIENT_1, 512, message(2, "0000 0000")),
        (CLIENT_1, 512, message(7, "0000 0000")),
        (CLIENT_1, 512, message(1, "0003 0002 0041 0000 0000")),
    ];
    for (client, room_length, datagram) in &calls {
        input.extend(1000u32.to_be_bytes());
        input.extend(client.to_be_bytes());
        input.extend(u16::to_be_bytes(*room_length));
        input.extend((datagram.len() as u16).to_be_bytes());
        input.extend(datagram);
    }
    let text = replay(&input);
    let lines: Vec<_> = text.lines().take(calls.len()).collect();
    assert_eq!(
        lines,
        ["5 @14 #0", "2 #0", "3 #0", "4 #0", "5 @12 #0", "8 #0"]
    );
}
