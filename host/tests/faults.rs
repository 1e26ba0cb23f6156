//! Where a message went wrong: the octet that discard 5 carries, and the words for it.

mod common;

use banshorra_host::{library, Discard, Fault, Outcome, FILE_ROOM, REPLY_ROOM};
use common::*;

/// The offset of a datagram's discard 5. Every other outcome carries 0.
fn offset_of(datagram: &[u8]) -> Option<usize> {
    let mut reply = [0; REPLY_ROOM];
    match specimen()
        .serve(datagram, HOUSE_1, 1000, &mut reply)
        .outcome
    {
        Outcome::Discard(Discard::Options { offset }) => Some(offset),
        outcome => {
            assert_eq!(outcome.offset(), 0);
            None
        }
    }
}

/// The line for the desk.
fn line(datagram: &[u8]) -> String {
    let mut reply = [0; REPLY_ROOM];
    match specimen()
        .serve(datagram, HOUSE_1, 1000, &mut reply)
        .outcome
    {
        Outcome::Discard(why) => why.in_words(datagram),
        Outcome::Reply(_) => "a reply".to_owned(),
    }
}

/// A REQUEST with an identifier, which ends at octet 14, and then these octets.
fn with(octets: &[u8]) -> Vec<u8> {
    let front = Message::new(REQUEST, 1, vec![identifier(b"ab")]).front();
    [&front, octets].concat()
}

#[test]
fn an_option_of_a_wrong_length_is_told_with_the_right_one() {
    let options = [identifier(b"ab"), (17, vec![9; 5]), (6, vec![0, 0, 9])];
    assert_eq!(
        line(&message(REQUEST, 1, &options)),
        "discard 5 at octet 23: option 6 has length 3, not 4"
    );
    for (code, length, table) in [
        (1, 5, "4"),
        (2, 7, "6 or 18"),
        (4, 0, "4"),
        (5, 3, "an even one from 2 on"),
        (7, 2, "4"),
        (8, 0, "1 or more"),
        (9, 0, "1 or more"),
        (10, 7, "a multiple of 6 from 6 on"),
        (11, 8, "4"),
        (12, 5, "6 or more"),
        (13, 3, "4"),
        (14, 3, "4"),
        (15, 3, "4"),
        (16, 1, "2 or more"),
    ] {
        let options = [identifier(b"ab"), (code, vec![0; length])];
        let words =
            format!("discard 5 at octet 14: option {code} has length {length}, not {table}");
        assert_eq!(line(&message(REQUEST, 1, &options)), words);
    }
    for length in [0, 1, 33] {
        let words = format!("discard 5 at octet 8: option 3 has length {length}, not 2 to 32");
        let options = [identifier(&vec![0; length])];
        assert_eq!(line(&message(REQUEST, 1, &options)), words);
    }
}

#[test]
fn every_other_rule_has_its_words() {
    let end = option(0, &[]);
    let again = [option(3, b"ab"), end.clone()].concat();
    for (octets, offset, words) in [
        (&again[..], 14, "option 3 again, after the one at octet 8"),
        (&[], 14, "End is missing"),
        (&end[..1], 14, "1 octet left over"),
        (&end[..3], 14, "3 octets left over"),
        (
            &option(17, &[9; 5])[..8],
            14,
            "option 17 has length 5, with 4 octets left",
        ),
        (
            &option(0, &[9])[..4],
            14,
            "End has length 1, with 0 octets left",
        ),
        (&option(0, &[9]), 14, "End has length 1, not 0"),
        (
            &[&end[..], &end].concat(),
            14,
            "End isn't last, with 4 octets after it",
        ),
        (
            &[&end[..], &[0]].concat(),
            14,
            "End isn't last, with 1 octet after it",
        ),
        (
            &[option(12, &[0; 8]), end.clone()].concat(),
            14,
            "option 12 isn't filled exactly by its three lists",
        ),
    ] {
        let words = format!("discard 5 at octet {offset}: {words}");
        assert_eq!(line(&with(octets)), words);
    }
    let bare = message(REQUEST, 11, &[]);
    assert_eq!(line(&bare), "discard 5 at octet 12: option 3 is missing");
    // No code above 16 is a repeat; no other discard has an octet.
    let twice = [identifier(b"ab"), (17, vec![]), (17, vec![])];
    assert_eq!(line(&message(GETINFO, 1, &twice)), "a reply");
    let header = "discard 4: datagram length, version, family or type";
    assert_eq!(line(&bare[..11]), header);
}

/// The places of the options up to an octet, which has to be one, or the datagram's end.
fn places(datagram: &[u8], end: usize) -> Vec<usize> {
    let (mut at, mut places) = (8, vec![]);
    while at < end {
        places.push(at);
        at += 4 + usize::from(u16::from_be_bytes([datagram[at + 2], datagram[at + 3]]));
    }
    assert_eq!(at, end);
    places
}

/// At the octet that is told something is wrong, and at no option before it; of a datagram that is read, nowhere.
fn first_fault(datagram: &[u8]) {
    let fault = |at: &usize| Fault::at(datagram, *at);
    match offset_of(datagram) {
        Some(offset) if offset == datagram.len() => assert!(fault(&offset).is_some()),
        Some(offset) => {
            assert!(fault(&offset).is_some(), "{datagram:?} at {offset}");
            let before = places(datagram, offset);
            assert_eq!(before.iter().find_map(fault), None, "{datagram:?}");
        }
        None if line(datagram).starts_with("discard 4") => {}
        None => {
            let all = places(datagram, datagram.len());
            assert_eq!(all.iter().find_map(fault), None, "{datagram:?}");
            assert_eq!(fault(&datagram.len()), None);
        }
    }
}

#[test]
fn the_words_are_of_the_first_option_that_breaks_a_rule() {
    let options = [
        lease_time(60),
        server_identifier(SERVER),
        identifier(b"ab"),
        scope(POOL),
        option_request_list(&[9, 11]),
        (300, vec![0, 3, 0, 2, 1, 1]),
        range(POOL, 2),
        features([&[1], &[], &[]]),
        (16, vec![0, 0]),
    ];
    let whole = message(REQUEST, 1, &options);
    for length in 0..whole.len() {
        first_fault(&whole[..length]);
    }
    for at in 8..whole.len() {
        for octet in [0, 1, 2, 3, 4, 5, 6, 8, 12, 16, 17, 255] {
            let mut damaged = whole.clone();
            damaged[at] = octet;
            first_fault(&damaged);
        }
    }
}

#[test]
fn the_offset_is_0_with_every_other_number() {
    let file = specimen_file();
    let getinfo = message(GETINFO, 1, &[identifier(b"ab")]);
    for (client, length, room, number) in [
        (HOUSE_1, getinfo.len(), REPLY_ROOM, 0),
        (HOUSE_1, getinfo.len() - 1, REPLY_ROOM - 1, 2),
        (STRANGER, getinfo.len() - 1, REPLY_ROOM, 3),
        (HOUSE_1, 11, REPLY_ROOM, 4),
        (HOUSE_1, getinfo.len() - 1, REPLY_ROOM, 5),
        (HOUSE_1, getinfo.len() - 1, 0, 20),
    ] {
        let (mut buffer, mut reply) = ([0; FILE_ROOM], [0; REPLY_ROOM]);
        buffer[..file.len()].copy_from_slice(&file);
        let mut file_length = file.len() - usize::from(number == 20);
        let (mut reply_length, mut offset, mut count) = (99, 99, 99);
        let got = library::serve(
            &mut buffer,
            &mut file_length,
            &getinfo[..length],
            client.into(),
            1000,
            &mut reply[..room],
            &mut reply_length,
            &mut offset,
            &mut count,
        );
        assert_eq!((got, offset), (number, if number == 5 { 14 } else { 0 }));
        assert_eq!(count, 0);
    }
}
