//! A call in two halves: the verdict first, the reply after.

mod common;

use banshorra_host::{
    lent, library, Answer, Asked, CampusFile, Discard, Given, Outcome, Refusal, Ruling,
};
use banshorra_host::{Verdict, FILE_ROOM, REPLY_ROOM, VERDICT_SIZE};
use common::*;
use std::net::Ipv4Addr;

const ID: &[u8] = b"ab";

/// A call: its client, its time and its datagram.
type Sent = (Ipv4Addr, u32, Vec<u8>);

/// Calls that are sent one after the other, with the words for each: a verdict of every kind.
#[rustfmt::skip]
fn morning() -> Vec<(Sent, &'static str)> {
    let wanted = [identifier(ID), scope(POOL), number(1, 2), lease_time(60)];
    let offered = message(DISCOVER, 1, &wanted);
    let granted = message(REQUEST, 2, &wanted);
    let many = [identifier(b"cd"), scope(POOL), number(4, 4)];
    let skewed = [identifier(b"cd"), scope(POOL), current_time(9999)];
    let listed = [identifier(ID), option_request_list(&[11, 9])];
    let in_german = [&listed[..], &[requested_language(b"de")]].concat();
    let in_long = [&listed[..], &[requested_language(b"de-AT-1996")]].concat();
    let required = [identifier(ID), features([&[], &[], &[7]])];
    let anothers = [identifier(ID), server_identifier(SERVER + 1)];
    let damaged = [identifier(ID), (17, vec![9; 5]), (6, vec![0, 0, 9])];
    let only = [identifier(ID)];
    vec![
        ((HOUSE_2, 1000, offered.clone()), "OFFER to house 2: 2 addresses of scope 1 from 1000 to 1060"),
        ((HOUSE_2, 1010, offered), "OFFER to house 2: 2 addresses of scope 1 from 1000 to 1060"),
        ((HOUSE_2, 1020, granted.clone()), "ACK to house 2: 2 addresses of scope 1 from 1000 to 1060"),
        ((HOUSE_2, 1021, granted), "ACK to house 2: 2 addresses of scope 1 from 1000 to 1060"),
        ((HOUSE_2, 1030, message(RENEW, 3, &[identifier(ID), lease_time(90)])), "ACK to house 2: 2 addresses of scope 1 from 1030 to 1120"),
        ((HOUSE_1, 1030, message(REQUEST, 4, &[identifier(ID), scope(POOL)])), "ACK to house 1: 1 address of scope 1 from 1030 to 4630"),
        ((HOUSE_2, 1040, message(RELEASE, 5, &only)), "ACK to house 2: released"),
        ((HOUSE_2, 1041, message(RELEASE, 5, &only)), "ACK to house 2: released"),
        ((HOUSE_1, 1042, message(GETINFO, 6, &in_german)), "ACK to house 1: scope list and time, names in de"),
        ((HOUSE_2, 1042, message(GETINFO, 6, &in_long)), "ACK to house 2: scope list and time, names in de-AT-19"),
        ((HOUSE_2, 1042, message(GETINFO, 6, &listed)), "ACK to house 2: scope list and time"),
        ((HOUSE_2, 1042, message(GETINFO, 6, &[identifier(ID), option_request_list(&[9])])), "ACK to house 2: scope list"),
        ((HOUSE_2, 1042, message(GETINFO, 6, &[identifier(ID), option_request_list(&[1, 11])])), "ACK to house 2: time"),
        ((HOUSE_2, 1042, message(GETINFO, 6, &only)), "ACK to house 2: neither scope list nor time"),
        ((HOUSE_1, 1043, message(REQUEST, 7, &many)), "NAK error 0 to house 1"),
        ((HOUSE_1, 1043, message(REQUEST, 7, &many[..1])), "NAK error 1 to house 1"),
        ((HOUSE_1, 1043, message(REQUEST, 7, &skewed)), "NAK error 2 to house 1"),
        ((HOUSE_2, 1043, message(RENEW, 7, &only)), "NAK error 3 to house 2"),
        ((STRANGER, 1044, message(GETINFO, 8, &only)), "discard 3: client address in no house"),
        ((HOUSE_1, 1044, vec![0; 11]), "discard 4: datagram length, version, family or type"),
        ((HOUSE_1, 1044, message(REQUEST, 8, &damaged)), "discard 5 at octet 23: option 6 has length 3, not 4"),
        ((HOUSE_1, 1044, message(GETINFO, 8, &required)), "discard 6: a feature is required"),
        ((HOUSE_1, 1044, message(REQUEST, 8, &anothers)), "discard 7: for another server"),
        ((HOUSE_1, 1044, message(DISCOVER, 8, &only)), "discard 8: DISCOVER or GETINFO that draws an error"),
    ]
}

/// The verdict on each of those calls, and the file that it was given with.
fn judged() -> Vec<(Sent, Verdict, CampusFile)> {
    let mut campus = specimen();
    let judge = |(sent, _): (Sent, &str)| {
        let verdict = campus.judge(&sent.2, sent.0, sent.1);
        (sent, verdict, campus.clone())
    };
    morning().into_iter().map(judge).collect()
}

/// Outcome, offset, count and reply.
type Told = (u8, usize, usize, Vec<u8>);

fn told(answer: Answer) -> Told {
    let (outcome, count) = (answer.outcome, answer.count);
    let reply = outcome.reply().unwrap_or(&[]).to_vec();
    (outcome.number(), outcome.offset(), count, reply)
}

/// What is told in a room of so many octets, of which those past the reply have to stay.
fn written(campus: &CampusFile, verdict: &Verdict, room: usize) -> Told {
    let mut reply = pattern(room);
    let told = told(campus.reply(verdict, &mut reply));
    let octets = &told.3;
    assert_eq!(reply[..octets.len()], octets[..]);
    assert_eq!(reply[octets.len()..], pattern(room)[octets.len()..]);
    told
}

/// Discard 2.
const SHORT: Answer = Answer {
    outcome: Outcome::Discard(Discard::ReplyRoom),
    count: 0,
};

#[test]
fn the_two_do_what_the_call_does() {
    let mut whole = specimen();
    for ((client, time, datagram), verdict, halves) in judged() {
        let mut room = pattern(REPLY_ROOM + 90);
        let due = told(whole.serve(&datagram, client, time, &mut room));
        assert_eq!((verdict.number(), verdict.count()), (due.0, due.2));
        for room in [REPLY_ROOM, REPLY_ROOM + 90, 1500] {
            assert_eq!(written(&halves, &verdict, room), due, "{verdict}");
        }
        assert_eq!(whole, halves);
    }
}

#[test]
fn a_verdict_has_its_words() {
    for (((_, _, datagram), verdict, _), (_, words)) in judged().into_iter().zip(morning()) {
        assert_eq!(verdict.in_words(&datagram), words);
    }
}

#[test]
fn a_short_reply_buffer_is_2_whatever_the_verdict() {
    for (_, verdict, campus) in judged() {
        for room in [0, 1, REPLY_ROOM - 1] {
            assert_eq!(written(&campus, &verdict, room), (2, 0, 0, vec![]));
        }
    }
}

#[test]
fn the_first_half_changes_what_a_call_with_a_short_reply_buffer_does_not() {
    let ((client, time, datagram), _) = morning().swap_remove(0);
    let (mut short, mut halves) = (specimen(), specimen());
    let mut reply = [0; REPLY_ROOM - 1];
    assert_eq!(short.serve(&datagram, client, time, &mut reply), SHORT);
    assert_eq!(short, specimen());
    assert_eq!(halves.judge(&datagram, client, time).number(), 0);
    assert_ne!(halves, specimen());
    short.serve(&datagram, client, time, &mut [0; REPLY_ROOM]);
    assert_eq!(halves, short);
}

#[test]
fn the_second_half_tests_the_room_then_the_file_then_the_verdict() {
    let mut unsound = specimen_file();
    unsound[32] = 0;
    for (_, verdict, campus) in judged() {
        let sound = campus.as_bytes().to_vec();
        for (file, refusal) in [
            (&sound[1..], Refusal::Form),
            (&sound[..sound.len() - 1], Refusal::Form),
            (&[], Refusal::Form),
            (&unsound, Refusal::Unsound),
        ] {
            let mut reply = pattern(700);
            assert_eq!(lent::reply(file, &verdict, &mut reply), Err(refusal));
            let short = lent::reply(file, &verdict, &mut reply[..REPLY_ROOM - 1]);
            assert_eq!(short, Ok(SHORT));
            assert_eq!(reply, pattern(700));
        }
    }
}

#[test]
fn lengths_offsets_and_counts_are_0_but_with_their_number() {
    let mut cut = specimen_file();
    cut.pop();
    for (_, verdict, campus) in judged() {
        let file = campus.as_bytes();
        for (file, room, number) in [
            (file, REPLY_ROOM, verdict.number()),
            (file, REPLY_ROOM - 1, 2),
            (&cut, REPLY_ROOM, 20),
        ] {
            let (mut length, mut offset, mut count) = (99, 99, 99);
            let mut reply = vec![0; room];
            let told = library::reply(
                file,
                verdict.as_bytes(),
                &mut reply,
                &mut length,
                &mut offset,
                &mut count,
            );
            assert_eq!(told, number);
            let is_told = number == verdict.number();
            assert_eq!(count, if is_told { verdict.count() } else { 0 });
            assert_eq!(length > 0, number == 0);
            assert_eq!(offset, if number == 5 { 23 } else { 0 });
        }
    }
}

/// The octets of a verdict, from its fields at their places.
fn octets(fields: &[(usize, &[u8])]) -> [u8; VERDICT_SIZE] {
    let mut octets = [0; VERDICT_SIZE];
    for (at, field) in fields {
        octets[*at..at + field.len()].copy_from_slice(field);
    }
    octets
}

#[test]
fn a_verdict_is_laid_out_as_the_header_says() {
    let options = [
        identifier(b"abc"),
        scope(POOL),
        number(2, 3),
        start_time(1500),
        current_time(1000),
        features([&[]; 3]),
    ];
    let offer = message(DISCOVER, 0x0102_0304, &options);
    let verdict = specimen().judge(&offer, HOUSE_2, 1000);
    let due = octets(&[
        (1, &[1]),
        (3, &[1]),
        (6, &[1]),
        (7, &[1, 2, 3, 4]),
        (11, &1500_u32.to_be_bytes()),
        (15, &5100_u32.to_be_bytes()),
        (19, &[0, 0, 0, 0, 0, 0, 0, 0b11]),
        (27, &[1]),
        (41, &[3]),
        (42, b"abc"),
    ]);
    assert_eq!(verdict.as_bytes(), &due);
    let given = Given {
        scope: 1,
        start: 1500,
        end: 5100,
        addresses: 0b11,
    };
    assert_eq!(verdict.ruling(), Some(Ruling::Offer(given)));
    assert_eq!(verdict.house(), Some(2));
    assert_eq!((given.count(), given.offsets().collect()), (2, vec![0, 1]));

    let info = [
        identifier(&[9; 32]),
        option_request_list(&[9]),
        requested_language(b"en-GB-oed"),
    ];
    let verdict = specimen().judge(&message(GETINFO, 7, &info), HOUSE_1, 1000);
    let due = octets(&[
        (1, &[4]),
        (10, &[7]),
        (28, &[1]),
        (30, &[1, 0, 9]),
        (33, b"en-GB-oe"),
        (41, &[32]),
        (42, &[9; 32]),
    ]);
    assert_eq!(verdict.as_bytes(), &due);
    let asked = Asked {
        scope_list: true,
        time: false,
        language: Some(b"en-GB-oe"),
    };
    assert_eq!(verdict.ruling(), Some(Ruling::Info(asked)));
}

#[test]
fn a_discard_has_its_outcome_and_offset_alone() {
    for (_, verdict, _) in judged() {
        match verdict.number() {
            0 => assert_eq!(verdict.discard(), None),
            8 => assert_eq!((verdict.transaction(), verdict.identifier()), (8, ID)),
            number => {
                let offset = if number == 5 { 23 } else { 0 };
                assert_eq!(
                    verdict.as_bytes(),
                    &octets(&[(0, &[number]), (5, &[offset])])
                );
                assert_eq!((verdict.ruling(), verdict.house()), (None, None));
            }
        }
    }
}

#[test]
fn a_language_that_is_too_long_is_told_from_its_first_octets() {
    // No tag has nine octets, so that one of eight that are the same isn't what is asked for.
    let mut pool = pool();
    pool.names[1] = vec![Name::new(0, b"language", b"Stage")];
    let file = campus_at(CLOCK, pool, &[]).octets();
    let mut replies = vec![];
    for tag in [&b"language"[..], b"languages"] {
        let mut campus = CampusFile::from_bytes(&file).expect("sound");
        let options = [
            identifier(ID),
            option_request_list(&[9]),
            requested_language(tag),
        ];
        let verdict = campus.judge(&message(GETINFO, 1, &options), HOUSE_1, 1000);
        let reply = written(&campus, &verdict, REPLY_ROOM).3;
        let has = |name: &[u8]| reply.windows(name.len()).any(|part| part == name);
        replies.push((has(b"Stage"), has(b"Studio A")));
    }
    assert_eq!(replies, [(true, false), (false, true)]);
}

#[test]
fn verdicts_are_copied_and_compared() {
    let all = judged();
    for (place, (_, verdict, campus)) in all.iter().enumerate() {
        let copy = *verdict;
        assert_eq!(Verdict::from_bytes(*copy.as_bytes()), *verdict);
        let again = written(campus, &copy, REPLY_ROOM);
        assert_eq!(written(campus, verdict, REPLY_ROOM), again);
        let (sent, words) = &morning()[place];
        let others = all[..place].iter().filter(|other| other.1 == *verdict);
        let same = |other: &(Sent, Verdict, CampusFile)| other.0 .2 == sent.2;
        assert!(others.into_iter().all(same), "{words}");
    }
}

#[test]
fn a_made_up_verdict_is_some_outcome() {
    for (_, verdict, campus) in judged() {
        for at in 0..VERDICT_SIZE {
            for octet in [0, 1, 2, 3, 4, 5, 6, 8, 9, 33, 64, 127, 128, 255] {
                let mut octets = *verdict.as_bytes();
                octets[at] = octet;
                let made_up = Verdict::from_bytes(octets);
                let (number, _, _, reply) = written(&campus, &made_up, REPLY_ROOM + 90);
                assert!(number <= 8 && reply.len() <= REPLY_ROOM);
                // It has words, whatever it says.
                assert!(!made_up.to_string().is_empty());
                made_up.identifier();
            }
        }
        // Of another campus.
        let (number, _, _, reply) = written(&specimen(), &verdict, REPLY_ROOM + 90);
        assert!(number <= 8 && reply.len() <= REPLY_ROOM);
    }
}

#[test]
fn a_refused_file_has_no_verdict() {
    let mut unsound = specimen_file();
    unsound[32] = 0;
    let file = specimen_file();
    for (room, length, file, refusal) in [
        (FILE_ROOM - 1, file.len(), &file, Refusal::FileRoom),
        (FILE_ROOM - 1, FILE_ROOM, &file, Refusal::FileRoom),
        (FILE_ROOM, FILE_ROOM + 1, &file, Refusal::FileLength),
        (FILE_ROOM, usize::MAX, &file, Refusal::FileLength),
        (FILE_ROOM, file.len() - 1, &file, Refusal::Form),
        (FILE_ROOM, unsound.len(), &unsound, Refusal::Unsound),
    ] {
        let mut before = pattern(room);
        before[..file.len()].copy_from_slice(file);
        let (mut buffer, mut told, mut verdict) = (before.clone(), length, [0xA5; VERDICT_SIZE]);
        let datagram = message(GETINFO, 1, &[identifier(ID)]);
        let number = library::judge(
            &mut buffer,
            &mut told,
            &datagram,
            HOUSE_1.into(),
            5000,
            &mut verdict,
        );
        assert_eq!(number, refusal.number());
        assert_eq!(
            (&buffer, told, verdict),
            (&before, length, [0xA5; VERDICT_SIZE])
        );
        let judged = lent::judge(&mut buffer, &mut told, &datagram, HOUSE_1, 5000);
        assert_eq!(judged, Err(refusal));
    }
}

#[allow(dead_code)]
#[path = "../examples/monitor.rs"]
mod monitor;

#[test]
fn the_monitor_says_what_becomes_of_the_sample_calls() {
    let morning = include_bytes!("../../samples/morning.bin");
    let (lines, refusal) = monitor::watch(morning);
    assert_eq!(lines, include_str!("../../samples/verdicts.out"));
    assert_eq!(refusal, None);
    // What `replay` prints begins with the same outcome, but where the reply room is too short, which a verdict doesn't ask.
    let replayed = include_str!("../../samples/morning.out").lines();
    let mut others = vec![];
    for (line, said) in lines.lines().zip(replayed) {
        let (_, words) = line.split_once(": ").expect("a verdict in words");
        let outcome = words
            .strip_prefix("discard ")
            .map_or("0", |words| &words[..1]);
        if !said.starts_with(outcome) {
            others.push((outcome, said));
        }
    }
    assert_eq!(others, [("0", "2 #0")]);
}

#[test]
fn the_monitor_refuses_what_replay_refuses() {
    let morning = include_bytes!("../../samples/morning.bin");
    let cut = monitor::watch(&morning[..morning.len() - 1]);
    assert_eq!(cut.1, Some(Refusal::CutOff));
    assert!(include_str!("../../samples/verdicts.out").starts_with(&cut.0) && !cut.0.is_empty());
    for octets in [&morning[..0], &morning[..1], &morning[..90]] {
        assert_eq!(
            monitor::watch(octets),
            (String::new(), Some(Refusal::CutOff))
        );
    }
    let wrong = [&[0, 1, 9][..], morning].concat();
    assert_eq!(monitor::watch(&wrong), (String::new(), Some(Refusal::Form)));
}
