//! The words for what a call draws, beside what the library answers: the error that is named is the one that it gives.

#[path = "common/random.rs"]
mod random;

use banshorra_host::campus::Campus;
use banshorra_host::message;
use banshorra_host::{CampusFile, Case, Discard, Outcome, REPLY_ROOM};
use builder::*;
use random::Random;
use std::net::Ipv4Addr;

const FOLDER: &str = concat!(env!("CARGO_MANIFEST_DIR"), "/../samples/");

fn sample() -> CampusFile {
    let file = std::fs::read(format!("{FOLDER}campus.bin")).expect("a sample");
    CampusFile::from_bytes(&file).expect("sound")
}

/// How many records of the client's house a lookup compares: in order of ending the place of the match, or else all.
fn compared(case: &Case, identifier: &[u8]) -> usize {
    let book = case.book.expect("a book");
    let house = book.house_of(case.client);
    let leases = book.leases.iter().map(|lease| (lease.end, lease));
    let holds = book.holds.iter().map(|hold| (hold.lapse, &hold.lease));
    let mut records: Vec<_> = leases
        .chain(holds)
        .filter(|(ending, lease)| Some(lease.house) == house && *ending > case.clock)
        .map(|(ending, lease)| (ending, &lease.identifier[..]))
        .collect();
    records.sort();
    let place = records.iter().position(|record| record.1 == identifier);
    place.map_or(records.len(), |place| place + 1)
}

/// Serves a call and has it explained: that the error fits, the words, and how often its identifier was looked up.
fn explained(
    campus: &mut CampusFile,
    client: u32,
    time: u32,
    datagram: &[u8],
) -> (u8, Option<String>) {
    let book = Campus::from_octets(campus.as_bytes()).expect("of right form");
    let mut room = [0; REPLY_ROOM];
    let answer = campus.serve(datagram, Ipv4Addr::from(client), time, &mut room);
    let outcome = answer.outcome;
    let case = Case {
        settings: &book,
        book: Some(&book),
        clock: book.clock.max(time),
        client,
    };
    let why = case.why(datagram, outcome);
    let reason = case.reason(datagram);
    let what = format!("{why:?} {reason:?} {}", message::Message(datagram));
    let lookups = case.lookups(datagram, answer);
    let compared = message::Message(datagram)
        .value(3)
        .map_or(0, |identifier| compared(&case, identifier));
    assert_eq!(answer.count, lookups * compared, "{what}");
    // Without the book less is said, and what is said of error 1 is the same.
    let blind = Case { book: None, ..case };
    let guess = blind.reason(datagram);
    if guess.as_ref().is_some_and(|guess| guess.error == 1) {
        assert_eq!(guess, reason, "{what}");
    }
    assert!(
        blind.why(datagram, outcome).is_some() || outcome.reply().is_some(),
        "{what}"
    );
    match outcome {
        Outcome::Reply(reply) => match message::Message(reply).error() {
            Some(error) => assert_eq!(
                reason.map(|reason| reason.error.into()),
                Some(error),
                "{what}"
            ),
            None if why.as_deref() == Some("sent again") => {}
            None => assert_eq!(reason, None, "{what}"),
        },
        Outcome::Discard(Discard::Error) => assert!(reason.is_some(), "{what}"),
        Outcome::Discard(_) => assert!(why.is_some(), "{what}"),
    }
    (outcome.number(), why)
}

#[test]
fn the_morning() {
    let morning = std::fs::read(format!("{FOLDER}morning.bin")).expect("a sample");
    let length = usize::from(u16::from_be_bytes([morning[0], morning[1]]));
    let mut campus = CampusFile::from_bytes(&morning[2..2 + length]).expect("sound");
    let (mut rest, mut said) = (&morning[2 + length..], vec![]);
    while let Some(call) = Call::read(rest) {
        rest = &rest[call.length()..];
        // The one with too little room for a reply isn't served here so.
        if call.room == 512 {
            said.extend(explained(&mut campus, call.client, call.time, &call.datagram).1);
        }
    }
    for words in [
        "sent again",
        "house 1 has no lease with that identifier, only an offer",
        "house 1 holds 0 of its limit 8 in 239.192.1.0; with the shares of the others it can have 8 in that period, below 9",
        "no scope is named",
        "the client's clock says 2023-11-14T22:59:01Z, 1801 s from ours, 2023-11-14T22:29:00Z",
        "the client's address is in no house",
        "11 octets, below 12",
        "2 octets left over",
        "it requires a feature, and none is supported",
        "it is for another server than 10.1.1.1",
        "error 1: house 2 has a lease with that identifier already",
    ] {
        assert!(said.iter().any(|said| said == words), "{words}: {said:#?}");
    }
}

fn wish(random: &mut Random, kind: u8, clock: u32) -> Vec<u8> {
    let mut message = Message::new(kind, random.below(3) as u32, vec![]);
    message
        .options
        .push(identifier(&[0, b'A' + random.below(5) as u8]));
    let small = 0xEFC0_0000;
    let scopes = [small, small, small + 256, small + 1];
    if matches!(kind, DISCOVER | REQUEST) != random.one_in(40) {
        let known = 3 + usize::from(random.one_in(9));
        message.options.push(scope(random.pick(&scopes[..known])));
    }
    let spread = |random: &mut Random, by: usize| {
        (clock + random.below(2 * by) as u32).wrapping_sub(by as u32)
    };
    let optional: [Coded; 7] = [
        lease_time(random.pick(&[0, 60, 3600, 700_000])),
        number(random.below(5) as u16, random.below(6) as u16),
        start_time(spread(random, 4000)),
        current_time(spread(random, 1900)),
        (
            14,
            (random.pick(&[0u32, 60, 3600, 604_801]))
                .to_be_bytes()
                .to_vec(),
        ),
        (15, spread(random, 4000).to_be_bytes().to_vec()),
        start_time(clock.saturating_add(2_592_000 + random.below(2) as u32)),
    ];
    let has = optional.map(|option| random.one_in(3).then_some(option));
    let dated = random.one_in(3) && !random.one_in(5);
    for option in has.into_iter().flatten() {
        let is_wanted = matches!(kind, DISCOVER | REQUEST) || option.0 != 7 || random.one_in(20);
        let is_time = matches!(option.0, 6 | 11 | 15);
        let is_other = random.one_in(20) || (!is_time || dated);
        if is_wanted && is_other && !message.has(option.0) {
            message.options.push(option);
        }
    }
    message.octets()
}

#[test]
fn any_calls() {
    let mut random = Random::new(3);
    let (mut campus, mut time) = (sample(), 1_700_000_000);
    let mut seen = std::collections::BTreeMap::new();
    for _ in 0..6_000 {
        time += random.pick(&[0, 0, 1, 9, 60]) * u32::from(random.one_in(3));
        let kind = random.pick(&[
            DISCOVER, DISCOVER, REQUEST, REQUEST, RENEW, RELEASE, GETINFO,
        ]);
        let datagram = wish(&mut random, kind, time);
        let house = random.pick(&[1, 1, 2]);
        let client = 0x0A00_0000 + 256 * house + random.below(256) as u32;
        let (number, why) = explained(&mut campus, client, time, &datagram);
        let why = why.map(|why| {
            why.chars()
                .filter(|c| c.is_alphabetic())
                .take(24)
                .collect::<String>()
        });
        *seen.entry((kind, number, why)).or_insert(0) += 1;
    }
    let errors = seen.keys().filter(|(_, _, why)| why.is_some()).count();
    assert!(errors > 40, "{seen:#?}");
}
