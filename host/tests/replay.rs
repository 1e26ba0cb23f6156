//! Lists of calls: the sample morning, and the same calls one by one.

mod common;

use banshorra_host::{answers, CampusFile, Refusal, ANSWER_ROOM};
use common::*;

const MORNING: &[u8] = include_bytes!("../../samples/morning.bin");
/// What the program `replay` prints for it.
const PRINTED: &str = include_str!("../../samples/morning.out");
const ROOM: usize = 20_000;

/// The sample campus, and the calls after it.
fn morning() -> (CampusFile, &'static [u8]) {
    let length = usize::from(u16::from_be_bytes([MORNING[0], MORNING[1]]));
    let (file, calls) = MORNING[2..].split_at(length);
    (CampusFile::from_bytes(file).expect("sound"), calls)
}

/// The calls of a list.
fn calls_of(mut list: &[u8]) -> Vec<Call<'_>> {
    let mut calls = vec![];
    while let Some(call) = Call::read(list) {
        list = &list[call.length()..];
        calls.push(call);
    }
    calls
}

/// Serves a call by itself: its answer.
fn single(campus: &mut CampusFile, call: &Call) -> Vec<u8> {
    let mut room = vec![0; call.room.into()];
    let answer = campus.serve(&call.datagram, call.client.into(), call.time, &mut room);
    let (outcome, count) = (answer.outcome, answer.count as u8);
    let reply = outcome.reply().unwrap_or(&[]);
    let offset = (outcome.offset() as u16).to_be_bytes();
    let length = (reply.len() as u16).to_be_bytes();
    [&[outcome.number()][..], &offset, &[count], &length, reply].concat()
}

#[test]
fn a_replay_is_its_single_serves() {
    let (mut campus, calls) = morning();
    let (mut by_one, mut expected) = (campus.clone(), vec![]);
    for call in calls_of(calls) {
        expected.extend(single(&mut by_one, &call));
    }
    let mut filled = pattern(ROOM);
    let replayed = campus.replay(calls, &mut filled);
    assert_eq!(replayed.stopped, None);
    assert_eq!(replayed.calls_used, calls.len());
    assert_eq!(replayed.answers_filled, expected.len());
    assert_eq!(filled[..expected.len()], expected);
    assert_eq!(filled[expected.len()..], pattern(ROOM)[expected.len()..]);
    assert_eq!(campus, by_one);
}

#[test]
fn the_sample_morning_goes_as_the_program_prints_it() {
    let hex = |octets: &[u8]| -> String { octets.iter().map(|o| format!("{o:02x}")).collect() };
    let (mut campus, calls) = morning();
    let mut filled = vec![0; ROOM];
    let replayed = campus.replay(calls, &mut filled);
    let mut printed = String::new();
    for answer in answers(&filled[..replayed.answers_filled]) {
        let outcome = answer.outcome;
        printed += &outcome.number().to_string();
        if let Some(reply) = outcome.reply() {
            printed += &format!(" {}", hex(reply));
        }
        if outcome.number() == 5 {
            printed += &format!(" @{}", outcome.offset());
        }
        printed += &format!(" #{}\n", answer.count);
    }
    printed += &format!("book {}\n", hex(campus.as_bytes()));
    assert_eq!(printed.to_lowercase(), PRINTED.to_lowercase());
}

#[test]
fn no_calls_change_nothing() {
    let (mut campus, _) = morning();
    let before = campus.clone();
    let replayed = campus.replay(&[], &mut []);
    assert_eq!(replayed.stopped, None);
    assert_eq!((replayed.calls_used, replayed.answers_filled), (0, 0));
    assert_eq!(campus, before);
}

#[test]
fn a_record_cut_off_is_24_and_those_before_it_stand() {
    let (campus, calls) = morning();
    for length in 0..calls.len() {
        let (mut whole, mut used, mut expected) = (campus.clone(), 0, vec![]);
        for call in calls_of(&calls[..length]) {
            used += call.length();
            expected.extend(single(&mut whole, &call));
        }
        let mut cut = campus.clone();
        let mut filled = pattern(ROOM);
        let replayed = cut.replay(&calls[..length], &mut filled);
        let stopped = (used < length).then_some(Refusal::CutOff);
        assert_eq!(replayed.stopped, stopped, "cut at {length}");
        assert_eq!(replayed.calls_used, used);
        assert_eq!(replayed.answers_filled, expected.len());
        assert_eq!(filled[..expected.len()], expected);
        assert_eq!(filled[expected.len()..], pattern(ROOM)[expected.len()..]);
        assert_eq!(cut, whole);
    }
}

#[test]
fn too_little_room_for_the_first_answer_is_27_and_changes_nothing() {
    let (campus, calls) = morning();
    for room in [0, 1, 5, ANSWER_ROOM - 1] {
        let mut tried = campus.clone();
        let mut filled = pattern(room);
        let replayed = tried.replay(calls, &mut filled);
        assert_eq!(replayed.stopped, Some(Refusal::AnswersRoom));
        assert_eq!((replayed.calls_used, replayed.answers_filled), (0, 0));
        assert_eq!((filled, tried), (pattern(room), campus.clone()));
    }
}

#[test]
fn after_27_the_rest_can_go_on_in_another_buffer() {
    let (campus, calls) = morning();
    let mut whole = campus.clone();
    let mut all = vec![0; ROOM];
    let end = whole.replay(calls, &mut all).answers_filled;
    for room in [ANSWER_ROOM, ANSWER_ROOM + 1, 600, 1030, end, end + 512] {
        let mut parts = campus.clone();
        let (mut used, mut answered, mut stops) = (0, vec![], 0);
        loop {
            let mut filled = pattern(room);
            let replayed = parts.replay(&calls[used..], &mut filled);
            let end = replayed.answers_filled;
            assert_eq!(filled[end..], pattern(room)[end..]);
            answered.extend(&filled[..end]);
            used += replayed.calls_used;
            if replayed.stopped.is_none() {
                break;
            }
            assert_eq!(replayed.stopped, Some(Refusal::AnswersRoom));
            assert!(end > 0 && room - end < ANSWER_ROOM);
            stops += 1;
        }
        assert!(stops > 0 || room == end + 512);
        assert_eq!((used, &answered[..]), (calls.len(), &all[..end]));
        assert_eq!(parts, whole);
    }
}

#[test]
fn a_call_is_appended_as_a_record() {
    let (mut campus, calls) = morning();
    let mut list = vec![];
    for call in calls_of(calls) {
        let call = banshorra_host::Call {
            time: call.time,
            client: call.client.into(),
            reply_room: call.room,
            datagram: &call.datagram,
        };
        call.append_to(&mut list);
    }
    assert_eq!(list, calls);
    // A reply room above 512 counts as 512.
    let getinfo = message(GETINFO, 1, &[identifier(b"ab")]);
    let mut outcomes = vec![];
    for (reply_room, number) in [(511, 2), (512, 0), (513, 0), (65_535, 0)] {
        let call = banshorra_host::Call {
            time: 0,
            client: HOUSE_1,
            reply_room,
            datagram: &getinfo,
        };
        let (mut calls, mut filled) = (vec![], [0; ANSWER_ROOM]);
        call.append_to(&mut calls);
        let replayed = campus.replay(&calls, &mut filled);
        assert_eq!(replayed.stopped, None);
        let answer = answers(&filled[..replayed.answers_filled]).next();
        outcomes.push(answer.map(|answer| answer.outcome.number() == number));
    }
    assert_eq!(outcomes, [Some(true); 4]);
}
