//! `fuzz CASES SEED PROGRESS`: drives the library with random and damaged input; `tests/fuzz` runs it under valgrind, and `watch` says what
//! is seen of each call. Case i is that of seed SEED + i, so that `fuzz 1 N` is the case of seed N again; the file PROGRESS has the seed of
//! the case that runs.

use banshorra_host::{ANSWER_ROOM, BOARD_ROOM, FILE_ROOM, OCCUPANCY_ROOM};
use builder::{Call, Campus};
use harness::calls;
use harness::campus::sound;
use harness::damage::{battered, DAMAGES, HOLDS, NAMES, RELEASES};
use harness::random::Random;
use harness::watch::{Watch, EXACT};
use harness::wrecks;
use std::process::ExitCode;

/// A run of so many cases that never saw one of the numbers would be no fuzz run.
const SEES_ALL: u64 = 1_000;

fn main() -> ExitCode {
    let words: Vec<String> = std::env::args().skip(1).collect();
    let numbers: Vec<u64> = words.iter().map_while(|word| word.parse().ok()).collect();
    let ([cases, first], [_, _, progress]) = (&numbers[..], &words[..]) else {
        eprintln!("usage: fuzz CASES SEED PROGRESS");
        return ExitCode::from(2);
    };
    let mut watch = Watch::default();
    for seed in *first..first + cases {
        std::fs::write(progress, seed.to_string()).expect("the file PROGRESS can be written");
        run(&mut Random::new("fuzz", seed), &mut watch);
    }
    let (lines, missing) = watch.lines();
    lines.iter().for_each(|line| println!("{line}"));
    if *cases >= SEES_ALL && missing > 0 {
        println!("{missing} of these never occurred");
        return ExitCode::FAILURE;
    }
    print!("{cases} cases, seeds {first} to {}:", first + cases - 1);
    for function in [
        "check",
        "board",
        "occupancy",
        "serve",
        "judge",
        "reply",
        "replay",
        "salvage",
    ] {
        print!(" {} {function},", watch.calls(function));
    }
    println!(" 0 errors");
    ExitCode::SUCCESS
}

fn run(random: &mut Random, watch: &mut Watch) {
    let campus = sound(random);
    match random.below(100) {
        0..12 => watch.board(&any_file(random, &campus), text_room(random)),
        12..16 => watch.salvage(&any_file(random, &campus), salvage_rooms(random)),
        16..20 => {
            let wreck = match random.below(5) {
                0 => unsettled(&campus),
                _ => wrecks::wreck(random).unwrap_or(campus.octets()),
            };
            watch.salvage(&wreck, salvage_rooms(random));
        }
        20..28 => watch.occupancy(&any_file(random, &campus), occupancy_room(random)),
        28..61 => serves(random, watch, &campus),
        61..75 => {
            let file = campus.octets();
            let mut held = EXACT.hold(&file, file_room(random), file.len());
            let edges = [0, 1, ANSWER_ROOM - 1, ANSWER_ROOM, ANSWER_ROOM + 1];
            let answers_room = room(random, 8 * ANSWER_ROOM, &edges, 3_000);
            watch.replay(&mut held, &any_list(random, &campus), answers_room);
        }
        _ => refusals(random, watch, &campus),
    }
}

/// A room that is mostly right; else an edge, or any length below a bound.
fn room(random: &mut Random, right: usize, edges: &[usize], bound: usize) -> usize {
    match random.below(5) {
        0 => random.pick(edges),
        1 => random.below(bound),
        _ => right,
    }
}

fn file_room(random: &mut Random) -> usize {
    FILE_ROOM + random.pick(&[0, 0, 0, 0, 0, 1, 72, 25_372])
}

fn text_room(random: &mut Random) -> usize {
    let edges = [0, 1, BOARD_ROOM - 1, BOARD_ROOM + 1];
    room(random, BOARD_ROOM, &edges, 2_500)
}

fn occupancy_room(random: &mut Random) -> usize {
    let edges = [0, 1, OCCUPANCY_ROOM - 1, OCCUPANCY_ROOM + 1];
    room(random, OCCUPANCY_ROOM, &edges, 1_200)
}

/// A file whose settings are unsound by themselves.
fn unsettled(campus: &Campus) -> Vec<u8> {
    let mut campus = campus.clone();
    campus.scopes[0].ttl = 0;
    campus.octets()
}

/// For the file that is kept and the list of what isn't.
fn salvage_rooms(random: &mut Random) -> (usize, usize) {
    let file = room(random, FILE_ROOM, &[0, 1, 40, FILE_ROOM + 1], 2_000);
    (file, room(random, 2_500, &[0, 1, 2, 5, 8], 40))
}

/// Calls one by one on a sound file.
fn serves(random: &mut Random, watch: &mut Watch, campus: &Campus) {
    let file = campus.octets();
    assert_eq!(watch.check(&file), 0, "a file made to be sound is refused");
    let mut held = EXACT.hold(&file, file_room(random), file.len());
    let count = random.between(1, 8);
    for call in any_calls(random, campus, count) {
        watch.halves(&held, &call, random);
        watch.serve(&mut held, &call);
        watch.occupancy(held.file(), occupancy_room(random));
    }
    if random.chance(20) {
        watch.board(held.file(), text_room(random));
    }
}

/// A file that may be anything, in a buffer and with a length that may be wrong.
fn refusals(random: &mut Random, watch: &mut Watch, campus: &Campus) {
    let file = any_file(random, campus);
    let right = file_room(random);
    let space = room(
        random,
        right,
        &[0, 1, 100, FILE_ROOM - 2, FILE_ROOM - 1],
        FILE_ROOM,
    );
    let mut length = file.len();
    if length > space || random.chance(20) {
        let past = [
            space + 1,
            space + FILE_ROOM,
            usize::MAX,
            usize::MAX / 2 + 1,
            1 << 32,
        ];
        let any = random.below(60_000);
        length = random.pick(&[&[0, 1, space, any], &past[..]].concat());
    }
    let mut held = EXACT.hold(&file, space, length);
    if random.chance(60) {
        let calls = any_calls(random, campus, 1);
        watch.halves(&held, &calls[0], random);
        watch.serve(&mut held, &calls[0]);
    } else {
        let answers_room = random.pick(&[0, ANSWER_ROOM, 8 * ANSWER_ROOM]);
        watch.replay(&mut held, &any_list(random, campus), answers_room);
    }
}

/// Any octets, damaged by a rule or octet by octet, padded, or sound.
fn any_file(random: &mut Random, campus: &Campus) -> Vec<u8> {
    let mut file = campus.octets();
    match random.below(9) {
        0 => {
            let length = random.pick(&[0, 1, 9, 40, 300, 15_000, FILE_ROOM, FILE_ROOM + 1, 40_000]);
            file = random.low_octets(length, 60, 4);
            if random.chance(80) {
                // The count of the server.
                file.iter_mut().take(1).for_each(|octet| *octet = 1);
            }
        }
        1 | 2 => {
            let damage = &DAMAGES[random.below(DAMAGES.len())];
            file = damage.file(random).unwrap_or(file);
        }
        3 => {
            let length = random.pick(&[
                FILE_ROOM - 1,
                FILE_ROOM,
                FILE_ROOM + 1,
                FILE_ROOM + 2,
                40_000,
            ]);
            file.resize(length.max(file.len()), 0);
        }
        4 => {}
        5..=7 => {
            // One of the last sections alone.
            let mut sections = campus.sections();
            let place = random.pick(&[NAMES, RELEASES, HOLDS]);
            battered(random, &mut sections[place]);
            file = sections.concat();
        }
        _ => battered(random, &mut file),
    }
    file
}

/// What clients send, of which some is damaged octet by octet, some is any octets, as many as there can be, and some has other rooms.
fn any_calls(random: &mut Random, campus: &Campus, count: usize) -> Vec<Call<'static>> {
    let turn = random.below(1_000);
    let mut calls = calls::list(random, campus, count, turn).calls;
    for call in &mut calls {
        if random.chance(12) {
            battered(random, call.datagram.to_mut());
        } else if random.chance(4) {
            let length = random.pick(&[0, 1, 7, 8, 11, 12, 13, 60, 1_472, 1_473, 65_535]);
            call.datagram = random.low_octets(length, 70, 6).into();
        }
        if random.chance(8) {
            call.room = random.below(1_500) as u16;
        }
    }
    calls
}

/// Calls whose list may be cut off, or have wrong lengths in it.
fn any_list(random: &mut Random, campus: &Campus) -> Vec<u8> {
    let mut list = Vec::new();
    let count = random.pick(&[0, 1, 2, 4, 8]);
    for call in any_calls(random, campus, count) {
        let (place, length) = (list.len() + 10, call.datagram.len());
        list.extend(call.record());
        if random.chance(4) {
            let any = random.below(65_536);
            let told = random.pick(&[0, length + 1, length + 65_000, any]) as u16;
            list[place..place + 2].copy_from_slice(&told.to_be_bytes());
        }
    }
    if random.chance(12) {
        list.truncate(random.below(list.len() + 1));
    } else if random.chance(8) {
        battered(random, &mut list);
    }
    list
}
