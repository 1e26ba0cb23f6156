//! Half of the stack that the header asks for is enough for what only reads, for a file that is refused for its form, and, but for a replay, for one
//! that is refused before its leases are read. In a process of its own: a thread may be given the larger stack of one that has ended, such as those of
//! stack.rs.

mod common;

use banshorra_host::{lent, Call, Refusal, ANSWER_ROOM, FILE_ROOM};
use common::*;
use std::thread::Builder;

/// Half of what `banshorra.h` says.
const STACK: usize = 128 << 10;

fn on_that_stack(work: impl FnOnce() + Send + 'static) {
    let thread = Builder::new().stack_size(STACK).spawn(work);
    thread.expect("a thread").join().expect("no panic");
}

/// A buffer with a file at its front, and the file's length.
fn lent_file(octets: &[u8]) -> (Vec<u8>, usize) {
    let mut buffer = octets.to_vec();
    buffer.resize(FILE_ROOM, 0);
    (buffer, octets.len())
}

#[test]
fn a_file_that_is_refused_takes_half_of_it() {
    // One octet is missing; and there are more houses than a campus has. Each call by itself.
    let cut = settings(8, 4, 4).octets().split_last().unwrap().1.to_vec();
    let crowded = settings(9, 4, 4).octets();
    let datagram = message(RELEASE, 1, &[identifier(b"ab")]);
    for (octets, refusal) in [(&cut, Refusal::Form), (&crowded, Refusal::Unsound)] {
        let (sent, (mut file, mut length)) = (datagram.clone(), lent_file(octets));
        on_that_stack(move || {
            let reply = &mut [0; 512];
            let answer = lent::serve(&mut file, &mut length, &sent, HOUSE_1, CLOCK, reply);
            assert_eq!(answer.err(), Some(refusal));
        });
        let (sent, (mut file, mut length)) = (datagram.clone(), lent_file(octets));
        on_that_stack(move || {
            let verdict = lent::judge(&mut file, &mut length, &sent, HOUSE_1, CLOCK);
            assert_eq!(verdict.err(), Some(refusal));
        });
    }
    let mut calls = vec![];
    let call = Call {
        time: CLOCK,
        client: HOUSE_1,
        reply_room: 512,
        datagram: &datagram,
    };
    call.append_to(&mut calls);
    // A replay of the other file needs 125,168 octets besides the thread's own: more than this.
    let (mut file, mut length) = lent_file(&cut);
    on_that_stack(move || {
        let told = lent::replay(&mut file, &mut length, &calls, &mut [0; ANSWER_ROOM]);
        assert_eq!(told.stopped, Some(Refusal::Form));
    });
}

#[test]
fn what_only_reads_takes_half_of_it() {
    // Each call by itself, on a full campus and on one whose first scope is too large.
    let mut full = settings(8, 4, 4);
    let sound = full.octets();
    full.scopes[0].size = 65;
    for (file, accepted) in [(sound, true), (full.octets(), false)] {
        let (checked, shown) = (file.clone(), file.clone());
        on_that_stack(move || {
            assert_eq!(lent::check(&checked).is_ok(), accepted);
        });
        on_that_stack(move || {
            assert!(lent::board(&shown, &mut [0; 1100]).is_some());
        });
        on_that_stack(move || {
            assert_eq!(lent::occupancy(&file).is_ok(), accepted);
        });
    }
}
