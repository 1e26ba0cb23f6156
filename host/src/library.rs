//! The static library's eight functions as safe ones on slices, with its own numbers, as `include/banshorra.h` has them. All unsafe code of
//! the crate is here; [`lent`](crate::lent) has the same calls with the numbers read.
//!
//! Why each call is sound:
//! - Every pointer comes from a slice or a reference that lives through the call, so it isn't null, is aligned, and is valid for
//!   the length passed with it; an empty slice's pointer goes with length 0. The library reads and writes within these lengths
//!   alone, which is proved of it, writes only what is lent as `&mut`, and keeps no pointer after it returns.
//! - What is lent as `&mut` overlaps nothing else, so no two buffers of a call share an octet that is written.
//! - Every octet and every `usize` is a valid value, so nothing that the library writes can be an invalid one.
//! - The library has no state of its own and starts no thread: calls on different files may run at the same time.
//! - It neither unwinds nor exits.
//!
//! `build.rs` links the library.
//!
//! Besides the library one function of libc stands here, `signal`, since std has none of the kind: see [`note_signals`] and [`fail_long_writes`].

use std::sync::atomic::{AtomicI32, Ordering};

use crate::VERDICT_SIZE;

// The library's own functions, for what has to lend it pointers; `include/banshorra.h` says what each asks for and gives.
extern "C" {
    /// Whether a campus file is accepted.
    pub fn banshorra_check(file: *const u8, file_length: usize) -> u8;
    /// The board's text.
    pub fn banshorra_board(
        file: *const u8,
        file_length: usize,
        text: *mut u8,
        text_room: usize,
    ) -> usize;
    /// The occupancy board.
    pub fn banshorra_occupancy(
        file: *const u8,
        file_length: usize,
        board: *mut u8,
        board_room: usize,
    ) -> u8;
    /// One call.
    pub fn banshorra_serve(
        file: *mut u8,
        file_room: usize,
        file_length: *mut usize,
        datagram: *const u8,
        datagram_length: usize,
        client: u32,
        time: u32,
        reply: *mut u8,
        reply_room: usize,
        reply_length: *mut usize,
        fault_offset: *mut usize,
        count: *mut usize,
    ) -> u8;
    /// The first half of a call.
    pub fn banshorra_judge(
        file: *mut u8,
        file_room: usize,
        file_length: *mut usize,
        datagram: *const u8,
        datagram_length: usize,
        client: u32,
        time: u32,
        verdict: *mut u8,
    ) -> u8;
    /// The second half of a call.
    pub fn banshorra_reply(
        file: *const u8,
        file_length: usize,
        verdict: *const u8,
        reply: *mut u8,
        reply_room: usize,
        reply_length: *mut usize,
        fault_offset: *mut usize,
        count: *mut usize,
    ) -> u8;
    /// A list of calls.
    pub fn banshorra_replay(
        file: *mut u8,
        file_room: usize,
        file_length: *mut usize,
        calls: *const u8,
        calls_length: usize,
        calls_used: *mut usize,
        answers: *mut u8,
        answers_room: usize,
        answers_filled: *mut usize,
    ) -> u8;
    /// What can be kept of a campus file.
    pub fn banshorra_salvage(
        file: *const u8,
        file_length: usize,
        room: *mut u8,
        room_size: usize,
        room_length: *mut usize,
        list: *mut u8,
        list_size: usize,
        list_length: *mut usize,
    ) -> u8;
}

/// 0 for an accepted campus file, or 20 or 21.
pub fn check(file: &[u8]) -> u8 {
    // SAFETY: as above; `file` is only read.
    unsafe { banshorra_check(file.as_ptr(), file.len()) }
}

/// The length of the board's text; 0 where the room is below 1,100 octets.
pub fn board(file: &[u8], text: &mut [u8]) -> usize {
    // SAFETY: as above; `text` alone is written.
    unsafe { banshorra_board(file.as_ptr(), file.len(), text.as_mut_ptr(), text.len()) }
}

/// 0, and the occupancy board in the front of `board`; 20 or 21 for a refused file, and then 23 where the room is below 544 octets.
pub fn occupancy(file: &[u8], board: &mut [u8]) -> u8 {
    // SAFETY: as above; `board` alone is written.
    unsafe { banshorra_occupancy(file.as_ptr(), file.len(), board.as_mut_ptr(), board.len()) }
}

/// One call on the campus file in the first `file_length` octets of `file`: its outcome or refusal.
pub fn serve(
    file: &mut [u8],
    file_length: &mut usize,
    datagram: &[u8],
    client: u32,
    time: u32,
    reply: &mut [u8],
    reply_length: &mut usize,
    fault_offset: &mut usize,
    count: &mut usize,
) -> u8 {
    // SAFETY: as above; `file`, `reply`, the two lengths, the offset and the count are written, and each is lent as `&mut`.
    unsafe {
        banshorra_serve(
            file.as_mut_ptr(),
            file.len(),
            file_length,
            datagram.as_ptr(),
            datagram.len(),
            client,
            time,
            reply.as_mut_ptr(),
            reply.len(),
            reply_length,
            fault_offset,
            count,
        )
    }
}

/// The first half of a call on the campus file in the first `file_length` octets of `file`: its outcome, which the verdict has too, or its
/// refusal.
pub fn judge(
    file: &mut [u8],
    file_length: &mut usize,
    datagram: &[u8],
    client: u32,
    time: u32,
    verdict: &mut [u8; VERDICT_SIZE],
) -> u8 {
    // SAFETY: as above, and the verdict is as long as the library takes it to be; `file`, its length and `verdict` are written, and each is lent
    // as `&mut`.
    unsafe {
        banshorra_judge(
            file.as_mut_ptr(),
            file.len(),
            file_length,
            datagram.as_ptr(),
            datagram.len(),
            client,
            time,
            verdict.as_mut_ptr(),
        )
    }
}

/// The second half of a call, from a verdict and the campus file that the first half left with it: its outcome or refusal. Of other octets and
/// another file it may be any outcome, within the room all the same.
pub fn reply(
    file: &[u8],
    verdict: &[u8; VERDICT_SIZE],
    reply: &mut [u8],
    reply_length: &mut usize,
    fault_offset: &mut usize,
    count: &mut usize,
) -> u8 {
    // SAFETY: as above, and the verdict is as long as the library takes it to be; `reply`, its length, the offset and the count are written, and
    // each is lent as `&mut`.
    unsafe {
        banshorra_reply(
            file.as_ptr(),
            file.len(),
            verdict.as_ptr(),
            reply.as_mut_ptr(),
            reply.len(),
            reply_length,
            fault_offset,
            count,
        )
    }
}

/// A list of calls on the campus file in the first `file_length` octets of `file`: how it ended.
pub fn replay(
    file: &mut [u8],
    file_length: &mut usize,
    calls: &[u8],
    calls_used: &mut usize,
    answers: &mut [u8],
    answers_filled: &mut usize,
) -> u8 {
    // SAFETY: as above; `file`, `answers` and the three lengths are written, and each is lent as `&mut`.
    unsafe {
        banshorra_replay(
            file.as_mut_ptr(),
            file.len(),
            file_length,
            calls.as_ptr(),
            calls.len(),
            calls_used,
            answers.as_mut_ptr(),
            answers.len(),
            answers_filled,
        )
    }
}

/// 0, the new file in the front of `room` and the list of those dropped in the front of `list`; or 20, 25 or 23.
pub fn salvage(
    file: &[u8],
    room: &mut [u8],
    room_length: &mut usize,
    list: &mut [u8],
    list_length: &mut usize,
) -> u8 {
    // SAFETY: as above; `room`, `list` and the two lengths are written, and each is lent as `&mut`.
    unsafe {
        banshorra_salvage(
            file.as_ptr(),
            file.len(),
            room.as_mut_ptr(),
            room.len(),
            room_length,
            list.as_mut_ptr(),
            list.len(),
            list_length,
        )
    }
}

extern "C" {
    fn signal(number: i32, handler: usize) -> usize;
}

/// What `signal` takes for "ignore".
const IGNORE: usize = 1;
const HANG_UP: i32 = 1;
const INTERRUPT: i32 = 2;
const TERMINATE: i32 = 15;
const FILE_TOO_LARGE: i32 = 25;

static NOTED: AtomicI32 = AtomicI32::new(0);

extern "C" fn note(number: i32) {
    NOTED.store(number, Ordering::Relaxed);
}

/// From now on a write past the limit of a file's size (SIGXFSZ) is an error that can be told, not the program's end.
pub fn fail_long_writes() {
    // SAFETY: `signal` takes a signal's number and "ignore".
    unsafe {
        signal(FILE_TOO_LARGE, IGNORE);
    }
}

/// From now on SIGHUP, SIGINT and SIGTERM don't end the program but are noted.
pub fn note_signals() {
    // SAFETY: `signal` takes a signal's number and the address of a function of an int, which `note` is. It does what may be done at any instant, a store
    // to an atomic number.
    unsafe {
        for number in [HANG_UP, INTERRUPT, TERMINATE] {
            signal(number, note as *const () as usize);
        }
    }
}

/// The signal that was noted last.
pub fn noted_signal() -> Option<&'static str> {
    match NOTED.load(Ordering::Relaxed) {
        HANG_UP => Some("SIGHUP"),
        INTERRUPT => Some("SIGINT"),
        TERMINATE => Some("SIGTERM"),
        _ => None,
    }
}
