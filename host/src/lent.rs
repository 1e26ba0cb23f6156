//! The calls on buffers that the caller lends. A campus file stands in the first `file_length` octets of its buffer, which has at
//! least [`FILE_ROOM`](crate::FILE_ROOM) octets; a call leaves the file afterwards there, and the octets past it as they were.

use crate::library;
use crate::numbers::{Answer, Refusal};
use crate::occupancy::Occupancy;
use crate::salvage::{Dropped, Salvaged};
use crate::verdict::Verdict;
use crate::{OCCUPANCY_ROOM, VERDICT_SIZE};
use std::net::Ipv4Addr;

/// Whether a campus file is accepted; refusal 20 or 21.
pub fn check(file: &[u8]) -> Result<(), Refusal> {
    match library::check(file) {
        0 => Ok(()),
        number => Err(refusal(number)),
    }
}

/// The text that `board` prints for a campus file, also for a refused one: it stands in the front of `text`, and octets past it are
/// left as they were. `None`, and nothing written, where `text` is below [`BOARD_ROOM`](crate::BOARD_ROOM) octets.
pub fn board<'t>(file: &[u8], text: &'t mut [u8]) -> Option<&'t str> {
    match library::board(file, text) {
        0 => None,
        length => Some(std::str::from_utf8(&text[..length]).expect("the board is ASCII")),
    }
}

/// Who has which address of a campus file, as of its clock; refusal 20 or 21.
pub fn occupancy(file: &[u8]) -> Result<Occupancy, Refusal> {
    let mut board = [0; OCCUPANCY_ROOM];
    match library::occupancy(file, &mut board) {
        0 => Ok(Occupancy::of_octets(board)),
        number => Err(refusal(number)),
    }
}

/// Serves a datagram. The reply stands in the front of `reply`, and octets past it are left as they were. `time` is in whole seconds
/// since 1970. A refusal (23 before 28 before 20 before 21) changes nothing.
pub fn serve<'r>(
    file: &mut [u8],
    file_length: &mut usize,
    datagram: &[u8],
    client: Ipv4Addr,
    time: u32,
    reply: &'r mut [u8],
) -> Result<Answer<'r>, Refusal> {
    let (client, mut length, mut offset, mut count) = (u32::from(client), 0, 0, 0);
    let number = library::serve(
        file,
        file_length,
        datagram,
        client,
        time,
        reply,
        &mut length,
        &mut offset,
        &mut count,
    );
    Answer::of_number(number, offset, count, &reply[..length]).ok_or_else(|| refusal(number))
}

/// The first half of [`serve`]: what becomes of a datagram, without a reply room; the file is as a call leaves it. A refusal (23 before 28
/// before 20 before 21) changes nothing.
pub fn judge(
    file: &mut [u8],
    file_length: &mut usize,
    datagram: &[u8],
    client: Ipv4Addr,
    time: u32,
) -> Result<Verdict, Refusal> {
    let (client, mut verdict) = (u32::from(client), [0; VERDICT_SIZE]);
    match library::judge(file, file_length, datagram, client, time, &mut verdict) {
        0..=8 => Ok(Verdict::from_bytes(verdict)),
        number => Err(refusal(number)),
    }
}

/// The second half of [`serve`]: the reply to a verdict, from the file that [`judge`] left with it. It stands in the front of `reply`, and octets
/// past it are left as they were. A reply buffer below [`REPLY_ROOM`](crate::REPLY_ROOM) octets is discard 2, whatever the verdict; then comes
/// the refusal of a file, 20 or 21. For a verdict and a file that don't belong together the outcome may be any.
pub fn reply<'r>(
    file: &[u8],
    verdict: &Verdict,
    reply: &'r mut [u8],
) -> Result<Answer<'r>, Refusal> {
    let (mut length, mut offset, mut count) = (0, 0, 0);
    let number = library::reply(
        file,
        verdict.as_bytes(),
        reply,
        &mut length,
        &mut offset,
        &mut count,
    );
    Answer::of_number(number, offset, count, &reply[..length]).ok_or_else(|| refusal(number))
}

/// How far a list of calls was answered.
#[derive(Clone, Copy, Debug, PartialEq, Eq)]
pub struct Replayed {
    /// The octets of the calls that are answered.
    pub calls_used: usize,
    /// The octets of their answers.
    pub answers_filled: usize,
    /// Why it ended before the list's end: 24, the next record is cut off; 27, too little room for the next answer. The answers so far
    /// and the file stand. Or a refusal of the file as in [`serve`]: nothing has changed.
    pub stopped: Option<Refusal>,
}

/// Serves a list of calls ([`Call`](crate::Call) writes one; [`answers`](crate::answers()) reads what comes back). The file is read once
/// and written once. Octets past the answers are left as they were.
pub fn replay(
    file: &mut [u8],
    file_length: &mut usize,
    calls: &[u8],
    answers: &mut [u8],
) -> Replayed {
    let (mut calls_used, mut answers_filled) = (0, 0);
    let number = library::replay(
        file,
        file_length,
        calls,
        &mut calls_used,
        answers,
        &mut answers_filled,
    );
    Replayed {
        calls_used,
        answers_filled,
        stopped: (number != 0).then(|| refusal(number)),
    }
}

/// What can be kept of a campus file: each lease, then each hold, then each release that leaves the book sound together with those kept before it; all
/// else is as it was. The new file stands in the front of `room`, its list in the front of `list`, and octets past both are left as they were. Refusal 20 or 25, then 23
/// where one of the two is too short: nothing is written. As many octets as the file has, and [`LIST_ROOM`](crate::LIST_ROOM), are enough.
pub fn salvage<'r>(
    file: &[u8],
    room: &'r mut [u8],
    list: &mut [u8],
) -> Result<Salvaged<'r>, Refusal> {
    let (mut length, mut listed) = (0, 0);
    match library::salvage(file, room, &mut length, list, &mut listed) {
        0 => Ok(Salvaged {
            file: &room[..length],
            dropped: Dropped::of_list(&list[..listed]),
        }),
        number => Err(refusal(number)),
    }
}

fn refusal(number: u8) -> Refusal {
    Refusal::of_number(number).unwrap_or_else(|| panic!("the library returned {number}"))
}
