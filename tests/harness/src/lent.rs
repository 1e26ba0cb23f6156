//! The library's functions on lent buffers, and what has to hold of memory in every call: only what is written by the function's terms has
//! changed, and what was written lies within its room. What isn't so is a panic.

use banshorra_host::library::*;
use banshorra_host::{OCCUPANCY_ROOM, REPLY_ROOM, VERDICT_SIZE};
use builder::Call;

/// What a call gives, or its second half: number, offset, count and reply.
pub type Served = (u8, usize, usize, Vec<u8>);
/// Records that two lookups can compare.
const MOST_READ: usize = 32;

/// The count that goes with a number.
fn see_count(number: u8, count: usize) {
    let most = match number {
        0 | 8 => MOST_READ,
        _ => 0,
    };
    assert!(count <= most, "{count} records read with {number}");
}

/// A buffer that is lent: on the heap, and just as long as the library is told, so that valgrind sees any octet outside; or with so many
/// octets around it, to see those that are written.
#[derive(Clone, PartialEq)]
struct Room {
    octets: Box<[u8]>,
    around: usize,
}

impl Room {
    fn part(&self) -> &[u8] {
        &self.octets[self.around..self.octets.len() - self.around]
    }

    fn at(&mut self) -> *mut u8 {
        self.octets[self.around..].as_mut_ptr()
    }

    /// Whether all octets besides the first of its part, and those around it, are as they were.
    fn differs_in_first(&self, length: usize, before: &Room) -> bool {
        let (from, to) = (self.around, self.around + length);
        self.octets[..from] == before.octets[..from] && self.octets[to..] == before.octets[to..]
    }
}

/// A campus file in the front of a buffer, and the length that the library is told of it.
#[derive(Clone, PartialEq)]
pub struct Held {
    room: Room,
    length: Box<usize>,
}

impl Held {
    pub fn room(&self) -> usize {
        self.room.part().len()
    }

    pub fn length(&self) -> usize {
        *self.length
    }

    /// As much of the file as there is.
    pub fn file(&self) -> &[u8] {
        &self.room.part()[..self.room().min(*self.length)]
    }

    /// After a call: only the file itself differs, or nothing.
    fn see(&self, before: &Held, unchanged: bool) {
        if unchanged {
            assert!(self == before, "what changes nothing changed the file");
        } else {
            let (length, room) = (*self.length, self.room());
            assert!(length <= room, "a file of {length} octets in {room}");
            let past = self.room.differs_in_first(length, &before.room);
            assert!(past, "octets past the file have changed");
        }
    }

    /// The same file with other octets past it.
    pub fn with_other_octets(&self) -> Held {
        let mut other = self.clone();
        let past = other.room.around + self.file().len()..other.room.around + self.room();
        other.room.octets[past]
            .iter_mut()
            .for_each(|octet| *octet ^= 0x42);
        other
    }
}

/// A verdict.
pub type Octets = [u8; VERDICT_SIZE];

/// Lends buffers with so many octets around them.
#[derive(Clone, Copy)]
pub struct Lender {
    pub around: usize,
}

impl Lender {
    /// Octets to see a write by.
    fn painted(self, length: usize, salt: u8) -> Room {
        let octet = |n: usize| (n * 7 + (n >> 8)) as u8 ^ salt;
        Room {
            octets: (0..length + 2 * self.around).map(octet).collect(),
            around: self.around,
        }
    }

    fn copy(self, octets: &[u8]) -> Room {
        let mut room = self.painted(0, 0x24);
        let (before, behind) = room.octets.split_at(self.around);
        room.octets = [before, octets, behind].concat().into();
        room
    }

    /// A buffer with as much of a file as fits, and the length that is told of it.
    pub fn hold(self, file: &[u8], room: usize, length: usize) -> Held {
        let mut held = self.painted(room, 0xC3);
        let fits = file.len().min(room);
        held.octets[self.around..][..fits].copy_from_slice(&file[..fits]);
        Held {
            room: held,
            length: Box::new(length),
        }
    }

    /// 0 for an accepted campus file, or its refusal.
    pub fn check(self, file: &[u8]) -> u8 {
        let mut lent = self.copy(file);
        // SAFETY: here and below, pointers and lengths are those of buffers that don't overlap.
        let number = unsafe { banshorra_check(lent.at(), file.len()) };
        assert!(lent == self.copy(file), "check changed the file");
        number
    }

    /// The board's text.
    pub fn board(self, file: &[u8], room: usize) -> Vec<u8> {
        let (mut lent, before) = (self.copy(file), self.painted(room, 0x5A));
        let mut text = before.clone();
        // SAFETY: as above.
        let filled = unsafe { banshorra_board(lent.at(), file.len(), text.at(), room) };
        assert!(lent == self.copy(file), "board changed the file");
        assert!(filled <= room, "board filled {filled} of {room}");
        assert!(
            text.differs_in_first(filled, &before),
            "board wrote past its text"
        );
        text.part()[..filled].to_vec()
    }

    /// The occupancy board, in a room that is painted with `salt`: its number and the board. A refusal writes nothing.
    pub fn occupancy(self, file: &[u8], room: usize, salt: u8) -> (u8, Vec<u8>) {
        let (mut lent, before) = (self.copy(file), self.painted(room, salt));
        let mut board = before.clone();
        // SAFETY: as above.
        let number = unsafe { banshorra_occupancy(lent.at(), file.len(), board.at(), room) };
        assert!(lent == self.copy(file), "occupancy changed the file");
        let filled = if number == 0 { OCCUPANCY_ROOM } else { 0 };
        assert!(filled <= room, "occupancy filled {filled} of {room}");
        assert!(
            board.differs_in_first(filled, &before),
            "occupancy wrote past its board, or with {number}"
        );
        (number, board.part()[..filled].to_vec())
    }

    /// One call, in a reply room that is painted with `salt`: its number, offset, count and reply. A refusal and discard 2 change nothing.
    pub fn serve(self, held: &mut Held, call: &Call, salt: u8) -> Served {
        let (stood, before) = (held.clone(), self.painted(call.room.into(), salt));
        let (mut datagram, mut reply) = (self.copy(&call.datagram), before.clone());
        let [mut length, mut offset, mut count] = [(); 3].map(|()| Box::new(usize::MAX));
        // SAFETY: as above.
        let number = unsafe {
            banshorra_serve(
                held.room.at(),
                held.room(),
                &mut *held.length,
                datagram.at(),
                call.datagram.len(),
                call.client,
                call.time,
                reply.at(),
                call.room.into(),
                &mut *length,
                &mut *offset,
                &mut *count,
            )
        };
        let same = datagram == self.copy(&call.datagram);
        assert!(same, "serve changed the datagram");
        assert!(
            *length <= call.room.into(),
            "a reply of {length} octets in {}",
            call.room
        );
        assert!(
            reply.differs_in_first(*length, &before),
            "serve wrote past its reply"
        );
        assert!(
            number == 0 || *length == 0,
            "a reply of {length} octets with {number}"
        );
        assert!(
            number == 5 || *offset == 0,
            "an offset of {offset} with {number}"
        );
        assert!(
            *offset <= call.datagram.len(),
            "an offset of {offset} in {} octets",
            call.datagram.len()
        );
        see_count(number, *count);
        held.see(&stood, number == 2 || number > 8);
        (number, *offset, *count, reply.part()[..*length].to_vec())
    }

    /// The first half of a call: its number, and the verdict in octets that were painted with `salt`. A refusal changes nothing.
    pub fn judge(self, held: &mut Held, call: &Call, salt: u8) -> (u8, Octets) {
        let (stood, before) = (held.clone(), self.painted(VERDICT_SIZE, salt));
        let (mut datagram, mut verdict) = (self.copy(&call.datagram), before.clone());
        // SAFETY: as above.
        let number = unsafe {
            banshorra_judge(
                held.room.at(),
                held.room(),
                &mut *held.length,
                datagram.at(),
                call.datagram.len(),
                call.client,
                call.time,
                verdict.at(),
            )
        };
        let same = datagram == self.copy(&call.datagram);
        assert!(same, "judge changed the datagram");
        let written = if number > 8 { 0 } else { VERDICT_SIZE };
        assert!(
            verdict.differs_in_first(written, &before),
            "judge wrote past its verdict, or with {number}"
        );
        let octets: Octets = verdict.part().try_into().expect("a verdict's octets");
        assert!(
            number > 8 || octets[0] == number,
            "judge returned {number} for a verdict of {}",
            octets[0]
        );
        assert!(number != 1 && number != 2, "judge returned {number}");
        held.see(&stood, number > 8);
        (number, octets)
    }

    /// The second half, in a reply room that is painted with `salt`, for a verdict that the first half gave with this file.
    pub fn reply(self, file: &[u8], verdict: &Octets, room: usize, salt: u8) -> Served {
        let (number, offset, count, reply) =
            self.written(file, verdict, (room, salt), |_, length| length);
        let length = reply.len();
        assert!(
            number == 0 || length == 0,
            "a reply of {length} octets with {number}"
        );
        assert!(
            number == 5 || offset == 0,
            "an offset of {offset} with {number}"
        );
        see_count(number, count);
        (number, offset, count, reply)
    }

    /// The same for any octets and any file: the outcome and the first 512 octets may be any.
    pub fn reply_to_any(self, file: &[u8], verdict: &Octets, room: usize, salt: u8) -> Served {
        let touched = |number, _| match number {
            0..=8 if room >= REPLY_ROOM => REPLY_ROOM,
            _ => 0,
        };
        self.written(file, verdict, (room, salt), touched)
    }

    /// What the second half gives, where it touches the first octets of its room alone, so many by number and length.
    fn written(
        self,
        file: &[u8],
        verdict: &Octets,
        (room, salt): (usize, u8),
        touched: impl Fn(u8, usize) -> usize,
    ) -> Served {
        let (mut lent, mut told) = (self.copy(file), self.copy(verdict));
        let before = self.painted(room, salt);
        let mut reply = before.clone();
        let [mut length, mut offset, mut count] = [(); 3].map(|()| Box::new(usize::MAX));
        // SAFETY: as above.
        let number = unsafe {
            banshorra_reply(
                lent.at(),
                file.len(),
                told.at(),
                reply.at(),
                room,
                &mut *length,
                &mut *offset,
                &mut *count,
            )
        };
        let same = lent == self.copy(file) && told == self.copy(verdict);
        assert!(same, "reply changed the file or the verdict");
        assert!(
            *length <= room.min(REPLY_ROOM),
            "a reply of {length} octets in {room}"
        );
        assert!(
            reply.differs_in_first(touched(number, *length), &before),
            "reply wrote past its reply or the 512th octet, or with {number}"
        );
        (number, *offset, *count, reply.part()[..*length].to_vec())
    }

    /// A list of calls: its number, the octets of calls used, the answers. Where none is used nothing changes.
    pub fn replay(self, held: &mut Held, list: &[u8], room: usize) -> (u8, usize, Vec<u8>) {
        let (stood, before) = (held.clone(), self.painted(room, 0x99));
        let (mut calls, mut answers) = (self.copy(list), before.clone());
        let (mut used, mut filled) = (Box::new(usize::MAX), Box::new(usize::MAX));
        // SAFETY: as above.
        let number = unsafe {
            banshorra_replay(
                held.room.at(),
                held.room(),
                &mut *held.length,
                calls.at(),
                list.len(),
                &mut *used,
                answers.at(),
                room,
                &mut *filled,
            )
        };
        assert!(calls == self.copy(list), "replay changed the calls");
        assert!(*filled <= room, "replay filled {filled} of {room}");
        assert!(
            answers.differs_in_first(*filled, &before),
            "replay wrote past its answers"
        );
        held.see(&stood, *used == 0);
        (number, *used, answers.part()[..*filled].to_vec())
    }

    /// What is kept of a file and the list of what isn't, in rooms that are painted with `salt`: its number and both. A refusal writes nothing.
    pub fn salvage(
        self,
        file: &[u8],
        (room, list_room): (usize, usize),
        salt: u8,
    ) -> (u8, Vec<u8>, Vec<u8>) {
        let mut lent = self.copy(file);
        let before = [room, list_room].map(|length| self.painted(length, salt));
        let [mut new, mut list] = before.clone();
        let [mut length, mut listed] = [(); 2].map(|()| Box::new(usize::MAX));
        // SAFETY: as above.
        let number = unsafe {
            banshorra_salvage(
                lent.at(),
                file.len(),
                new.at(),
                room,
                &mut *length,
                list.at(),
                list_room,
                &mut *listed,
            )
        };
        assert!(lent == self.copy(file), "salvage changed the file");
        let fits = *length <= room && *listed <= list_room;
        assert!(
            fits,
            "salvage filled {length} of {room}, {listed} of {list_room}"
        );
        let kept =
            new.differs_in_first(*length, &before[0]) && list.differs_in_first(*listed, &before[1]);
        assert!(kept, "salvage wrote past its file or list");
        let nothing = number == 0 || (*length, *listed) == (0, 0);
        assert!(
            nothing,
            "salvage filled {length} and {listed} with {number}"
        );
        let parts = (
            new.part()[..*length].to_vec(),
            list.part()[..*listed].to_vec(),
        );
        (number, parts.0, parts.1)
    }
}
