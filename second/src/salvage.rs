//! Salvage of a campus file: keeps each lease, then each hold, then each remembered release that leaves the book sound
//! together with those already kept, and lists the others with the first rule that each one breaks.

use crate::book::Book;
use crate::file::{file_of, read_form, ROOM_TOO_SHORT, WRONG_FORM};
use crate::octets::hex;
use crate::programs::refused;
use crate::sound::{first_broken_by_records, first_broken_by_releases, sound};

/// The settings alone are unsound.
pub const SETTINGS_UNSOUND: u8 = 25;

/// The kinds of what is dropped.
pub const LEASE: u8 = 1;
pub const HOLD: u8 = 2;
pub const RELEASE: u8 = 3;

/// What is dropped: its kind, its place in its section as it was read, from 1, and the first rule that it breaks.
#[derive(Clone, Copy, Debug, PartialEq, Eq)]
pub struct Dropped {
    pub kind: u8,
    pub place: u8,
    pub rule: u8,
}

/// The sound book that is left of a file, and what is dropped in the order of the walk; or 20 for a wrong form,
/// or else 25 for unsound settings.
pub fn salvaged(file: &[u8]) -> Result<(Book, Vec<Dropped>), u8> {
    let book = read_form(file).ok_or(WRONG_FORM)?;
    let settings = Book {
        leases: Vec::new(),
        holds: Vec::new(),
        releases: Vec::new(),
        ..book.clone()
    };
    if !sound(&settings) {
        return Err(SETTINGS_UNSOUND);
    }
    let mut walk = Walk {
        kept: settings,
        dropped: Vec::new(),
    };
    for (lease, place) in book.leases.into_iter().zip(1..=u8::MAX) {
        let add = |book: &mut Book| book.leases.push(lease);
        walk.step(LEASE, place, add, first_broken_by_records);
    }
    for (hold, place) in book.holds.into_iter().zip(1..=u8::MAX) {
        let add = |book: &mut Book| book.holds.push(hold);
        walk.step(HOLD, place, add, first_broken_by_records);
    }
    for (release, place) in book.releases.into_iter().zip(1..=u8::MAX) {
        let add = |book: &mut Book| book.releases.push(release);
        walk.step(RELEASE, place, add, first_broken_by_releases);
    }
    Ok((walk.kept, walk.dropped))
}

/// The walk under way: the book of those already kept, and those dropped.
struct Walk {
    kept: Book,
    dropped: Vec<Dropped>,
}

impl Walk {
    /// Keeps one more if the book with it breaks no rule. A section in the file's order stays so with any of it left out.
    fn step(
        &mut self,
        kind: u8,
        place: u8,
        add: impl FnOnce(&mut Book),
        first_broken: fn(&Book) -> Option<u8>,
    ) {
        let mut with_it = self.kept.clone();
        add(&mut with_it);
        match first_broken(&with_it) {
            None => self.kept = with_it,
            Some(rule) => self.dropped.push(Dropped { kind, place, rule }),
        }
    }
}

/// The list of those dropped as octets: count(2), then for each kind(1), place(1) and rule(1). A file has at most 255 of
/// each kind.
pub fn list_of(dropped: &[Dropped]) -> Vec<u8> {
    let mut list = (dropped.len() as u16).to_be_bytes().to_vec();
    for one in dropped {
        list.extend([one.kind, one.place, one.rule]);
    }
    list
}

/// Writes the new file into the front of a room and the list into the front of a second one, and gives their lengths;
/// 20, 25, or else 23 if a room is too short, and these write nothing.
pub fn salvage(file: &[u8], room: &mut [u8], list_room: &mut [u8]) -> Result<(usize, usize), u8> {
    let (book, dropped) = salvaged(file)?;
    let (file, list) = (file_of(&book), list_of(&dropped));
    let (Some(front), Some(list_front)) =
        (room.get_mut(..file.len()), list_room.get_mut(..list.len()))
    else {
        return Err(ROOM_TOO_SHORT);
    };
    front.copy_from_slice(&file);
    list_front.copy_from_slice(&list);
    Ok((file.len(), list.len()))
}

/// A campus file: the new file and the list in hex, or a refusal.
pub fn salvage_text(input: &[u8]) -> String {
    match salvaged(input) {
        Ok((book, dropped)) => format!(
            "file {}\ndropped {}\n",
            hex(&file_of(&book)),
            hex(&list_of(&dropped))
        ),
        Err(refusal) => refused(refusal),
    }
}
