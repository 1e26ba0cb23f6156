//! The report for the quarter: the address-seconds that leases cover from each campus file's clock to the next one's.

use crate::book::{Book, Lease};
use crate::file;
use std::ffi::{OsStr, OsString};
use std::fs::File;
use std::io::Read;
use std::net::Ipv4Addr;

/// Campus files of a report, at most.
pub const MOST_FILES: usize = 1_000;
/// There is no file or too many, or a file that doesn't go with those before it.
pub const NO_SERIES: u8 = 26;

/// Why there is no report: the number, and the place of the file, from 1; 0 for none.
#[derive(Clone, Copy, Debug, PartialEq, Eq)]
pub struct Refusal {
    pub number: u8,
    pub place: usize,
}

/// What is printed for the files named, in the order of their clocks.
pub fn report(names: &[OsString]) -> String {
    report_text(names.len(), |place| octets_of(&names[place]))
}

/// As much of a file as tells whether it is too long; none if it can't be opened or read.
fn octets_of(name: &OsStr) -> Option<Vec<u8>> {
    let mut octets = Vec::new();
    let mut front = File::open(name).ok()?.take(file::LONGEST_FILE as u64 + 1);
    front.read_to_end(&mut octets).ok()?;
    Some(octets)
}

/// The same for so many files, each read by its place from 0; none for one that can't be opened. Only those are read
/// that come before a refusal.
pub fn report_text(count: usize, open: impl FnMut(usize) -> Option<Vec<u8>>) -> String {
    match series(count, open) {
        Ok(books) => text(&books),
        Err(Refusal { number, place }) => format!("refused {number} {place}\n"),
    }
}

/// The books of the files, each judged before the next is looked at.
fn series(
    count: usize,
    mut open: impl FnMut(usize) -> Option<Vec<u8>>,
) -> Result<Vec<Book>, Refusal> {
    if !(1..=MOST_FILES).contains(&count) {
        return Err(Refusal {
            number: NO_SERIES,
            place: 0,
        });
    }
    let mut books: Vec<Book> = Vec::new();
    for place in 0..count {
        let refusal = |number| Refusal {
            number,
            place: place + 1,
        };
        let octets = open(place).ok_or(refusal(file::WRONG_FORM))?;
        let book = file::read(&octets).map_err(refusal)?;
        if !follows(&books, &book) {
            return Err(refusal(NO_SERIES));
        }
        books.push(book);
    }
    Ok(books)
}

/// Whether a book has the first one's server address, houses and scopes, names aside, and a later clock than the one
/// before. The first book always follows.
fn follows(books: &[Book], book: &Book) -> bool {
    let (Some(first), Some(before)) = (books.first(), books.last()) else {
        return true;
    };
    first.server == book.server
        && first.houses == book.houses
        && first.scopes == book.scopes
        && before.clock < book.clock
}

/// A header and, by scope then house: lowest address, house and total.
fn text(books: &[Book]) -> String {
    let mut text = String::from("scope house total\n");
    let Some(first) = books.first() else {
        return text;
    };
    for (scope, settings) in first.scope_numbers().zip(&first.scopes) {
        for house in first.house_numbers() {
            let address = Ipv4Addr::from(settings.lowest);
            let total = total(books, house, scope);
            text += &format!("{address} {house} {total}\n");
        }
    }
    text
}

/// The address-seconds of a house in a scope, over all pairs of neighbouring files. Holds aren't counted.
pub fn total(books: &[Book], house: u8, scope: u8) -> u64 {
    let pairs = books.windows(2);
    let of_pair = |pair: &[Book]| -> u64 {
        pair[0]
            .leases
            .iter()
            .filter(|lease| (lease.house, lease.scope) == (house, scope))
            .map(|lease| covered(lease, pair[0].clock, pair[1].clock))
            .sum()
    };
    pairs.map(of_pair).sum()
}

/// The address-seconds of a lease from one clock to the next.
fn covered(lease: &Lease, from: u32, to: u32) -> u64 {
    let seconds = lease.end.min(to).saturating_sub(lease.start.max(from));
    u64::from(seconds) * lease.offsets.len() as u64
}
