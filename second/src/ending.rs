//! A house's records in order of ending: "Each house's records are kept by end (a hold's by lapse), ties by identifier."
//! The book's two lists stay in the file's order; this one is made from them each time it is asked for.

use crate::book::{Book, Lease};

/// A record in use: a lease, or a hold with its lapse.
#[derive(Clone, Copy, Debug, PartialEq, Eq)]
pub struct Record<'a> {
    pub lease: &'a Lease,
    pub lapse: Option<u32>,
}

impl<'a> Record<'a> {
    /// When it goes: a lease at its end, a hold at its lapse, never at its period's end.
    pub fn ending(&self) -> u32 {
        self.lapse.unwrap_or(self.lease.end)
    }

    /// What the records of a house are ordered by: the ending, then the identifier octet by octet, a prefix first.
    fn key(&self) -> (u32, &'a [u8]) {
        (self.ending(), &self.lease.identifier)
    }
}

/// The house's leases and holds together, the first to end first.
pub fn records_by_ending(book: &Book, house: u8) -> Vec<Record<'_>> {
    let leases = book
        .leases
        .iter()
        .map(|lease| Record { lease, lapse: None });
    let holds = book.holds.iter().map(|hold| Record {
        lease: &hold.lease,
        lapse: Some(hold.lapse),
    });
    let mut records: Vec<Record> = leases
        .chain(holds)
        .filter(|record| record.lease.house == house)
        .collect();
    records.sort_by_key(Record::key);
    records
}

/// How many of the house's records a lookup by identifier compares: "the place of the match counted from 1, or else the
/// number of its records in use, holds included".
pub fn compared(book: &Book, house: u8, identifier: &[u8]) -> usize {
    let records = records_by_ending(book, house);
    let place = records
        .iter()
        .position(|record| record.lease.identifier == identifier);
    place.map_or(records.len(), |place| place + 1)
}
