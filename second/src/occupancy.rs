//! The occupancy board, "for each scope and each of its addresses the owning house, or none, and the number of leases
//! on it, and for each house in the scope its holding; holds count as leases". None is kept: it is counted from the
//! book each time, so that it can't disagree with the leases.

use crate::book::{Book, MOST_ADDRESSES, MOST_HOUSES, MOST_SCOPES};

/// Octets of the whole board: for each scope an owner(1) and a count(1) for each address, and a holding(1) for each
/// house.
pub const BOARD_LENGTH: usize = MOST_SCOPES * (2 * MOST_ADDRESSES as usize + MOST_HOUSES);

/// What the board says of an address.
#[derive(Clone, Copy, Debug, Default, PartialEq, Eq)]
pub struct Entry {
    /// The owning house, from 1; none if nobody has a lease or hold on the address.
    pub owner: Option<u8>,
    /// The leases and holds on it, whatever their periods.
    pub count: u8,
}

/// What the board says of a scope: an entry for each of its addresses, lowest first, and each house's holding.
#[derive(Clone, Debug, Default, PartialEq, Eq)]
pub struct ScopeBoard {
    pub entries: Vec<Entry>,
    pub holdings: Vec<u8>,
}

/// The board of each scope, in their order.
pub fn scope_boards(book: &Book) -> Vec<ScopeBoard> {
    book.scope_numbers()
        .map(|scope| ScopeBoard {
            entries: book
                .offsets(scope)
                .map(|offset| entry(book, scope, offset))
                .collect(),
            holdings: book
                .house_numbers()
                .map(|house| number(book.addresses_of(house, scope).len()))
                .collect(),
        })
        .collect()
}

/// No address of a sound book has two houses, so that the first lease or hold on it tells the owner.
fn entry(book: &Book, scope: u8, offset: u8) -> Entry {
    let leases = book.leases_on(scope, offset);
    Entry {
        owner: leases.first().map(|lease| lease.house),
        count: number(leases.len()),
    }
}

/// A house has 16 records and a scope 64 addresses, so that no number of a sound book is cut.
fn number(count: usize) -> u8 {
    u8::try_from(count).unwrap_or(u8::MAX)
}

/// The board as octets: four scopes of 64 addresses and eight houses, whatever the book has. An owner's octet is 0 for
/// none, and all octets past a scope's size, the last house and the last scope are 0.
pub fn board_octets(book: &Book) -> Vec<u8> {
    let mut octets = Vec::new();
    let mut scopes = scope_boards(book);
    scopes.resize(MOST_SCOPES, ScopeBoard::default());
    for mut scope in scopes {
        scope
            .entries
            .resize(MOST_ADDRESSES.into(), Entry::default());
        for entry in scope.entries {
            octets.extend([entry.owner.unwrap_or(0), entry.count]);
        }
        scope.holdings.resize(MOST_HOUSES, 0);
        octets.extend(scope.holdings);
    }
    octets
}
