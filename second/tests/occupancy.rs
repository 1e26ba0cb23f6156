//! The occupancy board (W-207): who has each address, by how many leases and holds, and what each house holds.

mod common;

use common::*;
use second::file::{write, LONGEST_FILE};
use second::occupancy::{board_octets, scope_boards, Entry, ScopeBoard, BOARD_LENGTH};
use second::programs::{board_text, occupancy, occupancy_text};
use second::{serve, sound, Book, House, Lease, Quota, Scope, ScopeNames};

const ID: &[u8] = &[0, 0x41];
const OTHER: &[u8] = &[0, 0x42];
const THIRD: &[u8] = &[0, 0x43];

/// Types of messages.
const DISCOVER: u8 = 1;
const REQUEST: u8 = 3;
const RENEW: u8 = 4;
const RELEASE: u8 = 7;
const GETINFO: u8 = 8;

/// An entry as (owner, count), 0 for none.
type Pair = (u8, u8);

/// The entries and holdings of one scope, from 1. The book is sound, and there are an entry for each address and a
/// holding for each house.
fn scope_of(book: &Book, number: usize) -> (Vec<Pair>, Vec<u8>) {
    assert!(sound(book));
    let ScopeBoard { entries, holdings } = scope_boards(book).swap_remove(number - 1);
    assert_eq!(entries.len(), usize::from(book.scopes[number - 1].size));
    assert_eq!(holdings.len(), book.houses.len());
    let pairs = entries.iter().map(|entry| {
        let owner = entry.owner.unwrap_or(0);
        assert_eq!(owner == 0, entry.count == 0);
        (owner, entry.count)
    });
    (pairs.collect(), holdings)
}

/// The first scope is this.
fn first_scope(book: &Book, entries: &[Pair], holdings: &[u8]) {
    assert_eq!(scope_of(book, 1), (entries.to_vec(), holdings.to_vec()));
}

/// The specimens' book with these leases, in the file's order.
fn leased(leases: &[Lease]) -> Book {
    let mut book = specimen_book();
    book.leases = leases.to_vec();
    book
}

/// The specimens' book with a second scope, 239.193.0.0 of size 2.
fn two_scopes() -> Book {
    let mut book = specimen_book();
    book.scopes.push(Scope {
        lowest: 0xEFC1_0000,
        size: 2,
        ttl: 15,
        quotas: vec![Quota { share: 0, limit: 2 }; 2],
    });
    book.names.push(ScopeNames::none(2));
    book
}

/// A message on an identifier, and in a scope from 1 unless it is 0, with these options of four octets.
fn message(kind: u8, id: u32, identifier: &[u8], scope: u8, more: &[(u16, u32)]) -> Vec<u8> {
    let mut all = more.to_vec();
    if scope > 0 {
        all.push((4, 0xEFBF_0000 + (u32::from(scope) << 16)));
    }
    let values: Vec<_> = all
        .iter()
        .map(|(code, n)| (*code, n.to_be_bytes()))
        .collect();
    let mut options: Vec<(u16, &[u8])> = vec![(3, identifier)];
    options.extend(values.iter().map(|(code, value)| (*code, &value[..])));
    datagram(kind, id, &options)
}

/// Option 7.
fn number(least: u32, desired: u32) -> (u16, u32) {
    (7, least << 16 | desired)
}

/// A call that draws a reply of this type.
fn draws(book: &mut Book, client: u32, time: u32, message: &[u8], kind: u8) {
    let (outcome, reply) = call(book, client, time, message);
    assert_eq!((outcome, reply.get(1)), (0, Some(&kind)));
}

const OFFER: u8 = 2;
const ACK: u8 = 5;
const NAK: u8 = 6;
/// No address has an owner.
const FREE: &[Pair] = &[(0, 0); 4];

#[test]
fn an_empty_book_has_a_board_of_zeros() {
    let book = specimen_book();
    first_scope(&book, FREE, &[0, 0]);
    assert_eq!(board_octets(&book), [0; BOARD_LENGTH]);
    assert_eq!(BOARD_LENGTH, 544);
}

#[test]
fn each_address_has_its_house_and_each_house_its_holding() {
    // P1 and P3.
    let mut book = specimen_book();
    let p1 = message(REQUEST, 1, ID, 1, &[number(1, 4)]);
    draws(&mut book, CLIENT_2, 1000, &p1, ACK);
    first_scope(&book, &[(2, 1), (2, 1), (0, 0), (0, 0)], &[0, 2]);
    let p3 = message(REQUEST, 3, ID, 1, &[number(2, 3), (1, 1000)]);
    draws(&mut book, CLIENT_1, 1000, &p3, ACK);
    first_scope(&book, &[(2, 1), (2, 1), (1, 1), (1, 1)], &[2, 2]);
    // P5: the same addresses from 2000 on, so that they count twice and the holding stays.
    let p5 = message(REQUEST, 5, OTHER, 1, &[number(2, 2), (6, 2000), (11, 1000)]);
    draws(&mut book, CLIENT_1, 1000, &p5, ACK);
    first_scope(&book, &[(2, 1), (2, 1), (1, 2), (1, 2)], &[2, 2]);
    // P9: P3's lease is gone at 2000.
    assert_eq!(call(&mut book, STRANGER, 1999, &[]).0, 3);
    first_scope(&book, &[(2, 1), (2, 1), (1, 2), (1, 2)], &[2, 2]);
    assert_eq!(call(&mut book, STRANGER, 2000, &[]).0, 3);
    first_scope(&book, &[(2, 1), (2, 1), (1, 1), (1, 1)], &[2, 2]);
}

#[test]
fn two_leases_on_one_address_at_different_times_count_twice() {
    // They touch, or one is next week's; which of them runs now is no matter.
    for start in [2000, 2001, 600_000] {
        let book = leased(&[
            lease(1, ID, 1000, 2000, &[1]),
            lease(1, OTHER, start, start + 9, &[1]),
        ]);
        first_scope(&book, &[(0, 0), (1, 2), (0, 0), (0, 0)], &[1, 0]);
    }
    // None of these runs now.
    let later = lease(2, ID, 5000, 6000, &[0, 3]);
    first_scope(
        &leased(&[later]),
        &[(2, 1), (0, 0), (0, 0), (2, 1)],
        &[0, 2],
    );
    // Each address counts its own: .0 has one lease, .1 three, .2 two.
    let book = leased(&[
        lease(1, ID, 1000, 2000, &[0, 1, 2]),
        lease(1, OTHER, 2000, 3000, &[1]),
        lease(1, THIRD, 3000, 4000, &[1, 2]),
    ]);
    first_scope(&book, &[(1, 1), (1, 3), (1, 2), (0, 0)], &[3, 0]);
}

#[test]
fn all_sixteen_leases_of_a_house_count() {
    let leases: Vec<Lease> = (0..16u8)
        .map(|n| lease(1, &[1, n], 2000 + u32::from(n), 2001 + u32::from(n), &[2]))
        .collect();
    first_scope(
        &leased(&leases),
        &[(0, 0), (0, 0), (1, 16), (0, 0)],
        &[1, 0],
    );
}

#[test]
fn a_hold_counts_as_a_lease() {
    let mut book = specimen_book();
    let discover = message(DISCOVER, 9, ID, 1, &[number(1, 2), (1, 500)]);
    draws(&mut book, CLIENT_1, 1000, &discover, OFFER);
    let held: &[Pair] = &[(1, 1), (1, 1), (0, 0), (0, 0)];
    first_scope(&book, held, &[2, 0]);
    // Its offer repeated is the same hold.
    draws(&mut book, CLIENT_1, 1010, &discover, OFFER);
    first_scope(&book, held, &[2, 0]);
    // A lease beside it on one of its addresses, from 1500 on.
    let later = message(REQUEST, 1, OTHER, 1, &[(6, 1500), (11, 1010)]);
    draws(&mut book, CLIENT_1, 1010, &later, ACK);
    let both: &[Pair] = &[(1, 2), (1, 1), (0, 0), (0, 0)];
    first_scope(&book, both, &[2, 0]);
    // Turned into the lease it counts as before.
    let mut turned = book.clone();
    let request = message(REQUEST, 10, ID, 1, &[]);
    draws(&mut turned, CLIENT_1, 1029, &request, ACK);
    assert!(turned.holds.is_empty());
    first_scope(&turned, both, &[2, 0]);
    // Lapsed, it leaves what the lease has.
    assert_eq!(call(&mut book, STRANGER, 1030, &[]).0, 3);
    first_scope(&book, &[(1, 1), (0, 0), (0, 0), (0, 0)], &[1, 0]);
}

#[test]
fn what_has_ended_is_dropped_before() {
    let ends = lease(1, ID, 500, 1500, &[0]);
    let lapses = hold(2, ID, (500, 2000), &[3], 1020);
    let mut book = leased(&[ends]);
    book.holds = vec![lapses];
    let both: &[Pair] = &[(1, 1), (0, 0), (0, 0), (2, 1)];
    first_scope(&book, both, &[1, 1]);
    // Discard 2 drops nothing.
    let mut unchanged = book.clone();
    let no_room = serve(&mut unchanged, &[], STRANGER, 9000, &mut [0; 511]);
    assert_eq!(no_room, (2, 0, 0, 0));
    first_scope(&unchanged, both, &[1, 1]);
    // Every other call does, and then counts.
    let getinfo = message(GETINFO, 1, OTHER, 0, &[]);
    draws(&mut book, CLIENT_1, 1019, &getinfo, ACK);
    first_scope(&book, both, &[1, 1]);
    draws(&mut book, CLIENT_1, 1020, &getinfo, ACK);
    first_scope(&book, &[(1, 1), (0, 0), (0, 0), (0, 0)], &[1, 0]);
    draws(&mut book, CLIENT_1, 1500, &getinfo, ACK);
    first_scope(&book, FREE, &[0, 0]);
}

#[test]
fn an_address_changes_its_owner_within_a_call() {
    let mut book = leased(&[lease(1, ID, 500, 1500, &[0])]);
    let request = message(REQUEST, 1, ID, 1, &[]);
    draws(&mut book, CLIENT_2, 1500, &request, ACK);
    first_scope(&book, &[(2, 1), (0, 0), (0, 0), (0, 0)], &[0, 1]);
    // What a hold had too.
    let mut book = specimen_book();
    book.holds = vec![hold(2, ID, (500, 2000), &[0, 1], 1030)];
    draws(&mut book, CLIENT_1, 1030, &request, ACK);
    first_scope(&book, &[(1, 1), (0, 0), (0, 0), (0, 0)], &[1, 0]);
}

#[test]
fn a_release_takes_off_its_own_lease_alone() {
    let mut book = leased(&[
        lease(1, ID, 1000, 2000, &[0, 1]),
        lease(1, OTHER, 2000, 3000, &[1, 2]),
        lease(2, ID, 1000, 2000, &[3]),
    ]);
    first_scope(&book, &[(1, 1), (1, 2), (1, 1), (2, 1)], &[3, 1]);
    let release = |id, of| message(RELEASE, id, of, 0, &[]);
    draws(&mut book, CLIENT_1, 1000, &release(1, ID), ACK);
    first_scope(&book, &[(0, 0), (1, 1), (1, 1), (2, 1)], &[2, 1]);
    // Sent again, and with another id: nothing more goes.
    draws(&mut book, CLIENT_1, 1000, &release(1, ID), ACK);
    draws(&mut book, CLIENT_1, 1000, &release(2, ID), NAK);
    first_scope(&book, &[(0, 0), (1, 1), (1, 1), (2, 1)], &[2, 1]);
    draws(&mut book, CLIENT_1, 1000, &release(3, OTHER), ACK);
    first_scope(&book, &[(0, 0), (0, 0), (0, 0), (2, 1)], &[0, 1]);
}

#[test]
fn a_renew_and_a_resend_leave_the_board_as_it_is() {
    let mut book = leased(&[
        lease(1, ID, 1000, 2000, &[0, 1]),
        lease(1, OTHER, 2000, 3000, &[1]),
    ]);
    let before: &[Pair] = &[(1, 1), (1, 2), (0, 0), (0, 0)];
    let renews = [
        (message(RENEW, 2, ID, 0, &[(1, 900)]), ACK),
        (message(RENEW, 2, ID, 0, &[(1, 900)]), ACK),
        (message(RENEW, 3, ID, 0, &[(1, 1001)]), NAK),
        (message(REQUEST, 1, OTHER, 1, &[]), ACK),
        (message(REQUEST, 7, OTHER, 1, &[]), NAK),
    ];
    for (message, kind) in renews {
        first_scope(&book, before, &[2, 0]);
        draws(&mut book, CLIENT_1, 1000, &message, kind);
    }
    first_scope(&book, before, &[2, 0]);
}

#[test]
fn a_lease_alters_only_its_own_addresses_and_holding() {
    // House 1 has .0 of both scopes, and house 2 .1 of both.
    let mut book = two_scopes();
    let elsewhere = |house, identifier, offset| Lease {
        scope: 2,
        ..lease(house, identifier, 1000, 2000, &[offset])
    };
    book.leases = vec![
        lease(1, ID, 1000, 2000, &[0]),
        elsewhere(1, OTHER, 0),
        lease(2, ID, 1000, 2000, &[1]),
        elsewhere(2, OTHER, 1),
    ];
    first_scope(&book, &[(1, 1), (2, 1), (0, 0), (0, 0)], &[1, 1]);
    let second = (vec![(1, 1), (2, 1)], vec![1, 1]);
    assert_eq!(scope_of(&book, 2), second);
    let release = message(RELEASE, 1, ID, 0, &[]);
    draws(&mut book, CLIENT_1, 1000, &release, ACK);
    first_scope(&book, &[(0, 0), (2, 1), (0, 0), (0, 0)], &[0, 1]);
    assert_eq!(scope_of(&book, 2), second);
}

#[test]
fn a_hold_dropped_for_another_scope_leaves_its_own() {
    let discover = message(DISCOVER, 9, ID, 1, &[number(1, 2)]);
    let mut book = two_scopes();
    draws(&mut book, CLIENT_1, 1000, &discover, OFFER);
    let held: &[Pair] = &[(1, 1), (1, 1), (0, 0), (0, 0)];
    first_scope(&book, held, &[2, 0]);
    // Error 1 keeps it.
    let bad = message(REQUEST, 1, ID, 2, &[(1, 0)]);
    draws(&mut book, CLIENT_1, 1000, &bad, NAK);
    first_scope(&book, held, &[2, 0]);
    // Granted in the other scope, or refused there: it is gone.
    let free = (vec![(0, 0); 2], vec![0, 0]);
    let has_one = (vec![(1, 1), (0, 0)], vec![1, 0]);
    for (least, kind, second) in [(1, ACK, has_one), (3, NAK, free)] {
        let mut book = book.clone();
        let request = message(REQUEST, 1, ID, 2, &[number(least, least)]);
        draws(&mut book, CLIENT_1, 1000, &request, kind);
        first_scope(&book, FREE, &[0, 0]);
        assert_eq!(scope_of(&book, 2), second);
    }
}

/// Eight houses and four scopes of 64 addresses, of which each house has eight in each scope by one lease.
fn full() -> Book {
    let mut book = specimen_book();
    let house = |n: u32| House {
        lowest: n,
        highest: n,
    };
    book.houses = (0..8).map(house).collect();
    let scope = |n: u32| Scope {
        lowest: 0xEFC0_0000 + (n << 8),
        size: 64,
        ttl: 1,
        quotas: vec![Quota { share: 8, limit: 8 }; 8],
    };
    book.scopes = (0..4).map(scope).collect();
    book.names = vec![ScopeNames::none(8); 4];
    for house in 1..=8u8 {
        for scope in 1..=4u8 {
            let offsets: Vec<u8> = (8 * house - 8..8 * house).collect();
            book.leases.push(Lease {
                scope,
                ..lease(house, &[0, scope], 1000, 2000, &offsets)
            });
        }
    }
    book
}

#[test]
fn a_full_campus_fills_every_octet() {
    let book = full();
    assert!(sound(&book));
    let mut scope: Vec<u8> = (0..64).flat_map(|offset| [offset / 8 + 1, 1]).collect();
    scope.extend([8; 8]);
    assert_eq!(board_octets(&book), scope.repeat(4));
}

#[test]
fn octets_past_the_size_the_houses_and_the_scopes_are_0() {
    // Two scopes of sizes 4 and 2, and two houses.
    let mut book = two_scopes();
    book.leases = vec![
        lease(1, ID, 1000, 2000, &[0, 2]),
        lease(1, OTHER, 2000, 3000, &[2]),
        Lease {
            scope: 2,
            ..lease(2, ID, 1000, 2000, &[0, 1])
        },
    ];
    book.holds = vec![hold(2, OTHER, (1000, 2000), &[3], 1010)];
    assert!(sound(&book));
    let mut expected = [0; BOARD_LENGTH];
    expected[..8].copy_from_slice(&[1, 1, 0, 0, 1, 2, 2, 1]);
    expected[128..130].copy_from_slice(&[2, 1]);
    expected[136..140].copy_from_slice(&[2, 1, 2, 1]);
    expected[136 + 129] = 2;
    assert_eq!(board_octets(&book), expected);
}

#[test]
fn the_holdings_are_those_that_the_board_prints() {
    let mut book = full();
    book.holds = vec![hold(3, OTHER, (2000, 3000), &[17, 18], 1030)];
    book.leases.remove(0);
    assert!(sound(&book));
    let boards = scope_boards(&book);
    let holdings: Vec<u8> = boards.iter().flat_map(|b| b.holdings.clone()).collect();
    let printed = board_text(&book);
    let last = |line: &str| line.rsplit(' ').next().and_then(|word| word.parse().ok());
    let printed: Vec<u8> = printed.lines().skip(1).filter_map(last).collect();
    assert_eq!((holdings[0], holdings.len()), (0, 32));
    assert_eq!(holdings, printed);
    // As many addresses are the house's by the entries.
    for board in boards {
        for (house, holding) in (1..).zip(board.holdings) {
            let is_own = |entry: &&Entry| entry.owner == Some(house);
            let own = board.entries.iter().filter(is_own).count();
            assert_eq!(own, usize::from(holding));
        }
    }
}

#[test]
fn the_program_prints_the_board_or_a_refusal() {
    let mut book = specimen_book();
    book.leases = vec![
        lease(1, ID, 1000, 2000, &[2, 3]),
        lease(1, OTHER, 2000, 3000, &[2]),
        lease(2, ID, 1000, 2000, &[0]),
    ];
    let text = "address house leases
239.192.0.0 2 1
239.192.0.1 0 0
239.192.0.2 1 2
239.192.0.3 1 1
scope house holds
239.192.0.0 1 2
239.192.0.0 2 1
";
    assert_eq!(occupancy_text(&book), text);
    let mut room = vec![0; LONGEST_FILE];
    let length = write(&book, &mut room).expect("sound");
    let mut file = room[..length].to_vec();
    assert_eq!(occupancy(&file), text);
    assert_eq!(occupancy(&file[..length - 1]), "refused 20\n");
    // The TTL, after 9 octets of the server, 17 of two houses, the count of scopes, lowest address and size.
    file[32] = 0;
    assert_eq!(occupancy(&file), "refused 21\n");
}
