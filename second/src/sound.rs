//! The sound book, rule by rule. "Lease" reads "lease or hold" in the rules, but for the type.

use crate::book::{
    file_key, Book, Lease, Quota, Scope, LONGEST_IDENTIFIER, MOST_ADDRESSES, MOST_HOUSES,
    MOST_SCOPES, RECORDS_OF_A_HOUSE, SHORTEST_IDENTIFIER,
};
use crate::holds::holds_in_file_order;
use crate::message::Kind;
use crate::releases::{releases_in_file_order, RELEASES_OF_A_HOUSE};
use std::collections::BTreeSet;

/// Pools lie inside 224.0.0.0 to 239.255.255.255.
const LOWEST_MULTICAST: u64 = 0xE000_0000;
const HIGHEST_MULTICAST: u64 = 0xEFFF_FFFF;

/// A rule's number, and whether a book keeps it.
type Rule = (u8, fn(&Book) -> bool);

/// The rules that leases and holds can break, by their numbers in document 01's "Sound", of which 3 to 6 are the
/// settings' alone; and 13, a hold's type and lapse. A lease or hold that names an unknown house or scope breaks 7; a
/// rule before it that needs them is passed over.
const RULES_OF_RECORDS: [Rule; 9] = [
    (1, identifier_lengths_and_records_within_limits),
    (2, offsets_below_sizes),
    (7, records_have_what_they_need),
    (8, identifiers_differ),
    (9, no_address_has_two_houses),
    (10, no_leases_overlap),
    (11, holdings_within_limits),
    (12, shares_are_kept),
    (13, holds_have_sound_types_and_lapses),
];

/// The five rules of the remembered releases. Their order is a matter of its own.
const RULES_OF_RELEASES: [Rule; 5] = [
    (14, releases_have_known_houses),
    (15, four_releases_to_a_house),
    (16, released_identifier_lengths_within_limits),
    (17, released_identifiers_differ),
    (18, releases_not_after_the_clock),
];

/// Whether the book keeps every rule of a sound book.
pub fn sound(book: &Book) -> bool {
    counts_within_limits(book)
        && client_ranges_filled_and_disjoint(book)
        && pools_multicast_and_disjoint(book)
        && ttls_not_zero(book)
        && shares_and_limits_fit(book)
        && first_broken_by_records(book).is_none()
        && book.records().all(|record| offsets_rise(&record.offsets))
        && leases_in_file_order(&book.leases)
        && holds_in_file_order(&book.holds)
        && names_are_good(book)
        && first_broken_by_releases(book).is_none()
        && releases_in_file_order(&book.releases)
}

/// The first rule that the leases and holds break in a book whose settings are sound.
pub fn first_broken_by_records(book: &Book) -> Option<u8> {
    first_broken(&RULES_OF_RECORDS, book)
}

/// The first rule that the releases break in a book that is sound without them.
pub fn first_broken_by_releases(book: &Book) -> Option<u8> {
    first_broken(&RULES_OF_RELEASES, book)
}

fn first_broken(rules: &[Rule], book: &Book) -> Option<u8> {
    let broken = rules.iter().find(|(_, is_kept)| !is_kept(book));
    broken.map(|(number, _)| *number)
}

/// Houses 1 to 8, scopes 1 to 4, addresses in a scope 1 to 64; a share and limit for each house.
fn counts_within_limits(book: &Book) -> bool {
    (1..=MOST_HOUSES).contains(&book.houses.len())
        && (1..=MOST_SCOPES).contains(&book.scopes.len())
        && book.scopes.iter().all(|scope| {
            (1..=MOST_ADDRESSES).contains(&scope.size) && scope.quotas.len() == book.houses.len()
        })
}

/// Client ranges are not empty, and no two have an address in common.
fn client_ranges_filled_and_disjoint(book: &Book) -> bool {
    let filled = book
        .houses
        .iter()
        .all(|house| house.lowest <= house.highest);
    let disjoint = book.houses.iter().enumerate().all(|(place, house)| {
        book.houses[..place]
            .iter()
            .all(|other| house.highest < other.lowest || other.highest < house.lowest)
    });
    filled && disjoint
}

/// Every address of every pool is a multicast address, and none comes twice. Pools don't wrap.
fn pools_multicast_and_disjoint(book: &Book) -> bool {
    let mut seen = BTreeSet::new();
    book.scopes.iter().all(|scope| {
        (0..u64::from(scope.size)).all(|offset| {
            let address = u64::from(scope.lowest) + offset;
            (LOWEST_MULTICAST..=HIGHEST_MULTICAST).contains(&address) && seen.insert(address)
        })
    })
}

fn ttls_not_zero(book: &Book) -> bool {
    book.scopes.iter().all(|scope| scope.ttl != 0)
}

/// Share at most limit at most size, shares together at most size.
fn shares_and_limits_fit(book: &Book) -> bool {
    book.scopes.iter().all(|scope| {
        let together: u64 = scope
            .quotas
            .iter()
            .map(|quota| u64::from(quota.share))
            .sum();
        together <= u64::from(scope.size)
            && scope
                .quotas
                .iter()
                .all(|quota| quota.share <= quota.limit && quota.limit <= scope.size)
    })
}

/// Identifiers have 2 to 32 octets; at most sixteen leases and holds together to a house, over all scopes.
fn identifier_lengths_and_records_within_limits(book: &Book) -> bool {
    book.records()
        .all(|record| is_long_enough_and_not_too_long(&record.identifier))
        && book
            .house_numbers()
            .all(|house| book.records_of(house) <= RECORDS_OF_A_HOUSE)
}

fn is_long_enough_and_not_too_long(identifier: &[u8]) -> bool {
    (SHORTEST_IDENTIFIER..=LONGEST_IDENTIFIER).contains(&identifier.len())
}

/// Offsets are below the scope's size. Too many addresses for any scope break the same rule, of an unknown scope too.
fn offsets_below_sizes(book: &Book) -> bool {
    book.records().all(|record| {
        let is_below = |scope: &Scope| record.offsets.iter().all(|&offset| offset < scope.size);
        record.offsets.len() <= usize::from(MOST_ADDRESSES)
            && book.scope(record.scope).is_none_or(is_below)
    })
}

/// Each lease names a known house and scope, has type 3 or 4, start before end, end after the clock and an address; and
/// so does each hold, the type aside.
fn records_have_what_they_need(book: &Book) -> bool {
    leases_have_sound_types(book)
        && book.records().all(|record| {
            book.house(record.house).is_some()
                && book.scope(record.scope).is_some()
                && record.start < record.end
                && record.end > book.clock
                && !record.offsets.is_empty()
        })
}

/// A lease has type 3 or 4.
fn leases_have_sound_types(book: &Book) -> bool {
    let types = [Kind::Request.number(), Kind::Renew.number()];
    book.leases
        .iter()
        .all(|lease| types.contains(&lease.message_type))
}

/// A hold has type 1 and a lapse near enough.
fn holds_have_sound_types_and_lapses(book: &Book) -> bool {
    book.holds
        .iter()
        .all(|hold| hold.has_sound_type_and_lapse(book.clock))
}

/// Each offset is above the one before.
pub fn offsets_rise(offsets: &[u8]) -> bool {
    offsets.windows(2).all(|pair| pair[0] < pair[1])
}

/// Leases rise by house, then identifier. Equal neighbours are no matter of order.
pub fn leases_in_file_order(leases: &[Lease]) -> bool {
    leases
        .windows(2)
        .all(|pair| file_key(&pair[0]) <= file_key(&pair[1]))
}

/// Identifiers differ within a house, those of leases and holds together.
fn identifiers_differ(book: &Book) -> bool {
    let mut seen = BTreeSet::new();
    book.records().all(|record| seen.insert(file_key(record)))
}

/// The leases and holds on an address, all that there are: an ended lease breaks rule 7, and that a hold has lapsed is
/// the matter of rule 13 alone.
fn all_on(book: &Book, scope: u8, offset: u8) -> Vec<&Lease> {
    let records = book.records();
    records.filter(|lease| lease.has(scope, offset)).collect()
}

/// Whether a rule is kept by the leases and holds on each address of each scope.
fn on_every_address(book: &Book, rule: impl Fn(&[&Lease]) -> bool) -> bool {
    book.scope_numbers().all(|scope| {
        book.offsets(scope)
            .all(|offset| rule(&all_on(book, scope, offset)))
    })
}

fn no_address_has_two_houses(book: &Book) -> bool {
    on_every_address(book, |leases| {
        leases.iter().all(|lease| lease.house == leases[0].house)
    })
}

/// Leases and holds on one address don't overlap.
fn no_leases_overlap(book: &Book) -> bool {
    on_every_address(book, |leases| {
        leases.iter().enumerate().all(|(place, lease)| {
            leases[..place]
                .iter()
                .all(|other| !lease.period().overlaps(&other.period()))
        })
    })
}

/// Each house's quota in a scope and how many of its addresses the house has, by the leases and holds on each.
fn quotas_and_holdings(book: &Book, scope: u8) -> Vec<(&Quota, u64)> {
    let houses_on = |offset| all_on(book, scope, offset).into_iter().map(|r| r.house);
    let houses: Vec<Vec<u8>> = book
        .offsets(scope)
        .map(|o| houses_on(o).collect())
        .collect();
    let quotas = book.scope(scope).map_or(&[][..], |scope| &scope.quotas);
    let holding = |house: u8| houses.iter().filter(|on_it| on_it.contains(&house)).count();
    let holdings = book.house_numbers().map(|house| holding(house) as u64);
    quotas.iter().zip(holdings).collect()
}

/// Each holding is at most its limit.
fn holdings_within_limits(book: &Book) -> bool {
    book.scope_numbers().all(|scope| {
        quotas_and_holdings(book, scope)
            .iter()
            .all(|(quota, holding)| *holding <= u64::from(quota.limit))
    })
}

/// Per scope, the sum of the larger of holding and share is at most the size.
fn shares_are_kept(book: &Book) -> bool {
    book.scope_numbers().all(|scope| {
        let sum: u64 = quotas_and_holdings(book, scope)
            .iter()
            .map(|(quota, holding)| u64::from(quota.share).max(*holding))
            .sum();
        sum <= book.offsets(scope).count() as u64
    })
}

/// Names for every scope, with a list for every house, each list of good names.
/// The counts are those that the book has, be they sound or not.
pub fn names_are_good(book: &Book) -> bool {
    book.names.len() == book.scopes.len()
        && book
            .names
            .iter()
            .all(|names| names.are_good(book.houses.len()))
}

fn releases_have_known_houses(book: &Book) -> bool {
    book.releases
        .iter()
        .all(|release| book.house(release.house).is_some())
}

/// At most four remembered releases to a house.
fn four_releases_to_a_house(book: &Book) -> bool {
    book.house_numbers().all(|house| {
        let releases = book.releases.iter().filter(|other| other.house == house);
        releases.count() <= RELEASES_OF_A_HOUSE
    })
}

/// Neither too short nor too long.
fn released_identifier_lengths_within_limits(book: &Book) -> bool {
    book.releases
        .iter()
        .all(|release| is_long_enough_and_not_too_long(&release.identifier))
}

/// No identifier is repeated in a house, whatever the transaction ids and times, or is on a lease or hold of the house.
fn released_identifiers_differ(book: &Book) -> bool {
    book.releases.iter().enumerate().all(|(place, release)| {
        let is_not_repeated = book.releases[..place]
            .iter()
            .all(|other| !release.is_of(other.house, &other.identifier));
        let is_on_no_lease = book
            .records()
            .all(|record| !release.is_of(record.house, &record.identifier));
        is_not_repeated && is_on_no_lease
    })
}

fn releases_not_after_the_clock(book: &Book) -> bool {
    book.releases
        .iter()
        .all(|release| release.time <= book.clock)
}
