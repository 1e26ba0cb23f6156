//! The book: the server's settings with the scopes' names, its clock, its leases and holds and the remembered
//! releases.

use crate::holds::Hold;
use crate::names::ScopeNames;
use crate::period::Period;
use crate::releases::Release;

/// Houses and scopes, at most ("Houses 1 to 8; scopes 1 to 4").
pub const MOST_HOUSES: usize = 8;
pub const MOST_SCOPES: usize = 4;
/// Addresses in a scope, at most.
pub const MOST_ADDRESSES: u8 = 64;
/// Records of a house for leases and holds together, over all scopes.
pub const RECORDS_OF_A_HOUSE: usize = 16;
/// Length of an identifier.
pub const SHORTEST_IDENTIFIER: usize = 2;
pub const LONGEST_IDENTIFIER: usize = 32;

/// A house: its client addresses, both ends included.
#[derive(Clone, Debug, PartialEq, Eq)]
pub struct House {
    pub lowest: u32,
    pub highest: u32,
}

/// What a scope sets for one house.
#[derive(Clone, Debug, PartialEq, Eq)]
pub struct Quota {
    pub share: u8,
    pub limit: u8,
}

/// A scope: its pool of addresses, its TTL and one quota for each house, in the order of the houses.
#[derive(Clone, Debug, PartialEq, Eq)]
pub struct Scope {
    pub lowest: u32,
    pub size: u8,
    pub ttl: u8,
    pub quotas: Vec<Quota>,
}

/// A lease. House and scope count from 1; the offsets are those of its addresses in the scope, rising.
/// `message_type` and `transaction` are those of the REQUEST or RENEW that it was last set by, or of the DISCOVER
/// that its hold was set by.
#[derive(Clone, Debug, PartialEq, Eq)]
pub struct Lease {
    pub house: u8,
    pub scope: u8,
    pub identifier: Vec<u8>,
    pub message_type: u8,
    pub transaction: u32,
    pub start: u32,
    pub end: u32,
    pub offsets: Vec<u8>,
}

impl Lease {
    pub fn period(&self) -> Period {
        Period {
            start: u64::from(self.start),
            end: u64::from(self.end),
        }
    }

    /// The length of its period, in seconds.
    pub fn length(&self) -> u32 {
        self.end.saturating_sub(self.start)
    }

    /// Whether the lease has this address of this scope.
    pub fn has(&self, scope: u8, offset: u8) -> bool {
        self.scope == scope && self.offsets.contains(&offset)
    }
}

/// The book. Leases of all houses stand in one list, in the campus file's order; holds in another, in the same order.
/// The names stand in the order of the scopes; they are settings, and no call changes them.
/// The remembered releases of all houses stand in one list too, by house, oldest first.
#[derive(Clone, Debug, PartialEq, Eq)]
pub struct Book {
    pub server: u32,
    pub clock: u32,
    pub houses: Vec<House>,
    pub scopes: Vec<Scope>,
    pub leases: Vec<Lease>,
    pub names: Vec<ScopeNames>,
    pub releases: Vec<Release>,
    pub holds: Vec<Hold>,
}

/// How a house stands in a scope.
#[derive(Clone, Debug, PartialEq, Eq)]
pub struct Standing {
    pub house: u8,
    pub share: u64,
    pub limit: u64,
    pub holding: u64,
}

impl Book {
    /// The numbers of the houses, from 1.
    pub fn house_numbers(&self) -> impl Iterator<Item = u8> {
        (1..=u8::MAX).take(self.houses.len())
    }

    /// The numbers of the scopes, from 1.
    pub fn scope_numbers(&self) -> impl Iterator<Item = u8> {
        (1..=u8::MAX).take(self.scopes.len())
    }

    pub fn house(&self, number: u8) -> Option<&House> {
        self.houses.get(usize::from(number).checked_sub(1)?)
    }

    pub fn scope(&self, number: u8) -> Option<&Scope> {
        self.scopes.get(usize::from(number).checked_sub(1)?)
    }

    /// The offsets of a scope's addresses, from 0; none for an unknown scope.
    pub fn offsets(&self, scope: u8) -> impl Iterator<Item = u8> {
        0..self.scope(scope).map_or(0, |scope| scope.size)
    }

    /// The house that a client address belongs to.
    pub fn house_of_client(&self, client: u32) -> Option<u8> {
        self.house_numbers().find(|&number| {
            self.house(number)
                .is_some_and(|house| house.lowest <= client && client <= house.highest)
        })
    }

    /// The scope whose lowest address this is.
    pub fn scope_at(&self, lowest: u32) -> Option<u8> {
        self.scope_numbers().find(|&number| {
            self.scope(number)
                .is_some_and(|scope| scope.lowest == lowest)
        })
    }

    /// "A lease is live while its end is after the clock."
    pub fn is_live(&self, lease: &Lease) -> bool {
        lease.end > self.clock
    }

    pub fn live_leases(&self) -> impl Iterator<Item = &Lease> {
        self.leases.iter().filter(|lease| self.is_live(lease))
    }

    /// All leases and holds, live or not: each takes one of its house's records.
    pub fn records(&self) -> impl Iterator<Item = &Lease> {
        let held = self.holds.iter().map(|hold| &hold.lease);
        self.leases.iter().chain(held)
    }

    /// The live leases and holds.
    pub fn live_records(&self) -> impl Iterator<Item = &Lease> {
        let held = self.holds.iter().filter(|hold| hold.is_live_at(self.clock));
        self.live_leases().chain(held.map(|hold| &hold.lease))
    }

    /// The live leases and holds on one address: where addresses are counted, a hold is as a lease.
    pub fn leases_on(&self, scope: u8, offset: u8) -> Vec<&Lease> {
        self.live_records()
            .filter(|lease| lease.has(scope, offset))
            .collect()
    }

    /// The leases and holds of a house, over all scopes.
    pub fn records_of(&self, house: u8) -> usize {
        self.records().filter(|lease| lease.house == house).count()
    }

    /// Where the house's live lease with this identifier stands in the list, if the house has one.
    pub fn position(&self, house: u8, identifier: &[u8]) -> Option<usize> {
        self.leases.iter().position(|lease| {
            self.is_live(lease) && lease.house == house && lease.identifier == identifier
        })
    }

    /// Where the house's live hold with this identifier stands in the list, if the house has one.
    pub fn hold_position(&self, house: u8, identifier: &[u8]) -> Option<usize> {
        self.holds.iter().position(|hold| {
            hold.is_live_at(self.clock)
                && hold.lease.house == house
                && hold.lease.identifier == identifier
        })
    }

    /// The house's addresses in a scope, lowest first: "An address is a house's if a live lease of the house
    /// has it", or a live hold.
    pub fn addresses_of(&self, house: u8, scope: u8) -> Vec<u8> {
        self.offsets(scope)
            .filter(|&offset| {
                self.live_records()
                    .any(|lease| lease.house == house && lease.has(scope, offset))
            })
            .collect()
    }

    /// The addresses of a scope that are nobody's, lowest first.
    pub fn nobodys_addresses(&self, scope: u8) -> Vec<u8> {
        self.offsets(scope)
            .filter(|&offset| self.leases_on(scope, offset).is_empty())
            .collect()
    }

    /// Share, limit and holding of every house in a scope, by house.
    /// The holding is counted from the leases and holds each time.
    pub fn standings(&self, scope: u8) -> Vec<Standing> {
        let Some(settings) = self.scope(scope) else {
            return Vec::new();
        };
        self.house_numbers()
            .zip(&settings.quotas)
            .map(|(house, quota)| Standing {
                house,
                share: u64::from(quota.share),
                limit: u64::from(quota.limit),
                holding: self.addresses_of(house, scope).len() as u64,
            })
            .collect()
    }

    /// Sets the clock to the larger of itself and the given time, and drops the leases that end and the holds that
    /// lapse at or before it.
    pub fn advance(&mut self, time: u32) {
        self.clock = self.clock.max(time);
        let clock = self.clock;
        self.leases.retain(|lease| lease.end > clock);
        self.holds.retain(|hold| hold.is_live_at(clock));
    }

    /// Puts a lease in its place in the file's order.
    pub fn insert(&mut self, lease: Lease) {
        let place = self
            .leases
            .iter()
            .position(|other| file_key(other) > file_key(&lease))
            .unwrap_or(self.leases.len());
        self.leases.insert(place, lease);
    }

    /// Puts a hold in its place in the file's order.
    pub fn insert_hold(&mut self, hold: Hold) {
        let place = self
            .holds
            .iter()
            .position(|other| file_key(&other.lease) > file_key(&hold.lease))
            .unwrap_or(self.holds.len());
        self.holds.insert(place, hold);
    }
}

/// What leases and holds are ordered by in the campus file: the house, then the identifier octet by octet,
/// a prefix first.
pub fn file_key(lease: &Lease) -> (u8, &[u8]) {
    (lease.house, &lease.identifier)
}
