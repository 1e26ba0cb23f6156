//! Which rule an unsound campus breaks, in words, for the desk. The library alone decides whether a file is accepted; this says why not. The
//! numbers are document 01's "Sound" by semicolons, 1 to 12, and document 02's: 13 a hold's, 14 to 18 a release's.

use crate::campus::{Campus, Lease, Release, Scope};
use crate::count;
use crate::quoted::identifier;
use crate::utc;
use std::collections::HashMap;
use std::fmt;
use std::net::Ipv4Addr;

/// Document 01's limits.
const HOUSES: usize = 8;
const SCOPES: usize = 4;
const ADDRESSES: u8 = 64;
const RECORDS: usize = 16;
const RELEASES: usize = 4;
const HELD_SECONDS: u32 = 30;
const MULTICAST: [u32; 2] = [0xE000_0000, 0xEFFF_FFFF];

/// The first rule that a campus breaks.
#[derive(Clone, Debug, PartialEq, Eq)]
pub struct Broken {
    /// Its number.
    pub rule: u8,
    /// What breaks it, in words.
    pub what: String,
}

impl fmt::Display for Broken {
    fn fmt(&self, f: &mut fmt::Formatter<'_>) -> fmt::Result {
        write!(f, "rule {}: {}", self.rule, self.what)
    }
}

impl Broken {
    /// The first rule, by number, that a campus of right form breaks; `None` for a sound one.
    pub fn first(campus: &Campus) -> Option<Broken> {
        type Rule = fn(&Campus) -> Option<String>;
        let rules: [Rule; 18] = [
            counts,
            offsets,
            ranges,
            pools,
            ttl,
            shares,
            leases,
            identifiers,
            owners,
            overlaps,
            limits,
            room,
            holds,
            release_houses,
            release_counts,
            release_identifiers,
            release_repeats,
            release_times,
        ];
        let mut rules = rules.iter().zip(1..);
        rules.find_map(|(rule, number)| {
            let what = rule(campus)?;
            Some(Broken { rule: number, what })
        })
    }

    /// What somebody at the desk can do about it.
    pub fn what_to_do(&self) -> &'static str {
        match self.rule {
            1 | 3..=6 => "Edit the settings: `banshorra text FILE >TEXT`, correct them there, `banshorra file TEXT FILE`.",
            _ => "Take out or correct what is named, with `banshorra text` and `banshorra file`; or let `banshorra salvage` take out what breaks a rule; or take the file of before.",
        }
    }
}

/// What a rule says.
pub fn says(rule: u8) -> &'static str {
    match rule {
        1 => "identifiers have 2 to 32 octets, and a house at most 16 leases and holds",
        2 => "there are at most 64 addresses, each below the scope's size",
        3 => "ranges of clients may not be empty or meet",
        4 => "pools lie within 224.0.0.0-239.255.255.255 and may not meet",
        5 => "the TTL is at least 1",
        6 => "shares are within limits, limits within the scope's size, and so are all shares together",
        7 => "house and scope have to be known, a lease's type 3 or 4, the period not empty and its end after the clock, and there has to be an address",
        8 => "no two leases or holds of a house may have one identifier",
        9 => "no address may have two houses",
        10 => "leases and holds on an address may not overlap",
        11 => "no house may hold more than its limit",
        12 => "what the houses hold, or their shares where these are larger, has to fit the scope",
        13 => "a hold has type 1 and lapses after the clock, within thirty seconds of it and not after its period's end",
        14 => "a release has a known house",
        15 => "a house has at most four releases",
        16 => "a release's identifier has 2 to 32 octets",
        17 => "a release's identifier may not be that of another release, lease or hold of its house",
        18 => "a release may not be after the clock",
        _ => "there is no such rule",
    }
}

fn address(number: u32) -> Ipv4Addr {
    Ipv4Addr::from(number)
}

/// `lease 3 (house 2, "\x00L1")` or `hold 1 (..)`: each record with its words.
fn records(campus: &Campus) -> impl Iterator<Item = (String, &Lease)> {
    let named = |kind: &'static str| {
        move |(place, lease): (usize, &Lease)| {
            let name = identifier(&lease.identifier);
            format!("{kind} {} (house {}, {name})", place + 1, lease.house)
        }
    };
    let leases = campus.leases.iter().enumerate();
    let holds = campus.holds.iter().map(|hold| &hold.lease).enumerate();
    let leases = leases.map(move |(at, lease)| (named("lease")((at, lease)), lease));
    leases.chain(holds.map(move |(at, lease)| (named("hold")((at, lease)), lease)))
}

fn releases(campus: &Campus) -> impl Iterator<Item = (String, &Release)> {
    let releases = campus.releases.iter().zip(1..);
    releases.map(|(release, place)| {
        let (house, name) = (release.house, identifier(&release.identifier));
        (format!("release {place} (house {house}, {name})"), release)
    })
}

fn scopes(campus: &Campus) -> impl Iterator<Item = (u8, &Scope)> {
    (1..=u8::MAX).zip(&campus.scopes)
}

/// Rule 1.
fn counts(campus: &Campus) -> Option<String> {
    let (houses, number) = (campus.houses.len(), campus.scopes.len());
    if !(1..=HOUSES).contains(&houses) {
        return Some(format!("{houses} houses, not 1 to {HOUSES}"));
    }
    if !(1..=SCOPES).contains(&number) {
        return Some(format!("{number} scopes, not 1 to {SCOPES}"));
    }
    let wrong_size = |(_, scope): &(u8, &Scope)| !(1..=ADDRESSES).contains(&scope.size);
    if let Some((number, scope)) = scopes(campus).find(wrong_size) {
        let size = scope.size;
        return Some(format!(
            "scope {number} has {size} addresses, not 1 to {ADDRESSES}"
        ));
    }
    for (which, lease) in records(campus) {
        let length = lease.identifier.len();
        if !is_identifier(length) {
            return Some(format!(
                "{which} has an identifier of {}, not 2 to 32",
                count(length, "octet")
            ));
        }
    }
    for house in 1..=u8::MAX {
        let count = campus
            .records()
            .filter(|lease| lease.house == house)
            .count();
        if count > RECORDS && usize::from(house) <= houses {
            return Some(format!(
                "house {house} has {count} leases and holds, of {RECORDS}"
            ));
        }
    }
    None
}

fn is_identifier(length: usize) -> bool {
    (2..=32).contains(&length)
}

/// Rule 2.
fn offsets(campus: &Campus) -> Option<String> {
    records(campus).find_map(|(which, lease)| {
        let count = lease.offsets.len();
        if count > ADDRESSES.into() {
            return Some(format!("{which} has {count} addresses, above {ADDRESSES}"));
        }
        let (scope, last) = (campus.scope(lease.scope)?, *lease.offsets.last()?);
        let (number, size) = (lease.scope, scope.size);
        let what = format!("{which} has offset {last} in scope {number}, whose size is {size}");
        (last >= size).then_some(what)
    })
}

/// Rule 3.
fn ranges(campus: &Campus) -> Option<String> {
    for (&(lowest, highest), house) in campus.houses.iter().zip(1..) {
        let range = format!("{}-{}", address(lowest), address(highest));
        if lowest > highest {
            return Some(format!("house {house}'s range {range} is empty"));
        }
        let meets = |other: &&(u32, u32)| other.0 <= highest && lowest <= other.1;
        if let Some(before) = campus.houses[..house - 1]
            .iter()
            .position(|other| meets(&other))
        {
            let before = before + 1;
            return Some(format!(
                "house {house}'s range {range} meets house {before}'s"
            ));
        }
    }
    None
}

/// Rule 4.
fn pools(campus: &Campus) -> Option<String> {
    let last = |scope: &Scope| u64::from(scope.lowest) + u64::from(scope.size) - 1;
    for (scope, number) in campus.scopes.iter().zip(1..) {
        let lowest = address(scope.lowest);
        if scope.lowest < MULTICAST[0] || last(scope) > MULTICAST[1].into() {
            return Some(format!(
                "scope {number} from {lowest} leaves 224.0.0.0-239.255.255.255"
            ));
        }
        let meets = |other: &Scope| {
            u64::from(other.lowest) <= last(scope) && u64::from(scope.lowest) <= last(other)
        };
        if let Some(before) = campus.scopes[..number - 1].iter().position(meets) {
            let before = before + 1;
            return Some(format!("scope {number} from {lowest} meets scope {before}"));
        }
    }
    None
}

/// Rule 5.
fn ttl(campus: &Campus) -> Option<String> {
    let (number, _) = scopes(campus).find(|(_, scope)| scope.ttl == 0)?;
    Some(format!("scope {number} has TTL 0"))
}

/// Rule 6.
fn shares(campus: &Campus) -> Option<String> {
    scopes(campus).find_map(|(number, scope)| {
        let size = scope.size;
        for (&(share, limit), house) in scope.parts.iter().zip(1..) {
            let whose = format!("scope {number}, house {house}");
            if share > limit {
                return Some(format!("{whose}: share {share} above limit {limit}"));
            }
            if limit > size {
                return Some(format!("{whose}: limit {limit} above size {size}"));
            }
        }
        let all: u32 = scope.parts.iter().map(|part| u32::from(part.0)).sum();
        let what = format!("scope {number}: the shares together are {all}, above size {size}");
        (all > size.into()).then_some(what)
    })
}

/// Rule 7; a hold's type is rule 13's.
fn leases(campus: &Campus) -> Option<String> {
    let (clock, first_hold) = (campus.clock, campus.leases.len());
    let mut all = records(campus).enumerate();
    all.find_map(|(place, (which, lease))| {
        let (house, kind) = (lease.house, lease.kind);
        if house == 0 || usize::from(house) > campus.houses.len() {
            return Some(format!("{which}: there is no house {house}"));
        }
        if campus.scope(lease.scope).is_none() {
            return Some(format!("{which}: there is no scope {}", lease.scope));
        }
        if place < first_hold && !matches!(kind, 3 | 4) {
            return Some(format!(
                "{which} has type {kind}, not 3 (REQUEST) or 4 (RENEW)"
            ));
        }
        let (start, end) = (utc::in_words(lease.start), utc::in_words(lease.end));
        if lease.start >= lease.end {
            return Some(format!(
                "{which} starts at {start}, not before its end {end}"
            ));
        }
        if lease.end <= clock {
            let clock = utc::in_words(clock);
            return Some(format!(
                "{which} ends at {end}, not after the clock {clock}"
            ));
        }
        let what = format!("{which} has no address");
        lease.offsets.is_empty().then_some(what)
    })
}

/// Rule 8.
fn identifiers(campus: &Campus) -> Option<String> {
    let mut seen = HashMap::new();
    records(campus).find_map(|(which, lease)| {
        let before = seen.insert((lease.house, &lease.identifier), which.clone())?;
        Some(format!("{which} has the identifier of {before}"))
    })
}

/// Rule 9.
fn owners(campus: &Campus) -> Option<String> {
    let mut owners: HashMap<(u8, u8), (u8, String)> = HashMap::new();
    for (which, lease) in records(campus) {
        for offset in &lease.offsets {
            let place = (lease.scope, *offset);
            let new = || (lease.house, which.clone());
            let (house, first) = owners.entry(place).or_insert_with(new);
            if *house != lease.house {
                let whose = at(campus, place);
                return Some(format!("{which} has {whose}, which {first} has"));
            }
        }
    }
    None
}

/// An address by scope and offset.
fn at(campus: &Campus, (scope, offset): (u8, u8)) -> String {
    match campus.scope(scope) {
        Some(scope) => address(scope.lowest.wrapping_add(offset.into())).to_string(),
        None => format!("offset {offset} of scope {scope}"),
    }
}

/// Rule 10.
fn overlaps(campus: &Campus) -> Option<String> {
    let mut on: HashMap<(u8, u8), Vec<(u32, u32, String)>> = HashMap::new();
    for (which, lease) in records(campus) {
        for offset in &lease.offsets {
            let place = (lease.scope, *offset);
            let before = on.entry(place).or_default();
            let meets = |other: &&(u32, u32, String)| other.0 < lease.end && lease.start < other.1;
            if let Some((.., first)) = before.iter().find(meets) {
                let whose = at(campus, place);
                return Some(format!("{which} overlaps {first} on {whose}"));
            }
            before.push((lease.start, lease.end, which.clone()));
        }
    }
    None
}

/// How many addresses of a scope a house has.
fn holding(campus: &Campus, number: u8, house: u8) -> usize {
    let own = campus
        .records()
        .filter(|lease| (lease.scope, lease.house) == (number, house));
    let mut has = [false; 256];
    for offset in own.flat_map(|lease| &lease.offsets) {
        has[usize::from(*offset)] = true;
    }
    has.iter().filter(|has| **has).count()
}

/// Rule 11.
fn limits(campus: &Campus) -> Option<String> {
    scopes(campus).find_map(|(number, scope)| {
        let mut parts = (1..=u8::MAX).zip(&scope.parts);
        parts.find_map(|(house, &(_, limit))| {
            let held = holding(campus, number, house);
            let what =
                format!("scope {number}: house {house} holds {held}, above its limit {limit}");
            (held > limit.into()).then_some(what)
        })
    })
}

/// Rule 12.
fn room(campus: &Campus) -> Option<String> {
    scopes(campus).find_map(|(number, scope)| {
        let parts = (1..=u8::MAX).zip(&scope.parts);
        let larger = |(house, part): (u8, &(u8, u8))| holding(campus, number, house).max(part.0.into());
        let (sum, size) = (parts.map(larger).sum::<usize>(), scope.size);
        let what = format!(
            "scope {number}: what the houses hold, or their shares where these are larger, come to {sum}, above size {size}"
        );
        (sum > size.into()).then_some(what)
    })
}

/// Rule 13.
fn holds(campus: &Campus) -> Option<String> {
    let latest = campus.clock.saturating_add(HELD_SECONDS);
    campus.holds.iter().zip(1..).find_map(|(hold, place)| {
        let (lease, lapse) = (&hold.lease, utc::in_words(hold.lapse));
        let which = format!(
            "hold {place} (house {}, {})",
            lease.house,
            identifier(&lease.identifier)
        );
        let clock = utc::in_words(campus.clock);
        if lease.kind != 1 {
            return Some(format!("{which} has type {}, not 1 (DISCOVER)", lease.kind));
        }
        if hold.lapse <= campus.clock {
            return Some(format!(
                "{which} lapses at {lapse}, not after the clock {clock}"
            ));
        }
        if hold.lapse > latest {
            return Some(format!(
                "{which} lapses at {lapse}, over thirty seconds after the clock {clock}"
            ));
        }
        let what = format!("{which} lapses at {lapse}, after its period's end");
        (hold.lapse > lease.end).then_some(what)
    })
}

/// Rule 14.
fn release_houses(campus: &Campus) -> Option<String> {
    let houses = campus.houses.len();
    let is_unknown = |release: &Release| release.house == 0 || usize::from(release.house) > houses;
    let (which, release) = releases(campus).find(|(_, release)| is_unknown(release))?;
    Some(format!("{which}: there is no house {}", release.house))
}

/// Rule 15.
fn release_counts(campus: &Campus) -> Option<String> {
    (1..=u8::MAX).find_map(|house| {
        let own = campus
            .releases
            .iter()
            .filter(|release| release.house == house);
        let count = own.count();
        (count > RELEASES).then(|| format!("house {house} has {count} releases, above {RELEASES}"))
    })
}

/// Rule 16.
fn release_identifiers(campus: &Campus) -> Option<String> {
    releases(campus).find_map(|(which, release)| {
        let length = release.identifier.len();
        let what = format!(
            "{which} has an identifier of {}, not 2 to 32",
            count(length, "octet")
        );
        (!is_identifier(length)).then_some(what)
    })
}

/// Rule 17.
fn release_repeats(campus: &Campus) -> Option<String> {
    let mut seen = HashMap::new();
    for (which, lease) in records(campus) {
        seen.insert((lease.house, &lease.identifier), which);
    }
    releases(campus).find_map(|(which, release)| {
        let before = seen.insert((release.house, &release.identifier), which.clone())?;
        Some(format!("{which} has the identifier of {before}"))
    })
}

/// Rule 18.
fn release_times(campus: &Campus) -> Option<String> {
    let (which, release) = releases(campus).find(|(_, release)| release.time > campus.clock)?;
    let (time, clock) = (utc::in_words(release.time), utc::in_words(campus.clock));
    Some(format!("{which} is of {time}, after the clock {clock}"))
}
