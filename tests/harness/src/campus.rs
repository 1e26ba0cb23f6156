//! Sound campuses of every shape; they rest on neither implementation.

use crate::holds;
use crate::names;
use crate::random::Random;
use crate::releases;
use crate::{HORIZON, LAST_TIME, LONGEST_LEASE};
use builder::{Campus, Lease, Release, Scope};

/// The multicast addresses that pools lie in.
pub const LOWEST_POOL: u32 = 0xE000_0000;
pub const HIGHEST_POOL: u32 = 0xEFFF_FFFF;
/// Records of a house, for leases and holds together.
pub const RECORDS: usize = 16;

/// A sound campus.
pub fn sound(random: &mut Random) -> Campus {
    let house_count = random.pick(&[1, 2, 2, 3, 4, 5, 6, 7, 8, 8]);
    let scope_count = random.pick(&[1, 1, 1, 2, 2, 3, 4]);
    let mut campus = Campus {
        server: random.pick(&[0x0A01_0101, 0, u32::MAX, 0xC0A8_0001]),
        clock: clock(random),
        houses: client_ranges(random, house_count),
        scopes: pools(random, scope_count, house_count),
        leases: Vec::new(),
        releases: Vec::new(),
        holds: Vec::new(),
    };
    lend(&mut campus, random);
    releases::remember(&mut campus, random);
    campus.sort();
    campus
}

/// Gives every house addresses within its limit and the scope's sum, and leases and holds on them.
pub fn lend(campus: &mut Campus, random: &mut Random) {
    let fullness = random.pick(&[0, 1, 2, 2, 3, 3]);
    if fullness == 0 {
        return;
    }
    let held = random.pick(&[0, 0, 10, 30, 30, 100]);
    let scopes = campus.scopes.iter();
    let own: Vec<Vec<Vec<u8>>> = scopes.map(|scope| own_addresses(scope, random)).collect();
    let mut until = vec![[0_u32; 64]; campus.scopes.len()];
    for house in 0..campus.houses.len() {
        let scopes: Vec<usize> = (0..campus.scopes.len())
            .filter(|&scope| !own[scope][house].is_empty())
            .collect();
        if scopes.is_empty() {
            continue;
        }
        let count = match fullness {
            1 => random.below(3),
            2 => random.below(RECORDS + 1),
            _ => random.between(RECORDS - 1, RECORDS),
        };
        for _ in 0..count {
            let scope = random.pick(&scopes);
            let offsets = some_of(random, &own[scope][house]);
            let taken = offsets.iter().map(|&o| until[scope][usize::from(o)]).max();
            let Some((start, end)) = period(campus.clock, random, taken.unwrap_or(0)) else {
                continue;
            };
            for &offset in &offsets {
                until[scope][usize::from(offset)] = end;
            }
            let lease = new_lease(campus, random, house, scope, (start, end), offsets);
            if random.chance(held) {
                let hold = holds::of_lease(campus, random, lease);
                campus.holds.push(hold);
            } else {
                campus.leases.push(lease);
            }
        }
    }
}

/// For one scope, the addresses that each house may have leases and holds on.
fn own_addresses(scope: &Scope, random: &mut Random) -> Vec<Vec<u8>> {
    let (size, parts) = (scope.size, &scope.parts);
    let mut sum: usize = parts.iter().map(|part| usize::from(part.0)).sum();
    let mut offsets: Vec<u8> = (0..size).collect();
    if random.chance(60) {
        random.shuffle(&mut offsets);
    }
    let greedy = random.chance(40);
    let mut places: Vec<usize> = (0..parts.len()).collect();
    random.shuffle(&mut places);
    let mut own = vec![Vec::new(); parts.len()];
    for house in places {
        let (share, limit) = (usize::from(parts[house].0), usize::from(parts[house].1));
        let most = limit
            .min(share + usize::from(size) - sum)
            .min(offsets.len());
        let count = if greedy { most } else { random.below(most + 1) };
        sum += count.saturating_sub(share);
        own[house] = offsets.drain(..count).collect();
    }
    own
}

/// A period for addresses that are taken until a time: it touches that time, or comes later.
fn period(clock: u32, random: &mut Random, taken: u32) -> Option<(u32, u32)> {
    let start = if taken == 0 {
        match random.below(6) {
            0 => 0,
            1 | 2 => clock.saturating_sub(random.pick(&[1, 500, LONGEST_LEASE])),
            3 => clock,
            _ => clock.checked_add(random.pick(&[1, 500, 3_600, HORIZON, HORIZON + 1]))?,
        }
    } else {
        taken.checked_add(random.pick(&[0, 0, 0, 1, 1_000]))?
    };
    let length = random.pick(&[
        1,
        2,
        100,
        1_000,
        3_600,
        3_600,
        LONGEST_LEASE,
        LONGEST_LEASE + 1,
    ]);
    let end = start.max(clock).checked_add(length)?;
    let end = if random.chance(2) { LAST_TIME } else { end };
    (end > clock && start < end).then_some((start, end))
}

/// A lease of a house with an identifier that it doesn't have yet.
pub fn new_lease(
    campus: &Campus,
    random: &mut Random,
    house: usize,
    scope: usize,
    (start, end): (u32, u32),
    mut offsets: Vec<u8>,
) -> Lease {
    offsets.sort_unstable();
    let house = house as u8 + 1;
    Lease {
        house,
        scope: scope as u8 + 1,
        identifier: fresh_identifier(campus, random, house),
        kind: random.pick(&[3, 3, 4]),
        transaction: random.pick(&[0, 1, 2, 3, u32::MAX]),
        start,
        end,
        offsets,
    }
}

/// An identifier on which a house has neither a lease nor a hold nor a release; another house may have one.
pub fn fresh_identifier(campus: &Campus, random: &mut Random, house: u8) -> Vec<u8> {
    let records: Vec<&Lease> = campus.records().collect();
    loop {
        let identifier = match (records.last(), campus.releases.last()) {
            (Some(last), _) if random.chance(30) => beside(random, &last.identifier),
            (Some(_), _) if random.chance(10) => random.pick(&records).identifier.clone(),
            (_, Some(_)) if random.chance(20) => random.pick(&campus.releases).identifier,
            _ => identifier(random),
        };
        if is_fresh(campus, house, &identifier) {
            return identifier;
        }
    }
}

/// Whether a house has neither a lease nor a hold nor a release on an identifier.
pub fn is_fresh(campus: &Campus, house: u8, identifier: &[u8]) -> bool {
    let released =
        |release: &Release| (release.house, &release.identifier[..]) == (house, identifier);
    let recorded = campus
        .records()
        .any(|lease| lease.key() == (house, identifier));
    !recorded && !campus.releases.iter().any(released)
}

/// How many addresses of a scope a house's leases and holds have; house and scope from 1.
pub fn holding(campus: &Campus, house: u8, scope: u8) -> usize {
    let mut held = [false; 256];
    for lease in campus.records() {
        if lease.house == house && lease.scope == scope {
            lease
                .offsets
                .iter()
                .for_each(|&o| held[usize::from(o)] = true);
        }
    }
    held.iter().filter(|&&h| h).count()
}

fn clock(random: &mut Random) -> u32 {
    random.pick(&[
        0,
        1,
        1_000,
        1_000,
        1_000,
        3_000_000,
        1_700_000_000,
        1_700_000_000,
        1_700_000_000,
        LAST_TIME - HORIZON,
        LAST_TIME - LONGEST_LEASE,
        LAST_TIME - 3_600,
        LAST_TIME - 20,
        LAST_TIME - 1,
        LAST_TIME,
        random.clone().u32(),
    ])
}

/// Disjoint client ranges, in any order: apart, touching, or the whole of the addresses cut up.
fn client_ranges(random: &mut Random, count: usize) -> Vec<(u32, u32)> {
    let mut ranges: Vec<(u32, u32)> = Vec::new();
    match random.below(4) {
        0 => {
            let mut cuts: Vec<u32> = (1..count).map(|_| random.u32().max(1)).collect();
            cuts.sort_unstable();
            cuts.dedup();
            let mut low = 0;
            for cut in cuts {
                ranges.push((low, cut - 1));
                low = cut;
            }
            ranges.push((low, u32::MAX));
        }
        1 => {
            let mut low = random.pick(&[0, 0x0A00_0000]);
            for _ in 0..count {
                let high = low + random.pick(&[0, 0, 1, 255]);
                ranges.push((low, high));
                low = high + 1;
            }
        }
        _ => {
            for house in 1..=count as u32 {
                let low = 0x0A00_0000 + (house << 16);
                ranges.push((low, low + random.pick(&[0, 255, 0xFFFF])));
            }
        }
    }
    // Equal cuts leave fewer ranges than asked for.
    if ranges.len() < count {
        return client_ranges(random, count);
    }
    if random.chance(50) {
        random.shuffle(&mut ranges);
    }
    ranges
}

/// Disjoint pools: apart, touching, or at both ends of the multicast addresses. None lies in 230.0.0.0/8.
fn pools(random: &mut Random, count: usize, houses: usize) -> Vec<Scope> {
    let style = random.below(3);
    let mut next = random.pick(&[LOWEST_POOL, 0xEFC0_0000]);
    let mut scopes = Vec::new();
    for place in 0..count {
        let size = random.pick(&[1, 2, 3, 4, 4, 5, 8, 16, 31, 32, 63, 64, 64]);
        let lowest = match style {
            0 if place == 1 => HIGHEST_POOL - u32::from(size) + 1,
            1 => next + random.pick(&[1, 255, 256]),
            _ => next,
        };
        if !(style == 0 && place == 1) {
            next = lowest + u32::from(size);
        }
        scopes.push(Scope {
            lowest,
            size,
            ttl: random.pick(&[1, 15, 255]),
            parts: parts(random, size, houses),
            names: names::lists(random, houses),
        });
    }
    if random.chance(50) {
        random.shuffle(&mut scopes);
    }
    scopes
}

/// Share and limit of each house: the shares together fill the size, leave some, or are none at all.
fn parts(random: &mut Random, size: u8, houses: usize) -> Vec<(u8, u8)> {
    let style = random.below(4);
    let mut left = usize::from(size);
    let mut parts = Vec::new();
    for place in 0..houses {
        let share = match style {
            0 => 0,
            1 if place + 1 == houses => left,
            1 | 2 => random.below(left + 1),
            _ => random.below((left + 1).min(4)),
        };
        left -= share;
        let limit = match random.below(5) {
            0 => share,
            1 | 2 => usize::from(size),
            _ => random.between(share, usize::from(size)),
        };
        parts.push((share as u8, limit as u8));
    }
    random.shuffle(&mut parts);
    parts
}

/// An identifier of few different octets, so that one is often the beginning of another.
pub fn identifier(random: &mut Random) -> Vec<u8> {
    let length = random.pick(&[2, 2, 2, 3, 3, 4, 5, 8, 31, 32, 32]);
    let octets = random.pick(&[&[0_u8, b'a'] as &[u8], &[0, b'a', 255], b"qrst"]);
    (0..length).map(|_| random.pick(octets)).collect()
}

/// An identifier that differs from another in its last octet only, or is longer or shorter by one octet.
pub fn beside(random: &mut Random, other: &[u8]) -> Vec<u8> {
    let mut identifier = other.to_vec();
    match random.below(4) {
        0 if identifier.len() > 2 => identifier.truncate(identifier.len() - 1),
        1 if identifier.len() < 32 => identifier.push(random.pick(&[0, b'a', 255])),
        _ => {
            let last = identifier.len() - 1;
            identifier[last] = identifier[last].wrapping_add(random.pick(&[1, 255]));
        }
    }
    identifier
}

/// At least one of these.
pub fn some_of(random: &mut Random, offsets: &[u8]) -> Vec<u8> {
    let mut offsets = offsets.to_vec();
    if random.chance(40) {
        random.shuffle(&mut offsets);
    }
    let count = if random.chance(30) {
        offsets.len()
    } else {
        random.between(1, offsets.len().min(4))
    };
    offsets.truncate(count);
    offsets
}
