//! The occupancy board by the campus alone: its leases and holds are laid on it one after the other, where the second program goes address by
//! address. And what a default run has to meet of it: boards, and what a call does to the entry of an address.

use banshorra_host::OCCUPANCY_ROOM;
use builder::{Call, Campus, Hold, Lease, NAK};
use std::collections::BTreeSet;

/// Houses, and octets of a scope: owner and count of each of 64 addresses, and what each house holds.
const HOUSES: usize = 8;
const ADDRESSES: usize = 64;
const SCOPE: usize = 2 * ADDRESSES + HOUSES;
/// Records of a house, which can all be on one address.
const MOST: u8 = 16;

/// A board's octets.
#[derive(Clone, Debug, PartialEq, Eq)]
pub struct Board(pub Vec<u8>);

impl Board {
    /// What the leases and holds of a sound campus say.
    pub fn of(campus: &Campus) -> Board {
        let mut board = Board(vec![0; OCCUPANCY_ROOM]);
        for record in campus.records() {
            record.offsets.iter().for_each(|&o| board.lay(record, o));
        }
        board
    }

    /// The first lease or hold on an address makes it the house's, and every one counts.
    fn lay(&mut self, record: &Lease, offset: u8) {
        let scope = SCOPE * (usize::from(record.scope) - 1);
        let entry = scope + 2 * usize::from(offset);
        if self.0[entry + 1] == 0 {
            self.0[entry] = record.house;
            self.0[scope + 2 * ADDRESSES + usize::from(record.house) - 1] += 1;
        }
        self.0[entry + 1] += 1;
    }

    /// Owner and count of an address; the scope from 1.
    fn entry(&self, scope: u8, offset: u8) -> (u8, u8) {
        let entry = SCOPE * (usize::from(scope) - 1) + 2 * usize::from(offset);
        (self.0[entry], self.0[entry + 1])
    }

    /// The owner of each address of a campus's scopes.
    fn owners(&self, campus: &Campus) -> Vec<Vec<u8>> {
        let scopes = campus.scopes.iter().zip(1..);
        let owners = scopes.map(|(scope, number)| {
            let offsets = 0..scope.size;
            offsets.map(|o| self.entry(number, o).0).collect()
        });
        owners.collect()
    }
}

/// What has to occur of the function itself.
pub const LONGER: &str = "in a longer room";
pub const REFUSED_20: &str = "refused 20";
pub const REFUSED_21: &str = "refused 21";
pub const REFUSED_SHORT: &str = "refused 20 or 21 in a short room";
pub const SHORT: &str = "refused 23: room below 544";

/// What has to occur of a board.
type OfBoard = (&'static str, fn(&Campus, &Board) -> bool);
const OF_BOARDS: [OfBoard; 9] = [
    ("all is 0", |_, b| b.0.iter().all(|&octet| octet == 0)),
    ("an address with two or more", |c, b| most(c, b) >= 2),
    ("an address with sixteen", |c, b| most(c, b) == MOST),
    ("a lease and a hold on an address", |c, _| {
        c.holds.iter().any(|hold| {
            let mut leases = c.leases.iter();
            leases.any(|lease| meets(lease, &hold.lease))
        })
    }),
    ("two holds on an address", |c, _| {
        let others = |place: usize| c.holds[..place].iter();
        let mut holds = c.holds.iter().enumerate();
        holds.any(|(place, hold)| others(place).any(|other| meets(&other.lease, &hold.lease)))
    }),
    ("a full scope", |c, b| {
        b.owners(c).iter().any(|owners| !owners.contains(&0))
    }),
    ("a full scope of 64 addresses", |c, b| {
        let is_full = |owners: &Vec<u8>| owners.len() == ADDRESSES && !owners.contains(&0);
        b.owners(c).iter().any(is_full)
    }),
    ("a full scope of two houses or more", |c, b| {
        let is_shared = |owners: &Vec<u8>| {
            !owners.contains(&0) && owners.iter().any(|owner| *owner != owners[0])
        };
        b.owners(c).iter().any(is_shared)
    }),
    ("the last address of the fourth scope", |_, b| {
        b.entry(4, ADDRESSES as u8 - 1).0 > 0
    }),
];

fn most(campus: &Campus, board: &Board) -> u8 {
    let records = campus.records();
    let counts = records.flat_map(|r| r.offsets.iter().map(|&o| board.entry(r.scope, o).1));
    counts.max().unwrap_or(0)
}

fn has(lease: &Lease, scope: u8, offset: u8) -> bool {
    lease.scope == scope && lease.offsets.contains(&offset)
}

/// Whether two of them have an address in common.
fn meets(one: &Lease, other: &Lease) -> bool {
    let mut offsets = one.offsets.iter();
    offsets.any(|&offset| has(other, one.scope, offset))
}

/// Why a lease or hold that was there isn't there after a call, or not as such.
#[derive(Clone, Copy, PartialEq, Eq)]
enum Gone {
    Ended,
    Lapsed,
    Released,
    /// A hold in another scope than the REQUEST's.
    Dropped,
    /// A hold that is a lease now.
    Turned,
    Renewed,
}

/// Those by which an address has one less on it.
const LEAVE: [Gone; 4] = [Gone::Ended, Gone::Lapsed, Gone::Released, Gone::Dropped];

/// What a call has done to the entry of an address, by what alone has gone from it.
type ByGone = (Gone, &'static str);
const FREED: [ByGone; 4] = [
    (Gone::Released, "freed by a RELEASE"),
    (Gone::Ended, "freed as its lease ends"),
    (Gone::Lapsed, "freed as its hold lapses"),
    (Gone::Dropped, "freed by a REQUEST for another scope"),
];
const LOWERED: [ByGone; 4] = [
    (Gone::Released, "one less by a RELEASE, the owner stays"),
    (Gone::Ended, "one less as a lease ends, the owner stays"),
    (Gone::Lapsed, "one less as a hold lapses, the owner stays"),
    (
        Gone::Dropped,
        "one less by a REQUEST for another scope, the owner stays",
    ),
];
const UNCHANGED: [ByGone; 2] = [
    (Gone::Turned, "a hold becomes a lease, the entry stays"),
    (Gone::Renewed, "a RENEW, the entry stays"),
];
const UNCHANGED_AMONG: [ByGone; 2] = [
    (
        Gone::Turned,
        "a hold becomes a lease among others, the entry stays",
    ),
    (Gone::Renewed, "a RENEW among others, the entry stays"),
];
const CHANGED: &str = "the owner is another house within a call";
const LEASED: &str = "nobody's is leased";
const HELD: &str = "nobody's is held";
const RAISED: &str = "one more, the owner stays";
const REPLACED: &str = "one goes and one comes, the entry stays";
const DROPPED_AND_REFUSED: &str = "a REQUEST for another scope frees, and is refused";
const DISCARD: &str = "a discard frees what has ended or lapsed";
const DISCARD_2: &str = "discard 2 leaves what has ended or lapsed";

pub fn counted() -> Vec<&'static str> {
    let mut names = vec![LONGER, REFUSED_20, REFUSED_21, REFUSED_SHORT, SHORT];
    names.extend(OF_BOARDS.map(|row| row.0));
    let of_gone = [&FREED[..], &LOWERED, &UNCHANGED, &UNCHANGED_AMONG];
    names.extend(of_gone.concat().iter().map(|row| row.1));
    names.extend([CHANGED, LEASED, HELD, RAISED, REPLACED]);
    names.extend([DROPPED_AND_REFUSED, DISCARD, DISCARD_2]);
    names
}

/// What is to be counted of a file's board.
pub fn of_board(campus: &Campus, board: &Board) -> Vec<&'static str> {
    let rows = OF_BOARDS.iter().filter(|row| row.1(campus, board));
    rows.map(|row| row.0).collect()
}

/// A call with what it drew, and the campus and its board before and after it.
pub struct Seen<'a> {
    pub call: &'a Call<'a>,
    pub outcome: u8,
    pub reply: &'a [u8],
    pub before: (&'a Campus, &'a Board),
    pub after: (&'a Campus, &'a Board),
}

impl<'a> Seen<'a> {
    /// What is to be counted of the call, address by address.
    pub fn why(&self) -> BTreeSet<&'static str> {
        let gone = self.gone();
        let mut why = BTreeSet::new();
        for (scope, number) in self.before.0.scopes.iter().zip(1..) {
            for offset in 0..scope.size {
                let on_it = gone.iter().filter(|gone| has(gone.0, number, offset));
                let on_it: Vec<Gone> = on_it.map(|gone| gone.1).collect();
                why.extend(self.of_address(number, offset, &on_it));
            }
        }
        if self.outcome == 2 && self.is_late() {
            why.insert(DISCARD_2);
        }
        why
    }

    /// Whether something ends or lapses by the time of the call.
    fn is_late(&self) -> bool {
        let (campus, time) = (self.before.0, self.call.time);
        let mut leases = campus.leases.iter();
        let mut holds = campus.holds.iter();
        leases.any(|lease| lease.end <= time) || holds.any(|hold| hold.lapse <= time)
    }

    /// What isn't there after the call, or not as it was, and why.
    fn gone(&self) -> Vec<(&'a Lease, Gone)> {
        let campus = self.before.0;
        let leases = campus.leases.iter();
        let leases = leases.filter_map(|lease| Some((lease, self.lease_gone(lease)?)));
        let holds = campus.holds.iter();
        let holds = holds.filter_map(|hold| Some((&hold.lease, self.hold_gone(hold)?)));
        leases.chain(holds).collect()
    }

    fn lease_gone(&self, lease: &Lease) -> Option<Gone> {
        let after = self.after.0;
        if lease.end <= after.clock {
            return Some(Gone::Ended);
        }
        match after.leases.iter().find(|other| other.key() == lease.key()) {
            None => Some(Gone::Released),
            Some(other) => (other != lease).then_some(Gone::Renewed),
        }
    }

    fn hold_gone(&self, hold: &Hold) -> Option<Gone> {
        let (after, lease) = (self.after.0, &hold.lease);
        let is_it = |other: &Lease| (other.key(), other.scope) == (lease.key(), lease.scope);
        if hold.lapse <= after.clock {
            Some(Gone::Lapsed)
        } else if after.holds.contains(hold) {
            None
        } else if after.leases.iter().any(is_it) {
            Some(Gone::Turned)
        } else {
            Some(Gone::Dropped)
        }
    }

    /// What the call has done to one address, by its entry before and after and what has gone from it.
    fn of_address(&self, scope: u8, offset: u8, gone: &[Gone]) -> Vec<&'static str> {
        let (owner, count) = self.before.1.entry(scope, offset);
        let (owner_now, count_now) = self.after.1.entry(scope, offset);
        let by = |rows: &[ByGone]| -> Vec<&'static str> {
            let rows = rows.iter().filter(|row| gone == [row.0]);
            rows.map(|row| row.1).collect()
        };
        match (owner, owner_now) {
            (0, 0) => vec![],
            (0, _) if self.is_held(scope, offset) => vec![HELD],
            (0, _) => vec![LEASED],
            (_, 0) => [by(&FREED), self.freed(gone)].concat(),
            _ if owner != owner_now => vec![CHANGED],
            _ if count_now > count => vec![RAISED],
            _ if count_now < count => by(&LOWERED),
            _ if gone.iter().any(|why| LEAVE.contains(why)) => vec![REPLACED],
            _ if count > 1 => by(&UNCHANGED_AMONG),
            _ => by(&UNCHANGED),
        }
    }

    /// Whether a hold has an address now.
    fn is_held(&self, scope: u8, offset: u8) -> bool {
        let mut holds = self.after.0.holds.iter();
        holds.any(|hold| has(&hold.lease, scope, offset))
    }

    /// What else there is to say where an address is nobody's now.
    fn freed(&self, gone: &[Gone]) -> Vec<&'static str> {
        let drops = gone.contains(&Gone::Dropped) && self.reply.get(1) == Some(&NAK);
        let discards = self.outcome > 2;
        let why = [
            drops.then_some(DROPPED_AND_REFUSED),
            discards.then_some(DISCARD),
        ];
        why.into_iter().flatten().collect()
    }
}
