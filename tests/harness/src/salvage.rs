//! What is kept of a campus file and what is dropped, by the file alone: the new file is the old one without those on the list. And what a
//! default run has to meet of it.

use crate::compare::Difference;
use crate::holds::HOLD_TIME;
use builder::{Campus, Hold, Lease, Release};

const LEASE: u8 = 1;
const HOLD: u8 = 2;
const RELEASE: u8 = 3;
const KINDS: [(u8, &str, &[u8]); 3] = [
    (LEASE, "a lease", &[1, 2, 7, 8, 9, 10, 11, 12]),
    (HOLD, "a hold", &[1, 2, 7, 8, 9, 10, 11, 12, 13]),
    (RELEASE, "a release", &[14, 15, 16, 17, 18]),
];

/// What has to occur of the function itself.
pub const REFUSED_20: &str = "refused 20";
pub const REFUSED_25: &str = "refused 25";
pub const REFUSED_SHORT: &str = "refused 20 or 25 in rooms too short";
pub const SHORT_FILE: &str = "refused 23: the file's room one octet short";
pub const SHORT_LIST: &str = "refused 23: the list's room one octet short";
pub const SHORT_BOTH: &str = "refused 23: both rooms one octet short";
pub const EXACT: &str = "in rooms that are just long enough";

/// What is dropped: kind, place in its section from 1, rule.
pub type Dropped = (u8, u8, u8);

/// A list read: its count, and as many entries.
pub fn read(list: &[u8]) -> Result<Vec<Dropped>, Difference> {
    let bad = || format!("a list {list:?}");
    let (count, entries) = list.split_at_checked(2).ok_or_else(bad)?;
    let count = usize::from(u16::from_be_bytes([count[0], count[1]]));
    let entries = entries.chunks(3);
    let triples: Option<Vec<Dropped>> = entries
        .map(|entry| match *entry {
            [kind, place, rule] => Some((kind, place, rule)),
            _ => None,
        })
        .collect();
    let is_whole = |dropped: &Vec<Dropped>| dropped.len() == count;
    triples.filter(is_whole).ok_or_else(bad)
}

/// An old file that was salvaged, the new one and the list.
pub struct Salvaged {
    old: Campus,
    new: Campus,
    dropped: Vec<Dropped>,
}

impl Salvaged {
    /// The new file is the old one without those on the list, which stand in the order of the walk.
    pub fn new(old: &[u8], new: &[u8], list: &[u8]) -> Result<Salvaged, Difference> {
        let dropped = read(list)?;
        let campus = |file: &[u8]| Campus::read(file).ok_or("a file without its layout");
        let (old, new_campus) = (campus(old)?, campus(new)?);
        if !dropped.windows(2).all(|two| two[0] < two[1]) {
            return Err(format!("a list out of order: {dropped:?}"));
        }
        let is_known = |one: &Dropped| {
            let known = KINDS.iter().find(|kind| kind.0 == one.0);
            known.is_some_and(|kind| kind.2.contains(&one.2))
        };
        if !dropped.iter().all(is_known) {
            return Err(format!("a kind or rule that there isn't: {dropped:?}"));
        }
        let mut rest = old.clone();
        rest.leases = without(&old.leases, &dropped, LEASE);
        rest.holds = without(&old.holds, &dropped, HOLD);
        rest.releases = without(&old.releases, &dropped, RELEASE);
        let count =
            |campus: &Campus| campus.leases.len() + campus.holds.len() + campus.releases.len();
        if rest.octets() != new || count(&rest) + dropped.len() != count(&old) {
            return Err(format!(
                "the new file isn't the old one without {dropped:?}"
            ));
        }
        Ok(Salvaged {
            old,
            new: new_campus,
            dropped,
        })
    }

    /// What is to be counted.
    pub fn why(&self) -> Vec<String> {
        let mut why: Vec<String> = Vec::new();
        for (kind, name, _) in KINDS {
            let of_kind = self.dropped.iter().filter(|one| one.0 == kind);
            why.extend(of_kind.map(|one| by_rule(name, one.2)));
        }
        let rows = ROWS.iter().filter(|row| row.1(self));
        why.extend(rows.map(|row| row.0.to_string()));
        why
    }

    fn has(&self, kind: u8) -> bool {
        self.dropped.iter().any(|one| one.0 == kind)
    }

    fn rules(&self) -> Vec<u8> {
        let mut rules: Vec<u8> = self.dropped.iter().map(|one| one.2).collect();
        rules.sort_unstable();
        rules.dedup();
        rules
    }

    /// The leases and holds that are dropped, with their rule.
    fn records(&self) -> impl Iterator<Item = (&Lease, u8)> {
        let leases = self.of(LEASE, &self.old.leases);
        let holds = self.of(HOLD, &self.old.holds);
        leases.chain(holds.map(|(hold, rule)| (&hold.lease, rule)))
    }

    fn holds(&self) -> impl Iterator<Item = (&Hold, u8)> {
        self.of(HOLD, &self.old.holds)
    }

    fn releases(&self) -> impl Iterator<Item = (&Release, u8)> {
        self.of(RELEASE, &self.old.releases)
    }

    fn of<'a, T>(&'a self, kind: u8, section: &'a [T]) -> impl Iterator<Item = (&'a T, u8)> {
        let of_kind = self.dropped.iter().filter(move |one| one.0 == kind);
        of_kind.map(|one| (&section[usize::from(one.1) - 1], one.2))
    }

    fn is_unknown(&self, house: u8) -> bool {
        !(1..=self.old.houses.len()).contains(&house.into())
    }

    fn has_no_scope(&self, lease: &Lease) -> bool {
        !(1..=self.old.scopes.len()).contains(&lease.scope.into())
    }

    fn has_bad_type(&self, hold: &Hold) -> bool {
        hold.lease.kind != builder::DISCOVER
    }

    fn is_lapsed(&self, hold: &Hold) -> bool {
        hold.lapse <= self.old.clock
    }

    fn is_late(&self, hold: &Hold) -> bool {
        let latest = u64::from(self.old.clock) + u64::from(HOLD_TIME);
        u64::from(hold.lapse) > latest
    }
}

/// A section without those of a kind that are dropped.
fn without<T: Clone>(section: &[T], dropped: &[Dropped], kind: u8) -> Vec<T> {
    let is_kept = |place: u8| !dropped.iter().any(|one| (one.0, one.1) == (kind, place));
    let kept = section.iter().zip(1..=u8::MAX).filter(|row| is_kept(row.1));
    kept.map(|row| row.0.clone()).collect()
}

fn by_rule(kind: &str, rule: u8) -> String {
    format!("{kind} by rule {rule}")
}

fn is_bad_length(identifier: &[u8]) -> bool {
    !(2..=32).contains(&identifier.len())
}

/// What has to occur of a file that is salvaged, and when it does.
type Row = (&'static str, fn(&Salvaged) -> bool);
const ROWS: [Row; 24] = [
    ("nothing is dropped", |s| s.dropped.is_empty()),
    ("one is dropped", |s| s.dropped.len() == 1),
    ("all are dropped", |s| {
        let kept = s.new.records().count() + s.new.releases.len();
        kept == 0 && !s.dropped.is_empty()
    }),
    ("more than 100 are dropped", |s| s.dropped.len() > 100),
    ("some of each kind", |s| {
        [LEASE, HOLD, RELEASE].iter().all(|&kind| s.has(kind))
    }),
    ("two rules", |s| s.rules().len() == 2),
    ("five rules or more", |s| s.rules().len() >= 5),
    ("the first of a section", |s| {
        s.dropped.iter().any(|one| one.1 == 1)
    }),
    ("the 128th of a section, or later", |s| {
        s.dropped.iter().any(|one| one.1 >= 128)
    }),
    ("an unknown house", |s| {
        let mut records = s.records();
        records.any(|(lease, rule)| rule == 7 && s.is_unknown(lease.house))
    }),
    ("an unknown house, and the identifier: 1", |s| {
        s.records().any(|(lease, rule)| {
            rule == 1 && s.is_unknown(lease.house) && is_bad_length(&lease.identifier)
        })
    }),
    ("an unknown scope", |s| {
        let mut records = s.records();
        records.any(|(lease, rule)| rule == 7 && s.has_no_scope(lease))
    }),
    ("an unknown scope, and more than 64 addresses: 2", |s| {
        s.records()
            .any(|(lease, rule)| rule == 2 && s.has_no_scope(lease) && lease.offsets.len() > 64)
    }),
    ("an offset too large and an ended period: 2", |s| {
        let mut records = s.records();
        records.any(|(lease, rule)| rule == 2 && lease.end <= s.old.clock)
    }),
    ("a hold that ends at the clock and has lapsed: 7", |s| {
        s.holds()
            .any(|(hold, rule)| rule == 7 && hold.lease.end <= s.old.clock && s.is_lapsed(hold))
    }),
    ("a hold of another type: 13", |s| {
        s.holds()
            .any(|(hold, rule)| rule == 13 && s.has_bad_type(hold))
    }),
    ("a hold of another type that overlaps: 10", |s| {
        s.holds()
            .any(|(hold, rule)| rule == 10 && s.has_bad_type(hold))
    }),
    ("a hold that has lapsed: 13", |s| {
        s.holds()
            .any(|(hold, rule)| rule == 13 && s.is_lapsed(hold))
    }),
    ("a hold that has lapsed and overlaps: 10", |s| {
        s.holds()
            .any(|(hold, rule)| rule == 10 && s.is_lapsed(hold))
    }),
    ("a hold that lapses too late: 13", |s| {
        s.holds().any(|(hold, rule)| rule == 13 && s.is_late(hold))
    }),
    ("a hold that lapses after its end: 13", |s| {
        s.holds()
            .any(|(hold, rule)| rule == 13 && hold.lapse > hold.lease.end && !s.is_late(hold))
    }),
    ("a release that is a fifth with a bad identifier: 15", |s| {
        s.releases()
            .any(|(release, rule)| rule == 15 && is_bad_length(&release.identifier))
    }),
    ("a release of an unknown house after the clock: 14", |s| {
        s.releases()
            .any(|(release, rule)| rule == 14 && release.time > s.old.clock)
    }),
    ("a release on what is dropped is kept", |s| {
        s.records().any(|(lease, _)| {
            let mut kept = s.new.releases.iter();
            kept.any(|release| (release.house, &release.identifier[..]) == lease.key())
        })
    }),
];

pub fn counted() -> Vec<String> {
    let of_function = [
        REFUSED_20,
        REFUSED_25,
        REFUSED_SHORT,
        SHORT_FILE,
        SHORT_LIST,
        SHORT_BOTH,
        EXACT,
    ];
    let mut names: Vec<String> = of_function.map(String::from).to_vec();
    for (_, kind, rules) in KINDS {
        names.extend(rules.iter().map(|&rule| by_rule(kind, rule)));
    }
    names.extend(ROWS.iter().map(|row| row.0.to_string()));
    names
}
