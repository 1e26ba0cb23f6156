//! How many records a call's lookups compare, by the campus before it and its octets: the house's records are put in order of ending here anew.
//! And what a default run has to meet of it.

use crate::asked::Asked;
use crate::campus::RECORDS;
use crate::releases::RESEND_TIME;
use builder::*;

/// A live record of the house: when it goes, the end of its period, its identifier, and whether it is a hold.
struct Record<'a> {
    ending: u32,
    end: u32,
    identifier: &'a [u8],
    is_hold: bool,
}

impl<'a> Record<'a> {
    fn of_lease(lease: &'a Lease) -> Record<'a> {
        Record {
            ending: lease.end,
            end: lease.end,
            identifier: &lease.identifier,
            is_hold: false,
        }
    }

    fn of_hold(hold: &'a Hold) -> Record<'a> {
        Record {
            ending: hold.lapse,
            is_hold: true,
            ..Record::of_lease(&hold.lease)
        }
    }
}

/// The house's leases and holds, ended and lapsed ones too.
fn all_records<'a>(asked: &Asked<'a>) -> Vec<Record<'a>> {
    let own = |lease: &Lease| lease.house == asked.house;
    let leases = asked.campus.leases.iter().filter(|lease| own(lease));
    let holds = asked.campus.holds.iter().filter(|hold| own(&hold.lease));
    let leases = leases.map(Record::of_lease);
    leases.chain(holds.map(Record::of_hold)).collect()
}

/// Whether a RELEASE is one that is remembered.
fn is_sent_again(asked: &Asked) -> bool {
    asked.campus.releases.iter().any(|release| {
        (release.house, &release.identifier[..]) == (asked.house, asked.identifier)
            && release.transaction == asked.transaction
            && asked.clock - release.time < RESEND_TIME
    })
}

/// Where the matter ends: what has to occur, and how many lookups there are up to it.
type End = (&'static str, usize);
const INFO: End = ("GETINFO has none", 0);
const RELEASED_AGAIN: End = ("RELEASE, sent again, has none", 0);
const RELEASE_1: End = ("RELEASE, error 1, has none", 0);
const RELEASE_ONE: End = ("RELEASE has one", 1);
const DISCOVER_1: End = ("DISCOVER, error 1 by another test, has none", 0);
const DISCOVER_2: End = ("DISCOVER, error 2, has one", 1);
const DISCOVER_ONE: End = ("DISCOVER has one", 1);
const REQUEST_AGAIN: End = ("REQUEST, sent again, has one", 1);
const REQUEST_1: End = ("REQUEST, error 1 by another test, has one", 1);
const REQUEST_2: End = ("REQUEST, error 2, has two", 2);
const REQUEST_TWO: End = ("REQUEST has two", 2);
const RENEW_AGAIN: End = ("RENEW, sent again, has one", 1);
const RENEW_1: End = ("RENEW, error 1, has one", 1);
const RENEW_2: End = ("RENEW, error 2, has one", 1);
const RENEW_TWO: End = ("RENEW has two", 2);
const ENDS: [End; 15] = [
    INFO,
    RELEASED_AGAIN,
    RELEASE_1,
    RELEASE_ONE,
    DISCOVER_1,
    DISCOVER_2,
    DISCOVER_ONE,
    REQUEST_AGAIN,
    REQUEST_1,
    REQUEST_2,
    REQUEST_TWO,
    RENEW_AGAIN,
    RENEW_1,
    RENEW_2,
    RENEW_TWO,
];

/// Of a message that has passed test 7. A lease on the identifier draws error 1 before error 2 is asked for.
fn end(asked: &Asked) -> End {
    let is_new = !asked.is_leased();
    match (asked.kind, asked.error()) {
        (RELEASE, _) if is_sent_again(asked) => RELEASED_AGAIN,
        (RELEASE, Some(_)) => RELEASE_1,
        (RELEASE, None) => RELEASE_ONE,
        (DISCOVER, Some(1)) => DISCOVER_1,
        (DISCOVER, Some(_)) if is_new => DISCOVER_2,
        (DISCOVER, _) => DISCOVER_ONE,
        (REQUEST, _) if asked.is_resend() => REQUEST_AGAIN,
        (REQUEST, Some(1)) => REQUEST_1,
        (REQUEST, Some(_)) if is_new => REQUEST_2,
        (REQUEST, _) => REQUEST_TWO,
        (RENEW, _) if asked.is_resend() => RENEW_AGAIN,
        (RENEW, Some(1)) => RENEW_1,
        (RENEW, Some(_)) => RENEW_2,
        (RENEW, None) => RENEW_TWO,
        _ => INFO,
    }
}

/// What is due of a message that has passed test 7.
struct Looked<'a> {
    asked: Asked<'a>,
    end: End,
    /// The house's live records in order of ending.
    records: Vec<Record<'a>>,
    /// Where the identifier is found, from 0.
    place: Option<usize>,
}

impl<'a> Looked<'a> {
    fn new(asked: Asked<'a>) -> Looked<'a> {
        let mut records = all_records(&asked);
        records.retain(|record| record.ending > asked.clock);
        records.sort_by_key(|record| (record.ending, record.identifier));
        let is_it = |record: &Record| record.identifier == asked.identifier;
        Looked {
            end: end(&asked),
            place: records.iter().position(is_it),
            records,
            asked,
        }
    }

    /// What one lookup compares.
    fn compared(&self) -> usize {
        self.place.map_or(self.records.len(), |place| place + 1)
    }

    fn count(&self) -> usize {
        self.end.1 * self.compared()
    }

    fn found(&self) -> Option<&Record<'a>> {
        self.place.map(|place| &self.records[place])
    }

    /// Whether what is found would stand elsewhere, were the records ordered by this.
    fn is_elsewhere<K: Ord>(&self, key: impl Fn(&Record<'a>) -> K) -> bool {
        let before = |found: &Record<'a>| {
            let records = self.records.iter();
            records.filter(|record| key(record) < key(found)).count()
        };
        self.found().map(before) != self.place
    }
}

/// What has to occur of a lookup, and when it does.
type Row = (&'static str, fn(&Looked) -> bool);
const OF_LOOKUPS: [Row; 11] = [
    ("the house has no record", |l| l.records.is_empty()),
    ("sixteen, and it isn't among them", |l| {
        l.place.is_none() && l.records.len() == RECORDS
    }),
    ("the sixteenth is it", |l| l.place == Some(RECORDS - 1)),
    ("the first of more is it", |l| {
        l.place == Some(0) && l.records.len() > 1
    }),
    ("32 in all", |l| l.count() == 2 * RECORDS),
    ("in the file's order it stands elsewhere", |l| {
        l.is_elsewhere(|record| (record.is_hold, record.identifier))
    }),
    ("by identifiers it stands elsewhere", |l| {
        l.is_elsewhere(|record| record.identifier)
    }),
    ("by the ends of holds' periods it stands elsewhere", |l| {
        l.is_elsewhere(|record| (record.end, record.identifier))
    }),
    ("one before it ends at the same time", |l| {
        let place = l.place.filter(|place| *place > 0);
        place.is_some_and(|place| l.records[place - 1].ending == l.records[place].ending)
    }),
    ("what has ended or lapsed isn't compared", |l| {
        let gone = all_records(&l.asked).len() > l.records.len();
        gone && l.place.is_none()
    }),
    ("another house has the identifier", |l| {
        let mut records = l.asked.campus.records();
        let is_it = |lease: &Lease| lease.identifier == l.asked.identifier;
        l.place.is_none() && records.any(|lease| lease.house != l.asked.house && is_it(lease))
    }),
];

/// Types of messages that look an identifier up, and what they find.
const KINDS: [(u8, &str); 4] = [
    (DISCOVER, "DISCOVER"),
    (REQUEST, "REQUEST"),
    (RENEW, "RENEW"),
    (RELEASE, "RELEASE"),
];
const FOUND: [&str; 3] = ["finds a lease", "finds a hold", "finds nothing"];

fn finds(kind: &str, what: &str) -> String {
    format!("{kind} {what}")
}

fn discard(outcome: u8) -> String {
    format!("discard {outcome} has none")
}

pub fn counted() -> Vec<String> {
    let mut names: Vec<String> = ENDS.iter().map(|end| end.0.to_string()).collect();
    names.extend((2..=7).map(discard));
    for (_, kind) in KINDS {
        names.extend(FOUND.map(|what| finds(kind, what)));
    }
    names.extend(OF_LOOKUPS.iter().map(|row| row.0.to_string()));
    names
}

/// What is due of a call on a campus that drew this outcome.
pub struct Due<'a> {
    outcome: u8,
    /// None where it was discarded before anything is looked up.
    looked: Option<Looked<'a>>,
}

impl<'a> Due<'a> {
    pub fn new(campus: &'a Campus, call: &'a Call, outcome: u8) -> Due<'a> {
        let asked = Asked::new(campus, call).filter(|_| [0, 8].contains(&outcome));
        Due {
            outcome,
            looked: asked.map(Looked::new),
        }
    }

    pub fn count(&self) -> usize {
        self.looked.as_ref().map_or(0, Looked::count)
    }

    /// How many lookups there were, in words.
    pub fn short(&self) -> &'static str {
        match self.looked.as_ref().map_or(0, |looked| looked.end.1) {
            0 => "none",
            1 => "one lookup",
            _ => "two lookups",
        }
    }

    /// What is to be counted.
    pub fn why(&self) -> Vec<String> {
        let Some(looked) = &self.looked else {
            return vec![discard(self.outcome)];
        };
        let mut why = vec![looked.end.0.to_string()];
        if looked.end.1 > 0 {
            let kind = KINDS.iter().find(|known| known.0 == looked.asked.kind);
            let what = match looked.found() {
                Some(record) if record.is_hold => FOUND[1],
                Some(_) => FOUND[0],
                None => FOUND[2],
            };
            why.extend(kind.map(|kind| finds(kind.1, what)));
            let rows = OF_LOOKUPS.iter().filter(|row| row.1(looked));
            why.extend(rows.map(|row| row.0.to_string()));
        }
        why
    }
}
