//! Every branch of what is judged of a hold, counted by name where the reply alone wouldn't show it: what a message finds held, what its OFFER
//! leaves, what lapses, and what others' holds cost it.

use crate::asked::{number_of, offsets_of, Asked};
use crate::campus::RECORDS;
use crate::holds::{drops, refused, Unfit, HOLD_TIME};
use crate::{HORIZON, LAST_TIME, LONGEST_LEASE};
use builder::*;

/// A call, the hold on its identifier, and what it drew.
pub struct Seen<'a> {
    asked: &'a Asked<'a>,
    /// As long as it is live.
    hold: Option<&'a Hold>,
    /// The error that is due by the hold, if there is one.
    refused: Option<u16>,
    outcome: u8,
    reply: &'a [u8],
    /// Transaction ids of the DISCOVER and the REQUEST by which a hold became the lease that there is now.
    turned: Option<(u32, u32)>,
}

impl<'a> Seen<'a> {
    fn is_given(&self) -> bool {
        [Some(&OFFER), Some(&ACK)].contains(&self.reply.get(1))
    }

    fn error(&self) -> Option<u16> {
        value_of(self.reply, 16).map(|value| value[1].into())
    }

    /// The lease of the hold that is repeated or becomes one.
    fn taken(&self) -> Option<&'a Lease> {
        let hold = self
            .hold
            .filter(|_| self.is_given() && !self.is_elsewhere());
        hold.map(|hold| &hold.lease)
    }

    fn is_taken(&self, with: impl Fn(&Asked, &Lease) -> bool) -> bool {
        self.taken().is_some_and(|lease| with(self.asked, lease))
    }

    /// How long the hold that is taken is still held.
    fn is_left(&self, seconds: u32) -> bool {
        let left = self.hold.map(|hold| hold.lapse - self.asked.clock);
        self.taken().is_some() && left == Some(seconds)
    }

    fn is_elsewhere(&self) -> bool {
        let scope = self.asked.scope();
        self.hold
            .is_some_and(|hold| scope != Some(hold.lease.scope))
    }

    /// Refused in the hold's scope as error 0, for such a reason alone.
    fn is_unfit(&self, alone: (bool, bool, bool)) -> bool {
        let unfit = |hold: &Hold| Unfit::new(self.asked, &hold.lease);
        let unfit = self.hold.map(unfit).filter(|_| !self.is_elsewhere());
        let reasons = unfit.map(|unfit| (unfit.is_fewer, unfit.is_short, unfit.is_late));
        self.refused == Some(0) && reasons == Some(alone)
    }

    /// Minimum Lease Time is so much above the hold's length, and Maximum Start Time so much above its start.
    fn minimum_is(&self, above: i64) -> bool {
        let length = self.hold.map(|hold| hold.lease.end - hold.lease.start);
        is_above(self.asked.number(14), length, above)
    }

    fn latest_is(&self, above: i64) -> bool {
        let start = self.hold.map(|hold| hold.lease.start);
        is_above(self.asked.number(15), start, above)
    }

    /// A hold in the message's scope, which errors 1 or 2 keep from being looked at.
    fn is_kept_by(&self, error: u16) -> bool {
        self.hold.is_some() && !self.is_elsewhere() && self.refused == Some(error)
    }

    /// A REQUEST in another scope than the hold's, which this error refused.
    fn is_kept_elsewhere(&self, error: u16) -> bool {
        self.is_elsewhere() && self.asked.scope().is_some() && self.refused == Some(error)
    }

    fn drops(&self) -> bool {
        drops(self.asked).is_some()
    }

    /// The house's live records before the call, the holds among them.
    fn records(&self) -> (usize, usize) {
        let Asked { campus, clock, .. } = *self.asked;
        let of_house = |lease: &Lease| lease.house == self.asked.house;
        let leases = campus.leases.iter();
        let leases = leases.filter(|lease| of_house(lease) && lease.end > clock);
        let holds = campus.holds.iter();
        let holds = holds.filter(|hold| of_house(&hold.lease) && hold.lapse > clock);
        let holds = holds.count();
        (leases.count() + holds, holds)
    }

    fn is_full(&self) -> bool {
        self.records().0 == RECORDS
    }

    /// A new offer: its start, end and clock.
    fn offered(&self) -> Option<(u32, u32, u32)> {
        let is_new = self.hold.is_none() && self.reply.get(1) == Some(&OFFER);
        let (start, length) = number_of(self.reply, 6).zip(number_of(self.reply, 1))?;
        is_new.then_some((start, start + length, self.asked.clock))
    }

    fn is_offered(&self, with: impl Fn(u32, u32, u32) -> bool) -> bool {
        self.offered()
            .is_some_and(|(start, end, clock)| with(start, end, clock))
    }

    /// A new grant or offer that has an address of a hold like this.
    fn is_given_of(&self, like: impl Fn(&Hold) -> bool) -> bool {
        let is_new = self.hold.is_none() && !self.asked.is_leased() || self.drops();
        let (Some(scope), true) = (self.asked.scope(), is_new && self.is_given()) else {
            return false;
        };
        let lowest = self.asked.campus.scopes[usize::from(scope) - 1].lowest;
        let offsets = offsets_of(self.reply, lowest);
        let mut holds = self.asked.campus.holds.iter();
        holds.any(|hold| {
            let mut held = hold.lease.offsets.iter();
            hold.lease.scope == scope && like(hold) && held.any(|o| offsets.contains(o))
        })
    }

    fn is_live(&self, hold: &Hold) -> bool {
        hold.lapse > self.asked.clock
    }

    fn is_own(&self, hold: &Hold) -> bool {
        hold.lease.house == self.asked.house
    }

    /// The hold on its identifier has lapsed, and it is judged as new.
    fn is_late(&self, with: impl Fn(&Hold, u32) -> bool) -> bool {
        let lapsed = self.asked.any_hold().filter(|_| self.hold.is_none());
        lapsed.is_some_and(|hold| with(hold, self.asked.clock)) && self.is_given()
    }

    /// Another house's live hold on the same identifier.
    fn has_double(&self) -> bool {
        let mut holds = self.asked.campus.holds.iter();
        holds.any(|hold| {
            let is_named = hold.lease.identifier == self.asked.identifier;
            is_named && !self.is_own(hold) && self.is_live(hold)
        })
    }

    /// A lease on the identifier, and nothing else that draws error 1 or 2.
    fn is_leased(&self) -> bool {
        let asked = self.asked;
        asked.is_leased() && !asked.is_resend() && asked.error().is_none() && !asked.is_anothers()
    }

    /// A RENEW whose new period touches a hold on one of its addresses.
    fn touches(&self) -> bool {
        let given = number_of(self.reply, 6).zip(number_of(self.reply, 1));
        let (Some(lease), Some((start, length))) = (self.asked.lease(), given) else {
            return false;
        };
        let mut holds = self.asked.campus.holds.iter();
        holds.any(|hold| {
            let other = &hold.lease;
            let shares = other.offsets.iter().any(|o| lease.offsets.contains(o));
            let touches = other.start == start + length || other.end == start;
            self.is_live(hold) && lease.scope == other.scope && shares && touches
        })
    }
}

fn is_above(sent: Option<u32>, held: Option<u32>, above: i64) -> bool {
    let both = sent.zip(held);
    both.is_some_and(|(sent, held)| i64::from(sent) - i64::from(held) == above)
}

/// What has to occur in a default run, and when it does.
type Row = (&'static str, fn(&Seen) -> bool);

/// Of a DISCOVER and of a REQUEST: the held offer is repeated, or becomes the lease.
const OF_BOTH: [Row; 27] = [
    ("what is held is given", |s| s.taken().is_some()),
    ("given at the OFFER's clock", |s| s.is_left(HOLD_TIME)),
    ("given 29 s after it", |s| s.is_left(1)),
    ("given with the hold's transaction id", |s| {
        s.is_taken(|asked, held| asked.transaction == held.transaction)
    }),
    ("given with another transaction id", |s| {
        s.is_taken(|asked, held| asked.transaction != held.transaction)
    }),
    ("given all, desired is less", |s| {
        s.is_taken(|asked, held| usize::from(asked.least_and_desired().1) < held.offsets.len())
    }),
    ("given, least is what is held", |s| {
        s.is_taken(|asked, held| {
            let least = usize::from(asked.least_and_desired().0);
            least == held.offsets.len() && least > 1
        })
    }),
    ("given no more, desired is more", |s| {
        s.is_taken(|asked, held| usize::from(asked.least_and_desired().1) > held.offsets.len())
    }),
    ("given, another length is wished", |s| {
        s.is_taken(|asked, held| {
            let wished = asked.number(1);
            wished.is_some_and(|wished| wished != held.end - held.start)
        })
    }),
    ("given, another start is wished", |s| {
        s.is_taken(|asked, held| asked.number(6).is_some_and(|start| start != held.start))
    }),
    ("given, the wished start is after the horizon", |s| {
        s.is_taken(|asked, _| asked.wished().0 > asked.clock.saturating_add(HORIZON))
    }),
    ("given, the wished end can't be", |s| {
        s.is_taken(|asked, _| asked.wished().0.checked_add(asked.wished().1).is_none())
    }),
    ("given, the clock is past its start", |s| {
        s.is_taken(|asked, held| held.start < asked.clock)
    }),
    ("given, its period is to come", |s| {
        s.is_taken(|asked, held| held.start > asked.clock)
    }),
    ("given, no record is left", |s| {
        s.taken().is_some() && s.is_full()
    }),
    ("given, 14 is its length", |s| {
        s.taken().is_some() && s.minimum_is(0)
    }),
    ("given, 14 is its length, above 604,800", |s| {
        s.is_taken(|asked, _| asked.number(14) > Some(LONGEST_LEASE)) && s.minimum_is(0)
    }),
    ("given, 15 is its start", |s| {
        s.taken().is_some() && s.latest_is(0)
    }),
    ("given, 15 is before the clock", |s| {
        s.is_taken(|asked, _| asked.number(15).is_some_and(|latest| latest < asked.clock))
    }),
    ("least is above what is held: error 0", |s| {
        s.is_unfit((true, false, false))
    }),
    ("14 is a second above its length: error 0", |s| {
        s.is_unfit((false, true, false)) && s.minimum_is(1)
    }),
    ("15 is a second before its start: error 0", |s| {
        s.is_unfit((false, false, true)) && s.latest_is(-1)
    }),
    ("error 1, the hold is kept", |s| s.is_kept_by(1)),
    ("error 2, the hold is kept", |s| s.is_kept_by(2)),
    ("given what has lapsed now, as new", |s| {
        s.is_late(|hold, clock| hold.lapse == clock && hold.lease.end > clock)
    }),
    ("given what has lapsed at its end, as new", |s| {
        s.is_late(|hold, clock| hold.lapse == clock && hold.lease.end == clock)
    }),
    ("a lease on the identifier: error 1", |s| s.is_leased()),
];

/// Of a DISCOVER: also what its OFFER leaves.
const OF_DISCOVER: [Row; 9] = [
    ("held, lapses in 30 s", |s| {
        s.is_offered(|_, end, clock| u64::from(end) > u64::from(clock) + u64::from(HOLD_TIME))
    }),
    ("held, lapses at its end, which is sooner", |s| {
        s.is_offered(|_, end, clock| end - clock < HOLD_TIME)
    }),
    ("held, ends in 30 s", |s| {
        s.is_offered(|_, end, clock| end - clock == HOLD_TIME)
    }),
    ("held, no clock can be in 30 s", |s| {
        s.is_offered(|_, _, clock| LAST_TIME - clock < HOLD_TIME)
    }),
    ("held for a period to come", |s| {
        s.is_offered(|start, _, clock| start > clock)
    }),
    ("held in the last record", |s| {
        s.offered().is_some() && s.records().0 + 1 == RECORDS
    }),
    ("held beside another house's of the identifier", |s| {
        s.offered().is_some() && s.has_double()
    }),
    ("another scope: error 1, the hold is kept", |s| {
        s.is_elsewhere() && s.asked.error().is_none() && s.refused == Some(1)
    }),
    ("sent again after the REQUEST: error 1", |s| {
        let sent = |ids: (u32, u32)| ids.0 == s.asked.transaction;
        s.is_leased() && s.turned.is_some_and(sent)
    }),
];

/// Of a REQUEST: also what drops the hold, and what keeps it.
const OF_REQUEST: [Row; 13] = [
    ("another scope, granted", |s| s.drops() && s.is_given()),
    ("another scope, refused, the drop stands", |s| {
        s.drops() && s.error() == Some(0)
    }),
    ("another scope, refused by 14 or 15", |s| {
        let asked = s.asked;
        let (start, length) = asked.wished();
        let is_short = asked.number(14).is_some_and(|minimum| length < minimum);
        let is_late = asked.number(15).is_some_and(|latest| latest < start);
        s.drops() && s.error() == Some(0) && (is_short || is_late)
    }),
    ("another scope, granted in the hold's record", |s| {
        s.drops() && s.is_given() && s.is_full()
    }),
    ("another scope and error 1, the hold is kept", |s| {
        s.is_kept_elsewhere(1)
    }),
    ("another scope and error 2, the hold is kept", |s| {
        s.is_kept_elsewhere(2)
    }),
    ("no scope of ours, the hold is kept", |s| {
        s.hold.is_some() && s.asked.scope().is_none() && s.error() == Some(1)
    }),
    ("another server, the hold is kept", |s| {
        s.hold.is_some() && s.outcome == 7 && !s.is_elsewhere()
    }),
    ("another server and scope, the hold is kept", |s| {
        s.hold.is_some() && s.outcome == 7 && s.is_elsewhere()
    }),
    ("sent again after it took what was held", |s| {
        let sent = |ids: (u32, u32)| ids.1 == s.asked.transaction;
        s.asked.is_resend() && s.turned.is_some_and(sent)
    }),
    ("given what the house holds for another time", |s| {
        s.is_given_of(|hold| s.is_own(hold) && s.is_live(hold) && Some(hold) != s.hold)
    }),
    ("given what another house's hold has left", |s| {
        s.is_given_of(|hold| !s.is_own(hold) && !s.is_live(hold))
    }),
    ("granted, another house holds the identifier", |s| {
        s.hold.is_none() && !s.asked.is_leased() && s.is_given() && s.has_double()
    }),
];

const OF_RENEW: [Row; 4] = [
    ("of a hold: error 3", |s| {
        s.hold.is_some() && s.refused == Some(3)
    }),
    ("of a hold, error 1", |s| {
        s.hold.is_some() && s.refused == Some(1)
    }),
    ("of a hold, error 2", |s| {
        s.hold.is_some() && s.refused == Some(2)
    }),
    ("touches a hold", |s| s.is_given() && s.touches()),
];

const OF_RELEASE: [Row; 3] = [
    ("of a hold: error 3", |s| {
        s.hold.is_some() && s.refused == Some(3)
    }),
    ("of a hold, error 1", |s| {
        s.hold.is_some() && s.refused == Some(1)
    }),
    ("of a lease that a hold has become", |s| {
        s.is_given() && s.asked.is_leased() && s.turned.is_some()
    }),
];

/// The types of messages that have rows, with their names.
const KINDS: [(u8, &str); 4] = [
    (DISCOVER, "DISCOVER"),
    (REQUEST, "REQUEST"),
    (RENEW, "RENEW"),
    (RELEASE, "RELEASE"),
];

fn rows(kind: u8) -> Vec<(String, &'static Row)> {
    let parts: &[&[Row]] = match kind {
        DISCOVER => &[&OF_BOTH, &OF_DISCOVER],
        REQUEST => &[&OF_BOTH, &OF_REQUEST],
        RENEW => &[&OF_RENEW],
        RELEASE => &[&OF_RELEASE],
        _ => &[],
    };
    let name = KINDS.iter().find(|known| known.0 == kind);
    let name = name.map_or("", |known| known.1);
    let rows = parts.iter().flat_map(|part| part.iter());
    rows.map(|row| (format!("{name}, {}", row.0), row))
        .collect()
}

/// What isn't a matter of the message's own hold.
const LAPSED: &str = "a reply drops what has lapsed";
const LAPSED_DISCARD: &str = "a discard drops what has lapsed";
const LAPSED_2: &str = "discard 2 leaves what has lapsed";
const LIVES: &str = "a hold lives the second before it lapses";
pub const ON_BOARD: &str = "the board counts what is held";
pub const SAME_AS_NEW: &str = "a REQUEST that drops its hold is judged as where there is none";
pub const SAME_AS_REQUEST: &str = "a DISCOVER is offered what the REQUEST would get";
/// What others' holds do to a call, by what it would draw where they weren't.
const FULL_DISCOVER: &str = "DISCOVER, no record left by holds: error 0";
const FULL_REQUEST: &str = "REQUEST, no record left by holds: error 0";
const OWN_REFUSE: &str = "refused for the house's own holds";
const ANOTHERS_REFUSE: &str = "refused for another house's holds";
const FEWER: &str = "fewer addresses, by holds";
const OTHERS: &str = "other addresses, by holds";
const OVERLAPS: &str = "RENEW, overlaps a hold: error 0";

pub fn counted() -> Vec<String> {
    let of_kinds = KINDS.iter().flat_map(|kind| rows(kind.0));
    let of_others = [
        LAPSED,
        LAPSED_DISCARD,
        LAPSED_2,
        LIVES,
        ON_BOARD,
        SAME_AS_NEW,
        SAME_AS_REQUEST,
        FULL_DISCOVER,
        FULL_REQUEST,
        OWN_REFUSE,
        ANOTHERS_REFUSE,
        FEWER,
        OTHERS,
        OVERLAPS,
    ];
    let of_kinds = of_kinds.map(|row| row.0);
    of_kinds.chain(of_others.map(String::from)).collect()
}

/// A hold that became a lease: house, identifier, transaction ids of its DISCOVER and of the REQUEST.
type Turned = (u8, Vec<u8>, (u32, u32));

/// What was held and became a lease, over a list of calls.
#[derive(Default)]
pub struct Past(Vec<Turned>);

impl Past {
    /// What is to be counted of a call on a campus, which drew this.
    pub fn why(&mut self, campus: &Campus, call: &Call, outcome: u8, reply: &[u8]) -> Vec<String> {
        let mut why = lapses(campus, call, outcome);
        let passed = [0, 7, 8].contains(&outcome);
        let Some(asked) = Asked::new(campus, call).filter(|_| passed) else {
            return why;
        };
        let is_it = |turned: &&Turned| (turned.0, &turned.1[..]) == (asked.house, asked.identifier);
        let turned = self.0.iter().rev().find(is_it).map(|turned| turned.2);
        let hold = asked.hold();
        let seen = Seen {
            asked: &asked,
            hold,
            refused: hold.and_then(|hold| refused(&asked, hold)),
            outcome,
            reply,
            turned,
        };
        let rows = rows(asked.kind).into_iter();
        let rows = rows.filter(|(_, row)| row.1(&seen));
        why.extend(rows.map(|(name, _)| name));
        if let (Some(held), REQUEST) = (seen.taken(), asked.kind) {
            let ids = (held.transaction, asked.transaction);
            self.0.push((asked.house, asked.identifier.to_vec(), ids));
        }
        why
    }
}

/// What lapses with a call.
fn lapses(campus: &Campus, call: &Call, outcome: u8) -> Vec<String> {
    let left = |hold: &Hold| i64::from(hold.lapse) - i64::from(campus.clock.max(call.time));
    let lapsed = campus.holds.iter().any(|hold| left(hold) <= 0);
    let lapsed = lapsed.then_some(match outcome {
        0 => LAPSED,
        2 => LAPSED_2,
        _ => LAPSED_DISCARD,
    });
    let lives = campus.holds.iter().any(|hold| left(hold) == 1);
    let lives = lives.then_some(LIVES);
    [lapsed, lives]
        .into_iter()
        .flatten()
        .map(String::from)
        .collect()
}

/// The campus without the holds that aren't the message's own, if it asks for a period and there are such.
pub fn without_others(campus: &Campus, call: &Call) -> Option<Campus> {
    let asked = Asked::new(campus, call)?;
    let asks = [DISCOVER, REQUEST, RENEW].contains(&asked.kind);
    let mut other = campus.clone();
    other.holds.retain(|hold| Some(hold) == asked.any_hold());
    (asks && other.holds.len() < campus.holds.len()).then_some(other)
}

/// What others' holds did to a call: it drew one reply, and another where they weren't. Neither may be empty but for a DISCOVER's.
pub fn weighed(campus: &Campus, call: &Call, reply: &[u8], without: &[u8]) -> Option<&'static str> {
    let asked = Asked::new(campus, call)?;
    let is_given = |reply: &[u8]| [Some(&OFFER), Some(&ACK)].contains(&reply.get(1));
    if reply == without || !is_given(without) {
        return None;
    }
    let seen = Seen {
        asked: &asked,
        hold: asked.hold(),
        refused: None,
        outcome: 0,
        reply,
        turned: None,
    };
    let scope = asked.scope();
    let in_scope = |hold: &&Hold| seen.is_live(hold) && Some(hold.lease.scope) == scope;
    let own = campus.holds.iter().filter(in_scope);
    let (own, anothers): (Vec<&Hold>, Vec<&Hold>) = own.partition(|hold| seen.is_own(hold));
    match (asked.kind, is_given(reply)) {
        (RENEW, false) => Some(OVERLAPS),
        (DISCOVER, false) if seen.is_full() => Some(FULL_DISCOVER),
        (REQUEST, false) if seen.is_full() => Some(FULL_REQUEST),
        (_, false) if anothers.is_empty() => Some(OWN_REFUSE),
        (_, false) if own.is_empty() => Some(ANOTHERS_REFUSE),
        (DISCOVER | REQUEST, true) => {
            let count = |reply: &[u8]| offsets_of(reply, 0).len();
            Some(if count(reply) < count(without) {
                FEWER
            } else {
                OTHERS
            })
        }
        _ => None,
    }
}
