//! Minimum Lease Time and Maximum Start Time: values of both around every edge, and what is due of a call that has one of them, with why it is.
//! What is due follows from the answer to the same call without both: they may refuse, and change nothing else. What they do to an offer that is
//! held is counted in `judged`.

use crate::asked::{number_of, Asked};
use crate::random::Random;
use crate::{DEFAULT_LEASE, LAST_TIME, LONGEST_LEASE, SKEW};
use builder::*;

/// A Minimum Lease Time for a message that wishes such a length, or takes what stands for it.
pub fn minimum(random: &mut Random, wished: u32) -> u32 {
    let length = wished.min(LONGEST_LEASE);
    match random.below(20) {
        0 => 0,
        1 => random.pick(&[1, LAST_TIME]),
        2 => LONGEST_LEASE,
        3 => LONGEST_LEASE + 1,
        4 | 5 => wished,
        6 => random.pick(&[DEFAULT_LEASE, DEFAULT_LEASE + 1]),
        7..=9 => length + 1,
        10 | 11 => length.saturating_sub(1),
        _ => length,
    }
}

/// A Maximum Start Time for a message with this Start Time, if it has one, and this start before it is raised.
pub fn latest(random: &mut Random, clock: u32, sent: Option<u32>, start: u32) -> u32 {
    let near = match random.below(6) {
        0 => clock,
        1 | 2 => sent.unwrap_or(start),
        _ => start.max(clock),
    };
    match random.below(16) {
        0 => random.pick(&[0, LAST_TIME]),
        1..=5 => near.saturating_sub(1),
        6..=8 => near.saturating_add(1),
        _ => near,
    }
}

/// The same call without options 14 and 15, of one that asks for a period and has one of them. Its options have their layout.
pub fn plain(call: &Call) -> Option<Call<'static>> {
    let datagram = &call.datagram[..];
    let asks = [DISCOVER, REQUEST, RENEW].contains(datagram.get(1)?);
    let bounded = [14, 15].map(|code| value_of(datagram, code).is_some());
    if !asks || bounded == [false; 2] {
        return None;
    }
    Some(Call {
        time: call.time,
        client: call.client,
        room: call.room,
        datagram: without(datagram, &[14, 15])?.into(),
    })
}

/// What is due of a call with option 14 or 15.
pub struct Due {
    pub outcome: u8,
    pub reply: Vec<u8>,
    /// Which of five it is, for the fuzz run.
    pub short: &'static str,
    /// What is to be counted.
    pub why: Vec<String>,
}

/// A call with option 14 or 15, and what the same without both draws.
struct Bounded {
    kind: u8,
    clock: u32,
    /// Options as they are sent.
    wished: Option<u32>,
    start: Option<u32>,
    current: Option<u32>,
    minimum: Option<u32>,
    latest: Option<u32>,
    /// The house's lease on the identifier: start, length, and whether this sends its message again.
    old: Option<(u32, u32)>,
    is_resend: bool,
    /// Whether the period is that of a hold on the identifier.
    is_held: bool,
    /// Start and length that are given without both, or the error of a NAK.
    given: Option<(u32, u32)>,
    error: Option<u32>,
}

impl Bounded {
    fn new(asked: &Asked, plain: &[u8]) -> Bounded {
        let sent = |code| asked.number(code);
        let lease = asked.lease().filter(|_| asked.is_leased());
        Bounded {
            kind: asked.kind,
            clock: asked.clock,
            wished: sent(1),
            start: sent(6),
            current: sent(11),
            minimum: sent(14),
            latest: sent(15),
            old: lease.map(|lease| (lease.start, lease.end - lease.start)),
            is_resend: asked.is_resend(),
            is_held: asked.hold().is_some(),
            given: number_of(plain, 6).zip(number_of(plain, 1)),
            error: value_of(plain, 16).map(|value| value[1].into()),
        }
    }

    /// 15 before 6, both as they are sent.
    fn is_first(&self) -> bool {
        let both = self.latest.zip(self.start);
        both.is_some_and(|(latest, start)| latest < start)
    }

    fn lacks_current(&self) -> bool {
        self.latest.is_some() && self.current.is_none()
    }

    fn is_short(&self) -> bool {
        let both = self.minimum.zip(self.given);
        both.is_some_and(|(minimum, (_, length))| length < minimum)
    }

    fn is_late(&self) -> bool {
        let both = self.latest.zip(self.given);
        both.is_some_and(|(latest, (start, _))| latest < start)
    }

    /// The error that 14 and 15 draw, which without them would be none, or another; and which of five it is.
    fn refused(&self) -> (Option<u16>, &'static str) {
        if self.is_resend {
            (None, "resent")
        } else if self.lacks_current() || self.is_first() {
            (Some(1), "latest before start")
        } else if self.is_short() {
            (Some(0), "below the minimum")
        } else if self.is_late() {
            (Some(0), "after the latest")
        } else {
            (None, "met")
        }
    }

    fn is_met(&self) -> bool {
        self.given.is_some() && self.refused().1 == "met"
    }

    /// Refused for the length alone, by this minimum.
    fn short_of(&self, minimum: u32) -> bool {
        let alone = self.refused() == (Some(0), "below the minimum") && !self.is_late();
        alone && self.minimum == Some(minimum)
    }

    /// Refused for the start alone, by this latest.
    fn late_for(&self, latest: u32) -> bool {
        let alone = self.refused() == (Some(0), "after the latest");
        alone && self.latest == Some(latest)
    }

    /// Given with this minimum, and with this latest start.
    fn has_minimum(&self, minimum: u32) -> bool {
        self.is_met() && self.minimum == Some(minimum)
    }

    fn has_latest(&self, latest: u32) -> bool {
        self.is_met() && self.latest == Some(latest)
    }

    fn length(&self) -> u32 {
        self.given.map_or(0, |given| given.1)
    }

    /// Start Time is before the clock, or after it.
    fn starts_before(&self) -> bool {
        self.start.is_some_and(|start| start < self.clock)
    }

    fn starts_after(&self) -> bool {
        self.start.is_some_and(|start| start > self.clock)
    }

    /// 15 is so many seconds after 6.
    fn is_after_start(&self, seconds: i64) -> bool {
        let both = self.latest.zip(self.start);
        both.is_some_and(|(latest, start)| i64::from(latest) - i64::from(start) == seconds)
    }

    /// Refused as error 1 for 15 before 6, and by nothing else.
    fn is_first_alone(&self) -> bool {
        self.refused().0 == Some(1) && self.is_first() && self.given.is_some()
    }

    /// No start and length can meet both.
    fn is_hopeless(&self) -> bool {
        let long = self.minimum.is_some_and(|minimum| minimum > LONGEST_LEASE);
        let past = self.latest.is_some_and(|latest| latest < self.clock);
        !self.lacks_current() && !self.is_first() && (long || past)
    }

    fn is_apart(&self) -> bool {
        let apart = |current: u32| current.abs_diff(self.clock) > SKEW;
        self.current.is_some_and(apart)
    }

    /// A RENEW without Lease Time, or without Start Time: its old length, and its old start.
    fn old_length(&self) -> Option<u32> {
        self.old.filter(|_| self.wished.is_none()).map(|old| old.1)
    }

    fn old_start(&self) -> Option<u32> {
        self.old.filter(|_| self.start.is_none()).map(|old| old.0)
    }
}

/// What has to occur in a default run, and when it does.
type Row = (&'static str, fn(&Bounded) -> bool);

/// Of each type that asks for a period.
const OF_EACH: [Row; 17] = [
    ("14 is the length", |b| b.has_minimum(b.length())),
    ("14 is a second less", |b| {
        b.length() > 0 && b.has_minimum(b.length() - 1)
    }),
    ("14 is a second more: error 0", |b| {
        b.short_of(b.length().saturating_add(1))
    }),
    ("14 is 0", |b| b.has_minimum(0)),
    ("14 is 604,800, a longer wish is cut", |b| {
        b.has_minimum(LONGEST_LEASE) && b.wished > Some(LONGEST_LEASE)
    }),
    ("14 is 604,801, and so is the wish: error 0", |b| {
        b.short_of(LONGEST_LEASE + 1) && b.wished == Some(LONGEST_LEASE + 1)
    }),
    ("14 is above 604,800, the wish above it: error 0", |b| {
        b.wished > b.minimum
            && b.minimum
                .is_some_and(|minimum| minimum > LONGEST_LEASE && b.short_of(minimum))
    }),
    ("6 is before the clock, 15 is the clock", |b| {
        b.starts_before() && b.has_latest(b.clock)
    }),
    (
        "6 is before the clock, 15 the second before it: error 0",
        |b| b.starts_before() && b.late_for(b.clock.wrapping_sub(1)),
    ),
    ("6 is before the clock, 15 is 6: error 0", |b| {
        b.starts_before() && b.is_after_start(0) && b.late_for(b.start.unwrap_or(0))
    }),
    ("6 is before the clock, 15 before 6: error 1", |b| {
        b.starts_before() && b.is_first_alone()
    }),
    ("6 is after the clock, 15 is 6", |b| {
        b.starts_after() && b.is_after_start(0) && b.is_met()
    }),
    ("6 is after the clock, 15 a second after 6", |b| {
        b.starts_after() && b.is_after_start(1) && b.is_met()
    }),
    ("6 is after the clock, 15 a second before 6: error 1", |b| {
        b.starts_after() && b.is_after_start(-1) && b.is_first_alone()
    }),
    ("15 without 11: error 1", |b| {
        !b.is_resend && b.lacks_current() && b.start.is_none() && b.given.is_some()
    }),
    ("neither is met: error 0", |b| {
        b.refused().0 == Some(0) && b.is_short() && b.is_late()
    }),
    ("both are met", |b| {
        b.is_met() && b.minimum.is_some() && b.latest.is_some()
    }),
];

/// Of a DISCOVER or REQUEST.
const OF_NEW: [Row; 5] = [
    ("no 1, 14 is 3,600", |b| {
        b.wished.is_none() && b.has_minimum(DEFAULT_LEASE)
    }),
    ("no 1, 14 is 3,601: error 0", |b| {
        b.wished.is_none() && b.short_of(DEFAULT_LEASE + 1)
    }),
    ("no 6, 15 is the clock", |b| {
        b.start.is_none() && b.has_latest(b.clock)
    }),
    ("no 6, 15 is a second after the clock", |b| {
        b.start.is_none() && b.has_latest(b.clock.wrapping_add(1))
    }),
    ("no 6, 15 is the second before the clock: error 0", |b| {
        b.start.is_none() && b.late_for(b.clock.wrapping_sub(1))
    }),
];

/// Of a RENEW.
const OF_RENEW: [Row; 9] = [
    ("no 1, 14 is the old length", |b| {
        b.old_length().is_some_and(|old| b.has_minimum(old))
    }),
    ("no 1, 14 is a second above the old length: error 0", |b| {
        b.old_length()
            .is_some_and(|old| old < LONGEST_LEASE && b.short_of(old + 1))
    }),
    ("no 1, the old length is cut, 14 is 604,800", |b| {
        b.old_length() > Some(LONGEST_LEASE) && b.has_minimum(LONGEST_LEASE)
    }),
    ("no 1, the old length is cut, 14 is 604,801: error 0", |b| {
        b.old_length() > Some(LONGEST_LEASE) && b.short_of(LONGEST_LEASE + 1)
    }),
    ("no 6, the old start is raised, 15 is the clock", |b| {
        b.old_start().is_some_and(|old| old < b.clock) && b.has_latest(b.clock)
    }),
    (
        "no 6, the old start is raised, 15 the second before the clock: error 0",
        |b| b.old_start().is_some_and(|old| old < b.clock) && b.late_for(b.clock.wrapping_sub(1)),
    ),
    ("no 6, the old start is to come, 15 is it", |b| {
        b.old_start()
            .is_some_and(|old| old > b.clock && b.has_latest(old))
    }),
    (
        "no 6, the old start is to come, 15 the second before: error 0",
        |b| {
            b.old_start()
                .is_some_and(|old| old > b.clock && b.late_for(old - 1))
        },
    ),
    ("neither can be met, not held: error 3", |b| {
        b.is_hopeless() && b.error == Some(3)
    }),
];

/// Of a REQUEST or RENEW, whose errors show.
const OF_ERRORS: [Row; 2] = [
    ("15 before 6, clocks apart: error 1", |b| {
        !b.is_resend && b.is_first() && b.is_apart() && b.error == Some(2)
    }),
    ("neither can be met, clocks apart: error 2", |b| {
        b.is_hopeless() && b.error == Some(2)
    }),
];

/// Of a REQUEST or RENEW sent again.
const OF_RESENT: [Row; 5] = [
    ("resent, 14 above the length", |b| {
        b.is_resend && b.is_short()
    }),
    ("resent, 14 above 604,800", |b| {
        b.is_resend && b.minimum > Some(LONGEST_LEASE)
    }),
    ("resent, 15 before the start", |b| {
        b.is_resend && b.is_late()
    }),
    ("resent, 15 before 6", |b| b.is_resend && b.is_first()),
    ("resent, 15 without 11", |b| {
        b.is_resend && b.lacks_current()
    }),
];

/// The rows of a type.
fn rows(kind: u8) -> Vec<&'static Row> {
    let parts: &[&[Row]] = match kind {
        DISCOVER => &[&OF_EACH, &OF_NEW],
        REQUEST => &[&OF_EACH, &OF_NEW, &OF_ERRORS, &OF_RESENT],
        RENEW => &[&OF_EACH, &OF_RENEW, &OF_ERRORS, &OF_RESENT],
        _ => &[],
    };
    parts.iter().flat_map(|part| part.iter()).collect()
}

fn name(kind: u8, row: &Row) -> String {
    let kind = match kind {
        DISCOVER => "DISCOVER",
        REQUEST => "REQUEST",
        _ => "RENEW",
    };
    format!("{kind}, {}", row.0)
}

pub fn counted() -> Vec<String> {
    let of = |kind| rows(kind).into_iter().map(move |row| name(kind, row));
    [DISCOVER, REQUEST, RENEW]
        .into_iter()
        .flat_map(of)
        .collect()
}

/// What is due of a call on a campus, by outcome and reply of the same without 14 and 15. `None` for one that no house sent.
pub fn due(campus: &Campus, call: &Call, outcome: u8, plain: &[u8]) -> Option<Due> {
    let asked = Asked::new(campus, call)?;
    let bounded = Bounded::new(&asked, plain);
    let (refused, short) = bounded.refused();
    let (outcome, reply) = match refused {
        None => (outcome, plain.to_vec()),
        Some(_) if bounded.kind == DISCOVER => (8, Vec::new()),
        Some(_) => (0, asked.reply(refused)),
    };
    let seen = rows(bounded.kind).into_iter();
    let seen = seen.filter(|row| !bounded.is_held && row.1(&bounded));
    Some(Due {
        outcome,
        reply,
        short,
        why: seen.map(|row| name(bounded.kind, row)).collect(),
    })
}
