//! Offers that are held: those of a campus, messages that come back to one, and what is due of a call, by the campus before it: the holds
//! afterwards, and the answer where the hold on the message's identifier decides it. `judged` counts why.

use crate::asked::{number_of, offsets_of, Asked};
use crate::message;
use crate::random::Random;
use crate::{DEFAULT_LEASE, HORIZON, LAST_TIME, LONGEST_LEASE, SKEW};
use builder::*;

/// How long an offer is held, in seconds.
pub const HOLD_TIME: u32 = 30;

/// When an offer lapses.
pub fn lapse(clock: u32, end: u32) -> u32 {
    clock.saturating_add(HOLD_TIME).min(end)
}

/// A hold in the place of a lease whose period ends after the clock: of an OFFER at the clock, or up to 29 seconds before it.
pub fn of_lease(campus: &Campus, random: &mut Random, lease: Lease) -> Hold {
    let latest = lapse(campus.clock, lease.end);
    let next = campus.clock + 1;
    let any = random.between(next as usize, latest as usize) as u32;
    Hold {
        lapse: random.pick(&[latest, latest, latest, next, any]),
        lease: Lease {
            kind: DISCOVER,
            ..lease
        },
    }
}

/// An offer that a client comes back to: a hold of the file, or what a DISCOVER has asked for.
#[derive(Clone)]
pub struct Offer {
    pub house: usize,
    pub lapse: u32,
    identifier: Vec<u8>,
    transaction: u32,
    /// The scope's lowest address.
    scope: u32,
    start: u32,
    length: u32,
    /// As many addresses, or at most.
    count: u16,
    /// Its DISCOVER, if it isn't of the file.
    asked: Option<Message>,
}

impl Offer {
    pub fn of_hold(campus: &Campus, hold: &Hold) -> Offer {
        let lease = &hold.lease;
        Offer {
            house: usize::from(lease.house) - 1,
            lapse: hold.lapse,
            identifier: lease.identifier.clone(),
            transaction: lease.transaction,
            scope: campus.scopes[usize::from(lease.scope) - 1].lowest,
            start: lease.start,
            length: lease.end - lease.start,
            count: lease.offsets.len() as u16,
            asked: None,
        }
    }

    /// What a DISCOVER may be offered.
    pub fn of_discover(house: usize, message: &Message, clock: u32) -> Option<Offer> {
        let octets = message.octets();
        let start = number_of(&octets, 6).unwrap_or(clock).max(clock);
        let length = number_of(&octets, 1).unwrap_or(DEFAULT_LEASE);
        let length = length.min(LONGEST_LEASE);
        let count = value_of(&octets, 7).and_then(|value| value.get(2..4));
        Some(Offer {
            house,
            lapse: lapse(clock, start.saturating_add(length)),
            identifier: value_of(&octets, 3)?.to_vec(),
            transaction: message.transaction,
            scope: number_of(&octets, 4)?,
            start,
            length,
            count: count.map_or(1, |count| u16::from_be_bytes([count[0], count[1]])),
            asked: Some(message.clone()),
        })
    }

    /// Whether it was made of what a release was of.
    pub fn is_of(&self, release: &Release) -> bool {
        let released = (usize::from(release.house), &release.identifier);
        (self.house + 1, &self.identifier) == released
    }

    /// Whether it is of this house and identifier, and may be held still.
    pub fn is_held(&self, house: usize, identifier: &[u8], clock: u32) -> bool {
        (self.house, &self.identifier[..]) == (house, identifier) && self.lapse > clock
    }

    /// When a client comes back: mostly at an edge of the time in which the offer is held, if that is to come.
    pub fn time(&self, random: &mut Random, clock: u32) -> u32 {
        let ago = random.pick(&[HOLD_TIME, HOLD_TIME - 1, 1, 1, 0, 0]);
        let time = self.lapse.saturating_sub(ago);
        match random.below(8) {
            0..=3 => clock,
            4 => time.saturating_add(1).max(clock),
            _ => time.max(clock),
        }
    }

    /// What it sends then: its DISCOVER again, the same as a REQUEST, another of either, or what a hold isn't for.
    pub fn come_back(&self, random: &mut Random, campus: &Campus, clock: u32) -> Message {
        let kind = match random.below(20) {
            0..=5 => DISCOVER,
            6..=15 => REQUEST,
            16 | 17 => RENEW,
            _ => RELEASE,
        };
        let mut transaction = self.transaction;
        if random.chance(50) {
            transaction = random.pick(&[0, 1, 2, 3, 0x0102_0304, u32::MAX]);
        }
        let asks = [DISCOVER, REQUEST].contains(&kind);
        if let (Some(asked), true, true) = (&self.asked, asks, random.chance(25)) {
            return Message {
                kind,
                transaction,
                ..asked.clone()
            };
        }
        let mut message = Message::new(kind, transaction, vec![identifier(&self.identifier)]);
        if asks {
            self.put_scope_and_number(random, campus, &mut message);
        }
        if kind == REQUEST && random.chance(20) {
            let other = u32::from(random.chance(25));
            let server = campus.server.wrapping_add(other);
            message.options.push(server_identifier(server));
        }
        if kind != RELEASE {
            self.put_times(random, clock, &mut message);
        }
        if random.chance(12) {
            message.put(12, message::features(random, 0));
        }
        let code = random.between(1, 16) as u16;
        if random.chance(8) && !message.has(code) {
            message.put(code, message::fitting_value(random, code));
        }
        random.shuffle(&mut message.options);
        message
    }

    /// Mostly its scope; and as many addresses, more, or fewer.
    fn put_scope_and_number(&self, random: &mut Random, campus: &Campus, message: &mut Message) {
        let others = campus.scopes.iter().map(|scope| scope.lowest);
        let others: Vec<u32> = others.filter(|&pool| pool != self.scope).collect();
        let pool = match random.below(20) {
            0..=6 if !others.is_empty() => random.pick(&others),
            7 if random.chance(30) => self.scope.wrapping_add(1),
            _ => self.scope,
        };
        message.options.push(scope(pool));
        let (count, more) = (self.count, self.count.saturating_add(1));
        let least_and_desired = match random.below(16) {
            0 => (more, more),
            1 => (more, u16::MAX),
            2..=4 => (count, count),
            5 => (count, more),
            6 | 7 => (1, count.saturating_sub(1).max(1)),
            8 if random.chance(50) => (0, 1),
            9 if random.chance(50) => (more, count),
            10 | 11 => (1, more),
            _ => return,
        };
        let (least, desired) = least_and_desired;
        message.options.push(number(least, desired));
    }

    /// Wishes that don't count any more, and bounds around the period that is held.
    fn put_times(&self, random: &mut Random, clock: u32, message: &mut Message) {
        let (start, length) = (self.start, self.length);
        if random.chance(30) {
            let longer = length.saturating_add(1);
            message.put_u32(1, random.pick(&[length, longer, 1, 7, 7, 0, LAST_TIME]));
        }
        if random.chance(25) {
            let far = clock.saturating_add(HORIZON + 1);
            let times = [start, start, clock, start.saturating_add(1), far, LAST_TIME];
            message.put_u32(6, random.pick(&times));
        }
        if random.chance(30) {
            let (less, more) = (length.saturating_sub(1), length.saturating_add(1));
            let lengths = [length, length, less, more, more, 0, LONGEST_LEASE + 1];
            message.put_u32(14, random.pick(&lengths));
        }
        if random.chance(30) {
            let (before, after) = (start.saturating_sub(1), start.saturating_add(1));
            let past = clock.saturating_sub(1);
            let times = [
                start, start, before, before, after, past, past, 0, LAST_TIME,
            ];
            message.put_u32(15, random.pick(&times));
        }
        let needs_current = message.has(6) || message.has(15);
        if random.chance(if needs_current { 95 } else { 20 }) {
            let apart = random.pick(&[0, 0, 0, 0, 0, 0, 0, 1, SKEW, SKEW + 1]);
            let (before, after) = (clock.saturating_sub(apart), clock.saturating_add(apart));
            message.put_u32(11, random.pick(&[before, after]));
        }
    }
}

/// What is due of a call.
pub struct Due {
    /// What is held afterwards.
    pub holds: Vec<Hold>,
    /// Outcome and reply, where the hold on its identifier decides them.
    pub answer: Option<(u8, Vec<u8>)>,
    /// What became of its hold, for the fuzz run.
    pub short: &'static str,
}

/// A hold with what a message says: why it can't be given.
pub struct Unfit {
    pub is_fewer: bool,
    pub is_short: bool,
    pub is_late: bool,
}

impl Unfit {
    pub fn new(asked: &Asked, lease: &Lease) -> Unfit {
        let (least, _) = asked.least_and_desired();
        let length = lease.end - lease.start;
        Unfit {
            is_fewer: lease.offsets.len() < usize::from(least),
            is_short: asked.number(14).is_some_and(|minimum| length < minimum),
            is_late: asked.number(15).is_some_and(|latest| latest < lease.start),
        }
    }

    pub fn is_none(&self) -> bool {
        !(self.is_fewer || self.is_short || self.is_late)
    }
}

/// The error that a message draws whose identifier has a hold, as far as the hold decides it: a REQUEST for another scope is judged as new.
pub fn refused(asked: &Asked, hold: &Hold) -> Option<u16> {
    let is_elsewhere = asked.scope() != Some(hold.lease.scope);
    let by_hold = match asked.kind {
        DISCOVER if is_elsewhere => Some(1),
        REQUEST if is_elsewhere => None,
        DISCOVER | REQUEST => (!Unfit::new(asked, &hold.lease).is_none()).then_some(0),
        RENEW | RELEASE => Some(3),
        _ => None,
    };
    match asked.error() {
        Some(1) => Some(1),
        Some(_) if by_hold == Some(1) => Some(1),
        error => error.or(by_hold),
    }
}

/// Whether a REQUEST drops the hold on its identifier, to be judged as new.
pub fn drops<'a>(asked: &Asked<'a>) -> Option<&'a Hold> {
    let hold = asked.hold()?;
    let is_judged = asked.kind == REQUEST && !asked.is_anothers() && asked.error().is_none();
    (is_judged && asked.scope() != Some(hold.lease.scope)).then_some(hold)
}

/// What is due of a call on a campus, which drew this.
pub fn due(campus: &Campus, call: &Call, outcome: u8, reply: &[u8]) -> Due {
    let clock = campus.clock.max(call.time);
    let mut holds = campus.holds.clone();
    if outcome != 2 {
        holds.retain(|hold| hold.lapse > clock);
    }
    let short = if holds.len() < campus.holds.len() {
        "lapsed"
    } else {
        ""
    };
    let mut due = Due {
        holds,
        answer: None,
        short,
    };
    // Tests 3 to 6 are passed.
    if [0, 7, 8].contains(&outcome) {
        if let Some(asked) = Asked::new(campus, call) {
            judge(&asked, reply, &mut due);
        }
    }
    due
}

fn judge(asked: &Asked, reply: &[u8], due: &mut Due) {
    let Some(hold) = asked.hold() else {
        let offered = (asked.kind == DISCOVER && reply.get(1) == Some(&OFFER))
            .then(|| of_offer(asked, reply))
            .flatten();
        if let Some(hold) = offered {
            let place = due
                .holds
                .partition_point(|other| other.lease.key() < hold.lease.key());
            due.holds.insert(place, hold);
            due.short = "held";
        }
        return;
    };
    let refused = refused(asked, hold);
    let is_elsewhere = drops(asked).is_some();
    let answer = match (asked.kind, refused) {
        _ if asked.is_anothers() => (7, Vec::new()),
        (DISCOVER, Some(_)) => (8, Vec::new()),
        (DISCOVER, None) => (0, asked.lease_reply(OFFER, &hold.lease)),
        (REQUEST, None) => (0, asked.lease_reply(ACK, &hold.lease)),
        (REQUEST | RENEW | RELEASE, _) => (0, asked.reply(refused)),
        _ => return,
    };
    due.short = match (answer.0, refused) {
        _ if is_elsewhere => "dropped",
        (0, None) if asked.kind == REQUEST => "turned",
        (0, None) => "repeated",
        _ => "kept",
    };
    if ["dropped", "turned"].contains(&due.short) {
        due.holds.retain(|other| other != hold);
    }
    due.answer = (!is_elsewhere).then_some(answer);
}

/// The hold that an OFFER leaves.
fn of_offer(asked: &Asked, reply: &[u8]) -> Option<Hold> {
    let scope = asked.scope()?;
    let lowest = number_of(reply, 4)?;
    let (start, length) = (number_of(reply, 6)?, number_of(reply, 1)?);
    let end = start.checked_add(length)?;
    Some(Hold {
        lapse: lapse(asked.clock, end),
        lease: Lease {
            house: asked.house,
            scope,
            identifier: asked.identifier.to_vec(),
            kind: DISCOVER,
            transaction: asked.transaction,
            start,
            end,
            offsets: offsets_of(reply, lowest),
        },
    })
}

/// What has to draw the same. A REQUEST that drops its hold: the same where there is no such hold, with the same file afterwards. A DISCOVER
/// whose identifier has no hold: the same as a REQUEST, but for the reply's type; `of_alike` puts that right.
pub fn alike(campus: &Campus, call: &Call) -> Option<(Campus, Call<'static>)> {
    let asked = Asked::new(campus, call)?;
    let mut other = campus.clone();
    let mut datagram = call.datagram.to_vec();
    if let Some(dropped) = drops(&asked) {
        other.holds.retain(|hold| hold != dropped);
    } else if asked.kind == DISCOVER && asked.hold().is_none() && !asked.has(2) {
        datagram[1] = REQUEST;
    } else {
        return None;
    }
    let call = Call {
        time: call.time,
        client: call.client,
        room: call.room,
        datagram: datagram.into(),
    };
    Some((other, call))
}

/// What is due of a call by what its like draws. A new grant is what a DISCOVER is offered; a REQUEST sent again is none.
pub fn of_alike(
    campus: &Campus,
    call: &Call,
    (outcome, mut reply): (u8, Vec<u8>),
) -> (u8, Vec<u8>) {
    let is_leased = Asked::new(campus, call).is_some_and(|asked| asked.is_leased());
    match (call.datagram.get(1), reply.get(1)) {
        (Some(&DISCOVER), Some(&ACK)) if !is_leased => {
            reply[1] = OFFER;
            (outcome, reply)
        }
        (Some(&DISCOVER), _) if outcome == 0 => (8, Vec::new()),
        _ => (outcome, reply),
    }
}
