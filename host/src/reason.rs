//! Why a call draws what it draws, in words for the desk. The library alone decides; this finds the rule that its answer goes by.

use crate::campus::{Campus, Hold, Lease};
use crate::count;
use crate::message::{error_name, name, option_name, Message};
use crate::message::{DISCOVER, GETINFO, NAK, RELEASE, RENEW, REQUEST};
use crate::numbers::{Answer, Discard, Outcome};
use crate::utc;
use std::net::Ipv4Addr;

const SKEW: u32 = 1800;
const DEFAULT_LEASE: u32 = 3600;
const LONGEST_LEASE: u32 = 604_800;
const HORIZON: u64 = 2_592_000;
const RECORDS: usize = 16;

/// What a call is judged by.
#[derive(Clone, Copy)]
pub struct Case<'a> {
    /// Server, houses and scopes, which no call changes.
    pub settings: &'a Campus,
    /// The book before the call, where it is known.
    pub book: Option<&'a Campus>,
    /// The clock, raised to the call's time.
    pub clock: u32,
    /// Where the call came from.
    pub client: u32,
}

/// An error of document 01, and what draws it.
#[derive(Clone, Debug, PartialEq, Eq)]
pub struct Reason {
    /// 0 to 3.
    pub error: u8,
    /// In words.
    pub what: String,
}

impl Case<'_> {
    /// Why a datagram draws an outcome; `None` where there is nothing to say beyond the reply.
    pub fn why(&self, datagram: &[u8], outcome: Outcome) -> Option<String> {
        let message = Message(datagram);
        let words = |words: &str| Some(words.to_owned());
        match outcome {
            Outcome::Reply(reply) if Message(reply).kind() == NAK => {
                let error = Message(reply).error().unwrap_or(0);
                Some(self.refused(datagram, error))
            }
            Outcome::Reply(_) => self.again(&message),
            Outcome::Discard(Discard::Header) => message.header_fault(),
            Outcome::Discard(Discard::NoHouse) => words("the client's address is in no house"),
            Outcome::Discard(Discard::Feature) => {
                words("it requires a feature, and none is supported")
            }
            Outcome::Discard(Discard::OtherServer) => {
                let server = Ipv4Addr::from(self.settings.server);
                Some(format!("it is for another server than {server}"))
            }
            Outcome::Discard(Discard::Error) => Some(self.silent(datagram)),
            Outcome::Discard(why) => {
                let words = why.in_words(datagram);
                Some(
                    words
                        .split_once(": ")
                        .map_or(words.clone(), |(_, what)| what.to_owned()),
                )
            }
        }
    }

    /// Why a NAK has its error. Where the cause isn't seen from here, the words for all that are left.
    fn refused(&self, datagram: &[u8], error: u16) -> String {
        let reason = self
            .reason(datagram)
            .filter(|reason| u16::from(reason.error) == error);
        let otherwise = match (Message(datagram).kind(), error) {
            (REQUEST, 0) => "no record is left for the house, or its limit, the others' shares and the period leave too few addresses",
            (REQUEST, 1) => "the house has a lease with that identifier already",
            (RENEW, 0) => "the new period overlaps another lease on one of its addresses, or Minimum Lease Time or Maximum Start Time can't be met",
            _ => error_name(error),
        };
        reason.map_or_else(|| otherwise.to_owned(), |reason| reason.what)
    }

    /// Why a DISCOVER or GETINFO draws an error, which the library doesn't tell: without the book only the first tests of error 1 are sure.
    fn silent(&self, datagram: &[u8]) -> String {
        match self.reason(datagram) {
            Some(Reason { error, what }) if error == 1 || self.book.is_some() => format!("error {error}: {what}"),
            Some(Reason { what, .. }) => format!("{what}, or the house has that identifier already"),
            None => "no record is left for the house, or its limit, the others' shares and the period leave too few addresses, or it has that identifier already".to_owned(),
        }
    }

    /// The first error that a datagram past discard 7 draws, as far as it can be told: without a book nothing is told of leases and holds.
    pub fn reason(&self, datagram: &[u8]) -> Option<Reason> {
        let message = Message(datagram);
        let of = |error, what: Option<String>| what.map(|what| Reason { error, what });
        of(1, self.invalid(&message))
            .or_else(|| of(2, self.skewed(&message)))
            .or_else(|| of(3, self.unknown(&message)))
            .or_else(|| of(0, self.not_to_be_met(&message)))
    }

    /// How often the identifier was looked up for a call (document 02, W-210): for the resend test of a REQUEST or RENEW, and where error 1 or 3 asks for it,
    /// unless an earlier test has ended the matter. What was sent again is told by the book, or else by a count that isn't twice the same.
    pub fn lookups(&self, datagram: &[u8], answer: Answer) -> usize {
        let (message, count) = (Message(datagram), answer.count);
        let error = match answer.outcome {
            Outcome::Reply(reply) => Message(reply).error(),
            Outcome::Discard(Discard::Error) => None,
            Outcome::Discard(_) => return 0,
        };
        let is_recorded = matches!(message.kind(), REQUEST | RENEW);
        let is_asked = match (message.kind(), error) {
            (REQUEST | RENEW, None) => count % 2 == 0 && self.again(&message).is_none(),
            (DISCOVER | REQUEST, _) => self.ill_put(&message).is_none(),
            // What is found counts at least 1; of a RELEASE sent again nothing is looked for.
            (RELEASE, None) => count > 0,
            (RENEW | RELEASE, error) => !matches!(error, Some(1 | 2)),
            _ => false,
        };
        usize::from(is_recorded) + usize::from(is_asked)
    }

    fn house(&self) -> u8 {
        self.settings.house_of(self.client).unwrap_or(0)
    }

    /// The house's lease with an identifier, of a book that is known.
    fn lease(&self, identifier: &[u8]) -> Option<&Lease> {
        let mut leases = self
            .book?
            .leases
            .iter()
            .filter(|lease| lease.end > self.clock);
        leases.find(|lease| lease.order() == (self.house(), identifier))
    }

    fn hold(&self, identifier: &[u8]) -> Option<&Hold> {
        let mut holds = self
            .book?
            .holds
            .iter()
            .filter(|hold| hold.lapse > self.clock);
        holds.find(|hold| hold.lease.order() == (self.house(), identifier))
    }

    /// Whether a call is one that was answered before.
    fn again(&self, message: &Message) -> Option<String> {
        let (identifier, kind) = (message.value(3)?, message.kind());
        let (transaction, book) = (message.transaction()?, self.book?);
        let is_resent = match kind {
            REQUEST | RENEW => {
                let lease = self.lease(identifier)?;
                (lease.kind, lease.transaction) == (kind, transaction)
            }
            RELEASE => book.releases.iter().any(|release| {
                let is_it = (release.house, &release.identifier[..]) == (self.house(), identifier);
                is_it && release.transaction == transaction
            }),
            _ => return None,
        };
        is_resent.then(|| "sent again".to_owned())
    }

    /// Error 1.
    fn invalid(&self, message: &Message) -> Option<String> {
        self.ill_put(message).or_else(|| self.taken(message))
    }

    /// Error 1 but for its last test, which asks for the identifier: by the message and the settings alone.
    fn ill_put(&self, message: &Message) -> Option<String> {
        let kind = message.kind();
        let allowed: &[u16] = match kind {
            GETINFO => &[5, 8],
            DISCOVER => &[1, 4, 6, 7, 10, 11, 14, 15],
            REQUEST => &[1, 2, 4, 6, 7, 10, 11, 14, 15],
            RENEW => &[1, 6, 11, 14, 15],
            _ => &[],
        };
        let is_allowed = |code| matches!(code, 0 | 3 | 12 | 17..) || allowed.contains(&code);
        if let Some(option) = message.options().find(|option| !is_allowed(option.code)) {
            let (code, option) = (option.code, option_name(option.code));
            return Some(format!(
                "option {code} ({option}) isn't allowed in a {}",
                name(kind)
            ));
        }
        if matches!(kind, DISCOVER | REQUEST) {
            let Some(scope) = message.number(4) else {
                return Some("no scope is named".to_owned());
            };
            if self.scope_at(scope).is_none() {
                return Some(format!(
                    "{} is no scope's lowest address",
                    Ipv4Addr::from(scope)
                ));
            }
        }
        if message.number(1) == Some(0) {
            return Some("Lease Time is 0".to_owned());
        }
        match message.counts() {
            Some((0, _)) => return Some("the least number is 0".to_owned()),
            Some((least, desired)) if least > desired => {
                return Some(format!(
                    "the least number {least} is above the desired {desired}"
                ));
            }
            _ => {}
        }
        self.times(message)
    }

    fn times(&self, message: &Message) -> Option<String> {
        for code in [6, 15] {
            if message.number(code).is_some() && message.number(11).is_none() {
                let option = option_name(code);
                return Some(format!("{option} without Current Time"));
            }
        }
        let (latest, start) = (message.number(15)?, message.number(6)?);
        (latest < start).then(|| "Maximum Start Time is before Start Time".to_owned())
    }

    fn taken(&self, message: &Message) -> Option<String> {
        let (kind, identifier) = (message.kind(), message.value(3)?);
        if !matches!(kind, DISCOVER | REQUEST) {
            return None;
        }
        let house = self.house();
        if self.lease(identifier).is_some() {
            return Some(format!(
                "house {house} has a lease with that identifier already"
            ));
        }
        let hold = self.hold(identifier)?;
        let is_other =
            kind == DISCOVER && self.scope_at(message.number(4)?) != Some(hold.lease.scope);
        is_other
            .then(|| format!("house {house} has an offer in another scope with that identifier"))
    }

    /// A scope's number by its lowest address.
    fn scope_at(&self, lowest: u32) -> Option<u8> {
        let scopes = &self.settings.scopes;
        let place = scopes.iter().position(|scope| scope.lowest == lowest)?;
        u8::try_from(place + 1).ok()
    }

    /// Error 2.
    fn skewed(&self, message: &Message) -> Option<String> {
        let current = message.number(11)?;
        let apart = current.abs_diff(self.clock);
        let (theirs, ours) = (utc::in_words(current), utc::in_words(self.clock));
        let what = format!("the client's clock says {theirs}, {apart} s from ours, {ours}");
        (apart > SKEW).then_some(what)
    }

    /// Error 3.
    fn unknown(&self, message: &Message) -> Option<String> {
        let (identifier, house) = (message.value(3)?, self.house());
        self.book?;
        let asks = matches!(message.kind(), RENEW | RELEASE);
        let is_unknown = asks && self.lease(identifier).is_none();
        let held = if self.hold(identifier).is_some() {
            ", only an offer"
        } else {
            ""
        };
        is_unknown.then(|| format!("house {house} has no lease with that identifier{held}"))
    }

    /// Error 0.
    fn not_to_be_met(&self, message: &Message) -> Option<String> {
        let (kind, identifier) = (message.kind(), message.value(3)?);
        if !matches!(kind, DISCOVER | REQUEST | RENEW) {
            return None;
        }
        let (least, desired) = message.counts().unwrap_or((1, 1));
        if let Some(hold) = self.hold(identifier).map(|hold| &hold.lease) {
            if kind != RENEW && self.scope_at(message.number(4)?) == Some(hold.scope) {
                let (held, length) = (hold.offsets.len(), hold.end - hold.start);
                let short = format!("the offer has {}, below {least}", count(held, "address"));
                let fewer = (held < least.into()).then_some(short);
                return fewer.or_else(|| bounds(message, hold.start, length));
            }
        }
        let old = if kind == RENEW {
            self.lease(identifier)
        } else {
            None
        };
        // What a RENEW leaves out is the old lease's, which only a book tells.
        if kind == RENEW && old.is_none() {
            return None;
        }
        let start = message
            .number(6)
            .or(old.map(|old| old.start))
            .unwrap_or(0)
            .max(self.clock);
        let length = message.number(1).or(old.map(|old| old.end - old.start));
        let length = length.unwrap_or(DEFAULT_LEASE).min(LONGEST_LEASE);
        if u64::from(start) > u64::from(self.clock) + HORIZON {
            return Some(format!(
                "it starts at {}, beyond the horizon of 30 days",
                utc::in_words(start)
            ));
        }
        let Some(end) = start.checked_add(length) else {
            return Some("it ends past the last second that a clock can show".to_owned());
        };
        bounds(message, start, length).or_else(|| match old {
            Some(old) => self.overlap(old, (start, end)),
            None => self.too_few(message, (start, end), (least, desired)),
        })
    }

    fn overlap(&self, old: &Lease, (start, end): (u32, u32)) -> Option<String> {
        let others = self.live().filter(|other| other.order() != old.order());
        let mut same = others.filter(|other| {
            let shares = other
                .offsets
                .iter()
                .any(|offset| old.offsets.contains(offset));
            other.scope == old.scope && shares && other.start < end && start < other.end
        });
        let other = same.next()?;
        let id = crate::quoted::identifier(&other.identifier);
        Some(format!(
            "the new period overlaps the house's {id} on one of its addresses"
        ))
    }

    /// The leases and holds that are live.
    fn live(&self) -> impl Iterator<Item = &Lease> {
        let book = self.book.into_iter();
        book.flat_map(|book| {
            let leases = book.leases.iter().filter(|lease| lease.end > self.clock);
            let holds = book.holds.iter().filter(|hold| hold.lapse > self.clock);
            leases.chain(holds.map(|hold| &hold.lease))
        })
    }

    /// No record, or fewer addresses than the least.
    fn too_few(
        &self,
        message: &Message,
        period: (u32, u32),
        (least, desired): (u16, u16),
    ) -> Option<String> {
        self.book?;
        let (house, number) = (self.house(), self.scope_at(message.number(4)?)?);
        let scope = self.settings.scope(number)?;
        // A hold in another scope makes room for a REQUEST.
        let identifier = message.value(3)?;
        let counted = || {
            self.live()
                .filter(|lease| lease.order() != (house, identifier))
        };
        if counted().filter(|lease| lease.house == house).count() >= RECORDS {
            return Some(format!(
                "house {house} has {RECORDS} leases and offers, and no record is left"
            ));
        }
        let held =
            |of: u8| offsets(counted().filter(|lease| (lease.house, lease.scope) == (of, number)));
        let own = held(house);
        let (start, end) = period;
        let busy = counted()
            .filter(|lease| lease.scope == number && lease.start < end && start < lease.end);
        let busy = offsets(busy);
        let free = own.iter().filter(|offset| !busy.contains(offset)).count();
        let others = (1..=u8::MAX)
            .zip(&scope.parts)
            .filter(|(other, _)| *other != house);
        let others: usize = others
            .map(|(other, part)| held(other).len().max(part.0.into()))
            .sum();
        let limit = usize::from(scope.parts[usize::from(house) - 1].1);
        let most = limit.min(usize::from(scope.size).saturating_sub(others));
        let k = (free + most.saturating_sub(own.len())).min(desired.into());
        let what = format!(
            "house {house} holds {} of its limit {limit} in {}; with the shares of the others it can have {k} in that period, below {least}",
            own.len(),
            Ipv4Addr::from(scope.lowest)
        );
        (k < least.into()).then_some(what)
    }
}

/// The offsets that some leases have, each once.
fn offsets<'a>(leases: impl Iterator<Item = &'a Lease>) -> Vec<u8> {
    let mut all: Vec<u8> = leases.flat_map(|lease| &lease.offsets).copied().collect();
    all.sort_unstable();
    all.dedup();
    all
}

/// Options 14 and 15 against a period.
fn bounds(message: &Message, start: u32, length: u32) -> Option<String> {
    if let Some(minimum) = message.number(14).filter(|minimum| length < *minimum) {
        return Some(format!("{length} s are below Minimum Lease Time {minimum}"));
    }
    let latest = message.number(15).filter(|latest| start > *latest)?;
    let (start, latest) = (utc::in_words(start), utc::in_words(latest));
    Some(format!(
        "it starts at {start}, after Maximum Start Time {latest}"
    ))
}
