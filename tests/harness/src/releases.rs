//! Releases that are remembered: those of a campus, RELEASEs to send again, and what is due of a call, with why it is. What is due is read off the
//! campus before the call, so that every branch is counted where the reply alone wouldn't show it.

use crate::asked::Asked;
use crate::campus::fresh_identifier;
use crate::message;
use crate::random::Random;
use builder::*;
use std::ops::Range;

/// The most of a house, and how long one is answered again, in seconds.
pub const MOST_RELEASES: usize = 4;
pub const RESEND_TIME: u32 = 300;

/// Gives the houses of a campus releases to remember: none at all, up to four each, or four each; at times all of them young.
pub fn remember(campus: &mut Campus, random: &mut Random) {
    let style = random.below(8);
    for house in 1..=campus.houses.len() as u8 {
        let count = match style {
            0 | 1 => 0,
            2 => MOST_RELEASES,
            _ => random.below(MOST_RELEASES + 1),
        };
        for _ in 0..count {
            let mut release = new_release(campus, random, house);
            if style == 2 || style == 3 {
                release.time = release.time.max(campus.clock.saturating_sub(100));
            }
            campus.releases.push(release);
        }
    }
}

/// A release of an identifier that the house neither holds nor remembers, at a time not after the clock. At times another house has a lease
/// or a release on it.
pub fn new_release(campus: &Campus, random: &mut Random, house: u8) -> Release {
    let ago = random.below(100_000) as u32;
    let ago = random.pick(&[0, 0, 0, 1, 100, 298, 299, 299, 300, 300, 301, 1_000, ago]);
    let time = campus.clock.saturating_sub(ago);
    Release {
        house,
        identifier: fresh_identifier(campus, random, house),
        transaction: random.pick(&[0, 1, 2, 3, 0x0102_0304, u32::MAX]),
        time: if random.chance(4) { 0 } else { time },
    }
}

/// A RELEASE like one that is remembered: mostly the same, or with another transaction id, or with an option that isn't allowed.
pub fn sent_again(random: &mut Random, release: &Release) -> Message {
    let mut transaction = release.transaction;
    if random.chance(10) {
        transaction = transaction.wrapping_add(random.pick(&[1, 256, u32::MAX]));
    }
    let mut message = Message::new(RELEASE, transaction, vec![identifier(&release.identifier)]);
    if random.chance(20) {
        let code = random.pick(&[1, 2, 4, 5, 6, 7, 8, 9, 10, 11, 13, 14, 15, 16]);
        let value = message::fitting_value(random, code);
        message.put(code, value);
    }
    if random.chance(15) {
        let value = message::features(random, 0);
        message.put(12, value);
    }
    if random.chance(5) {
        message.put(17, vec![0; random.below(9)]);
    }
    random.shuffle(&mut message.options);
    message
}

/// What has to occur in a default run.
pub const COUNTED: [&str; 35] = [
    AGAIN,
    AT_ONCE,
    AFTER_299,
    AFTER_300,
    AFTER_301,
    PAST_THE_END,
    FORBIDDEN,
    FORBIDDEN_LATE,
    FEATURES,
    BOTH_HOUSES,
    ANOTHER_ID,
    ANOTHER_HOUSE,
    NOT_KNOWN,
    ENDED,
    REMEMBERED,
    FOURTH,
    FIFTH,
    PUSHED_OUT,
    SAME_CLOCK,
    BESIDE_ANOTHERS,
    NEW_LEASE,
    NEW_LEASE_EARLIER,
    NEW_LEASE_LATE,
    NEW_LEASE_ANOTHERS,
    OLD_OCTETS,
    OFFERED,
    OFFERED_EARLIER,
    OFFERED_LATE,
    OFFERED_ANOTHERS,
    NOT_OFFERED,
    STILL_HELD,
    NOT_HELD,
    REFUSED,
    RENEWED,
    STAYS,
];
/// These five are seen by the fuzz run too.
pub const AGAIN: &str = "sent again";
pub const REMEMBERED: &str = "remembered";
pub const FIFTH: &str = "a fifth forgets the oldest";
pub const NEW_LEASE: &str = "a new lease forgets it";
pub const OFFERED: &str = "an offer forgets it";
const AT_ONCE: &str = "sent again at its own clock";
const AFTER_299: &str = "sent again after 299 s";
const AFTER_300: &str = "sent again after 300 s: error 3";
const AFTER_301: &str = "sent again after 301 s: error 3";
const PAST_THE_END: &str = "sent again where 300 s after it no clock can be";
const FORBIDDEN: &str = "sent again with an option that isn't allowed";
const FORBIDDEN_LATE: &str = "sent again too late, with an option that isn't allowed: error 1";
const FEATURES: &str = "sent again with option 12";
const BOTH_HOUSES: &str = "sent again, another house remembers the identifier too";
const ANOTHER_ID: &str = "another transaction id: error 3";
const ANOTHER_HOUSE: &str = "another house's, from this one: error 3";
const NOT_KNOWN: &str = "no house remembers the identifier: error 3";
const ENDED: &str = "its lease has ended: error 3";
const FOURTH: &str = "remembered as the fourth";
const PUSHED_OUT: &str = "sent again after a fifth: error 3";
const SAME_CLOCK: &str = "remembered at the clock of the one before";
const BESIDE_ANOTHERS: &str = "remembered, another house remembers the identifier too";
const NEW_LEASE_EARLIER: &str = "a new lease forgets one that isn't the youngest";
const NEW_LEASE_LATE: &str = "a new lease forgets one of 300 s ago or more";
const NEW_LEASE_ANOTHERS: &str = "a new lease leaves another house's of the same identifier";
const OLD_OCTETS: &str = "after a new lease the old RELEASE releases it";
const OFFERED_EARLIER: &str = "an offer forgets one that isn't the youngest";
const OFFERED_LATE: &str = "an offer forgets one of 300 s ago or more";
const OFFERED_ANOTHERS: &str = "an offer leaves another house's of the same identifier";
const NOT_OFFERED: &str = "a refused DISCOVER forgets nothing";
const STILL_HELD: &str = "sent again while the offer that forgot it is held: error 3";
const NOT_HELD: &str = "sent again after the offer that forgot it: error 3";
const REFUSED: &str = "a refused REQUEST forgets nothing";
const RENEWED: &str = "a RENEW of its identifier: error 3";
const STAYS: &str = "one of 300 s ago or more stays";

/// What forgets a release, and in the same order what else may be said of it: it isn't the youngest; it is of 300 s ago or more; another
/// house's stays.
type Forgets = [&'static str; 4];
const BY_LEASE: Forgets = [
    NEW_LEASE,
    NEW_LEASE_EARLIER,
    NEW_LEASE_LATE,
    NEW_LEASE_ANOTHERS,
];
const BY_OFFER: Forgets = [OFFERED, OFFERED_EARLIER, OFFERED_LATE, OFFERED_ANOTHERS];

/// What is due of a call that drew a reply, or an error that it doesn't hear of.
pub struct Due {
    /// What is remembered afterwards.
    pub releases: Vec<Release>,
    /// The reply to a RELEASE.
    pub reply: Option<Vec<u8>>,
    /// What is to be counted.
    pub why: Vec<&'static str>,
}

/// What was remembered and isn't any more, over a list of calls.
#[derive(Default)]
pub struct Past {
    pushed_out: Vec<Release>,
    leased_again: Vec<Release>,
    offered_again: Vec<Release>,
}

impl<'a> Asked<'a> {
    fn is_of(&self, release: &Release) -> bool {
        release.house == self.house && release.identifier == self.identifier
    }

    /// Whether a RELEASE with its house, identifier and transaction id would be this one.
    fn has_sent(&self, release: &Release) -> bool {
        self.is_of(release) && release.transaction == self.transaction
    }

    /// Where the house's releases stand.
    fn places(&self) -> Range<usize> {
        let releases = &self.campus.releases;
        let start = releases.partition_point(|release| release.house < self.house);
        start..releases.partition_point(|release| release.house <= self.house)
    }

    /// The house's on the identifier.
    fn own(&self) -> Option<&'a Release> {
        let mut releases = self.campus.releases.iter();
        releases.find(|release| self.is_of(release))
    }

    /// Another house's on the identifier.
    fn anothers(&self) -> Option<&'a Release> {
        let mut releases = self.campus.releases.iter();
        releases
            .find(|release| release.house != self.house && release.identifier == self.identifier)
    }

    fn ago(&self, release: &Release) -> u32 {
        self.clock - release.time
    }

    fn is_young(&self, release: &Release) -> bool {
        self.ago(release) < RESEND_TIME
    }
}

impl Past {
    /// What is due of a call on a campus, which drew a reply or discard 8. `None` for one that can't have drawn it.
    pub fn due(&mut self, campus: &Campus, call: &Call, reply: &[u8]) -> Option<Due> {
        let asked = Asked::new(campus, call)?;
        let mut due = Due {
            releases: campus.releases.clone(),
            reply: None,
            why: Vec::new(),
        };
        match asked.kind {
            RELEASE => self.release(&asked, &mut due),
            REQUEST if reply.get(1) == Some(&ACK) => {
                let forgotten = forget(&asked, &mut due, BY_LEASE);
                self.leased_again.extend(forgotten);
            }
            DISCOVER if reply.get(1) == Some(&OFFER) => {
                let forgotten = forget(&asked, &mut due, BY_OFFER);
                self.offered_again.extend(forgotten);
            }
            DISCOVER if asked.own().is_some() => due.why.push(NOT_OFFERED),
            REQUEST if asked.own().is_some() => due.why.push(REFUSED),
            RENEW if asked.own().is_some() => due.why.push(RENEWED),
            _ => {}
        }
        let old = |release: &Release| !asked.is_young(release);
        due.why
            .extend(due.releases.iter().any(old).then_some(STAYS));
        Some(due)
    }

    /// A RELEASE: known, or else error 1, or 3, or it releases a lease and is remembered.
    fn release(&mut self, asked: &Asked, due: &mut Due) {
        let sent = asked.own().filter(|release| asked.has_sent(release));
        let refused = match sent {
            Some(sent) if asked.is_young(sent) => {
                again(asked, sent, due);
                None
            }
            _ if asked.has_forbidden() => {
                due.why.extend(sent.map(|_| FORBIDDEN_LATE));
                Some(1)
            }
            _ if asked.is_leased() => {
                self.remember(asked, due);
                None
            }
            _ => {
                self.not_held(asked, sent, due);
                Some(3)
            }
        };
        due.reply = Some(asked.reply(refused));
    }

    /// Error 3, and why nothing was known.
    fn not_held(&self, asked: &Asked, sent: Option<&Release>, due: &mut Due) {
        let (own, another) = (asked.own(), asked.anothers());
        let is_known = |release: &Release| asked.is_young(release);
        let same_id = |release: &Release| release.transaction == asked.transaction;
        let mut pushed_out = self.pushed_out.iter();
        let pushed_out = pushed_out.any(|release| asked.has_sent(release) && is_known(release));
        let another_id = sent.is_none() && own.is_some_and(is_known);
        let anothers =
            own.is_none() && another.is_some_and(|other| same_id(other) && is_known(other));
        let mut offered = self.offered_again.iter();
        let offered = offered.any(|release| asked.has_sent(release) && is_known(release));
        let is_held = asked.hold().is_some();
        let after = |seconds: u32| sent.is_some_and(|sent| asked.ago(sent) == seconds);
        let mut see = |what: &'static str, holds: bool| due.why.extend(holds.then_some(what));
        see(AFTER_300, after(RESEND_TIME));
        see(AFTER_301, after(RESEND_TIME + 1));
        see(ANOTHER_ID, another_id);
        see(ANOTHER_HOUSE, anothers);
        see(NOT_KNOWN, own.is_none() && another.is_none());
        see(ENDED, asked.lease().is_some());
        see(PUSHED_OUT, pushed_out);
        see(STILL_HELD, offered && is_held);
        see(NOT_HELD, offered && !is_held);
    }

    /// The youngest of its house; a fifth forgets the oldest.
    fn remember(&mut self, asked: &Asked, due: &mut Due) {
        let places = asked.places();
        let youngest = due.releases[places.clone()].last();
        let at_its_clock = youngest.is_some_and(|release| release.time == asked.clock);
        let was_sent = |release: &Release| asked.has_sent(release);
        let mut see = |what: &'static str, holds: bool| due.why.extend(holds.then_some(what));
        see(REMEMBERED, true);
        see(FOURTH, places.len() + 1 == MOST_RELEASES);
        see(FIFTH, places.len() == MOST_RELEASES);
        see(SAME_CLOCK, at_its_clock);
        see(BESIDE_ANOTHERS, asked.anothers().is_some());
        let mut forgotten = self.leased_again.iter().chain(&self.offered_again);
        see(OLD_OCTETS, forgotten.any(was_sent));
        let release = Release {
            house: asked.house,
            identifier: asked.identifier.to_vec(),
            transaction: asked.transaction,
            time: asked.clock,
        };
        due.releases.insert(places.end, release);
        if places.len() == MOST_RELEASES {
            self.pushed_out.push(due.releases.remove(places.start));
        }
    }
}

/// An OFFER, or an ACK to a REQUEST: a new hold or lease forgets the release of its identifier. One that is sent again, and a lease that a hold
/// becomes, find none.
fn forget(asked: &Asked, due: &mut Due, [by, earlier, late, anothers]: Forgets) -> Option<Release> {
    let mut places = due.releases.iter();
    let place = places.position(|release| asked.is_of(release));
    let is_new = !asked.is_leased() && asked.hold().is_none();
    let another = is_new.then(|| asked.anothers()).flatten();
    due.why.extend(another.map(|_| anothers));
    let release = due.releases.remove(place?);
    let next = due.releases.get(place?);
    let mut see = |what: &'static str, holds: bool| due.why.extend(holds.then_some(what));
    see(by, true);
    see(earlier, next.is_some_and(|next| next.house == asked.house));
    see(late, !asked.is_young(&release));
    Some(release)
}

/// A RELEASE that is known: nothing changes.
fn again(asked: &Asked, sent: &Release, due: &mut Due) {
    let mut see = |what: &'static str, holds: bool| due.why.extend(holds.then_some(what));
    see(AGAIN, true);
    see(AT_ONCE, asked.ago(sent) == 0);
    see(AFTER_299, asked.ago(sent) == RESEND_TIME - 1);
    see(PAST_THE_END, sent.time.checked_add(RESEND_TIME).is_none());
    see(FORBIDDEN, asked.has_forbidden());
    see(FEATURES, value_of(asked.datagram, 12).is_some());
    see(BOTH_HOUSES, asked.anothers().is_some());
}
