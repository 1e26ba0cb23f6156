//! Lists of calls: what clients of the houses send, mostly what draws a reply, and all the edges.

use crate::bounds;
use crate::broken::{broken, Broken, BREAKS};
use crate::campus::{beside, identifier};
use crate::holds::{Offer, HOLD_TIME};
use crate::message;
use crate::names;
use crate::random::Random;
use crate::releases::{self, MOST_RELEASES, RESEND_TIME};
use crate::{DEFAULT_LEASE, HORIZON, LAST_TIME, LONGEST_LEASE, SKEW};
use builder::{number, requested_language, value_of, Call, Campus, Lease, Message, Release};
use builder::{DISCOVER, GETINFO, RELEASE, RENEW, REQUEST};

/// What a client may refer to: a lease of the file, or one that it has asked for.
#[derive(Clone)]
struct Known {
    house: usize,
    identifier: Vec<u8>,
    kind: u8,
    transaction: u32,
}

/// What the maker of a list keeps in mind.
struct Talk<'a> {
    campus: &'a Campus,
    clock: u32,
    known: Vec<Known>,
    /// Releases of the file, and what was asked to be released since.
    released: Vec<Release>,
    /// Holds of the file, and what was asked to be offered since.
    offers: Vec<Offer>,
    /// Starts and ends of periods, and when holds lapse.
    times: Vec<u32>,
    calls: Vec<Call<'static>>,
    /// The damage that comes next.
    damage: usize,
    /// What was broken at a place that is known.
    broken: Broken,
}

/// Calls, and what is known of those that were broken.
pub struct List {
    pub calls: Vec<Call<'static>>,
    pub broken: Broken,
}

/// A list of calls on a campus. `turn` says where in the list of damages to begin.
pub fn list(random: &mut Random, campus: &Campus, count: usize, turn: usize) -> List {
    let mut talk = Talk {
        campus,
        clock: campus.clock,
        known: Vec::new(),
        released: campus.releases.clone(),
        offers: Vec::new(),
        times: Vec::new(),
        calls: Vec::new(),
        damage: turn,
        broken: Broken::new(),
    };
    for lease in &campus.leases {
        talk.times.extend([lease.start, lease.end]);
        talk.known.push(Known {
            house: usize::from(lease.house) - 1,
            identifier: lease.identifier.clone(),
            kind: lease.kind,
            transaction: lease.transaction,
        });
    }
    for hold in &campus.holds {
        let Lease { start, end, .. } = hold.lease;
        talk.times.extend([start, end, hold.lapse]);
        talk.offers.push(Offer::of_hold(campus, hold));
    }
    for _ in 0..count {
        let call = talk.call(random);
        talk.calls.push(call);
    }
    List {
        calls: talk.calls,
        broken: talk.broken,
    }
}

impl Talk<'_> {
    fn call(&mut self, random: &mut Random) -> Call<'static> {
        let again = self.known_release(random);
        let offer = self.known_offer(random).filter(|_| again.is_none());
        let time = match (&again, &offer) {
            (Some(release), _) => self.time_after(random, release),
            (_, Some(offer)) => offer.time(random, self.clock),
            _ => self.time(random),
        };
        let room = if random.chance(4) {
            random.pick(&[0, 1, 100, 511, 511])
        } else {
            random.pick(&[512, 512, 512, 513, 600, 1_472, 65_535])
        };
        if room >= 512 {
            self.clock = self.clock.max(time);
        }
        let (client, datagram) = match (again, offer) {
            (Some(release), _) => self.release_again(random, &release),
            (_, Some(offer)) => self.come_back(random, &offer),
            _ if !self.calls.is_empty() && random.chance(12) => self.same_again(random),
            _ => self.anew(random),
        };
        Call {
            time,
            client,
            room,
            datagram: datagram.into(),
        }
    }

    /// A RELEASE that may be remembered: where it comes from, and its octets.
    fn release_again(&self, random: &mut Random, release: &Release) -> (u32, Vec<u8>) {
        let house = usize::from(release.house) - 1;
        let house = Some(house).filter(|_| !random.chance(10));
        let client = self.client(random, house);
        (client, releases::sent_again(random, release).octets())
    }

    /// A message of one that may have an offer.
    fn come_back(&mut self, random: &mut Random, offer: &Offer) -> (u32, Vec<u8>) {
        let message = offer.come_back(random, self.campus, self.clock);
        self.keep(offer.house, &message);
        let house = Some(offer.house).filter(|_| !random.chance(4));
        (self.client(random, house), message.octets())
    }

    /// The same datagram again, from the same client or from another.
    fn same_again(&self, random: &mut Random) -> (u32, Vec<u8>) {
        let call = random.pick(&self.calls);
        let client = match random.chance(15) {
            true => self.client(random, None),
            false => call.client,
        };
        (client, call.datagram.into_owned())
    }

    /// Another message, which may be damaged.
    fn anew(&mut self, random: &mut Random) -> (u32, Vec<u8>) {
        let (house, message) = self.message(random);
        let client = self.client(random, Some(house));
        if !random.chance(16) {
            return (client, message.octets());
        }
        self.damage += 1;
        let place = self.damage % (message::DAMAGES.len() + BREAKS.len());
        let datagram = match message::DAMAGES.get(place) {
            Some((_, damage)) => damage(random, message),
            None => self.broken(random, message, place - message::DAMAGES.len()),
        };
        (client, datagram)
    }

    /// A message with a fault in its options, which is kept in mind.
    fn broken(&mut self, random: &mut Random, message: Message, place: usize) -> Vec<u8> {
        let (datagram, fault) = broken(random, message, place);
        self.broken
            .extend(fault.map(|fault| (datagram.clone(), fault)));
        datagram
    }

    /// A release to send again, at times: often the last.
    fn known_release(&self, random: &mut Random) -> Option<Release> {
        let last = self.released.last()?;
        match random.below(24) {
            0 => Some(last.clone()),
            1 => Some(random.pick(&self.released)),
            2 => {
                // The one that the last has pushed out, if all released something.
                let of_house = |release: &&Release| release.house == last.house;
                let mut older = self.released.iter().rev().filter(of_house);
                older.nth(MOST_RELEASES).cloned()
            }
            3 => {
                // One that an offer since has made forgotten.
                let is_offered = |r: &&Release| self.offers.iter().any(|offer| offer.is_of(r));
                self.released.iter().rev().find(is_offered).cloned()
            }
            _ => None,
        }
    }

    /// An offer to come back to, at times: often the last.
    fn known_offer(&self, random: &mut Random) -> Option<Offer> {
        let last = self.offers.last()?;
        match random.below(24) {
            0..=2 => Some(last.clone()),
            3 | 4 => Some(random.pick(&self.offers)),
            _ => None,
        }
    }

    /// When a RELEASE is sent again: mostly at an edge of the time in which it is known, if that is to come.
    fn time_after(&self, random: &mut Random, release: &Release) -> u32 {
        let after = [0, 1, RESEND_TIME - 1, RESEND_TIME, RESEND_TIME + 1];
        let time = release.time.saturating_add(random.pick(&after));
        match random.below(4) {
            0 => self.clock,
            _ => time.max(self.clock),
        }
    }

    /// Mostly the clock or a little later; at times an edge of a period, or an earlier time.
    fn time(&self, random: &mut Random) -> u32 {
        match random.below(40) {
            0 => 0,
            1 => self.clock / 2,
            2 => self.clock.saturating_sub(1),
            3 | 4 => self.next_edge(random).unwrap_or(self.clock),
            5 if random.chance(40) => self.edge(random).unwrap_or(self.clock),
            6 if random.chance(10) => random.pick(&[LAST_TIME, LAST_TIME - 1, LAST_TIME - HORIZON]),
            7 => self
                .clock
                .saturating_add(random.pick(&[500, SKEW, DEFAULT_LEASE])),
            _ => self
                .clock
                .saturating_add(random.pick(&[0, 0, 0, 1, 2, 100])),
        }
    }

    /// The next start or end of a period, or the second before it.
    fn next_edge(&self, random: &mut Random) -> Option<u32> {
        let next = self
            .times
            .iter()
            .copied()
            .filter(|&time| time > self.clock)
            .min()?;
        Some(next - random.pick(&[0, 0, 1]))
    }

    /// A start or end of a period, or a second beside it; not long after the clock.
    fn edge(&self, random: &mut Random) -> Option<u32> {
        if self.times.is_empty() {
            return None;
        }
        let time = random.pick(&self.times);
        let time = match random.below(4) {
            0 => time.saturating_sub(1),
            1 => time.saturating_add(1),
            _ => time,
        };
        (time <= self.clock.saturating_add(LONGEST_LEASE)).then_some(time)
    }

    fn client(&self, random: &mut Random, house: Option<usize>) -> u32 {
        let house = house.unwrap_or_else(|| random.below(self.campus.houses.len()));
        let (low, high) = self.campus.houses[house];
        match random.below(40) {
            0 => low.wrapping_sub(1),
            1 => high.wrapping_add(1),
            2 => random.u32(),
            3..=20 => low,
            21..=30 => high,
            _ => low + (u64::from(random.u32()) % (u64::from(high - low) + 1)) as u32,
        }
    }

    /// A message, and the house that it is meant to come from.
    fn message(&mut self, random: &mut Random) -> (usize, Message) {
        let kind = random.pick(&[
            DISCOVER, DISCOVER, DISCOVER, REQUEST, REQUEST, REQUEST, REQUEST, REQUEST, RENEW,
            RENEW, RENEW, RELEASE, RELEASE, GETINFO, GETINFO,
        ]);
        let wants_known = if matches!(kind, RENEW | RELEASE) {
            85
        } else {
            12
        };
        let mut house = random.below(self.campus.houses.len());
        let mut ident = identifier(random);
        let mut transaction = random.pick(&[0, 1, 2, 3, 0x0102_0304, u32::MAX]);
        let mut kind = kind;
        if !self.known.is_empty() && random.chance(wants_known) {
            // Mostly a lease of the file; what was asked for since may not have been granted.
            let of_file = self.campus.leases.len();
            let known = if of_file > 0 && random.chance(60) {
                self.known[random.below(of_file)].clone()
            } else {
                random.pick(&self.known)
            };
            house = if random.chance(92) {
                known.house
            } else {
                house
            };
            ident = known.identifier;
            if random.chance(8) && ident.len() > 1 {
                ident = beside(random, &ident);
            }
            if random.chance(12) {
                // What the lease records: a resend, whatever its options are.
                (kind, transaction) = (known.kind, known.transaction);
            }
        }
        if matches!(kind, DISCOVER | REQUEST | RENEW)
            && !self.released.is_empty()
            && random.chance(8)
        {
            // What was released before.
            let release = random.pick(&self.released);
            (house, ident) = (usize::from(release.house) - 1, release.identifier);
        }
        let mut message = Message::new(kind, transaction, vec![builder::identifier(&ident)]);
        match kind {
            DISCOVER | REQUEST => self.ask(random, &mut message),
            RENEW => {
                let old = self.period_of(house, &ident);
                self.put_period(random, &mut message, old);
            }
            GETINFO => {
                if random.chance(85) {
                    let codes = (0..random.between(1, 4))
                        .flat_map(|_| random.pick(&[9_u16, 9, 11, 1, 300, 0x0900]).to_be_bytes());
                    message.put(5, codes.collect::<Vec<u8>>());
                }
                if random.chance(70) {
                    let language = names::language(random, self.campus, house);
                    message.options.push(requested_language(&language));
                }
            }
            _ => {}
        }
        if kind == REQUEST && random.chance(25) {
            message.put(2, self.server(random));
        }
        if random.chance(15) {
            let value = message::features(random, 0);
            message.put(12, value);
        }
        if random.chance(6) {
            message.put(random.pick(&[17, 300, 65_535]), vec![0; random.below(9)]);
        }
        if random.chance(4) {
            let code = random.between(1, 16) as u16;
            if !message.has(code) {
                let value = message::fitting_value(random, code);
                message.put(code, value);
            }
        }
        random.shuffle(&mut message.options);
        self.keep(house, &message);
        (house, message)
    }

    /// Keeps in mind what a message may have brought about.
    fn keep(&mut self, house: usize, message: &Message) {
        let (kind, transaction) = (message.kind, message.transaction);
        let octets = message.octets();
        let Some(identifier) = value_of(&octets, 3).map(<[u8]>::to_vec) else {
            return;
        };
        match kind {
            RELEASE => self.released.push(Release {
                house: house as u8 + 1,
                identifier,
                transaction,
                time: self.clock,
            }),
            REQUEST | RENEW => self.known.push(Known {
                house,
                identifier,
                kind,
                transaction,
            }),
            DISCOVER => {
                let is_held = |offer: &Offer| offer.is_held(house, &identifier, self.clock);
                let offer = Offer::of_discover(house, message, self.clock);
                let offer = offer.filter(|_| !self.offers.iter().any(is_held));
                self.times.extend(offer.as_ref().map(|offer| offer.lapse));
                self.offers.extend(offer);
            }
            _ => {}
        }
    }

    /// Server Identifier: mostly ours.
    fn server(&self, random: &mut Random) -> Vec<u8> {
        let (family, address): (u16, u32) = match random.below(12) {
            0 => (1, self.campus.server.wrapping_add(1)),
            1 => (2, self.campus.server),
            2 => return [vec![0, 2], vec![0; 16]].concat(),
            3 => {
                return [
                    vec![0, 1],
                    self.campus.server.to_be_bytes().to_vec(),
                    vec![0; 12],
                ]
                .concat()
            }
            _ => (1, self.campus.server),
        };
        [
            family.to_be_bytes().to_vec(),
            address.to_be_bytes().to_vec(),
        ]
        .concat()
    }

    /// Scope, Number and period of a DISCOVER or REQUEST.
    fn ask(&mut self, random: &mut Random, message: &mut Message) {
        let scope = random.pick(&self.campus.scopes);
        if !random.chance(1) {
            let beside = if random.chance(3) {
                random.pick(&[1, u32::MAX, 1 << 8])
            } else {
                0
            };
            message.put_u32(4, scope.lowest.wrapping_add(beside));
        }
        if random.chance(75) {
            let size = u16::from(scope.size);
            let (share, limit) = random.pick(&scope.parts);
            let desired = match random.below(12) {
                0 => size,
                1 => size + 1,
                2 => u16::from(share),
                3 => u16::from(limit),
                4 => u16::from(limit) + 1,
                5 => random.pick(&[256, 258, 512, 60_000, 65_535]),
                _ => random.pick(&[1, 1, 2, 2, 3, 4]),
            };
            let least = match random.below(20) {
                0 => 0,
                1..=3 => desired,
                4 => desired.saturating_sub(1),
                5 if random.chance(30) => desired.saturating_add(1),
                _ => 1.min(desired),
            };
            message.options.push(number(least, desired));
        }
        if random.chance(5) {
            let value = message::fitting_value(random, 10);
            message.put(10, value);
        }
        self.put_period(random, message, None);
    }

    /// Start and length of a lease of the file.
    fn period_of(&self, house: usize, identifier: &[u8]) -> Option<(u32, u32)> {
        let mut leases = self.campus.leases.iter();
        let is_it = |lease: &&Lease| {
            usize::from(lease.house) == house + 1 && lease.identifier == identifier
        };
        let lease = leases.find(is_it)?;
        Some((lease.start, lease.end - lease.start))
    }

    /// Lease Time, Start Time, Current Time, Minimum Lease and Maximum Start; a RENEW's old start and length stand for what it doesn't say.
    fn put_period(&mut self, random: &mut Random, message: &mut Message, old: Option<(u32, u32)>) {
        let clock = self.clock;
        let mut start = clock;
        if random.chance(35) {
            start = match random.below(12) {
                0 => 0,
                1 => clock.saturating_sub(1),
                2 => clock.saturating_add(HORIZON),
                3 => clock.saturating_add(HORIZON + 1),
                4 => LAST_TIME - random.pick(&[0, 1, DEFAULT_LEASE, DEFAULT_LEASE + 1]),
                5 => clock,
                6 => clock.saturating_add(1),
                _ => self.edge(random).unwrap_or(clock.saturating_add(500)),
            };
            message.put_u32(6, start);
        }
        let mut length = DEFAULT_LEASE;
        if random.chance(60) {
            let start = start.max(clock);
            length = match random.below(20) {
                0 => 0,
                1 => 1,
                2 => LONGEST_LEASE,
                3 => LONGEST_LEASE + 1,
                4 => LAST_TIME,
                5 => LAST_TIME - start,
                6 => (LAST_TIME - start).saturating_add(1),
                7..=10 => self
                    .edge(random)
                    .map_or(1_000, |edge| edge.saturating_sub(start)),
                11 => random.pick(&[HOLD_TIME - 1, HOLD_TIME, HOLD_TIME, HOLD_TIME + 1]),
                _ => random.pick(&[2, 100, 1_000, DEFAULT_LEASE, 86_400]),
            };
            message.put_u32(1, length);
        }
        if random.chance(20) {
            let wished = if message.has(1) {
                length
            } else {
                old.map_or(DEFAULT_LEASE, |old| old.1)
            };
            message.put_u32(14, bounds::minimum(random, wished));
        }
        if random.chance(20) {
            let sent = message.has(6).then_some(start);
            let start = sent.or(old.map(|old| old.0)).unwrap_or(clock);
            message.put_u32(15, bounds::latest(random, clock, sent, start));
        }
        let needs_current = message.has(6) || message.has(15);
        if random.chance(if needs_current { 93 } else { 40 }) {
            let apart = random.pick(&[
                0,
                0,
                0,
                0,
                0,
                0,
                0,
                0,
                0,
                1,
                900,
                SKEW,
                SKEW,
                SKEW,
                SKEW + 1,
            ]);
            let time = if random.chance(50) {
                clock.saturating_add(apart)
            } else {
                clock.saturating_sub(apart)
            };
            message.put_u32(
                11,
                if random.chance(1) {
                    random.pick(&[0, LAST_TIME])
                } else {
                    time
                },
            );
        }
        let start = start.max(clock);
        self.times
            .extend([start, start.saturating_add(length.min(LONGEST_LEASE))]);
    }
}
