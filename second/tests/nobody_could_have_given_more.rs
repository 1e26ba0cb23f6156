//! Nobody could have given more (W-214): for random sound books and REQUESTs that get to the grant rule, in scopes of up
//! to six addresses, every choice of addresses is tried.
//!
//! SECOND_BOOKS and SECOND_SEED say how many books, and from which seed; 10,000 from 214 where they aren't set.

mod common;

use common::*;
use second::choices::{better_choice, Better, Wish};
use second::grant::grant;
use second::holds::HOLD_TIME;
use second::period::Period;
use second::{serve, sound, Book, Hold, House, Lease, Quota, Scope, ScopeNames};
use std::collections::BTreeMap;

/// A number from the environment.
fn set(name: &str, default: u64) -> u64 {
    let word = std::env::var(name).ok();
    word.map_or(default, |word| word.parse().expect("a whole number"))
}

/// Settings of one to three houses and one or two scopes of up to six addresses, without leases.
fn settings(random: &mut Random) -> Book {
    let mut book = specimen_book();
    let houses = 1 + random.below(3);
    let house = |n: usize| House {
        lowest: n as u32,
        highest: n as u32,
    };
    book.houses = (0..houses).map(house).collect();
    let scopes = 1 + random.below(2);
    book.scopes = (0..scopes)
        .map(|n| {
            let size = 1 + random.below(6);
            let mut left = size;
            let quotas = (0..houses).map(|_| {
                let share = random.below(left.min(3) + 1);
                left -= share;
                let limit = share + random.below(size - share + 1);
                Quota {
                    share: share as u8,
                    limit: if random.chance(40) { size } else { limit } as u8,
                }
            });
            Scope {
                lowest: 0xEFC0_0000 + (n as u32) * 0x100,
                quotas: quotas.collect(),
                size: size as u8,
                ttl: 1,
            }
        })
        .collect();
    book.names = vec![ScopeNames::none(houses); scopes];
    book
}

/// An identifier of a few.
fn any_identifier(random: &mut Random) -> Vec<u8> {
    vec![b'a', random.below(20) as u8]
}

/// A lease that may or may not fit.
fn any_lease(random: &mut Random, book: &Book) -> Lease {
    let house = 1 + random.below(book.houses.len()) as u8;
    let scope = 1 + random.below(book.scopes.len()) as u8;
    let start = 990 + random.below(8) as u32 * 10;
    let end = start + random.pick(&[10, 20, 30, 60]);
    let few = random.pick(&[15, 30, 30, 60]);
    let offsets: Vec<u8> = book.offsets(scope).filter(|_| random.chance(few)).collect();
    let identifier = any_identifier(random);
    Lease {
        scope,
        ..lease(house, &identifier, start, end, &offsets)
    }
}

/// A sound book: what fits of some leases, holds and releases.
fn any_book(random: &mut Random) -> Book {
    let mut book = settings(random);
    for _ in 0..random.pick(&[0, 2, 6, 12]) {
        let mut with_it = book.clone();
        let lease = any_lease(random, &book);
        match random.below(10) {
            0 => with_it
                .releases
                .push(release(lease.house, &lease.identifier, 1, 1000)),
            1 | 2 => {
                let lapse = lease.end.min(1000 + HOLD_TIME as u32);
                with_it.insert_hold(Hold {
                    lapse,
                    lease: Lease {
                        message_type: 1,
                        ..lease
                    },
                });
            }
            _ => with_it.insert(lease),
        }
        with_it.releases.sort_by_key(|release| release.house);
        if sound(&with_it) {
            book = with_it;
        }
    }
    book
}

/// A REQUEST at some time, from the house of that number.
struct Request {
    time: u32,
    wish: Wish,
    /// Whether Start Time is sent.
    has_start: bool,
}

impl Request {
    fn new(random: &mut Random, book: &Book) -> Request {
        let time = 1000 + random.pick(&[0, 0, 0, 10, 15, 30]);
        let has_start = random.chance(60);
        let later = random.below(7) as u32 * 10;
        let start = time + if has_start { later } else { 0 };
        let scope = 1 + random.below(book.scopes.len()) as u8;
        let size = u16::from(book.scopes[usize::from(scope) - 1].size);
        let desired = random.pick(&[1, 1, 2, 3, size, size + 1, 65_535]);
        let least = 1 + random.below(usize::from(desired.min(size + 1))) as u16;
        let mut identifier = any_identifier(random);
        let mut house = 1 + random.below(book.houses.len()) as u8;
        if let (Some(hold), true) = (book.holds.last(), random.chance(20)) {
            // One that has a hold, be it in this scope or another.
            (house, identifier) = (hold.lease.house, hold.lease.identifier.clone());
        }
        let wish = Wish {
            house,
            scope,
            identifier,
            transaction: 9,
            start,
            end: start + random.pick(&[1, 10, 20, 60]),
            least: if random.chance(70) { 1 } else { least },
            desired,
        };
        Request {
            time,
            wish,
            has_start,
        }
    }

    fn octets(&self, book: &Book) -> Vec<u8> {
        let wish = &self.wish;
        let lowest = book.scopes[usize::from(wish.scope) - 1]
            .lowest
            .to_be_bytes();
        let number = u32::from(wish.least) << 16 | u32::from(wish.desired);
        let (number, length) = (number.to_be_bytes(), (wish.end - wish.start).to_be_bytes());
        let (start, current) = (wish.start.to_be_bytes(), self.time.to_be_bytes());
        let mut options: Vec<(u16, &[u8])> = vec![
            (1, &length),
            (3, &wish.identifier),
            (4, &lowest),
            (7, &number),
            (11, &current),
        ];
        if self.has_start {
            options.push((6, &start));
        }
        datagram(3, wish.transaction, &options)
    }

    /// The sound book that it brings to the grant rule, if it gets there: its call has set the clock and dropped what
    /// has ended, and the hold on its identifier too if that is in another scope; the identifier isn't leased, nor held
    /// in its scope, and a record is left.
    fn brings(&self, book: &Book) -> Option<Book> {
        let Wish {
            house,
            scope,
            identifier,
            ..
        } = &self.wish;
        let mut book = book.clone();
        book.advance(self.time);
        let is_own = |lease: &Lease| lease.house == *house && lease.identifier == *identifier;
        book.holds
            .retain(|hold| !is_own(&hold.lease) || hold.lease.scope == *scope);
        let is_known = book.records().any(is_own);
        (!is_known && book.records_of(*house) < 16).then_some(book)
    }

    /// The addresses that the server grants, or none where it gives error 0.
    fn given(&self, book: &Book) -> Option<Vec<u8>> {
        let (mut after, mut room) = (book.clone(), [0; 512]);
        let client = book.houses[usize::from(self.wish.house) - 1].lowest;
        let octets = self.octets(book);
        let (outcome, _, _, length) = serve(&mut after, &octets, client, self.time, &mut room);
        assert_eq!(outcome, 0);
        let is_it = |lease: &&Lease| {
            (lease.house, &lease.identifier) == (self.wish.house, &self.wish.identifier)
        };
        let given = after.leases.iter().find(is_it);
        match given {
            Some(lease) => {
                assert_eq!((lease.start, lease.end), (self.wish.start, self.wish.end));
                assert_eq!(room[1], 5);
            }
            None => assert_eq!(error_of(&room[..length]), Some(0)),
        }
        given.map(|lease| lease.offsets.clone())
    }
}

/// Random books and REQUESTs that get to the grant rule: the book it brings there, and the REQUEST with the book before.
fn each(books: u64, seed: u64, mut see: impl FnMut(&Book, &Request, &Book)) {
    for number in 0..books {
        let mut random = Random::new(seed.wrapping_mul(0x1_0000_0001).wrapping_add(number << 20));
        loop {
            let book = any_book(&mut random);
            let request = Request::new(&mut random, &book);
            if let Some(brought) = request.brings(&book) {
                see(&brought, &request, &book);
                break;
            }
        }
    }
}

/// What the grants came to, by name.
#[derive(Default)]
struct Seen(BTreeMap<&'static str, u64>);

impl Seen {
    fn count(&mut self, name: &'static str, occurs: bool) {
        *self.0.entry(name).or_default() += u64::from(occurs);
    }

    fn see(&mut self, brought: &Book, request: &Request, book: &Book, given: Option<&[u8]>) {
        let wish = &request.wish;
        let size = brought.offsets(wish.scope).count();
        let desired = usize::from(wish.desired).min(size);
        let held = brought.addresses_of(wish.house, wish.scope).len();
        let Some(given) = given else {
            self.count("error 0", true);
            self.count("error 0, least 1", wish.least == 1);
            return;
        };
        let new = wish.new_addresses(brought, given);
        self.count("granted", true);
        self.count("all that is desired", given.len() == desired);
        self.count("less than is desired", given.len() < desired);
        self.count("own addresses alone", new == 0);
        self.count("own and new ones", new > 0 && new < given.len());
        self.count(
            "new ones beside own that are taken",
            new > 0 && held > given.len() - new,
        );
        let limit =
            brought.scopes[usize::from(wish.scope) - 1].quotas[usize::from(wish.house) - 1].limit;
        let is_at_limit = held + new == usize::from(limit);
        self.count("less by the limit", given.len() < desired && is_at_limit);
        self.count(
            "less by others' shares",
            given.len() < desired && !is_at_limit,
        );
        let is_dropped = book.holds.iter().any(|hold| {
            let lease = &hold.lease;
            hold.lapse > request.time
                && lease.identifier == wish.identifier
                && lease.house == wish.house
        });
        self.count("after a hold in another scope is dropped", is_dropped);
        self.count(
            "a release forgotten",
            brought
                .releases
                .iter()
                .any(|release| release.is_of(wish.house, &wish.identifier)),
        );
    }
}

#[test]
fn no_choice_has_more_nor_fewer_new_ones_nor_enough_where_there_is_error_0() {
    let (books, seed) = (set("SECOND_BOOKS", 10_000), set("SECOND_SEED", 214));
    let mut seen = Seen::default();
    each(books, seed, |brought, request, book| {
        let given = request.given(book);
        let better = better_choice(brought, &request.wish, given.as_deref());
        assert_eq!(better, None, "{brought:?} {:?} {given:?}", request.wish);
        // The grant is a choice itself.
        if let Some(given) = &given {
            assert!(sound(&request.wish.recorded(brought, given)));
        }
        seen.see(brought, request, book, given.as_deref());
    });
    for (name, count) in &seen.0 {
        eprintln!("{count:8}  {name}");
    }
    eprintln!("{books} books from seed {seed}: nobody could have given more");
    if books >= 10_000 {
        let rare: Vec<_> = seen.0.iter().filter(|(_, count)| **count < 20).collect();
        assert!(rare.is_empty() && seen.0.len() == 12, "too rare: {rare:?}");
    }
}

#[test]
fn the_same_seed_gives_the_same_books() {
    let mut runs = [vec![], vec![], vec![]];
    for (run, seed) in runs.iter_mut().zip([1, 1, 2]) {
        each(30, seed, |brought, request, _| {
            run.push((brought.clone(), request.wish.clone()));
        });
    }
    assert_eq!(runs[0], runs[1]);
    assert!(runs[0]
        .iter()
        .zip(&runs[2])
        .all(|(one, other)| one != other));
}

/// A grant rule that is wrong, by the right one and the book.
type Wrong = fn(&Book, &Wish, &Period, Option<Vec<u8>>) -> Option<Vec<u8>>;

/// Wrong rules, and whether a choice is better by which of the three sentences.
const WRONG: [(&str, Wrong, fn(&Better) -> bool); 6] = [
    (
        "one address too few",
        |_, wish, _, given| {
            let mut given = given?;
            given.pop();
            (given.len() >= usize::from(wish.least)).then_some(given)
        },
        |better| matches!(better, Better::More(_)),
    ),
    (
        "all that is desired or nothing",
        |_, wish, _, given| given.filter(|given| given.len() == usize::from(wish.desired)),
        |better| matches!(better, Better::Enough(_)),
    ),
    (
        "least isn't enough",
        |_, wish, _, given| given.filter(|given| given.len() > usize::from(wish.least)),
        |better| matches!(better, Better::Enough(_)),
    ),
    (
        "new addresses before the house's own",
        |book, wish, _, given| {
            let given = given?;
            let free = book.nobodys_addresses(wish.scope);
            let own = given
                .iter()
                .copied()
                .filter(|offset| !free.contains(offset));
            let mut other: Vec<u8> = free.iter().copied().chain(own).collect();
            other.truncate(given.len());
            other.sort_unstable();
            Some(other)
        },
        |better| matches!(better, Better::FewerNew(_)),
    ),
    (
        "own addresses are taken for new",
        |book, wish, period, _| {
            // As if the house had nothing that is free then, and so up to the limit alone.
            let quota =
                &book.scopes[usize::from(wish.scope) - 1].quotas[usize::from(wish.house) - 1];
            let held = book.addresses_of(wish.house, wish.scope).len();
            let most = usize::from(quota.limit).saturating_sub(held);
            let mut given = grant(book, wish.house, wish.scope, period, 1, wish.desired)?;
            given.truncate(most);
            (given.len() >= usize::from(wish.least)).then_some(given)
        },
        |better| matches!(better, Better::More(_)),
    ),
    (
        "touching periods are taken to overlap",
        |book, wish, period, _| {
            let wider = Period {
                start: period.start - 1,
                end: period.end + 1,
            };
            grant(
                book,
                wish.house,
                wish.scope,
                &wider,
                wish.least,
                wish.desired,
            )
        },
        |_| true,
    ),
];

#[test]
fn a_wrong_grant_rule_is_found() {
    let mut found = [0; WRONG.len()];
    each(400, 1, |book, request, before| {
        let wish = &request.wish;
        let period = Period {
            start: wish.start.into(),
            end: wish.end.into(),
        };
        let right = request.given(before);
        for ((_, wrong, is_so), found) in WRONG.iter().zip(&mut found) {
            let given = wrong(book, wish, &period, right.clone());
            let better = better_choice(book, wish, given.as_deref());
            // The wrong rule's choice is never better than the right one's.
            assert!(given.is_none() || right.is_some());
            *found += u64::from(better.as_ref().is_some_and(is_so));
        }
    });
    for ((name, ..), found) in WRONG.iter().zip(found) {
        assert!(found > 0, "{name} isn't found");
    }
}

#[test]
fn a_choice_is_better_by_more_by_fewer_new_ones_or_at_all() {
    // House 1 (limit 3, share 2 of 4) has .1 from 2000 on; house 2's share is 1.
    let mut book = specimen_book();
    book.leases = vec![lease(1, b"aa", 2000, 3000, &[1])];
    let wish = |least, desired| Wish {
        house: 1,
        scope: 1,
        identifier: b"bb".to_vec(),
        transaction: 1,
        start: 1000,
        end: 2000,
        least,
        desired,
    };
    let better =
        |least, desired, given: Option<&[u8]>| better_choice(&book, &wish(least, desired), given);
    // The grant rule gives .0, .1 and .2 of four desired.
    assert_eq!(better(1, 4, Some(&[0, 1, 2])), None);
    assert_eq!(
        better(1, 4, Some(&[0, 1])),
        Some(Better::More(vec![0, 1, 2]))
    );
    assert_eq!(better(1, 2, Some(&[0, 1])), None);
    assert_eq!(
        better(1, 2, Some(&[0, 2])),
        Some(Better::FewerNew(vec![0, 1]))
    );
    assert_eq!(better(1, 1, Some(&[3])), Some(Better::FewerNew(vec![1])));
    assert_eq!(better(3, 4, None), Some(Better::Enough(vec![0, 1, 2])));
    assert_eq!(better(4, 4, None), None);
    // Which of the nobody's is no matter.
    assert_eq!(better(1, 2, Some(&[1, 3])), None);
}
