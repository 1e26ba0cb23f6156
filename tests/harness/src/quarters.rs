//! Quarters of campus files, given to the program `report` and to the second program's. And what a default run has to meet of them.

use crate::campus::{lend, sound, HIGHEST_POOL};
use crate::compare::{caught, Difference};
use crate::days::differing;
use crate::names;
use crate::programs::Program;
use crate::random::Random;
use builder::{Campus, Lease, Scope};
use std::fs;
use std::io;
use std::net::Ipv4Addr;
use std::path::{Path, PathBuf};

/// The most files of a report.
const MOST_FILES: usize = 1_000;
/// A quarter of that many comes once in so many.
const LONG_ONE: u64 = 400;

/// A quarter: its files, of which one may not be there, and what each was made of.
pub struct Quarter {
    pub files: Vec<Option<Vec<u8>>>,
    campuses: Vec<Campus>,
    /// What was meant to be refused, with the number and the file's place.
    refused: Option<(&'static str, u8, usize)>,
}

/// What makes a file one that doesn't go with the first: it stays sound. `None` where it can't be done.
type Change = (&'static str, fn(&mut Random, &mut Campus) -> Option<()>);
const CHANGES: [Change; 9] = [
    ("another server address", |_, c| {
        c.server ^= 1;
        Some(())
    }),
    ("another client address", |_, c| {
        let house = c.houses.iter_mut().find(|house| house.0 < house.1)?;
        house.1 -= 1;
        Some(())
    }),
    ("houses in another order", |_, c| {
        (c.houses.len() > 1).then(|| c.houses.swap(0, 1))
    }),
    ("another pool address", |_, c| {
        c.scopes[0].lowest ^= 0x0100_0000;
        Some(())
    }),
    ("another size", |_, c| {
        // One more address, where no other pool has it.
        let lowest: Vec<u32> = c.scopes.iter().map(|scope| scope.lowest).collect();
        let fits = |scope: &&mut Scope| {
            let next = scope.lowest + u32::from(scope.size);
            scope.size < 64 && next <= HIGHEST_POOL && !lowest.contains(&next)
        };
        c.scopes.iter_mut().find(fits)?.size += 1;
        Some(())
    }),
    ("another TTL", |_, c| {
        c.scopes[0].ttl ^= 64;
        (c.scopes[0].ttl > 0).then_some(())
    }),
    ("another share", |_, c| {
        let mut parts = c.scopes.iter_mut().flat_map(|scope| &mut scope.parts);
        parts.find(|part| part.0 > 0)?.0 -= 1;
        Some(())
    }),
    ("another limit", |_, c| {
        let mut parts = c.scopes.iter_mut().flat_map(|scope| &mut scope.parts);
        parts.find(|part| part.0 < part.1)?.1 -= 1;
        Some(())
    }),
    ("a scope fewer", |_, c| {
        (c.scopes.len() > 1).then(|| c.scopes.truncate(c.scopes.len() - 1))
    }),
];
const NO_FILE: &str = "no file";
const TOO_MANY: &str = "1,001 files";
const MISSING: &str = "a file that can't be opened";
const MALFORMED: &str = "a file of wrong form";
const UNSOUND: &str = "a file that is unsound";
const EQUAL_CLOCK: &str = "the clock of the file before";
const EARLIER_CLOCK: &str = "an earlier clock than the file before, but later than the first";
const FIRST_EARLIER: &str = "an earlier clock than the first";

/// Of what isn't refused.
const ONE_FILE: &str = "one file";
const ALL_FILES: &str = "1,000 files";
const OTHER_NAMES: &str = "names that differ";
const STARTED: &str = "a lease that has started before its file's clock";
const ENDS: &str = "a lease that ends before the next clock";
const INSIDE: &str = "a lease that starts and ends between the clocks";
const LATER: &str = "a lease that starts at the next clock or later";
const HELD: &str = "a hold that isn't counted";
const TOTAL_0: &str = "a total of 0";
const WIDE: &str = "a total above 32 bits";
const ALL_OF_IT: &str = "a total that is the limit times the time";

/// What has to occur in a default run in which the program is there.
pub fn counted() -> Vec<String> {
    let refused = [
        NO_FILE,
        TOO_MANY,
        MISSING,
        MALFORMED,
        UNSOUND,
        EQUAL_CLOCK,
        EARLIER_CLOCK,
        FIRST_EARLIER,
    ];
    let changed = CHANGES.iter().map(|change| change.0);
    let refused = refused.into_iter().chain(changed);
    let others = [
        ONE_FILE,
        ALL_FILES,
        OTHER_NAMES,
        STARTED,
        ENDS,
        INSIDE,
        LATER,
        HELD,
        TOTAL_0,
        WIDE,
        ALL_OF_IT,
    ];
    let refused = refused.map(|name| format!("refused for {name}"));
    refused.chain(others.map(String::from)).collect()
}

impl Quarter {
    /// The quarter of a number. Half of them are refused, each refusal in its turn.
    pub fn new(seed: &str, number: u64) -> Quarter {
        let mut random = Random::new(&format!("{seed} quarter"), number);
        let count = match number % LONG_ONE {
            100 => MOST_FILES,
            _ => random.pick(&[1, 2, 2, 3, 3, 4, 6, 14]),
        };
        let campuses = campuses(&mut random, count);
        let mut quarter = Quarter {
            files: Vec::new(),
            campuses,
            refused: None,
        };
        quarter.lay_out();
        if number % 2 == 1 {
            quarter.spoil(&mut random, number as usize / 2);
        }
        quarter
    }

    fn lay_out(&mut self) {
        let files = self.campuses.iter().map(|campus| Some(campus.octets()));
        self.files = files.collect();
    }

    fn spoil(&mut self, random: &mut Random, turn: usize) {
        let (place, last) = (random.below(self.files.len()), self.files.len() - 1);
        let turn = turn % (CHANGES.len() + 8);
        if let Some((name, change)) = CHANGES.get(turn) {
            let place = place.max(1).min(last);
            let mut changed = self.campuses[place].clone();
            // A lease could stand in the way of a change.
            (changed.leases, changed.holds) = (Vec::new(), Vec::new());
            if place > 0 && change(random, &mut changed).is_some() {
                self.campuses[place] = changed;
                self.lay_out();
                self.refused = Some((name, 26, place + 1));
            }
            return;
        }
        self.refused = match turn - CHANGES.len() {
            0 => {
                self.files.clear();
                Some((NO_FILE, 26, 0))
            }
            1 => {
                self.files = vec![self.files[0].clone(); MOST_FILES + 1];
                Some((TOO_MANY, 26, 0))
            }
            2 => {
                self.files[place] = None;
                Some((MISSING, 20, place + 1))
            }
            3 => {
                let file = self.files[place].iter_mut();
                file.for_each(|file| file.truncate(file.len() - 1));
                Some((MALFORMED, 20, place + 1))
            }
            4 => {
                self.campuses[place].scopes[0].ttl = 0;
                self.lay_out();
                Some((UNSOUND, 21, place + 1))
            }
            clock => self.other_clock(clock - 5, last),
        };
    }

    /// A clock that isn't later than the one before.
    fn other_clock(&mut self, way: usize, place: usize) -> Option<(&'static str, u8, usize)> {
        let before = self.campuses[place.checked_sub(1)?].clock;
        let first = self.campuses[0].clock;
        let (name, clock) = match way {
            0 => (EQUAL_CLOCK, before),
            1 => (EARLIER_CLOCK, before.checked_sub(1).filter(|c| *c > first)?),
            _ => (FIRST_EARLIER, first.checked_sub(1)?),
        };
        let campus = &mut self.campuses[place];
        (campus.clock, campus.holds) = (clock, Vec::new());
        campus.releases.retain(|release| release.time <= clock);
        self.lay_out();
        Some((name, 26, place + 1))
    }

    /// Writes the files into a folder of their own, and gives their names in order.
    pub fn write(&self, folder: &Path) -> io::Result<Vec<PathBuf>> {
        // One that was there before may have had more files.
        let _ = fs::remove_dir_all(folder);
        fs::create_dir_all(folder)?;
        let is_too_many = self.files.len() > MOST_FILES;
        let name = |place: usize| folder.join(format!("{:03}.bin", place + 1));
        for (place, file) in self.files.iter().enumerate() {
            // None of too many is opened.
            if let (Some(file), false) = (file, is_too_many) {
                fs::write(name(place), file)?;
            }
        }
        Ok((0..self.files.len()).map(name).collect())
    }

    /// Compares what both print, and gives what is to be counted.
    pub fn compare(&self, report: &Program, names: &[PathBuf]) -> Result<Vec<String>, Difference> {
        let open = |place: usize| self.files[place].clone();
        let due = caught(|| second::report::report_text(self.files.len(), open))?;
        let printed = report.run(names, &[])?;
        if printed != due.as_bytes() {
            return Err(differing(&String::from_utf8_lossy(&printed), &due));
        }
        self.why(&due)
    }

    /// The text that is due by what the quarter was made of.
    fn why(&self, text: &str) -> Result<Vec<String>, Difference> {
        if let Some((name, number, place)) = self.refused {
            let due = format!("refused {number} {place}\n");
            let as_due = (text == due).then(|| vec![format!("refused for {name}")]);
            return as_due.ok_or(format!("{name}: {due} is due, not {text}"));
        }
        let mut due = "scope house total\n".to_string();
        let mut why = self.pairs_why();
        for (scope, number) in self.campuses[0].scopes.iter().zip(1..) {
            for ((_, limit), house) in scope.parts.iter().zip(1..) {
                let total = self.total(house, number);
                let most = u64::from(*limit) * self.time();
                if total > most {
                    return Err(format!("a total of {total} is above {most}"));
                }
                due += &format!("{} {house} {total}\n", Ipv4Addr::from(scope.lowest));
                let seen = [
                    (TOTAL_0, total == 0),
                    (WIDE, total > u64::from(u32::MAX)),
                    (ALL_OF_IT, total == most && total > 0),
                ];
                why.extend(seen.into_iter().filter(|row| row.1).map(|row| row.0));
            }
        }
        let why = why.into_iter().map(String::from).collect();
        (text == due)
            .then_some(why)
            .ok_or(format!("{due} is due, not {text}"))
    }

    /// From the first clock to the last.
    fn time(&self) -> u64 {
        let clocks = self.campuses.iter().map(|campus| campus.clock);
        let (first, last) = (clocks.clone().min(), clocks.max());
        u64::from(last.unwrap_or(0) - first.unwrap_or(0))
    }

    /// Each lease with its file's clock and the next one's.
    fn leases(&self) -> impl Iterator<Item = (&Lease, u32, u32)> {
        self.campuses.windows(2).flat_map(|two| {
            let (from, to) = (two[0].clock, two[1].clock);
            two[0].leases.iter().map(move |lease| (lease, from, to))
        })
    }

    /// Up to the end, less what is before the start, of what lies between the clocks.
    fn total(&self, house: u8, scope: u8) -> u64 {
        let of_it = |lease: &Lease| (lease.house, lease.scope) == (house, scope);
        let leases = self.leases().filter(|row| of_it(row.0));
        let seconds = leases.map(|(lease, from, to)| {
            let until = |time: u32| u64::from(time.clamp(from, to) - from);
            (until(lease.end) - until(lease.start)) * lease.offsets.len() as u64
        });
        seconds.sum()
    }

    fn pairs_why(&self) -> Vec<&'static str> {
        let any = |is_so: fn(&Lease, u32, u32) -> bool| {
            let mut leases = self.leases();
            leases.any(|(lease, from, to)| is_so(lease, from, to))
        };
        let all_but_last = &self.campuses[..self.campuses.len() - 1];
        let names = self.campuses.iter().map(Campus::names);
        let seen = [
            (ONE_FILE, self.files.len() == 1),
            (ALL_FILES, self.files.len() == MOST_FILES),
            (
                OTHER_NAMES,
                names.clone().any(|n| n != self.campuses[0].names()),
            ),
            (STARTED, any(|lease, from, _| lease.start < from)),
            (
                ENDS,
                any(|lease, from, to| lease.start <= from && lease.end < to),
            ),
            (
                INSIDE,
                any(|lease, from, to| lease.start > from && lease.end < to),
            ),
            (LATER, any(|lease, _, to| lease.start >= to)),
            (
                HELD,
                all_but_last.iter().any(|campus| !campus.holds.is_empty()),
            ),
        ];
        seen.into_iter()
            .filter(|row| row.1)
            .map(|row| row.0)
            .collect()
    }
}

/// Campuses of the same settings, each some time after the one before, with other leases and holds, and at times other names.
fn campuses(random: &mut Random, count: usize) -> Vec<Campus> {
    let mut campus = sound(random);
    let mut campuses = vec![];
    while campuses.len() < count {
        campuses.push(campus.clone());
        let long = [1, 1, 30, 1_000, 3_600, 604_800, 3_000_000_000];
        let most = (u32::MAX - campus.clock) / 2;
        let step = match count {
            MOST_FILES => 1,
            _ => random.pick(&long).min(most.max(1)),
        };
        let Some(clock) = campus.clock.checked_add(step) else {
            // There is no later clock.
            break;
        };
        campus.clock = clock;
        (campus.leases, campus.holds) = (Vec::new(), Vec::new());
        if random.chance(20) {
            let houses = campus.houses.len();
            let scopes = campus.scopes.iter_mut();
            scopes.for_each(|scope| scope.names = names::lists(random, houses));
        }
        campus.releases.clear();
        lend(&mut campus, random);
        campus.sort();
    }
    campuses
}
