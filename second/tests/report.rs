//! Address-seconds for the quarter (W-213): what the leases of each file cover up to the next one's clock, and the
//! refusals.

mod common;

use common::*;
use second::file::{file_of, LONGEST_FILE};
use second::report::report_text;
use second::{sound, Book, House, Lease, Name, Quota, Scope, ScopeNames};
use std::fs;
use std::process::Command;

/// The report of these files.
fn report(files: &[Vec<u8>]) -> String {
    report_text(files.len(), |place| Some(files[place].clone()))
}

/// The report of these books.
fn of_books(books: &[Book]) -> String {
    let files: Vec<Vec<u8>> = books.iter().map(file_of).collect();
    report(&files)
}

/// The specimens' book at a clock, with these leases.
fn at(clock: u32, leases: &[Lease]) -> Book {
    let mut book = specimen_book();
    book.clock = clock;
    book.leases = leases.to_vec();
    assert!(sound(&book));
    book
}

/// The totals of houses 1 and 2 in the specimens' scope.
fn totals(books: &[Book]) -> (u64, u64) {
    let text = of_books(books);
    let lines: Vec<&str> = text.lines().collect();
    assert_eq!((lines[0], lines.len()), ("scope house total", 3), "{text}");
    let total = |line: &str, front: &str| {
        let rest = line.strip_prefix(front).expect("address and house");
        rest.parse().expect("a total")
    };
    (
        total(lines[1], "239.192.0.0 1 "),
        total(lines[2], "239.192.0.0 2 "),
    )
}

/// The total of house 1 from clock 1000 to 2000, by a lease of that period.
fn of_lease(start: u32, end: u32, offsets: &[u8]) -> u64 {
    let book = at(1000, &[lease(1, b"aa", start, end, offsets)]);
    let (one, two) = totals(&[book, at(2000, &[])]);
    assert_eq!(two, 0);
    one
}

#[test]
fn a_lease_counts_from_the_clock_to_the_next_and_no_further() {
    assert_eq!(of_lease(1000, 2000, &[0]), 1000);
    assert_eq!(of_lease(500, 3000, &[0]), 1000);
    assert_eq!(of_lease(0, u32::MAX, &[0]), 1000);
    // It starts later, or ends sooner, or both.
    assert_eq!(of_lease(1001, 2000, &[0]), 999);
    assert_eq!(of_lease(1000, 1999, &[0]), 999);
    assert_eq!(of_lease(1500, 1501, &[0]), 1);
    assert_eq!(of_lease(999, 1001, &[0]), 1);
    assert_eq!(of_lease(1999, 5000, &[0]), 1);
    // It starts at the next clock, or after it.
    assert_eq!(of_lease(2000, 3000, &[0]), 0);
    assert_eq!(of_lease(2500, 3000, &[0]), 0);
}

#[test]
fn each_address_counts() {
    assert_eq!(of_lease(1500, 3000, &[0, 1, 3]), 1500);
}

#[test]
fn leases_add_up_by_house_and_each_on_its_own() {
    let book = at(
        1000,
        &[
            lease(1, b"aa", 1000, 1100, &[0, 1]),
            lease(1, b"bb", 1100, 1200, &[0]),
            lease(1, b"cc", 1000, 1050, &[2]),
            lease(2, b"aa", 1900, 9000, &[3]),
        ],
    );
    assert_eq!(totals(&[book, at(2000, &[])]), (200 + 100 + 50, 100));
}

#[test]
fn every_file_counts_up_to_the_next_and_the_last_one_nothing() {
    let one = lease(1, b"aa", 0, 9000, &[0]);
    let two = lease(1, b"aa", 0, 9000, &[0, 1]);
    let books = [
        at(1000, &[one]),
        at(1010, &[]),
        at(1100, std::slice::from_ref(&two)),
        at(1101, &[two]),
    ];
    assert_eq!(totals(&books[..1]), (0, 0));
    assert_eq!(totals(&books[..2]), (10, 0));
    assert_eq!(totals(&books[..3]), (10, 0));
    assert_eq!(totals(&books), (10 + 2, 0));
}

#[test]
fn what_a_later_file_says_of_a_lease_changes_nothing() {
    // Released, renewed to another period, or another house's by then.
    let booked = at(1000, &[lease(1, b"aa", 1000, 5000, &[0])]);
    let others = [
        vec![],
        vec![lease(1, b"aa", 1800, 1900, &[0])],
        vec![lease(2, b"aa", 1500, 5000, &[0])],
    ];
    for leases in others {
        let books = [booked.clone(), at(1500, &leases)];
        assert_eq!(totals(&books), (500, 0));
    }
}

#[test]
fn holds_are_not_counted_even_if_they_become_leases() {
    let mut held = at(1000, &[lease(1, b"aa", 1000, 2000, &[0])]);
    held.holds = vec![hold(1, b"bb", (1000, 2000), &[1, 2], 1030)];
    assert!(sound(&held));
    let turned = at(
        1010,
        &[
            lease(1, b"aa", 1000, 2000, &[0]),
            lease(1, b"bb", 1000, 2000, &[1, 2]),
        ],
    );
    let books = [held, turned, at(1020, &[])];
    assert_eq!(totals(&books), (10 + 30, 0));
}

/// Four houses and two scopes of 64 addresses.
fn wide(clock: u32) -> Book {
    let mut book = specimen_book();
    book.clock = clock;
    book.houses = (0..4)
        .map(|n| House {
            lowest: n,
            highest: n,
        })
        .collect();
    let scope = |lowest| Scope {
        lowest,
        size: 64,
        ttl: 1,
        quotas: vec![
            Quota {
                share: 0,
                limit: 64
            };
            4
        ],
    };
    book.scopes = vec![scope(0xEFC0_0100), scope(0xE000_0000)];
    book.names = vec![ScopeNames::none(4); 2];
    book
}

#[test]
fn a_line_for_each_scope_and_house_by_scope_then_house_and_totals_above_32_bits() {
    let all: Vec<u8> = (0..64).collect();
    let mut first = wide(0);
    first.leases = vec![
        Lease {
            scope: 2,
            ..lease(2, b"aa", 5, 6, &[7])
        },
        lease(3, b"aa", 0, u32::MAX, &all),
    ];
    assert!(sound(&first));
    let text = "scope house total
239.192.1.0 1 0
239.192.1.0 2 0
239.192.1.0 3 274877906880
239.192.1.0 4 0
224.0.0.0 1 0
224.0.0.0 2 1
224.0.0.0 3 0
224.0.0.0 4 0
";
    assert_eq!(of_books(&[first, wide(u32::MAX)]), text);
    assert_eq!(64 * u64::from(u32::MAX), 274_877_906_880);
}

#[test]
fn no_file_or_too_many_are_refused_26_0_before_any_is_opened() {
    for count in [0, 1001, 1002, 5000] {
        let text = report_text(count, |_| panic!("opened"));
        assert_eq!(text, "refused 26 0\n");
    }
    // A thousand are not too many.
    let one = lease(2, b"aa", 0, 9000, &[0]);
    let file = |place: usize| {
        Some(file_of(&at(
            1000 + place as u32,
            std::slice::from_ref(&one),
        )))
    };
    let text = report_text(1000, file);
    assert_eq!(
        text,
        "scope house total\n239.192.0.0 1 0\n239.192.0.0 2 999\n"
    );
}

/// An unsound book's file.
fn unsound(clock: u32) -> Vec<u8> {
    let mut book = at(clock, &[]);
    book.scopes[0].ttl = 0;
    file_of(&book)
}

#[test]
fn a_file_is_refused_with_its_number_and_place() {
    let good = |clock| file_of(&at(clock, &[]));
    for before in 0..3 {
        let front: Vec<Vec<u8>> = (0..before).map(good).collect();
        let refusal = |last: Vec<u8>| report(&[&front[..], &[last]].concat());
        let place = before + 1;
        let mut long = good(9);
        long.resize(LONGEST_FILE + 1, 0);
        for bad in [vec![], good(9)[1..].to_vec(), long] {
            assert_eq!(refusal(bad), format!("refused 20 {place}\n"));
        }
        assert_eq!(refusal(unsound(9)), format!("refused 21 {place}\n"));
        // Not there at all.
        let open = |n: usize| front.get(n).cloned();
        let text = report_text(front.len() + 1, open);
        assert_eq!(text, format!("refused 20 {place}\n"));
    }
}

#[test]
fn each_file_is_judged_before_the_next_is_looked_at() {
    let good = |clock| file_of(&at(clock, &[]));
    // Of two refusals the first file's, whichever numbers they are.
    let wrong = || vec![0];
    let late = || good(5);
    assert_eq!(report(&[good(9), unsound(10), wrong()]), "refused 21 2\n");
    assert_eq!(report(&[good(9), wrong(), unsound(10)]), "refused 20 2\n");
    assert_eq!(report(&[good(9), late(), wrong()]), "refused 26 2\n");
    assert_eq!(report(&[good(9), wrong(), late()]), "refused 20 2\n");
    assert_eq!(report(&[unsound(9), wrong()]), "refused 21 1\n");
    // Of one file 20, then 21, then 26.
    assert_eq!(report(&[good(9), unsound(9)]), "refused 21 2\n");
    let mut opened = vec![];
    let text = report_text(3, |place| {
        opened.push(place);
        Some(if place == 1 { late() } else { good(9) })
    });
    assert_eq!((text.as_str(), opened), ("refused 26 2\n", vec![0, 1]));
}

#[test]
fn a_clock_that_is_not_later_than_the_one_before_is_26() {
    let good = |clock| file_of(&at(clock, &[]));
    assert_eq!(report(&[good(5), good(5)]), "refused 26 2\n");
    assert_eq!(report(&[good(5), good(4)]), "refused 26 2\n");
    // Later than the first one's isn't enough.
    assert_eq!(report(&[good(5), good(7), good(6)]), "refused 26 3\n");
    assert_eq!(report(&[good(5), good(7), good(7)]), "refused 26 3\n");
    assert!(report(&[good(5), good(6), good(7)]).starts_with("scope"));
}

#[test]
fn other_settings_than_the_first_files_are_26() {
    let changes: [&dyn Fn(&mut Book); 12] = [
        &|book| book.server += 1,
        &|book| book.houses[0].lowest -= 1,
        &|book| book.houses[1].highest += 1,
        &|book| book.houses.swap(0, 1),
        &|book| {
            book.houses.pop();
            book.scopes.iter_mut().for_each(|s| s.quotas.truncate(3));
            book.names = vec![ScopeNames::none(3); 2];
        },
        &|book| book.scopes[1].lowest += 1,
        &|book| book.scopes[0].size -= 1,
        &|book| book.scopes[0].ttl += 1,
        &|book| book.scopes[1].quotas[3].share += 1,
        &|book| book.scopes[1].quotas[0].limit -= 1,
        &|book| book.scopes.swap(0, 1),
        &|book| {
            book.scopes.pop();
            book.names.pop();
        },
    ];
    let mut first = wide(1);
    first.houses.iter_mut().for_each(|house| {
        house.lowest = house.lowest * 10 + 5;
        house.highest = house.lowest + 2;
    });
    // Limits below the size, so that the size alone can change.
    for quota in first.scopes.iter_mut().flat_map(|s| &mut s.quotas) {
        quota.limit = 10;
    }
    let later = |clock| Book {
        clock,
        ..first.clone()
    };
    for (number, change) in changes.iter().enumerate() {
        let mut other = later(3);
        change(&mut other);
        assert!(sound(&other), "{number}");
        let text = of_books(&[first.clone(), later(2), other.clone()]);
        assert_eq!(text, "refused 26 3\n", "{number}");
        // With the first one's, whatever the one before has.
        let text = of_books(&[other, later(4)]);
        assert_eq!(text, "refused 26 2\n", "{number}");
    }
}

#[test]
fn names_leases_releases_and_holds_may_differ() {
    let mut second = at(2000, &[lease(1, b"aa", 1000, 3000, &[0])]);
    second.names[0].campus = vec![Name {
        flags: 0,
        tag: b"en".to_vec(),
        text: b"A".to_vec(),
    }];
    second.releases = vec![release(2, b"bb", 1, 1999)];
    second.holds = vec![hold(2, b"cc", (2000, 3000), &[3], 2030)];
    assert!(sound(&second));
    let books = [at(1000, &[]), second, at(2500, &[])];
    assert_eq!(totals(&books), (500, 0));
}

#[test]
fn a_total_is_at_most_the_limit_times_the_time_and_is_counted_second_by_second() {
    let mut random = Random::new(213);
    for _ in 0..200 {
        let mut books: Vec<Book> = Vec::new();
        let mut clock = random.below(50) as u32;
        for _ in 0..1 + random.below(5) {
            let mut book = at(clock, &[]);
            for number in 0..random.below(8) as u8 {
                let start = random.below(200) as u32;
                let offsets: Vec<u8> = (0..4).filter(|_| random.chance(40)).collect();
                let house = random.pick(&[1, 2]);
                let end = start + 1 + random.below(60) as u32;
                let mut with_it = book.clone();
                with_it.insert(lease(house, &[0, number], start, end, &offsets));
                if sound(&with_it) {
                    book = with_it;
                }
            }
            books.push(book);
            clock += 1 + random.below(40) as u32;
        }
        let time = u64::from(books[books.len() - 1].clock - books[0].clock);
        let (one, two) = totals(&books);
        assert!(one <= 3 * time && two <= 4 * time);
        // Each second of each address by itself.
        let mut seconds = [0, 0];
        for pair in books.windows(2) {
            for second in pair[0].clock..pair[1].clock {
                for lease in &pair[0].leases {
                    if lease.start <= second && second < lease.end {
                        seconds[usize::from(lease.house) - 1] += lease.offsets.len() as u64;
                    }
                }
            }
        }
        assert_eq!(seconds, [one, two]);
    }
}

#[test]
fn the_program_takes_files_as_arguments() {
    let folder = concat!(env!("CARGO_TARGET_TMPDIR"), "/report");
    fs::create_dir_all(folder).expect("a folder");
    let name = |n: u32| format!("{folder}/{n}.bin");
    for (n, leases) in [(1, vec![lease(1, b"aa", 0, 9000, &[0, 1])]), (2, vec![])] {
        fs::write(name(n), file_of(&at(1000 * n, &leases))).expect("written");
    }
    fs::write(name(3), vec![0; LONGEST_FILE + 1]).expect("written");
    let printed = |files: &[String]| {
        let mut program = Command::new(env!("CARGO_BIN_EXE_second"));
        let output = program.arg("report").args(files).output().expect("runs");
        assert!(output.status.success());
        String::from_utf8(output.stdout).expect("text")
    };
    let lines = "scope house total\n239.192.0.0 1 2000\n239.192.0.0 2 0\n";
    assert_eq!(printed(&[name(1), name(2)]), lines);
    assert_eq!(printed(&[name(2), name(1)]), "refused 26 2\n");
    assert_eq!(printed(&[]), "refused 26 0\n");
    assert_eq!(printed(&[name(1), name(3)]), "refused 20 2\n");
    // Not there; a folder; too many, of which none is looked at.
    assert_eq!(printed(&[name(1), name(2), name(4)]), "refused 20 3\n");
    assert_eq!(printed(&[folder.to_string()]), "refused 20 1\n");
    assert_eq!(printed(&vec![name(4); 1001]), "refused 26 0\n");
    assert_eq!(printed(&vec![name(4); 1000]), "refused 20 1\n");
}
