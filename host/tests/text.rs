//! The campus file as text and back, and the words for a refused one, beside what the library says of the same octets.

#[path = "common/random.rs"]
mod random;

use banshorra_host::campus::{Campus, Hold, Lease, Name, Release, Scope};
use banshorra_host::{lent, text, Broken, Refusal};
use random::Random;

const CLOCK: u32 = 1_700_000_000;

fn sample(name: &str) -> Vec<u8> {
    let folder = concat!(env!("CARGO_MANIFEST_DIR"), "/../samples/");
    std::fs::read(format!("{folder}{name}")).expect("a sample")
}

/// What the library says of a file: this crate reads it, explains it and gives its octets back through the text accordingly.
fn agrees(file: &[u8]) -> u8 {
    let refusal = lent::check(file).err();
    let campus = match Campus::from_octets(file) {
        Ok(campus) => campus,
        Err(fault) => {
            assert_eq!(refusal, Some(Refusal::Form), "{fault}");
            assert!(fault.offset <= file.len());
            return 20;
        }
    };
    assert_ne!(refusal, Some(Refusal::Form), "{campus:?}");
    let broken = Broken::first(&campus);
    assert_eq!(
        refusal.is_some(),
        broken.is_some(),
        "{broken:?} in {campus:?}"
    );
    assert_eq!(campus.to_octets(), file);
    let words = text::write(&campus);
    let back = text::read(&words).unwrap_or_else(|fault| panic!("{fault}\n{words}"));
    assert_eq!(back.to_octets(), file, "{words}");
    assert_eq!(text::write(&back), words);
    broken.map_or(0, |broken| broken.rule)
}

#[test]
fn the_sample_as_text() {
    let campus = Campus::from_octets(&sample("campus.bin")).expect("of right form");
    let words = String::from_utf8(sample("campus.txt")).expect("a text");
    assert_eq!(text::write(&campus), words);
    assert_eq!(text::read(&words), Ok(campus));
}

#[test]
fn damaged_files() {
    let whole = sample("campus.bin");
    let mut random = Random::new(1);
    let mut seen = [0; 21];
    for _ in 0..6_000 {
        let mut file = whole.clone();
        for _ in 0..1 + random.below(2) {
            let at = random.below(file.len());
            match random.below(8) {
                0 => drop(file.remove(at)),
                1 => file.insert(at, random.octet()),
                2 => file.truncate(at + 1),
                3 => file[at] = file[at].wrapping_add(1),
                4 => file[at] = file[at].wrapping_sub(1),
                5 => file[at] ^= 128,
                _ => file[at] = random.octet(),
            }
        }
        seen[usize::from(agrees(&file))] += 1;
    }
    for rule in [0, 1, 2, 3, 4, 6, 7, 8, 10, 13, 14, 18, 20] {
        assert!(seen[rule] > 0, "no file with {rule}: {seen:?}");
    }
}

fn identifier(random: &mut Random) -> Vec<u8> {
    match random.below(40) {
        0 => vec![],
        1 => vec![7],
        2 => (0..33 + random.below(223))
            .map(|_| random.octet())
            .collect(),
        3 => (0..32).map(|_| random.octet()).collect(),
        _ => vec![random.below(2) as u8, b'A' + random.below(9) as u8],
    }
}

fn lease(random: &mut Random, kinds: &[u8]) -> Lease {
    let start = CLOCK - 50 + random.below(100) as u32 * 10;
    let (few, many) = (1 + random.below(3), random.below(256));
    let count = if random.one_in(60) { many } else { few };
    let top = if random.one_in(40) { 256 } else { 8 };
    let mut offsets: Vec<u8> = (0..count).map(|_| random.below(top) as u8).collect();
    offsets.sort();
    offsets.dedup();
    Lease {
        house: random
            .pick(&[1, 1, 1, 2, 2, 2, 2, 3, 0, 200])
            .min(if random.one_in(9) { 255 } else { 2 }),
        scope: random
            .pick(&[1, 1, 1, 1, 2, 2, 2, 2, 2, 3])
            .min(if random.one_in(9) { 255 } else { 2 }),
        identifier: identifier(random),
        kind: if random.one_in(40) {
            random.octet()
        } else {
            random.pick(kinds)
        },
        transaction: random.octet().into(),
        start,
        end: start + random.below(120) as u32 * 5 + 51,
        offsets,
    }
}

fn name(random: &mut Random) -> Name {
    let text = |random: &mut Random, most| {
        (0..1 + random.below(most))
            .map(|_| random.octet())
            .collect()
    };
    Name {
        default: random.one_in(2),
        tag: random
            .pick(&[&b"en"[..], b"de-CH", b"0x", b"\"", b"#a", b"en\xff"])
            .to_vec(),
        text: if random.one_in(2) {
            text(random, 32)
        } else {
            b"B\xC3\xBChne \\ \"1\"".to_vec()
        },
    }
}

fn scope(random: &mut Random, at: u32, houses: usize) -> Scope {
    let part = |random: &mut Random| (random.below(5) as u8, 4 + random.below(5) as u8);
    Scope {
        lowest: if random.one_in(30) { u32::MAX - 3 } else { at },
        size: if random.one_in(30) { random.octet() } else { 8 },
        ttl: if random.one_in(30) { 0 } else { 15 },
        parts: (0..houses).map(|_| part(random)).collect(),
        names: (0..=houses)
            .map(|_| (0..random.below(5)).map(|_| name(random)).collect())
            .collect(),
    }
}

fn clients(random: &mut Random, house: u32) -> (u32, u32) {
    let lowest = 0x0A00_0000 + 256 * house;
    let length = if random.one_in(60) { 256 } else { 255 };
    match random.one_in(60) {
        true => (lowest + 1, lowest),
        false => (lowest, lowest + length),
    }
}

/// A campus of right form, most of it sound.
fn campus(random: &mut Random) -> Campus {
    let houses = if random.one_in(30) {
        random.below(12)
    } else {
        2
    };
    let number = if random.one_in(30) {
        random.below(7)
    } else {
        2
    };
    let scopes = (0..number as u32).map(|n| scope(random, 0xEFC0_0000 + 256 * n, houses));
    let scopes = scopes.collect();
    let few = if random.one_in(10) { 40 } else { 4 };
    let hold = |random: &mut Random| Hold {
        lease: lease(random, &[1]),
        lapse: CLOCK
            + if random.one_in(20) {
                60
            } else {
                1 + random.below(30) as u32
            },
    };
    let release = |random: &mut Random| Release {
        house: if random.one_in(20) {
            random.octet()
        } else {
            random.pick(&[1, 2])
        },
        identifier: identifier(random),
        transaction: random.octet().into(),
        time: CLOCK - random.below(200) as u32 + if random.one_in(20) { 200 } else { 0 },
    };
    let mut campus = Campus {
        server: 0x0A01_0101,
        clock: if random.one_in(60) { u32::MAX } else { CLOCK },
        houses: (0..houses as u32).map(|n| clients(random, n)).collect(),
        scopes,
        leases: (0..random.below(few))
            .map(|_| lease(random, &[3, 4]))
            .collect(),
        holds: (0..random.below(3)).map(|_| hold(random)).collect(),
        releases: (0..random.below(6)).map(|_| release(random)).collect(),
    };
    campus.leases.sort_by(|a, b| a.order().cmp(&b.order()));
    campus
        .holds
        .sort_by(|a, b| a.lease.order().cmp(&b.lease.order()));
    campus
        .releases
        .sort_by_key(|release| (release.house, release.time));
    campus
}

#[test]
fn files_of_right_form_break_every_rule() {
    let mut random = Random::new(2);
    let mut seen = [0; 21];
    for _ in 0..2_000 {
        seen[usize::from(agrees(&campus(&mut random).to_octets()))] += 1;
    }
    assert_eq!(seen[20], 0);
    for (rule, count) in seen[..19].iter().enumerate() {
        assert!(*count > 0, "no campus that breaks rule {rule}: {seen:?}");
    }
}

#[test]
fn people_may_write_in_any_order() {
    let words = String::from_utf8(sample("campus.txt")).expect("a text");
    let (front, back) = words.split_once("\nlease").expect("a lease");
    let lines = format!("lease{back}");
    let mut lines: Vec<&str> = lines.lines().collect();
    lines.reverse();
    let turned = format!("\t{front}\n  {}   # the end", lines.join("\r\n"));
    assert_ne!(turned, words);
    assert_eq!(text::read(&turned), text::read(&words));
}

#[test]
fn damaged_texts_are_told_or_make_a_file_of_right_form() {
    let words = String::from_utf8(sample("campus.txt")).expect("a text");
    let whole: Vec<char> = words.chars().collect();
    let signs: Vec<char> = "\"\\#-+.x0195\n \t:Za\u{fc}\u{0}".chars().collect();
    let mut random = Random::new(4);
    let mut read = 0;
    for _ in 0..4_000 {
        let mut text = whole.clone();
        for _ in 0..1 + random.below(2) {
            let at = random.below(text.len());
            match random.below(3) {
                0 => drop(text.remove(at)),
                1 => text.insert(at, random.pick(&signs)),
                _ => text[at] = random.pick(&signs),
            }
        }
        let text: String = text.into_iter().collect();
        match text::read(&text) {
            Ok(campus) => {
                assert_eq!(Campus::from_octets(&campus.to_octets()), Ok(campus));
                read += 1;
            }
            Err(fault) => {
                let line = text.lines().nth(fault.line - 1).unwrap_or("");
                assert!(fault.column <= line.chars().count() + 1, "{fault}");
            }
        }
    }
    assert!((400..3_600).contains(&read), "{read} of 4,000 were read");
}

/// A line of the sample replaced by another: what is said of it.
fn fault(old: &str, new: &str) -> String {
    let words = String::from_utf8(sample("campus.txt")).expect("a text");
    assert_eq!(words.matches(old).count(), 1, "{old}");
    text::read(&words.replace(old, new))
        .expect_err(new)
        .to_string()
}

#[test]
fn faults_name_line_and_column() {
    for (old, new, said) in [
        ("server 10.1.1.1", "server 10.1.1", "line 2, column 8: expected the server's address, such as 10.1.1.1, found `10.1.1`"),
        ("server 10.1.1.1\n", "", "line 21, column 1: expected `server ADDRESS`, found the text's end"),
        ("clock 2023-11-14T", "clock 2023-11-31T", "line 3, column 7: expected a time in UTC, such as 2026-11-17T09:30:00Z, found `2023-11-31T22:13:20Z`"),
        ("house 2 clients", "house 3 clients", "line 6, column 7: expected house 2, found `3`"),
        ("10.0.2.0-255", "10.0.2.0-256", "line 6, column 17: expected a range of addresses, such as 10.0.1.0-255, found `10.0.2.0-256`"),
        ("  house 2 share 1 limit 4\n", "", "line 8, column 1: expected `house 2 share .. limit ..` within scope 1, found only the share of house 1"),
        ("  house 1 share 2 limit 3\n  house 2 share 1 limit 4\n", "", "line 8, column 1: expected `house 1 share .. limit ..` within scope 1, found no share"),
        ("name en \"Small stage\"", "name en-GB-oed \"Small stage\"", "line 12, column 8: expected a language's tag of at most 8 octets, found `en-GB-oed`"),
        ("\"Small stage\" default", "\"Small stage\" defalt", "line 12, column 25: expected `default` or the line's end, found `defalt`"),
        ("\"Small stage\" default", "\"Small stage\" default default", "line 12, column 33: expected the line's end, found `default`"),
        ("share 1 limit", "share 256 limit", "line 10, column 17: expected a share, 0 to 255, found `256`"),
        ("\"Small stage\"", "\"Small stage", "line 12, column 31: expected a closing `\"`, found the line's end"),
        ("\"Small stage\"", "\"Small \\stage\"", "line 12, column 18: expected `\\\"`, `\\\\` or `\\x` with two hex digits, found `\\`"),
        ("\"Small stage\"", "\"Small stage of a name that is too long\"", "line 12, column 11: expected a name of 1 to 32 octets, found \"Small stage of a name that is too long\""),
        ("\nlease house", "\nleese house", "line 19, column 1: expected server, clock, house, scope, name, lease, hold or release, found `leese`"),
        ("0x00c0ffee", "0xc0ffee", "line 19, column 43: expected a transaction id of eight hex digits, such as 0x00c0ffee, found `0xc0ffee`"),
        ("239.192.1.3", "239.192.0.3", "line 19, column 121: expected addresses from 239.192.1.0 on, such as 239.192.1.0-3, or offsets such as +0-3, found `239.192.0.3`"),
        ("239.192.1.3", "+0", "line 19, column 121: expected an address once only, found `+0`"),
        ("239.192.1.0-1 ", "239.192.1.1-0 ", "line 19, column 107: expected a range that rises, found `239.192.1.1-0`"),
        ("0x00c0ffed at", "0x00c0ffed", "line 21, column 44: expected `at`, found `2023-11-14T22:11:20Z`"),
    ] {
        assert_eq!(fault(old, new), said);
    }
}

#[test]
fn one_is_no_many() {
    let words = |campus: &Campus| Broken::first(campus).expect("a rule").to_string();
    let mut campus = Campus::from_octets(&sample("campus.bin")).expect("of right form");
    let whole = campus.clone();
    campus.leases[0].identifier = vec![65];
    assert!(
        words(&campus).ends_with(" has an identifier of 1 octet, not 2 to 32"),
        "{}",
        words(&campus)
    );
    campus = whole.clone();
    campus.releases[0].identifier = vec![65];
    assert!(
        words(&campus).ends_with(" has an identifier of 1 octet, not 2 to 32"),
        "{}",
        words(&campus)
    );
    let mut file = whole.to_octets();
    file.push(0);
    let fault = Campus::from_octets(&file).expect_err("an octet too many");
    assert_eq!(fault.what, "1 octet after the last section");
}
