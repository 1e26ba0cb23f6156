//! The van's own server (W-211): its settings, its lines, its refusals, and that a REQUEST desiring the size or more gets
//! just the addresses that no lease or hold overlaps in its period.

mod common;

use common::*;
use second::octets::hex as in_hex;
use second::period::Period;
use second::van::{van, Settings};
use second::{sound, Book};

/// Server 10.1.1.1, clients 10.1.0.0 to 10.1.0.255, pool 239.192.0.0 of four addresses, TTL 15.
const SETTINGS: Settings = Settings {
    server: 0x0A01_0101,
    lowest_client: 0x0A01_0000,
    highest_client: 0x0A01_00FF,
    lowest_address: 0xEFC0_0000,
    size: 4,
    ttl: 15,
};

fn octets_of(settings: &Settings) -> Vec<u8> {
    let mut octets = Vec::new();
    for address in [
        settings.server,
        settings.lowest_client,
        settings.highest_client,
        settings.lowest_address,
    ] {
        octets.extend(address.to_be_bytes());
    }
    octets.extend([settings.size, settings.ttl]);
    octets
}

/// Time(4), client address(4), length(2) and the datagram.
fn record(time: u32, client: u32, datagram: &[u8]) -> Vec<u8> {
    let mut octets = time.to_be_bytes().to_vec();
    octets.extend(client.to_be_bytes());
    octets.extend((datagram.len() as u16).to_be_bytes());
    octets.extend(datagram);
    octets
}

/// The lines for a list of records after the settings.
fn lines(settings: &Settings, records: &[Vec<u8>]) -> String {
    van(&[octets_of(settings), records.concat()].concat())
}

/// A message with these options of four octets.
fn message(kind: u8, id: u32, identifier: &[u8], more: &[(u16, u32)]) -> Vec<u8> {
    let values: Vec<_> = more
        .iter()
        .map(|(code, n)| (*code, n.to_be_bytes()))
        .collect();
    let mut options: Vec<(u16, &[u8])> = vec![(3, identifier)];
    options.extend(values.iter().map(|(code, value)| (*code, &value[..])));
    datagram(kind, id, &options)
}

const POOL: (u16, u32) = (4, 0xEFC0_0000);

#[test]
fn settings_alone_print_nothing() {
    assert_eq!(lines(&SETTINGS, &[]), "");
    assert_eq!(octets_of(&SETTINGS).len(), 18);
}

#[test]
fn cut_off_settings_are_refused_24() {
    let octets = octets_of(&SETTINGS);
    for length in 0..octets.len() {
        assert_eq!(van(&octets[..length]), "refused 24\n", "{length}");
    }
    // Even where what there is of them is unsound already.
    assert_eq!(van(&[0; 17]), "refused 24\n");
}

/// Unsound settings are refused, and so are they with anything after them.
fn unsound(change: impl Fn(&mut Settings)) {
    let mut settings = SETTINGS;
    change(&mut settings);
    assert!(!sound(&settings.book()));
    let release = record(0, 0x0A01_0001, &message(7, 1, b"aa", &[]));
    for after in [
        vec![],
        vec![release.clone()],
        vec![vec![0; 5]],
        vec![release, vec![0]],
    ] {
        assert_eq!(lines(&settings, &after), "refused 21\n");
    }
}

#[test]
fn unsound_settings_are_refused_21_whatever_follows() {
    for size in [0, 65, 66, 128, 255] {
        unsound(|settings| settings.size = size);
    }
    unsound(|settings| settings.ttl = 0);
    unsound(|settings| settings.highest_client = settings.lowest_client - 1);
    unsound(|settings| settings.lowest_client = u32::MAX);
    for lowest in [
        0,
        0xDFFF_FFFF,
        0xE000_0000 - 4,
        0xEFFF_FFFD,
        0xF000_0000,
        u32::MAX,
    ] {
        unsound(|settings| settings.lowest_address = lowest);
    }
}

#[test]
fn settings_at_the_edges_are_sound() {
    let mut all = vec![];
    for (size, lowest) in [
        (1, 0xE000_0000),
        (64, 0xEFFF_FFC0),
        (1, 0xEFFF_FFFF),
        (63, 0xE000_0000),
    ] {
        for (from, to) in [(0, u32::MAX), (7, 7), (u32::MAX, u32::MAX), (0, 0)] {
            for ttl in [1, 255] {
                all.push(Settings {
                    server: u32::MAX,
                    lowest_client: from,
                    highest_client: to,
                    lowest_address: lowest,
                    size,
                    ttl,
                });
            }
        }
    }
    for settings in all {
        let getinfo = message(8, 1, b"aa", &[]);
        let from = record(0, settings.highest_client, &getinfo);
        let reply = "00050001000000010002000600 01ffffffff 0003000261 61 00000000".replace(' ', "");
        assert_eq!(lines(&settings, &[from]), format!("0 {reply}\n"));
    }
}

#[test]
fn the_book_is_empty_at_clock_0_and_share_and_limit_are_the_size() {
    let book = SETTINGS.book();
    assert!(sound(&book));
    assert_eq!(book.clock, 0);
    assert!(book.leases.is_empty() && book.holds.is_empty() && book.releases.is_empty());
    assert_eq!((book.houses.len(), book.scopes.len()), (1, 1));
    let quota = &book.scopes[0].quotas[0];
    assert_eq!((quota.share, quota.limit), (4, 4));
    // One REQUEST may have them all, at time 0.
    let request = message(3, 1, b"aa", &[POOL, (7, 4 << 16 | 4)]);
    let ack =
        "0 0005000100000001 0001000400000e10 0002000600010a010101 000300026161 00040004efc00000 \
               0006000400000000 000a0006efc000000004 000b000400000000 00000000\n";
    let ack = ack.replacen(' ', "_", 1).replace(' ', "").replace('_', " ");
    let from = record(0, 0x0A01_0000, &request);
    assert_eq!(lines(&SETTINGS, &[from]), ack);
}

#[test]
fn a_line_for_each_datagram_with_neither_offset_nor_count() {
    let client = 0x0A01_0005;
    let release = message(7, 0xABCD_EF01, &[0xAB, 0xCD], &[]);
    let features = datagram(3, 9, &[(3, b"aa"), (12, &[0, 0, 0, 0, 0, 1, 0, 1])]);
    let elsewhere = datagram(3, 9, &[(3, b"aa"), (2, &[0, 1, 10, 1, 1, 2])]);
    let records = [
        record(5, client, &release),
        record(5, client - 6, &release),
        record(5, client, &release[..11]),
        record(5, client, &release[..12]),
        record(5, client, &features),
        record(5, client, &elsewhere),
        record(5, client, &message(1, 9, b"aa", &[])),
        record(5, client, &[]),
    ];
    // Lower-case hex.
    let nak = "0 00060001abcdef010002000600010a01010100030002abcd00100002000300000000";
    assert_eq!(
        lines(&SETTINGS, &records),
        format!("{nak}\n3\n4\n5\n6\n7\n8\n4\n")
    );
}

#[test]
fn the_book_passes_from_one_datagram_to_the_next() {
    let client = 0x0A01_0005;
    let discover = message(1, 1, b"aa", &[POOL, (7, 1 << 16 | 3)]);
    let request = message(3, 2, b"aa", &[POOL]);
    let other = message(3, 3, b"bb", &[POOL, (7, 1 << 16 | 4)]);
    let release = message(7, 4, b"aa", &[]);
    let at = |time, message: &[u8]| record(time, client, message);
    let records = [
        at(1000, &discover),
        at(1029, &request),
        at(1029, &other),
        at(1030, &release),
        at(1031, &release),
        // The clock never moves back: this one comes too late for its offer.
        at(1400, &discover),
        at(1000, &message(7, 4, b"aa", &[])),
    ];
    let mut book = SETTINGS.book();
    let mut text = String::new();
    for octets in &records {
        let time = u32::from_be_bytes(octets[..4].try_into().expect("four octets"));
        let (outcome, reply) = call(&mut book, client, time, &octets[10..]);
        assert_eq!(outcome, 0);
        text += &format!("0 {}\n", in_hex(&reply));
    }
    assert_eq!(lines(&SETTINGS, &records), text);
    let kinds: Vec<&str> = text.lines().map(|line| &line[4..6]).collect();
    assert_eq!(kinds, ["02", "05", "05", "05", "05", "02", "06"]);
}

#[test]
fn the_longest_datagram_and_the_longest_reply_have_their_room() {
    // 1,472 octets are served, 1,473 are discard 4, and a record may have 65,535.
    let client = 0x0A01_0005;
    let padded = |length: usize| {
        let padding = vec![0; length - 8 - 6 - 4 - 4];
        datagram(7, 1, &[(3, b"aa"), (999, &padding)])
    };
    let records = [1_472, 1_473, 65_535].map(|length| record(0, client, &padded(length)));
    let text = lines(&SETTINGS, &records);
    let starts: Vec<&str> = text.lines().map(|line| &line[..1]).collect();
    assert_eq!(starts, ["0", "4", "4"]);
    // Every second address of 64, with option 12: the longest reply there is, so the room is never too short.
    let settings = Settings {
        size: 64,
        ..SETTINGS
    };
    let mut book = settings.book();
    let offsets: Vec<u8> = (0..64).filter(|offset| offset % 2 == 1).collect();
    book.leases = vec![lease(1, b"aa", 0, 9000, &offsets)];
    let request = datagram(
        3,
        1,
        &[
            (3, &[7; 32]),
            (4, &POOL.1.to_be_bytes()),
            (7, &[0, 1, 0, 64]),
            (12, &[0; 6]),
        ],
    );
    let (outcome, reply) = call(&mut book, client, 0, &request);
    assert_eq!((outcome, reply.len()), (0, 296));
}

#[test]
fn there_are_no_names() {
    let getinfo = datagram(8, 1, &[(3, b"aa"), (5, &[0, 9]), (8, b"en")]);
    let reply = "0005000100000001 0002000600010a010101 000300026161 \
                 0009000b 01 efc00000 efc00003 0f 00 00000000";
    let from = record(0, 0x0A01_0005, &getinfo);
    assert_eq!(
        lines(&SETTINGS, &[from]),
        format!("0 {}\n", reply.replace(' ', ""))
    );
}

#[test]
fn a_record_cut_off_is_refused_24_after_the_lines_before() {
    let client = 0x0A01_0005;
    let first = record(0, client, &message(8, 1, b"aa", &[]));
    let second = record(9, client, &message(7, 2, b"bb", &[]));
    let whole = [octets_of(&SETTINGS), first.clone(), second.clone()].concat();
    let both = van(&whole);
    let (line, _) = both.split_once('\n').expect("two lines");
    assert_eq!(both.lines().count(), 2);
    for length in 18..whole.len() {
        let expected = match length - 18 {
            0 => String::new(),
            n if n < first.len() => "refused 24\n".into(),
            n if n == first.len() => format!("{line}\n"),
            _ => format!("{line}\nrefused 24\n"),
        };
        assert_eq!(van(&whole[..length]), expected, "{length}");
    }
    // One octet more is the next record's.
    assert_eq!(
        van(&[&whole[..], &[0]].concat()),
        format!("{both}refused 24\n")
    );
}

/// A REQUEST of the van's house.
struct Wish {
    identifier: [u8; 2],
    least: u16,
    desired: u16,
    start: u32,
    length: u32,
}

impl Wish {
    /// On one of a few identifiers, for a period that begins at the clock or soon.
    fn new(random: &mut Random, clock: u32, size: u8) -> Wish {
        let size = u16::from(size);
        let desired = random.pick(&[1, 2, size, size + 1, 65_535]);
        Wish {
            identifier: [b'a', b'a' + random.below(24) as u8],
            least: 1 + random.below(usize::from(desired.min(size + 1))) as u16,
            desired,
            start: clock + random.pick(&[0, 0, 1, 10, 100, 1000]),
            length: random.pick(&[1, 10, 100, 1000, 700_000]),
        }
    }

    fn message(&self, kind: u8, id: u32, clock: u32) -> Vec<u8> {
        let number = u32::from(self.least) << 16 | u32::from(self.desired);
        let mut options = vec![(1, self.length), (6, self.start), (11, clock)];
        match kind {
            7 => options.clear(),
            4 => {}
            _ => options.extend([POOL, (7, number)]),
        }
        message(kind, id, &self.identifier, &options)
    }

    /// Demand 3's premises but for the unused share, in the book at its call: the identifier is new, and a record is left.
    /// Every such period is inside, and there is neither a minimum nor a latest start.
    fn is_new(&self, book: &Book) -> bool {
        let mut records = book.records();
        records.all(|record| record.identifier != self.identifier) && book.records_of(1) < 16
    }

    /// The addresses that no live lease or hold overlaps in its period.
    fn due(&self, book: &Book) -> Vec<u8> {
        let period = Period::wanted(self.start, self.length, book.clock);
        let overlaps = |offset: u8| {
            let mut records = book.live_records();
            records.any(|lease| lease.has(1, offset) && lease.period().overlaps(&period))
        };
        book.offsets(1)
            .filter(|&offset| !overlaps(offset))
            .collect()
    }
}

/// What the REQUESTs that desired the size or more came to.
#[derive(Debug, Default)]
struct Seen {
    all: usize,
    some: usize,
    refused: usize,
    within_the_share: usize,
}

/// One REQUEST of a day, and what the book says of it before and after.
fn see(wish: &Wish, before: &Book, after: &Book, seen: &mut Seen) {
    let size = usize::from(before.scopes[0].size);
    let least = usize::from(wish.least);
    if usize::from(wish.desired) < size || !wish.is_new(before) {
        return;
    }
    let due = wish.due(before);
    let mut leases = after.leases.iter();
    let lease = leases.find(|lease| lease.identifier == wish.identifier);
    if least + before.addresses_of(1, 1).len() <= size {
        seen.within_the_share += 1;
        assert!(lease.is_some(), "least is within the unused share");
    }
    match lease {
        Some(lease) => assert_eq!(lease.offsets, due),
        None => assert!(due.len() < least, "{due:?} would do"),
    }
    match lease {
        None => seen.refused += 1,
        Some(_) if due.len() < size => seen.some += 1,
        Some(_) => seen.all += 1,
    }
}

#[test]
fn a_request_desiring_the_size_or_more_gets_just_what_nothing_overlaps() {
    let mut random = Random::new(211);
    let mut seen = Seen::default();
    for _ in 0..150 {
        let size = random.pick(&[1, 2, 3, 4, 5, 8, 16]);
        let mut book = Settings { size, ..SETTINGS }.book();
        for _ in 0..40 {
            let time = book.clock + random.pick(&[0, 0, 1, 7, 50]);
            let wish = Wish::new(&mut random, time, size);
            let kind = random.pick(&[1, 3, 3, 3, 3, 4, 7]);
            let message = wish.message(kind, random.below(9) as u32, time);
            let mut before = book.clone();
            before.advance(time);
            let (outcome, _) = call(&mut book, CLIENT_1, time, &message);
            assert!([0, 8].contains(&outcome) && sound(&book));
            if kind == 3 {
                see(&wish, &before, &book, &mut seen);
            }
        }
    }
    // Each of these occurs often enough to say something.
    let Seen {
        all,
        some,
        refused,
        within_the_share,
    } = seen;
    let least = all.min(some).min(refused).min(within_the_share);
    assert!(least > 50, "{seen:?}");
}
