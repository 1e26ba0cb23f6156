//! The name that option 9 has for each scope (W-201).

mod common;

use common::*;
use second::file::{read, write, LONGEST_FILE};
use second::{serve, Book, Name, Quota, Scope, ScopeNames};

const ID: &[u8] = &[0, 0x41];

fn name(flags: u8, tag: &str, text: &str) -> Name {
    Name {
        flags,
        tag: tag.into(),
        text: text.into(),
    }
}

/// A GETINFO that asks for the scope list, and perhaps for a language.
fn getinfo(language: Option<&[u8]>) -> Vec<u8> {
    let mut options: Vec<(u16, &[u8])> = vec![(3, ID), (5, &[0, 9])];
    options.extend(language.map(|tag| (8, tag)));
    datagram(8, 1, &options)
}

/// The specimens' book with these names: the campus list, house 1's and house 2's.
fn book_with(campus: &[Name], first: &[Name], second: &[Name]) -> Book {
    let mut book = specimen_book();
    book.names = vec![ScopeNames {
        campus: campus.to_vec(),
        houses: vec![first.to_vec(), second.to_vec()],
    }];
    book
}

/// What follows the scope's TTL in option 9: the number of names and the names.
fn names_sent(book: &Book, client: u32, language: Option<&[u8]>) -> Vec<u8> {
    let (outcome, reply) = call(&mut book.clone(), client, 1000, &getinfo(language));
    assert_eq!((outcome, reply[1]), (0, 5));
    let value = option_of(&reply, 9).expect("option 9");
    assert_eq!(value[..10], hex("01 EFC00000 EFC00003 0F"));
    value[10..].to_vec()
}

/// The same from house 1: the flags and the text of the one name, or nothing.
fn sent(book: &Book, language: Option<&str>) -> Option<(u8, String)> {
    let octets = names_sent(book, CLIENT_1, language.map(str::as_bytes));
    if octets == [0] {
        return None;
    }
    let tag = usize::from(octets[2]);
    let text = usize::from(octets[3 + tag]);
    assert_eq!((octets[0], octets.len()), (1, 4 + tag + text));
    let text = String::from_utf8(octets[4 + tag..].to_vec()).expect("a text of the tests");
    Some((octets[1], text))
}

fn some(flags: u8, text: &str) -> Option<(u8, String)> {
    Some((flags, text.to_string()))
}

#[test]
fn a_scope_without_names_sends_none() {
    let book = specimen_book();
    for language in [None, Some("en"), Some("de")] {
        assert_eq!(sent(&book, language), None);
    }
}

#[test]
fn a_name_in_full() {
    let book = book_with(&[name(128, "en", "Inside abcd.com")], &[], &[]);
    let mut expected = hex("01 80 02 656E 0F");
    expected.extend(b"Inside abcd.com");
    assert_eq!(names_sent(&book, CLIENT_1, Some(b"en")), expected);
    assert_eq!(names_sent(&book, CLIENT_1, None), expected);
    // The whole reply: option 9 stands in its place by code.
    let book = book_with(&[name(0, "en", "A")], &[], &[]);
    let asking = hex("00 08 0001 00000031  000C 0006 000000000000  0008 0002 656E
         0005 0004 000B 0009  0003 0002 0041  0000 0000");
    let full = hex(
        "00 05 0001 00000031  0002 0006 0001 0A010101  0003 0002 0041
         0009 0011 01 EFC00000 EFC00003 0F 01 00 02 656E 01 41
         000B 0004 000003E8  000C 0006 000000000000  0000 0000",
    );
    assert_eq!(call(&mut book.clone(), CLIENT_1, 1000, &asking), (0, full));
}

#[test]
fn without_option_8_the_campus_default_alone() {
    let campus = [name(0, "de", "c1"), name(128, "fr", "c2")];
    let own = [name(128, "en", "h1"), name(0, "fr", "h2")];
    assert_eq!(sent(&book_with(&campus, &own, &[]), None), some(128, "c2"));
    assert_eq!(
        sent(&book_with(&campus[..1], &own, &[]), None),
        some(0, "c1")
    );
    assert_eq!(sent(&book_with(&[], &own, &[]), None), None);
}

#[test]
fn a_match_of_the_house_then_of_the_campus_then_the_default() {
    let campus = [
        name(0, "de", "c de"),
        name(0, "en", "c en"),
        name(128, "fr", "c fr"),
    ];
    let own = [name(0, "nl", "h nl"), name(0, "en", "h en")];
    let book = book_with(&campus, &own, &[]);
    // In both lists, in the house's alone, in the campus list alone, in neither.
    assert_eq!(sent(&book, Some("en")), some(0, "h en"));
    assert_eq!(sent(&book, Some("nl")), some(0, "h nl"));
    assert_eq!(sent(&book, Some("de")), some(0, "c de"));
    assert_eq!(sent(&book, Some("fr")), some(128, "c fr"));
    assert_eq!(sent(&book, Some("it")), some(128, "c fr"));
    // An empty campus list has no match and no default.
    let book = book_with(&[], &own, &[]);
    assert_eq!(sent(&book, Some("en")), some(0, "h en"));
    assert_eq!(sent(&book, Some("it")), None);
    // An empty list of the house.
    let book = book_with(&campus, &[], &own);
    assert_eq!(sent(&book, Some("en")), some(0, "c en"));
    assert_eq!(sent(&book, Some("nl")), some(128, "c fr"));
}

#[test]
fn the_first_match_counts() {
    let two = [
        name(0, "de", "1"),
        name(0, "en", "2"),
        name(128, "en", "3"),
        name(0, "en", "4"),
    ];
    // Whatever the flags are, and in either list.
    assert_eq!(sent(&book_with(&two, &[], &[]), Some("en")), some(0, "2"));
    assert_eq!(sent(&book_with(&[], &two, &[]), Some("en")), some(0, "2"));
    let turned = [two[2].clone(), two[1].clone()];
    assert_eq!(
        sent(&book_with(&turned, &[], &[]), Some("en")),
        some(128, "3")
    );
    // The last of four matches.
    let last = [
        name(128, "a", "1"),
        name(128, "b", "2"),
        name(128, "c", "3"),
        name(0, "d", "4"),
    ];
    assert_eq!(sent(&book_with(&last, &[], &[]), Some("d")), some(0, "4"));
    assert_eq!(sent(&book_with(&[], &last, &[]), Some("d")), some(0, "4"));
}

#[test]
fn the_default_is_the_first_flagged_128_else_the_first() {
    for flagged in 0..16u8 {
        let campus: Vec<Name> = (0..4)
            .map(|place| {
                let flags = if flagged >> place & 1 == 1 { 128 } else { 0 };
                name(flags, "en", &format!("{place}"))
            })
            .collect();
        let book = book_with(&campus, &[], &[]);
        let expected = match flagged.trailing_zeros() {
            place @ 0..=3 => some(128, &format!("{place}")),
            _ => some(0, "0"),
        };
        assert_eq!(sent(&book, None), expected);
        assert_eq!(sent(&book, Some("de")), expected);
    }
    // The second of two is flagged, or both are.
    let campus = [name(0, "en", "1"), name(128, "de", "2")];
    assert_eq!(
        sent(&book_with(&campus, &[], &[]), Some("it")),
        some(128, "2")
    );
    let campus = [name(128, "en", "1"), name(128, "de", "2")];
    assert_eq!(
        sent(&book_with(&campus, &[], &[]), Some("it")),
        some(128, "1")
    );
}

#[test]
fn flags_in_a_houses_list_count_for_nothing() {
    let own = [name(128, "en", "h1"), name(128, "de", "h2")];
    let campus = [name(0, "fr", "c1"), name(0, "nl", "c2")];
    for language in [None, Some("it")] {
        assert_eq!(sent(&book_with(&[], &own, &own), language), None);
        assert_eq!(
            sent(&book_with(&campus, &own, &own), language),
            some(0, "c1")
        );
    }
    // Not for a match either: the first one counts.
    let own = [name(0, "en", "h1"), name(128, "en", "h2")];
    assert_eq!(sent(&book_with(&[], &own, &[]), Some("en")), some(0, "h1"));
    // The campus match goes before a house's name of another language.
    let own = [name(128, "de", "h1")];
    assert_eq!(
        sent(&book_with(&campus, &own, &[]), Some("nl")),
        some(0, "c2")
    );
}

#[test]
fn tags_match_octet_for_octet() {
    let campus = [name(128, "x", "default")];
    for (tag, asked, matches) in [
        ("en", "en", true),
        ("en", "EN", false),
        ("EN", "en", false),
        ("en", "En", false),
        ("en", "en-GB", false),
        ("en-GB", "en", false),
        ("en-GB", "en-GB", true),
        ("en-GB", "en-gb", false),
        ("en", "e", false),
        ("e", "en", false),
        ("en", "en ", false),
        ("en", "en\0", false),
        ("\0", "\0", true),
        ("\0", "\0\0", false),
        ("12345678", "12345678", true),
        ("12345678", "1234567", false),
        ("1234567", "12345678", false),
        // Nine octets never match, and aren't cut to eight.
        ("12345678", "123456789", false),
        ("12345678", "1234567812345678", false),
    ] {
        let named = [name(0, tag, "match")];
        let expected = if matches {
            some(0, "match")
        } else {
            some(128, "default")
        };
        // In the house's list, and in the campus list.
        let book = book_with(&campus, &named, &[]);
        assert_eq!(sent(&book, Some(asked)), expected, "{tag:?} {asked:?}");
        let book = book_with(&[named.as_slice(), &campus].concat(), &[], &[]);
        assert_eq!(sent(&book, Some(asked)), expected, "{tag:?} {asked:?}");
    }
}

#[test]
fn option_8_of_any_length_from_1_is_legal() {
    let book = book_with(&[name(0, "en", "A")], &[name(0, "eeeeeeee", "B")], &[]);
    for length in [1, 7, 8, 9, 255, 256, 264, 1_440] {
        let asked = "e".repeat(length);
        let expected = if length == 8 {
            some(0, "B")
        } else {
            some(0, "A")
        };
        assert_eq!(sent(&book, Some(&asked)), expected, "{length} octets");
    }
    let empty = call(&mut book.clone(), CLIENT_1, 1000, &getinfo(Some(b"")));
    assert_eq!(empty, (5, vec![]));
}

#[test]
fn option_8_is_taken_wherever_it_stands() {
    let book = book_with(&[name(128, "de", "A"), name(0, "en", "B")], &[], &[]);
    let first = datagram(8, 1, &[(8, b"en"), (5, &[0, 9]), (3, ID)]);
    let (_, reply) = call(&mut book.clone(), CLIENT_1, 1000, &first);
    let (_, usual) = call(&mut book.clone(), CLIENT_1, 1000, &getinfo(Some(b"en")));
    assert_eq!(reply, usual);
    // Twice it breaks the repeat rule.
    let twice = datagram(8, 1, &[(3, ID), (8, b"en"), (8, b"en")]);
    assert_eq!(call(&mut book.clone(), CLIENT_1, 1000, &twice).0, 5);
}

#[test]
fn the_house_is_that_of_the_client_in_this_call() {
    let mut book = book_with(
        &[name(0, "en", "C")],
        &[name(0, "en", "1")],
        &[name(0, "en", "2")],
    );
    // Whoever holds the identifier.
    book.leases = vec![lease(1, ID, 1000, 5000, &[0])];
    for (client, text) in [
        (0x0A01_0000, b'1'),
        (0x0A01_00FF, b'1'),
        (0x0A02_0000, b'2'),
        (0x0A02_00FF, b'2'),
        (CLIENT_1, b'1'),
    ] {
        let octets = names_sent(&book, client, Some(b"en"));
        assert_eq!(octets.last(), Some(&text));
    }
    assert_eq!(
        call(&mut book, STRANGER, 1000, &getinfo(Some(b"en"))),
        (3, vec![])
    );
    // A house without a list of its own.
    book.names[0].houses[1] = vec![];
    let octets = names_sent(&book, CLIENT_2, Some(b"en"));
    assert_eq!(octets.last(), Some(&b'C'));
}

/// Scopes of one address each that differ in their names.
fn book_of_scopes(names: &[ScopeNames]) -> Book {
    let mut book = specimen_book();
    book.scopes = (0..names.len() as u32)
        .map(|number| Scope {
            lowest: 0xEFC0_0000 + number,
            size: 1,
            ttl: 15,
            quotas: vec![Quota { share: 0, limit: 1 }; 2],
        })
        .collect();
    book.names = names.to_vec();
    book
}

#[test]
fn each_scope_chooses_by_itself() {
    let en = [name(0, "en", "A")];
    let de = [name(128, "de", "B")];
    let scope = |campus: &[Name], first: &[Name], second: &[Name]| ScopeNames {
        campus: campus.to_vec(),
        houses: vec![first.to_vec(), second.to_vec()],
    };
    // The house's match, the campus match, the default, none.
    let mut book = book_of_scopes(&[
        scope(&de, &en, &de),
        scope(&[&de[..], &en].concat(), &de, &en),
        scope(&de, &de, &en),
        scope(&[], &de, &en),
    ]);
    let (_, reply) = call(&mut book, CLIENT_1, 1000, &getinfo(Some(b"en")));
    let expected = hex("04
        EFC00000 EFC00000 0F 01 00 02 656E 01 41
        EFC00001 EFC00001 0F 01 00 02 656E 01 41
        EFC00002 EFC00002 0F 01 80 02 6465 01 42
        EFC00003 EFC00003 0F 00");
    assert_eq!(option_of(&reply, 9), Some(expected));
}

#[test]
fn the_drafts_example_has_51_octets() {
    let scope = |text: &str| ScopeNames {
        campus: vec![name(128, "en", text)],
        houses: vec![vec![], vec![]],
    };
    let mut book = book_of_scopes(&[scope("Inside abcd.com"), scope("world")]);
    let (_, reply) = call(&mut book, CLIENT_1, 1000, &getinfo(Some(b"en")));
    assert_eq!(option_of(&reply, 9).map(|value| value.len()), Some(51));
}

#[test]
fn names_go_into_option_9_only() {
    let names = [name(128, "en", "A")];
    let book = book_with(&names, &names, &names);
    let plain = specimen_book();
    // What asks for no option 9, or isn't a GETINFO, draws what it draws without names.
    let scope = hex("EFC00000");
    let messages: &[&[(u16, &[u8])]] = &[
        &[(3, ID)],
        &[(3, ID), (8, b"en")],
        &[(3, ID), (5, &[0, 11]), (8, b"en")],
        &[(3, ID), (5, &[0, 8, 0, 0, 9, 0]), (8, b"en")],
        &[(3, ID), (4, &scope)],
        &[(3, ID), (4, &scope), (8, b"en")],
        &[(3, ID), (9, b"en")],
    ];
    for options in messages {
        for message_type in [1, 3, 4, 7, 8] {
            let message = datagram(message_type, 1, options);
            let with = call(&mut book.clone(), CLIENT_1, 1000, &message);
            let without = call(&mut plain.clone(), CLIENT_1, 1000, &message);
            assert_eq!(with, without, "type {message_type}");
            if with.0 == 0 {
                assert_eq!(option_of(&with.1, 9), None);
            }
        }
    }
    // Option 8 is allowed in a GETINFO alone.
    let request = datagram(3, 1, &[(3, ID), (4, &scope), (8, b"en")]);
    assert_eq!(error(&mut book.clone(), CLIENT_1, 1000, &request), 1);
}

#[test]
fn the_longest_replies() {
    let longest = Name {
        flags: 128,
        tag: vec![b'e'; 8],
        text: vec![b'A'; 32],
    };
    let lists = ScopeNames {
        campus: vec![longest.clone(); 4],
        houses: vec![vec![longest; 4]; 2],
    };
    let mut book = book_of_scopes(&[lists.clone(), lists.clone(), lists.clone(), lists]);
    let identifier = [0x41; 32];
    let asking = |language: &[u8]| {
        datagram(
            8,
            1,
            &[
                (3, &identifier),
                (5, &[0, 9, 0, 11]),
                (8, language),
                (12, &[0; 6]),
            ],
        )
    };
    // GETINFO: 293 octets, in a room of just 512 too.
    for language in [&b"eeeeeeee"[..], b"de"] {
        let (_, reply) = call(&mut book, CLIENT_1, 1000, &asking(language));
        assert_eq!(reply.len(), 293);
        let mut room = [7; 512];
        let answer = serve(&mut book, &asking(language), CLIENT_1, 1000, &mut room);
        assert_eq!(answer, (0, 0, 0, 293));
        assert_eq!(room[..293], reply);
        assert_eq!(room[293..], [7; 219]);
        assert_eq!(
            serve(
                &mut book,
                &asking(language),
                CLIENT_1,
                1000,
                &mut room[..511]
            ),
            (2, 0, 0, 0)
        );
    }
    // A lease of 32 single addresses: 296 octets.
    book.scopes.truncate(1);
    book.names.truncate(1);
    book.scopes[0].size = 64;
    book.scopes[0].quotas = vec![
        Quota {
            share: 0,
            limit: 64
        };
        2
    ];
    let every_other: Vec<u8> = (0..32).map(|place| 2 * place).collect();
    book.leases = vec![lease(1, &identifier, 1000, 5000, &every_other)];
    let renew = datagram(4, 1, &[(3, &identifier), (12, &[0; 6])]);
    let (_, reply) = call(&mut book, CLIENT_1, 1000, &renew);
    assert_eq!((reply[1], reply.len()), (5, 296));
}

/// A message: its type, transaction id and options.
type Message<'a> = (u8, u32, &'a [(u16, &'a [u8])]);

#[test]
fn no_call_changes_the_names() {
    let names = [name(128, "en", "A"), name(0, "de", "B")];
    let mut book = book_with(&names, &names[1..], &names[..1]);
    let before = book.names.clone();
    let scope = hex("EFC00000");
    let calls: &[Message] = &[
        (1, 1, &[(3, ID), (4, &scope)]),
        (3, 2, &[(3, ID), (4, &scope)]),
        (3, 2, &[(3, ID), (4, &scope)]),
        (8, 3, &[(3, ID), (5, &[0, 9]), (8, b"de")]),
        (4, 4, &[(3, ID)]),
        (4, 5, &[(3, b"no")]),
        (7, 6, &[(3, ID)]),
        (7, 7, &[]),
        (9, 8, &[(3, ID)]),
    ];
    for (place, (message_type, transaction, options)) in calls.iter().enumerate() {
        let time = 1000 + place as u32;
        let message = datagram(*message_type, *transaction, options);
        call(&mut book, CLIENT_1, time, &message);
        assert_eq!((&book.names, book.clock), (&before, time));
    }
    assert_eq!(call(&mut book, STRANGER, u32::MAX, &[]).0, 3);
    assert_eq!(book.names, before);
    // They are in the file afterwards, before the release.
    let mut room = vec![0; LONGEST_FILE];
    let length = write(&book, &mut room).expect("a length");
    let section = hex("01 02 80 02 656E 01 41 00 02 6465 01 42
        01 00 02 6465 01 42
        01 80 02 656E 01 41
        01 01 02 0041 00000006 000003EE
        00");
    assert!(room[..length].ends_with(&section));
    assert_eq!(read(&room[..length]), Ok(book));
}

#[test]
fn bad_names_lent_come_before_the_other_tests() {
    let mut book = specimen_book();
    book.names[0].campus = vec![name(1, "en", "A")];
    let before = book.clone();
    // A small room, a stranger, no datagram; and a GETINFO that is all right, or doesn't ask for names.
    assert_eq!(
        serve(&mut book, &[], STRANGER, 5000, &mut [0; 511]),
        (1, 0, 0, 0)
    );
    assert_eq!(call(&mut book, CLIENT_1, 5000, &getinfo(Some(b"en"))).0, 1);
    let plain = datagram(8, 1, &[(3, ID)]);
    assert_eq!(call(&mut book, CLIENT_1, 5000, &plain).0, 1);
    assert_eq!(book, before);
    assert_eq!(write(&book, &mut []), Err(22));
}
