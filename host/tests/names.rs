//! Names of the scopes: the one in a GETINFO's reply, the file that keeps them, and sections that are refused.

mod common;

use banshorra_host::{CampusFile, Refusal};
use common::*;
use std::net::Ipv4Addr;

/// The text of the name that a client is sent, if there is one; the whole reply is as it has to be.
fn shown(pool: &Scope, client: Ipv4Addr, language: Option<&[u8]>) -> Option<Vec<u8>> {
    let file = campus_at(CLOCK, pool.clone(), &[]).octets();
    let mut campus = CampusFile::from_bytes(&file).expect("sound");
    let mut options = vec![identifier(b"ab"), option_request_list(&[9])];
    options.extend(language.map(requested_language));
    let (number, reply) = call(&mut campus, client, CLOCK, &message(GETINFO, 1, &options));
    assert_eq!(number, 0);
    // Names are settings: a call leaves them.
    assert_eq!(campus.as_bytes(), file);
    let mut names = pool.names.iter().flatten().map(Some).chain([None]);
    let ack = |name| {
        let list = scope_list([(pool, name)]);
        let options = [server_identifier(SERVER), identifier(b"ab"), list];
        message(ACK, 1, &options)
    };
    let name = names.find(|name| ack(*name) == reply);
    name.expect("one of the names, or none")
        .map(|name| name.text.clone())
}

fn is_shown(pool: &Scope, client: Ipv4Addr, language: Option<&[u8]>, text: &[u8]) {
    let shown = shown(pool, client, language);
    assert_eq!(shown.unwrap_or_default(), text, "{client} {language:?}");
}

#[test]
fn the_houses_own_comes_first_and_then_the_campus_list() {
    is_shown(&pool(), HOUSE_1, Some(b"en"), b"Stage");
    is_shown(&pool(), HOUSE_1, Some(b"de"), b"B\xFChne");
    is_shown(&pool(), HOUSE_1, Some(b"fr"), b"Plateau");
    is_shown(&pool(), HOUSE_2, Some(b"en"), b"Studio A");
    is_shown(&pool(), HOUSE_2, Some(b"en-GB"), b"Studio");
}

#[test]
fn without_a_match_the_campus_default_is_shown() {
    let others: [&[u8]; 7] = [
        b"e",
        b"EN",
        b"en-",
        b"en-GB-ox",
        b"en-GB-oxe",
        b"\0",
        &[b'e'; 300],
    ];
    for client in [HOUSE_1, HOUSE_2] {
        is_shown(&pool(), client, None, b"Studio A");
        for language in others {
            is_shown(&pool(), client, Some(language), b"Studio A");
        }
    }
    is_shown(&pool(), HOUSE_2, Some(b"de"), b"Studio A");
    // No name is flagged 128: the first.
    let mut pool = pool();
    pool.names[0][1].flags = 0;
    is_shown(&pool, HOUSE_1, None, b"Studio");
    is_shown(&pool, HOUSE_2, Some(b"de"), b"Studio");
    // The campus list is empty: none, although house 1 has names.
    pool.names[0].clear();
    is_shown(&pool, HOUSE_1, None, b"");
    is_shown(&pool, HOUSE_1, Some(b"fr"), b"");
    is_shown(&pool, HOUSE_1, Some(b"en"), b"Stage");
    is_shown(&pool, HOUSE_2, Some(b"en"), b"");
}

#[test]
fn the_first_of_two_counts_and_the_longest_fit() {
    let mut pool = pool();
    let long = Name::new(0, b"language", b"a name of the thirty-two octets.");
    pool.names[2] = vec![Name::new(0, b"l", b"1"), long.clone(), long.clone(), long];
    pool.names[2][3].text = b"another".to_vec();
    is_shown(&pool, HOUSE_2, Some(b"l"), b"1");
    is_shown(
        &pool,
        HOUSE_2,
        Some(b"language"),
        b"a name of the thirty-two octets.",
    );
    is_shown(&pool, HOUSE_2, Some(b"languages"), b"Studio A");
    is_shown(&pool, HOUSE_1, Some(b"language"), b"Studio A");
}

#[test]
fn no_name_is_sent_where_the_list_of_scopes_isnt_asked_for() {
    let options = [
        identifier(b"ab"),
        option_request_list(&[11]),
        requested_language(b"en"),
    ];
    let reply = [
        server_identifier(SERVER),
        identifier(b"ab"),
        current_time(CLOCK),
    ];
    let answer = call(
        &mut specimen(),
        HOUSE_1,
        CLOCK,
        &message(GETINFO, 1, &options),
    );
    assert_eq!(answer, (0, message(ACK, 1, &reply)));
}

fn refusal(pool: Scope) -> Option<Refusal> {
    CampusFile::from_bytes(&campus_at(CLOCK, pool, &[]).octets()).err()
}

#[test]
fn bad_names_are_20() {
    for (flags, tag, text, is_good) in [
        (0, 1, 1, true),
        (128, 8, 32, true),
        (1, 1, 1, false),
        (129, 1, 1, false),
        (0, 0, 1, false),
        (0, 9, 1, false),
        (0, 1, 0, false),
        (0, 1, 33, false),
    ] {
        for list in 0..3 {
            let mut pool = pool();
            pool.names[list] = vec![Name::new(flags, &vec![b't'; tag], &vec![b'n'; text])];
            let due = (!is_good).then_some(Refusal::Form);
            assert_eq!(refusal(pool), due, "{flags} {tag} {text}");
        }
    }
    for (count, due) in [(4, None), (5, Some(Refusal::Form))] {
        let mut pool = pool();
        pool.names[2] = vec![Name::new(0, b"t", b"n"); count];
        assert_eq!(refusal(pool), due);
    }
}

#[test]
fn a_section_that_is_missing_or_of_other_scopes_is_20() {
    let campus = campus_at(CLOCK, pool(), &[]);
    let [front, names, releases, holds] = campus.sections();
    let mut none = campus.clone();
    none.scopes[0].names.clear();
    assert_eq!(none.names(), [1, 0, 0, 0]);
    assert_eq!(CampusFile::from_bytes(&none.octets()).err(), None);
    let mut another = campus.clone();
    another.scopes.push(pool());
    let other_count = |count: u8| [&[count], &names[1..]].concat();
    for section in [
        vec![],
        vec![0],
        other_count(0),
        other_count(2),
        another.names(),
    ] {
        let file = [&front[..], &section, &releases, &holds].concat();
        let refusal = CampusFile::from_bytes(&file).err();
        assert_eq!(refusal, Some(Refusal::Form), "{section:?}");
    }
}
