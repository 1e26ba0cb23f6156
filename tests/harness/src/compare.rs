//! One case, run by both implementations in this process and compared octet for octet.

use crate::bounds;
use crate::campus::{holding, sound};
use crate::case::Case;
use crate::counts;
use crate::ending;
use crate::fault;
use crate::halves;
use crate::holds;
use crate::judged;
use crate::lent::{Held, Lender, Octets, Served};
use crate::names;
use crate::occupancy::{self, Board};
use crate::random::Random;
use crate::releases::Past;
use crate::salvage::{self, Salvaged};
use crate::tally::Tally;
use crate::{LONGEST_FILE, SHORTEST_ROOM};
use banshorra_host::{ANSWER_ROOM, BOARD_ROOM, OCCUPANCY_ROOM, VERDICT_SIZE};
use builder::{value_of, Call, Campus, ACK, GETINFO};
use second::occupancy::board_octets;
use std::cmp::Ordering;
use std::net::Ipv4Addr;
use std::panic::{catch_unwind, AssertUnwindSafe};

/// Refusals of the C interface, and the discard for a short reply room.
const NO_ROOM: u8 = 2;
const ROOM_SHORT: u8 = 23;
const CUT_OFF: u8 = 24;
const ANSWERS_FULL: u8 = 27;
const LENGTH_PAST: u8 = 28;
/// The list of all that a file can have: a count, and 255 leases, holds and releases.
const LONGEST_LIST: usize = 2 + 3 * 3 * 255;
/// Octets around each lent buffer are watched.
const LENDER: Lender = Lender { around: 32 };

/// What differed first.
pub type Difference = String;

/// What the second program makes of one call.
pub struct Answer {
    pub outcome: u8,
    /// Where the datagram went wrong, with discard 5; else 0.
    pub offset: usize,
    /// How many records were read.
    pub count: usize,
    pub reply: Vec<u8>,
    /// The campus file afterwards; empty if the book can't be written.
    pub file: Vec<u8>,
    /// The occupancy board afterwards.
    occupancy: Vec<u8>,
    /// Where its record begins in the list.
    place: usize,
    halves: Halves,
}

/// What the second program makes of the same call in two halves.
struct Halves {
    verdict: second::Verdict,
    /// The campus file after the first half; empty if the book can't be written.
    file: Vec<u8>,
    /// What the second half gives in a room that is just large enough, in one that is too short, and in the call's if it is another.
    written: Vec<(usize, Served)>,
}

impl Halves {
    /// The halves, but for the file of the book that the first of them left; and that book.
    fn new(book: &second::Book, call: &Call) -> (Halves, second::Book) {
        let mut judged = book.clone();
        let verdict = second::judge(&mut judged, &call.datagram, call.client, call.time);
        let mut rooms = vec![SHORTEST_ROOM, SHORTEST_ROOM - 1, call.room.into()];
        if rooms[..2].contains(&rooms[2]) {
            rooms.pop();
        }
        let written = rooms.into_iter().map(|length| {
            let mut reply = vec![0; length];
            let (outcome, offset, count, filled) = second::write(&judged, &verdict, &mut reply);
            reply.truncate(filled);
            (length, (outcome, offset, count, reply))
        });
        let halves = Halves {
            written: written.collect(),
            verdict,
            file: Vec::new(),
        };
        (halves, judged)
    }
}

/// The campus file of a book; empty if it can't be written.
fn file_of(book: &second::Book) -> Vec<u8> {
    let mut file = vec![0; LONGEST_FILE];
    let length = second::file::write(book, &mut file).unwrap_or(0);
    file.truncate(length);
    file
}

/// What the second program makes of a case.
pub struct Expected {
    /// 0, or the refusal of the file.
    pub refusal: u8,
    board: String,
    /// Empty if the file is refused.
    occupancy: Vec<u8>,
    /// The file that is salvaged and the list of what is dropped, or the refusal.
    salvaged: Result<(Vec<u8>, Vec<u8>), u8>,
    pub answers: Vec<Answer>,
    /// Where the answered records end in the list; a cut-off one follows, or nothing.
    end: usize,
}

fn second(case: &Case) -> Expected {
    let board = second::programs::board(&case.file);
    let (mut book, refusal) = match second::file::read(&case.file) {
        Ok(book) => (Some(book), 0),
        Err(refusal) => (None, refusal),
    };
    let occupancy = book.as_ref().map_or(Vec::new(), board_octets);
    let mut answers = Vec::new();
    let mut end = 0;
    while let (Some(book), Some(call)) = (&mut book, Call::read(&case.calls[end..])) {
        let (room_length, (mut halves, judged)) = (call.room.into(), Halves::new(book, &call));
        let (outcome, offset, count, reply) =
            second::server::answer(book, &call.datagram, call.client, call.time, room_length);
        // A book that can't be written is a difference from any file; what the call answered is compared before it.
        let file = file_of(book);
        let is_written = !file.is_empty();
        // As a rule both are one book, which is written once.
        halves.file = if judged == *book {
            file.clone()
        } else {
            file_of(&judged)
        };
        answers.push(Answer {
            outcome,
            offset,
            count,
            reply,
            file,
            occupancy: board_octets(book),
            place: end,
            halves,
        });
        end += call.length();
        if !is_written {
            break;
        }
    }
    Expected {
        refusal,
        board,
        occupancy,
        salvaged: second_salvaged(&case.file, (LONGEST_FILE, LONGEST_LIST)),
        answers,
        end,
    }
}

/// What the second program salvages of a file in rooms of these lengths.
fn second_salvaged(
    file: &[u8],
    (room, list_room): (usize, usize),
) -> Result<(Vec<u8>, Vec<u8>), u8> {
    let (mut new, mut list) = (vec![0; room], vec![0; list_room]);
    let (length, listed) = second::salvage::salvage(file, &mut new, &mut list)?;
    new.truncate(length);
    list.truncate(listed);
    Ok((new, list))
}

/// What panics is a difference like any other.
pub fn caught<T>(work: impl FnOnce() -> T) -> Result<T, Difference> {
    catch_unwind(AssertUnwindSafe(work)).map_err(|panic| match panic.downcast::<String>() {
        Ok(text) => *text,
        Err(panic) => panic
            .downcast::<&str>()
            .map_or("a panic".into(), |text| text.to_string()),
    })
}

/// The second program's part.
pub fn expected(case: &Case) -> Result<Expected, Difference> {
    caught(|| second(case)).map_err(|why| format!("the second program panicked: {why}"))
}

fn same<T: PartialEq + std::fmt::Debug>(what: &str, library: T, second: T) {
    if library != second {
        panic!("{what}: the library says {library:?}, the second program {second:?}");
    }
}

fn same_octets(what: &str, library: &[u8], second: &[u8]) {
    if library != second {
        let equal = library.iter().zip(second).take_while(|(a, b)| a == b);
        panic!(
            "{what}: octet {} of {} and {} differs\n  library {}\n  second  {}",
            equal.count(),
            library.len(),
            second.len(),
            hex(library),
            hex(second)
        );
    }
}

pub fn hex(octets: &[u8]) -> String {
    octets.iter().map(|octet| format!("{octet:02x}")).collect()
}

/// Compares a case. A number made of its octets chooses rooms, so that a kept case runs in the same way.
pub fn compare(case: &Case, tally: &mut Tally) -> Result<(), Difference> {
    let expected = expected(case)?;
    let choice = choice(case);
    caught(|| {
        same("check", LENDER.check(&case.file), expected.refusal);
        board(case, &expected, choice);
        occupancy(case, &expected, choice, tally);
        serve(case, &expected, choice);
        replay(case, &expected, choice, tally);
        halves(case, &expected, choice, tally);
        salvage(case, &expected, choice, tally);
        if choice.is_multiple_of(4) {
            lent_rooms(case, tally);
        }
    })?;
    count(case, &expected, tally)
}

fn choice(case: &Case) -> usize {
    let octets = case.file.iter().chain(&case.calls);
    octets.fold(7_usize, |sum, &octet| {
        sum.wrapping_mul(31).wrapping_add(usize::from(octet))
    }) >> 3
}

/// Counts what the case has shown, and sees that each scope list is the one that is due by what the case was made of, what is remembered
/// of releases, held of offers, and answered to options 14 and 15, and the count, what is due by the file before each call, the offset by the
/// datagram, and each occupancy board by its file.
fn count(case: &Case, expected: &Expected, tally: &mut Tally) -> Result<(), Difference> {
    if expected.refusal != 0 {
        tally.code(expected.refusal);
    }
    if let Some(place) = case.meant {
        tally.damaged(place, expected.refusal);
    }
    if let Some(campus) = &case.campus {
        boarded(campus, expected, tally)?;
    }
    if let Ok((new, list)) = &expected.salvaged {
        let salvaged = Salvaged::new(&case.file, new, list)?;
        if (list[..] == [0, 0]) != (expected.refusal == 0) {
            return Err(format!(
                "a list {list:?} of a file that is {}",
                expected.refusal
            ));
        }
        salvaged
            .why()
            .into_iter()
            .for_each(|why| tally.salvaged(why));
    }
    let (mut past, mut judged_past) = (Past::default(), judged::Past::default());
    let (mut before, mut file) = (Campus::read(&case.file), &case.file);
    let mut stood = Board(expected.occupancy.clone());
    if let (Some(campus), 0) = (&before, expected.refusal) {
        occupied(campus, &stood, tally)?;
    }
    for answer in &expected.answers {
        let Some(call) = Call::read(&case.calls[answer.place..]) else {
            continue;
        };
        faulted(case, &call, answer, tally)?;
        let after = Campus::read(&answer.file);
        if let (Some(before), Some(after)) = (&before, &after) {
            released(&mut past, before, after, &call, answer, tally)?;
            bounded(file, before, &call, answer, tally)?;
            held_offers(before, after, &call, answer)?;
            weighed(before, &call, answer, tally)?;
            read(before, &call, answer, tally)?;
            let why = judged_past.why(before, &call, answer.outcome, &answer.reply);
            why.into_iter().for_each(|why| tally.held(why));
            stood = altered((before, &stood), after, &call, answer, tally)?;
            let why = ending::why(before, after);
            why.into_iter().for_each(|why| tally.ordered(why));
        }
        (before, file) = (after, &answer.file);
        tally.call(&call.datagram, answer.outcome, &answer.reply);
        let kinds = (call.datagram.get(1), answer.reply.get(1));
        if let (Some(campus), (Some(&GETINFO), Some(&ACK))) = (&case.campus, kinds) {
            let (due, why) = names::scope_list_due(campus, &call);
            why.into_iter().for_each(|why| tally.named(why));
            if due.as_ref().map(|option| &option.1[..]) != value_of(&answer.reply, 9) {
                let reply = hex(&answer.reply);
                return Err(format!("another scope list is due than in {reply}"));
            }
        }
    }
    Ok(())
}

/// Where a datagram went wrong: what is due by its octets and, where it was broken on purpose, by how that was done.
fn faulted(case: &Case, call: &Call, answer: &Answer, tally: &mut Tally) -> Result<(), Difference> {
    let found = fault::due(call, answer.outcome, answer.offset)?;
    found.iter().for_each(|fault| tally.fault(fault.cause));
    let broken = case.broken.get(&*call.datagram);
    match (broken, answer.outcome) {
        (None, _) | (_, 2 | 3) => {}
        (Some(fault), 5) if fault.offset == answer.offset => tally.broken(fault.cause),
        (Some(fault), outcome) => {
            let found = (outcome, answer.offset);
            return Err(format!("it was broken as {fault:?}, and drew {found:?}"));
        }
    }
    Ok(())
}

/// What is remembered after a call, and the reply to a RELEASE: what is due by the campus before it.
fn released(
    past: &mut Past,
    before: &Campus,
    after: &Campus,
    call: &Call,
    answer: &Answer,
    tally: &mut Tally,
) -> Result<(), Difference> {
    let due = match answer.outcome {
        0 | 8 => past.due(before, call, &answer.reply),
        _ => None,
    };
    let releases = due.as_ref().map_or(&before.releases, |due| &due.releases);
    if after.releases != *releases {
        let (found, releases) = (&after.releases, releases);
        return Err(format!(
            "{releases:?} is due to be remembered, not {found:?}"
        ));
    }
    let reply = due.as_ref().and_then(|due| due.reply.as_ref());
    if reply.is_some_and(|reply| *reply != answer.reply) {
        let reply = hex(&answer.reply);
        return Err(format!("another reply to the RELEASE is due than {reply}"));
    }
    let why = due.map_or(Vec::new(), |due| due.why);
    why.into_iter().for_each(|why| tally.released(why));
    Ok(())
}

/// A call with option 14 or 15: what is due by what the second program answers to the same without both.
fn bounded(
    file: &[u8],
    before: &Campus,
    call: &Call,
    answer: &Answer,
    tally: &mut Tally,
) -> Result<(), Difference> {
    let judged = [0, 8].contains(&answer.outcome);
    let Some(plain) = bounds::plain(call).filter(|_| judged) else {
        return Ok(());
    };
    let (outcome, reply, _) = second_on(file, &plain)?;
    let Some(due) = bounds::due(before, call, outcome, &reply) else {
        return Ok(());
    };
    if (due.outcome, &due.reply) != (answer.outcome, &answer.reply) {
        let (due, reply) = (hex(&due.reply), hex(&answer.reply));
        return Err(format!("by 14 and 15 {due} is due, not {reply}"));
    }
    due.why.into_iter().for_each(|why| tally.bounded(why));
    Ok(())
}

/// What the second program answers to one call on a file, and the file afterwards.
fn second_on(file: &[u8], call: &Call) -> Result<(u8, Vec<u8>, Vec<u8>), Difference> {
    caught(|| {
        let mut book = second::file::read(file).expect("the book before the call");
        let room = call.room.into();
        let (outcome, _, _, reply) =
            second::server::answer(&mut book, &call.datagram, call.client, call.time, room);
        (outcome, reply, file_of(&book))
    })
}

/// What is held after a call, and the answer where a hold decides it: what is due by the campus before it.
fn held_offers(
    before: &Campus,
    after: &Campus,
    call: &Call,
    answer: &Answer,
) -> Result<(), Difference> {
    let due = holds::due(before, call, answer.outcome, &answer.reply);
    if after.holds != due.holds {
        let (found, holds) = (&after.holds, due.holds);
        return Err(format!("{holds:?} is due to be held, not {found:?}"));
    }
    match due.answer {
        Some(due) => drawn("by the hold", &due, answer),
        None => Ok(()),
    }
}

/// Whether a call drew outcome and reply that are due.
fn drawn(why: &str, due: &(u8, Vec<u8>), answer: &Answer) -> Result<(), Difference> {
    if (due.0, &due.1) == (answer.outcome, &answer.reply) {
        return Ok(());
    }
    let (due, found) = ((due.0, hex(&due.1)), (answer.outcome, hex(&answer.reply)));
    Err(format!("{why} {due:?} is due, not {found:?}"))
}

/// What has to draw the same draws it; and what others' holds have done to the call.
fn weighed(
    before: &Campus,
    call: &Call,
    answer: &Answer,
    tally: &mut Tally,
) -> Result<(), Difference> {
    if let Some((other, alike)) = holds::alike(before, call) {
        let (outcome, reply, file) = second_on(&other.octets(), &alike)?;
        let due = holds::of_alike(before, call, (outcome, reply));
        drawn("by what has to draw the same", &due, answer)?;
        let drops = alike.datagram == call.datagram;
        if drops && outcome == 0 && file != answer.file {
            return Err("a hold that was dropped has changed something".into());
        }
        tally.held(if drops {
            judged::SAME_AS_NEW
        } else {
            judged::SAME_AS_REQUEST
        });
    }
    if let (Some(other), 0 | 8) = (judged::without_others(before, call), answer.outcome) {
        let (_, without, _) = second_on(&other.octets(), call)?;
        let why = judged::weighed(before, call, &answer.reply, &without);
        why.into_iter().for_each(|why| tally.held(why));
    }
    Ok(())
}

/// How many records were read: what is due by the campus before the call.
fn read(
    before: &Campus,
    call: &Call,
    answer: &Answer,
    tally: &mut Tally,
) -> Result<(), Difference> {
    let due = counts::Due::new(before, call, answer.outcome);
    if due.count() != answer.count {
        let (due, found) = (due.count(), answer.count);
        return Err(format!("a count of {due} is due, not {found}"));
    }
    due.why().into_iter().for_each(|why| tally.read(why));
    Ok(())
}

/// The board's lines, counted from leases and holds.
fn boarded(campus: &Campus, expected: &Expected, tally: &mut Tally) -> Result<(), Difference> {
    let mut due = "scope house share limit holds\n".to_string();
    let mut unheld = campus.clone();
    unheld.holds.clear();
    for (scope, number) in campus.scopes.iter().zip(1..) {
        for ((share, limit), house) in scope.parts.iter().zip(1..) {
            let lowest = Ipv4Addr::from(scope.lowest);
            let holds = holding(campus, house, number);
            due += &format!("{lowest} {house} {share} {limit} {holds}\n");
            if holds > holding(&unheld, house, number) {
                tally.held(judged::ON_BOARD);
            }
        }
    }
    if due != expected.board {
        return Err(format!("another board is due than {}", expected.board));
    }
    Ok(())
}

/// An occupancy board: what is due by the leases and holds of its file.
fn occupied(campus: &Campus, board: &Board, tally: &mut Tally) -> Result<(), Difference> {
    let due = Board::of(campus);
    if due != *board {
        let (due, found) = (hex(&due.0), hex(&board.0));
        return Err(format!("the occupancy board {due} is due, not {found}"));
    }
    let why = occupancy::of_board(campus, board);
    why.into_iter().for_each(|why| tally.occupied(why));
    Ok(())
}

/// The occupancy board that a call leaves; and what the call has done to the one before it.
fn altered(
    before: (&Campus, &Board),
    after: &Campus,
    call: &Call,
    answer: &Answer,
    tally: &mut Tally,
) -> Result<Board, Difference> {
    let board = Board(answer.occupancy.clone());
    occupied(after, &board, tally)?;
    let seen = occupancy::Seen {
        call,
        outcome: answer.outcome,
        reply: &answer.reply,
        before,
        after: (after, &board),
    };
    seen.why().into_iter().for_each(|why| tally.occupied(why));
    Ok(board)
}

/// The text in a room that is exactly large enough by its rule, or larger; nothing where it is smaller.
fn board(case: &Case, expected: &Expected, choice: usize) {
    let text = LENDER.board(&case.file, BOARD_ROOM + [0, 0, 1, 900][choice % 4]);
    same_octets("board", &text, expected.board.as_bytes());
    if choice % 8 == 1 {
        let text = LENDER.board(&case.file, [0, 11, BOARD_ROOM - 1][choice / 8 % 3]);
        same_octets("board in a short room", &text, &[]);
    }
}

/// The occupancy board of the case's file, in a room that is just large enough or larger, and in one that is too short.
fn occupancy(case: &Case, expected: &Expected, choice: usize, tally: &mut Tally) {
    let short = [0, 1, 300, OCCUPANCY_ROOM - 1][choice / 4 % 4];
    for room in [OCCUPANCY_ROOM + [0, 0, 1, 900][choice % 4], short] {
        let (number, why) = match (expected.refusal, room.cmp(&OCCUPANCY_ROOM)) {
            (0, Ordering::Less) => (ROOM_SHORT, Some(occupancy::SHORT)),
            (0, Ordering::Equal) => (0, None),
            (0, Ordering::Greater) => (0, Some(occupancy::LONGER)),
            (refusal, Ordering::Less) => (refusal, Some(occupancy::REFUSED_SHORT)),
            (20, _) => (20, Some(occupancy::REFUSED_20)),
            (refusal, _) => (refusal, Some(occupancy::REFUSED_21)),
        };
        let what = format!("occupancy in {room}");
        let found = LENDER.occupancy(&case.file, room, choice as u8);
        let due = if number == 0 {
            &expected.occupancy[..]
        } else {
            &[]
        };
        same(&what, found.0, number);
        same_octets(&what, &found.1, due);
        why.into_iter().for_each(|why| tally.occupied(why));
    }
}

/// The campus file in a room that is just large enough, or larger.
fn held(case: &Case, choice: usize) -> Held {
    let length = case.file.len();
    let room = LONGEST_FILE.max(length) + [0, 0, 1, 5_000][choice / 4 % 4];
    LENDER.hold(&case.file, room, length)
}

/// A call at time 0 from address 0.
fn call(datagram: &[u8]) -> Call<'_> {
    Call {
        time: 0,
        client: 0,
        room: 600,
        datagram: datagram.into(),
    }
}

/// The list call by call, each on the file that the call before left.
fn serve(case: &Case, expected: &Expected, choice: usize) {
    let mut held = held(case, choice);
    if expected.refusal != 0 {
        let call = Call::read(&case.calls).unwrap_or(call(&[]));
        same(
            "serve",
            LENDER.serve(&mut held, &call, 0).0,
            expected.refusal,
        );
    }
    for (number, answer) in expected.answers.iter().enumerate() {
        let what = format!("serve, call {}", number + 1);
        let call = Call::read(&case.calls[answer.place..]).expect("an answered call's record");
        let (outcome, offset, count, reply) = LENDER.serve(&mut held, &call, 0);
        same(&what, outcome, answer.outcome);
        same(&format!("{what}: offset"), offset, answer.offset);
        same(&format!("{what}: count"), count, answer.count);
        same_octets(&format!("{what}: reply"), &reply, &answer.reply);
        same_octets(&format!("{what}: file"), held.file(), &answer.file);
        let board = LENDER.occupancy(held.file(), OCCUPANCY_ROOM, choice as u8);
        same(&format!("{what}: occupancy"), board.0, 0);
        same_octets(&format!("{what}: occupancy"), &board.1, &answer.occupancy);
    }
}

/// What `replay` has to give in a room of answers.
struct Replayed<'a> {
    code: u8,
    used: usize,
    answers: Vec<u8>,
    file: &'a [u8],
}

fn replayed<'a>(case: &'a Case, expected: &'a Expected, answers_room: usize) -> Replayed<'a> {
    let mut answers = Vec::new();
    let mut file = &case.file;
    for answer in &expected.answers {
        if answers_room - answers.len() < ANSWER_ROOM {
            return Replayed {
                code: ANSWERS_FULL,
                used: answer.place,
                answers,
                file,
            };
        }
        answers.push(answer.outcome);
        answers.extend((answer.offset as u16).to_be_bytes());
        answers.push(answer.count as u8);
        answers.extend((answer.reply.len() as u16).to_be_bytes());
        answers.extend(&answer.reply);
        file = &answer.file;
    }
    let all = expected.end == case.calls.len();
    let code = if expected.refusal != 0 {
        expected.refusal
    } else if all {
        0
    } else {
        CUT_OFF
    };
    Replayed {
        code,
        used: expected.end,
        answers,
        file,
    }
}

/// The list as a whole: with ample room for the answers, with just enough, and with one octet too few for some call.
fn replay(case: &Case, expected: &Expected, choice: usize, tally: &mut Tally) {
    let count = expected.answers.len();
    let mut rooms = vec![ANSWER_ROOM * (count + 1) + choice % 700];
    if count > 0 {
        let up_to = |calls: usize| -> usize {
            let answers = expected.answers[..calls].iter();
            answers.map(|answer| 6 + answer.reply.len()).sum()
        };
        rooms.push(up_to(count - 1) + ANSWER_ROOM);
        rooms.push(up_to(choice / 16 % count) + ANSWER_ROOM - 1);
    }
    for room in rooms {
        let what = format!("replay in {room}");
        let wanted = replayed(case, expected, room);
        let mut held = held(case, choice / 2);
        let (code, used, answers) = LENDER.replay(&mut held, &case.calls, room);
        same(&what, code, wanted.code);
        same(&format!("{what}: calls used"), used, wanted.used);
        same_octets(&format!("{what}: answers"), &answers, &wanted.answers);
        same_octets(&format!("{what}: file"), held.file(), wanted.file);
        if expected.refusal == 0 {
            tally.code(code);
        }
    }
}

/// What is kept of the case's file: in ample rooms, in rooms that are just long enough, and with an octet too few in one or both.
fn salvage(case: &Case, expected: &Expected, choice: usize, tally: &mut Tally) {
    let tried = |rooms: (usize, usize), refusal: u8| {
        let what = format!("salvage in {rooms:?}");
        let due = second_salvaged(&case.file, rooms);
        let (number, new, list) = LENDER.salvage(&case.file, rooms, choice as u8);
        same(&what, number, due.as_ref().err().copied().unwrap_or(0));
        same(&format!("{what}: what is due"), refusal, number);
        let (due_file, due_list) = due.unwrap_or_default();
        same_octets(&format!("{what}: list"), &list, &due_list);
        same_octets(&format!("{what}: file"), &new, &due_file);
        same(
            &format!("{what}: check"),
            number != 0 || LENDER.check(&new) == 0,
            true,
        );
    };
    let ample = (LONGEST_FILE + choice % 9, LONGEST_LIST + choice % 7);
    let (file, list) = match &expected.salvaged {
        Ok((file, list)) => (file.len(), list.len()),
        Err(refusal) => {
            tried(ample, *refusal);
            tried((choice % 40, choice / 40 % 3), *refusal);
            let of_number = [salvage::REFUSED_20, salvage::REFUSED_25];
            tally.salvaged(of_number[usize::from(*refusal != 20)]);
            return tally.salvaged(salvage::REFUSED_SHORT);
        }
    };
    tried(ample, 0);
    tried((file, list), 0);
    tally.salvaged(salvage::EXACT);
    let (rooms, why) = match choice % 4 {
        0 => ((file - 1, list), salvage::SHORT_FILE),
        1 => ((file, list - 1), salvage::SHORT_LIST),
        2 => ((file - 1, list - 1), salvage::SHORT_BOTH),
        _ => return,
    };
    tried(rooms, ROOM_SHORT);
    tally.salvaged(why);
}

/// A room for the file that is too short (23), then a file length above the room (28): nothing changes.
fn lent_rooms(case: &Case, tally: &mut Tally) {
    let front = &case.file[..case.file.len().min(600)];
    for (room, length, refusal) in [
        (LONGEST_FILE - 1, front.len(), ROOM_SHORT),
        (600, 20_000, ROOM_SHORT),
        (LONGEST_FILE, LONGEST_FILE + 1, LENGTH_PAST),
    ] {
        let what = format!("{refusal} in a file room of {room}");
        let mut held = LENDER.hold(front, room, length);
        let (outcome, ..) = LENDER.serve(&mut held, &call(&case.calls), 0);
        same(&format!("serve, {what}"), outcome, refusal);
        let (outcome, _) = LENDER.judge(&mut held, &call(&case.calls), 0);
        same(&format!("judge, {what}"), outcome, refusal);
        tally.halved(match refusal {
            ROOM_SHORT => halves::FIRST_23,
            _ => halves::FIRST_28,
        });
        let replayed = LENDER.replay(&mut held, &case.calls, 600);
        same(&format!("replay, {what}"), replayed, (refusal, 0, vec![]));
        tally.code(refusal);
    }
}

/// Each call in two halves, on the file that the call before left; then the list, verdict by verdict, and verdicts that are made up.
fn halves(case: &Case, expected: &Expected, choice: usize, tally: &mut Tally) {
    if expected.refusal != 0 {
        return refused_halves(case, expected, choice, tally);
    }
    let mut file = &case.file;
    let mut verdicts = Vec::new();
    for (number, answer) in expected.answers.iter().enumerate() {
        let call = Call::read(&case.calls[answer.place..]).expect("an answered call's record");
        let what = format!("halves, call {}", number + 1);
        let verdict = half_by_half(&what, file, &call, answer, choice, tally);
        verdicts.push((verdict, &answer.halves.file));
        file = &answer.file;
    }
    if choice.is_multiple_of(4) {
        listed_halves(case, expected, choice, tally);
    }
    made_up(&verdicts, choice, tally);
}

/// One call: the verdict, the file afterwards, and what is written in each room, by both; what the whole call gives; and what the verdict has to
/// say by the octets of these.
fn half_by_half(
    what: &str,
    file: &[u8],
    call: &Call,
    answer: &Answer,
    choice: usize,
    tally: &mut Tally,
) -> Octets {
    let room = LONGEST_FILE + [0, 0, 1, 5_000][choice / 4 % 4];
    let before = LENDER.hold(file, room, file.len());
    let mut held = before.clone();
    let (outcome, verdict) = LENDER.judge(&mut held, call, choice as u8);
    let due = &answer.halves;
    let of_second = halves::of_second(&due.verdict);
    same(&format!("{what}: judge"), &[outcome][..], &of_second[0].1);
    same_octets(&format!("{what}: judge's file"), held.file(), &due.file);
    let missed = halves::missed(&of_second, &verdict);
    same(&format!("{what}: verdict {}", hex(&verdict)), None, missed);
    replies(what, held.file(), &verdict, due, tally);
    let (_, ample) = &due.written[0];
    whole_call(what, before, held.file(), call, answer, ample);
    let campus = Campus::read(file).expect("an accepted file has its layout");
    let fields = halves::due(&campus, call, ample);
    if let Some(field) = halves::missed(&fields, &verdict) {
        panic!("{what}: {field:?} is due in the verdict {}", hex(&verdict));
    }
    let why = halves::why(&campus, call, &verdict, &ample.3);
    why.into_iter().for_each(|why| tally.halved(why));
    verdict
}

/// What is written in each room; in a short one nothing, whatever the verdict.
fn replies(what: &str, file: &[u8], verdict: &Octets, due: &Halves, tally: &mut Tally) {
    for (room, due) in &due.written {
        let what = format!("{what}: reply in {room}");
        let written = LENDER.reply(file, verdict, *room, *room as u8);
        same(&what, &written, due);
        if *room < SHORTEST_ROOM {
            same(&what, written.0, NO_ROOM);
            tally.halved(match verdict[0] {
                0 => halves::SHORT_REPLY,
                _ => halves::SHORT_DISCARD,
            });
        }
    }
}

/// In a room that is large enough the whole call gives what the halves give. Where the call's own is, `serve` has compared it.
fn whole_call(
    what: &str,
    mut held: Held,
    file: &[u8],
    call: &Call,
    answer: &Answer,
    halves: &Served,
) {
    let reply = answer.reply.clone();
    let mut whole = (answer.outcome, answer.offset, answer.count, reply);
    let mut whole_file = &answer.file[..];
    if usize::from(call.room) < SHORTEST_ROOM {
        let mut ample = call.clone();
        ample.room = SHORTEST_ROOM as u16;
        whole = LENDER.serve(&mut held, &ample, 0);
        whole_file = held.file();
    }
    same(&format!("{what}: the whole call"), &whole, halves);
    same_octets(&format!("{what}: the whole call's file"), whole_file, file);
}

/// A refused file has no verdict, and no reply to one; in a short room not even a refusal.
fn refused_halves(case: &Case, expected: &Expected, choice: usize, tally: &mut Tally) {
    let call = Call::read(&case.calls).unwrap_or(call(&[]));
    let mut held = held(case, choice);
    same(
        "judge",
        LENDER.judge(&mut held, &call, 0).0,
        expected.refusal,
    );
    let mut random = Random::new("refused", choice as u64);
    let mut discard = [0; VERDICT_SIZE];
    discard[0] = 3;
    for verdict in [discard, halves::any_octets(&mut random)] {
        let nothing = |number| (number, 0, 0, vec![]);
        for (room, number) in [
            (SHORTEST_ROOM, expected.refusal),
            (SHORTEST_ROOM - 1, NO_ROOM),
        ] {
            let written = LENDER.reply_to_any(&case.file, &verdict, room, choice as u8);
            same(&format!("reply in {room}"), written, nothing(number));
        }
    }
    let (first, second) = match expected.refusal {
        20 => (halves::FIRST_20, halves::SECOND_20),
        _ => (halves::FIRST_21, halves::SECOND_21),
    };
    [first, second, halves::SHORT_REFUSED]
        .into_iter()
        .for_each(|why| tally.halved(why));
}

/// The list as a whole, in rooms that are large enough, beside its calls verdict by verdict.
fn listed_halves(case: &Case, expected: &Expected, choice: usize, tally: &mut Tally) {
    let (mut list, mut answers) = (Vec::new(), Vec::new());
    let mut by_one = held(case, choice);
    for answer in &expected.answers {
        let mut call = Call::read(&case.calls[answer.place..]).expect("an answered call's record");
        call.room = SHORTEST_ROOM as u16;
        list.extend(call.record());
        let (_, verdict) = LENDER.judge(&mut by_one, &call, 0);
        let (outcome, offset, count, reply) =
            LENDER.reply(by_one.file(), &verdict, SHORTEST_ROOM, choice as u8);
        answers.push(outcome);
        answers.extend((offset as u16).to_be_bytes());
        answers.push(count as u8);
        answers.extend((reply.len() as u16).to_be_bytes());
        answers.extend(reply);
    }
    let mut whole = held(case, choice / 2);
    let room = ANSWER_ROOM * (expected.answers.len() + 1);
    let (code, used, replayed) = LENDER.replay(&mut whole, &list, room);
    same("replay beside verdicts", (code, used), (0, list.len()));
    same_octets("replay beside verdicts: answers", &replayed, &answers);
    same_octets("replay beside verdicts: file", whole.file(), by_one.file());
    if !expected.answers.is_empty() {
        tally.halved(halves::IN_A_LIST);
    }
}

/// Verdicts that the first half didn't give with the file: some outcome, and no octet past the 512th.
fn made_up(verdicts: &[(Octets, &Vec<u8>)], choice: usize, tally: &mut Tally) {
    let Some((verdict, file)) = verdicts.get(choice % verdicts.len().max(1)) else {
        return;
    };
    let mut random = Random::new("made up", choice as u64);
    let another = sound(&mut random).octets();
    for (made, file, verdict) in [
        (halves::RANDOM, *file, halves::any_octets(&mut random)),
        (
            halves::CHANGED,
            *file,
            halves::changed(&mut random, verdict),
        ),
        (
            halves::CHANGED,
            *file,
            halves::changed(&mut random, verdict),
        ),
        (halves::ANOTHERS, &another, *verdict),
    ] {
        let room = SHORTEST_ROOM + random.pick(&[0, 1, 900]);
        let (number, ..) = LENDER.reply_to_any(file, &verdict, room, choice as u8);
        tally.halved(halves::drew(made, number));
    }
}
