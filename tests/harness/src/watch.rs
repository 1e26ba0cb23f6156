//! What is seen of each call besides what holds of memory (`lent`), without another implementation: that every number is one that banshorra.h
//! names for that input, that a reply and the file afterwards have their form, that an answer depends on no octet outside of its input, that
//! a serve is its two halves, and that a replay is its single serves. What isn't so is a panic.

use crate::bounds;
use crate::campus::sound;
use crate::counts;
use crate::fault;
use crate::halves;
use crate::holds;
use crate::lent::{Held, Lender, Octets, Served};
use crate::occupancy::Board;
use crate::random::Random;
use crate::releases::Past;
use crate::salvage::Salvaged;
use banshorra_host::{ANSWER_ROOM, BOARD_ROOM, FILE_ROOM, OCCUPANCY_ROOM, REPLY_ROOM};
use builder::{value_of, Call, Campus, ACK, NAK, OFFER};
use std::collections::BTreeMap;

/// Buffers are just as long as the library is told, for valgrind.
pub const EXACT: Lender = Lender { around: 0 };

/// What a run of some length has to see.
const SEEN: [(&str, &str); 17] = [
    ("check", "0, 20, 21"),
    ("board", "lines, refused 20, refused 21, no room"),
    ("occupancy", "0, 20, 21, 23"),
    ("serve", "0, 2, 3, 4, 5, 6, 7, 8, 20, 21, 23, 28"),
    ("judge", "0, 3, 4, 5, 6, 7, 8, 20, 21, 23, 28"),
    ("reply", "0, 2, 3, 4, 5, 6, 7, 8, 20, 21"),
    ("made up", "any octets, one field changed, another campus's"),
    ("replay", "0, 20, 21, 23, 24, 27, 28"),
    ("salvage", "whole, less, 20, 23, 25"),
    ("replies", "OFFER, ACK, NAK"),
    ("errors", "0, 1, 2, 3"),
    ("names", "0, 1"),
    (
        "releases",
        "remembered, sent again, a new lease forgets it, an offer forgets it, a fifth forgets the oldest",
    ),
    (
        "bounds",
        "met, below the minimum, after the latest, latest before start, resent",
    ),
    (
        "holds",
        "held, repeated, turned, dropped, kept, lapsed",
    ),
    ("counts", "none, one lookup, two lookups"),
    (
        "faults",
        "an option past the end, one to three octets left over, wrong length of a known option, option 12 wrongly filled, a repeat, \
         End not last, End with a length, two Ends, no End, no option 3",
    ),
];

/// Where a campus file's clock stands.
const CLOCK: std::ops::Range<usize> = 5..9;

/// A number, high octet first.
fn number(octets: &[u8]) -> u32 {
    let add = |sum, &octet| sum << 8 | u32::from(octet);
    octets.iter().fold(0, add)
}

/// The octets before a file's leases, which no call changes besides the clock.
fn settings_length(file: &[u8]) -> usize {
    let houses = usize::from(file[9]);
    let scopes = usize::from(file[10 + 8 * houses]);
    11 + 8 * houses + scopes * (6 + 2 * houses)
}

/// The campus of an accepted file.
fn campus(file: &[u8]) -> Campus {
    let campus = Campus::read(file).expect("an accepted file has its layout");
    assert!(campus.octets() == file, "an accepted file is its campus's");
    campus
}

/// What has to draw the same as a call draws it, and leaves the same file where both are one call.
fn see_alike(before: &Campus, after: &[u8], call: &Call, answer: &(u8, Vec<u8>)) {
    let Some((other, alike)) = holds::alike(before, call) else {
        return;
    };
    let file = other.octets();
    let mut held = EXACT.hold(&file, FILE_ROOM, file.len());
    let (outcome, _, _, reply) = EXACT.serve(&mut held, &alike, 0x3C);
    let is_same_file = outcome != 0 || alike.datagram != call.datagram || held.file() == after;
    let same = holds::of_alike(before, call, (outcome, reply)) == *answer && is_same_file;
    assert!(same, "what has to draw the same draws something else");
}

/// How often each number was returned, and each reply and error seen.
#[derive(Default)]
pub struct Watch(BTreeMap<(&'static str, String), u64>);

impl Watch {
    fn count(&mut self, what: &'static str, of: impl ToString) {
        *self.0.entry((what, of.to_string())).or_default() += 1;
    }

    /// A line for each function, for made-up verdicts, replies, errors, names, releases, bounds, holds, faults; and how many that have to occur never did.
    pub fn lines(&self) -> (Vec<String>, usize) {
        let (mut lines, mut missing) = (vec![], 0);
        for (what, names) in SEEN {
            let mut line = format!("{what:9}");
            for name in names.split(", ") {
                let count = self.0.get(&(what, name.to_string())).unwrap_or(&0);
                missing += usize::from(*count == 0);
                line += &format!("  {name}: {count}");
            }
            lines.push(line);
        }
        (lines, missing)
    }

    /// How many calls of a function there were.
    pub fn calls(&self, function: &str) -> u64 {
        let of_it = self.0.iter().filter(|(key, _)| key.0 == function);
        of_it.map(|(_, count)| count).sum()
    }

    pub fn check(&mut self, file: &[u8]) -> u8 {
        let number = EXACT.check(file);
        self.count("check", number);
        assert!([0, 20, 21].contains(&number), "check returned {number}");
        let fits = file.len() <= FILE_ROOM || number == 20;
        assert!(fits, "check returned {number} for too long a file");
        number
    }

    pub fn board(&mut self, file: &[u8], room: usize) {
        let (due, text) = (self.check(file), EXACT.board(file, room));
        if room < BOARD_ROOM {
            self.count("board", "no room");
            assert_eq!(text.len(), 0, "board in {room} octets");
        } else if due != 0 {
            self.count("board", format!("refused {due}"));
            let refused = format!("refused {due}\n");
            assert!(
                text == refused.as_bytes(),
                "board of a file that is {refused}"
            );
        } else {
            self.count("board", "lines");
            let header = b"scope house share limit holds\n";
            let lines = text.starts_with(header) && text.ends_with(b"\n");
            let length = text.len() > header.len() && text.len() <= BOARD_ROOM;
            assert!(lines && length, "board's header, end or length");
        }
    }

    /// The occupancy board, and again in a room of other octets: what the file's leases and holds say, or the refusal that is due.
    pub fn occupancy(&mut self, file: &[u8], room: usize) {
        let due = match self.check(file) {
            0 if room < OCCUPANCY_ROOM => 23,
            refusal => refusal,
        };
        let (number, board) = EXACT.occupancy(file, room, 0x5A);
        self.count("occupancy", number);
        assert_eq!(number, due, "occupancy's number, and the one that is due");
        if number == 0 {
            let same = board == Board::of(&campus(file)).0;
            assert!(same, "the board isn't what the leases and holds say");
        }
        let again = EXACT.occupancy(file, room, 0xE7);
        assert!(
            again == (number, board),
            "the board depends on octets outside"
        );
    }

    /// What is kept of a file and the list of what isn't, and again in rooms of other octets. What is kept is accepted and is the old file without
    /// what is dropped; a sound file is kept whole, and an unsound one isn't.
    pub fn salvage(&mut self, file: &[u8], rooms: (usize, usize)) {
        let check = self.check(file);
        let (number, new, list) = EXACT.salvage(file, rooms, 0x5A);
        let name = match (number, &list[..]) {
            (0, [0, 0]) => "whole".to_string(),
            (0, _) => "less".to_string(),
            _ => number.to_string(),
        };
        self.count("salvage", name);
        let right = match check {
            0 => [0, 23].contains(&number),
            20 => number == 20,
            _ => [0, 23, 25].contains(&number),
        };
        assert!(right, "salvage returned {number} of a file that is {check}");
        if number == 0 {
            assert_eq!(self.check(&new), 0, "what is kept is refused");
            let salvaged = Salvaged::new(file, &new, &list);
            assert!(salvaged.is_ok(), "{}", salvaged.err().unwrap_or_default());
            let is_whole = list == [0, 0];
            assert_eq!(is_whole, check == 0, "what is dropped, and what is sound");
        }
        let again = EXACT.salvage(file, rooms, 0xE7);
        let same = again == (number, new, list);
        assert!(same, "what is kept depends on octets outside");
    }

    /// The refusal that is due, in its order; 0 for none.
    fn refusal_due(&mut self, held: &Held) -> u8 {
        match (held.room(), held.length()) {
            (..FILE_ROOM, _) => 23,
            (room, length) if length > room => 28,
            _ => self.check(held.file()),
        }
    }

    /// A serve, and again with other octets past the file and in the reply room: nothing may differ.
    pub fn serve(&mut self, held: &mut Held, call: &Call) -> Served {
        let (mut other, before) = (held.with_other_octets(), held.file().to_vec());
        let answer = self.serve_once(held, call, 0x3C);
        if answer.0 <= 8 && answer.0 != 2 {
            let drawn = (answer.0, answer.3.clone());
            see_alike(&campus(&before), held.file(), call, &drawn);
        }
        let again = self.serve_once(&mut other, call, 0xE7);
        assert!(again == answer, "the answer depends on octets outside");
        let same = other.length() == held.length() && other.file() == held.file();
        assert!(same, "the file depends on octets outside");
        answer
    }

    fn serve_once(&mut self, held: &mut Held, call: &Call, salt: u8) -> Served {
        let (due, before) = (self.refusal_due(held), held.file().to_vec());
        let plain = bounds::plain(call).filter(|_| due == 0);
        let plain = plain.map(|plain| EXACT.serve(&mut held.clone(), &plain, salt));
        let (number, offset, count, reply) = EXACT.serve(held, call, salt);
        self.count("serve", number);
        let right = match due {
            0 => {
                number <= 8 && number != 1 && (number == 2) == (usize::from(call.room) < REPLY_ROOM)
            }
            _ => number == due,
        };
        assert!(right, "serve returned {number}, {due} is due");
        let fault = fault::due(call, number, offset).unwrap_or_else(|why| panic!("{why}"));
        fault
            .iter()
            .for_each(|fault| self.count("faults", fault.cause.name()));
        if number == 0 {
            self.see_reply(call, &reply);
            let list = value_of(&reply, 9).unwrap_or(&[0]);
            self.see_scope_list(&campus(&before).names(), list);
        }
        if due == 0 && number != 2 {
            self.see_file(&before, held, call.time);
            let (before, after) = (campus(&before), campus(held.file()));
            self.see_releases(&before, &after, call, &reply);
            self.see_holds(&before, &after, call, (number, &reply));
            self.see_count(&before, call, (number, count));
        }
        if let (Some((outcome, _, _, plain)), 0 | 8) = (plain, number) {
            self.see_bounds(&campus(&before), call, (number, &reply), (outcome, plain));
        }
        (number, offset, count, reply)
    }

    fn see_reply(&mut self, call: &Call, reply: &[u8]) {
        let end = reply.len();
        assert!((12..=REPLY_ROOM).contains(&end), "a reply of {end} octets");
        let name = match reply[1] {
            OFFER => "OFFER",
            ACK => "ACK",
            NAK => "NAK",
            other => panic!("a reply of type {other}"),
        };
        self.count("replies", name);
        let header = reply[0] == 0 && reply[2..4] == [0, 1] && reply[4..8] == call.datagram[4..8];
        assert!(header, "the reply's version, family or transaction id");
        assert!(reply[end - 4..] == [0; 4], "the reply's End");
        if reply[1] == NAK {
            // Option 16 is the last before End.
            let last = end >= 22 && reply[end - 10..end - 6] == [0, 16, 0, 2];
            let error = number(&reply[end - 6..end - 4]);
            assert!(last && error < 4, "the NAK's error");
            self.count("errors", error);
        }
    }

    /// No scope of a list has more than one name, and that is one of the file's.
    fn see_scope_list(&mut self, names: &[u8], list: &[u8]) {
        let (scopes, mut rest) = (list[0], &list[1..]);
        for _ in 0..scopes {
            let (scope, behind) = rest.split_at(10);
            self.count("names", scope[9]);
            assert!(scope[9] < 2, "{} names of a scope", scope[9]);
            rest = behind;
            if scope[9] == 1 {
                let tag = usize::from(rest[1]);
                let (name, behind) = rest.split_at(3 + tag + usize::from(rest[2 + tag]));
                let mut parts = names.windows(name.len());
                assert!(parts.any(|part| part == name), "a name that isn't there");
                rest = behind;
            }
        }
        assert!(rest.is_empty(), "octets after the scopes of a list");
    }

    /// What every call leaves that changes something: an accepted file with the settings as before and the larger clock.
    fn see_file(&mut self, before: &[u8], after: &Held, time: u32) {
        let (file, length, settings) = (after.file(), after.length(), settings_length(before));
        let fits = length <= FILE_ROOM && length > settings;
        assert!(fits, "the file's length is {length}");
        assert_eq!(self.check(file), 0, "the file afterwards is refused");
        let due = number(&before[CLOCK]).max(time);
        assert_eq!(
            number(&file[CLOCK]),
            due,
            "the clock, and the one that is due"
        );
        let same = file[..CLOCK.start] == before[..CLOCK.start]
            && file[CLOCK.end..settings] == before[CLOCK.end..settings];
        assert!(same, "the settings have changed");
        let same = campus(file).names() == campus(before).names();
        assert!(same, "the names have changed");
    }

    /// What a call leaves of releases, and its reply to a RELEASE. A discard leaves them all.
    fn see_releases(&mut self, before: &Campus, after: &Campus, call: &Call, reply: &[u8]) {
        let due = match reply {
            [] => None,
            _ => Past::default().due(before, call, reply),
        };
        let releases = due.as_ref().map_or(&before.releases, |due| &due.releases);
        assert!(after.releases == *releases, "other releases are due");
        if let Some(due) = due {
            let same = due.reply.is_none_or(|due| due == reply);
            assert!(same, "another reply to the RELEASE is due");
            due.why
                .into_iter()
                .for_each(|why| self.count("releases", why));
        }
    }

    /// What a call leaves of holds, and its answer where a hold decides it.
    fn see_holds(
        &mut self,
        before: &Campus,
        after: &Campus,
        call: &Call,
        (number, reply): (u8, &[u8]),
    ) {
        let due = holds::due(before, call, number, reply);
        assert!(after.holds == due.holds, "other holds are due");
        let same = due
            .answer
            .is_none_or(|(outcome, due)| outcome == number && due == reply);
        assert!(same, "by the hold another answer is due");
        if !due.short.is_empty() {
            self.count("holds", due.short);
        }
    }

    /// How many records were read.
    fn see_count(&mut self, before: &Campus, call: &Call, (number, count): (u8, usize)) {
        let due = counts::Due::new(before, call, number);
        assert_eq!(count, due.count(), "the count, and the one that is due");
        self.count("counts", due.short());
    }

    /// The answer to a call with option 14 or 15 is that to the same without both, or a refusal that is due.
    fn see_bounds(
        &mut self,
        before: &Campus,
        call: &Call,
        (number, reply): (u8, &[u8]),
        (outcome, plain): (u8, Vec<u8>),
    ) {
        if let Some(due) = bounds::due(before, call, outcome, &plain) {
            let same = due.outcome == number && due.reply == reply;
            assert!(same, "another answer to options 14 and 15 is due");
            self.count("bounds", due.short);
        }
    }

    /// A call in two halves, and again with other octets outside: what the whole call gives in a room that is large enough. The file stays.
    pub fn halves(&mut self, held: &Held, call: &Call, random: &mut Random) {
        let (due, mut judged) = (self.refusal_due(held), held.clone());
        let (number, verdict) = EXACT.judge(&mut judged, call, 0x3C);
        self.count("judge", number);
        let right = match due {
            0 => number <= 8,
            _ => number == due,
        };
        assert!(right, "judge returned {number}, {due} is due");
        if due != 0 {
            return self.refused_reply(held.file(), call.room.into(), random);
        }
        let mut other = held.with_other_octets();
        let again = EXACT.judge(&mut other, call, 0xE7);
        let same = again == (number, verdict) && other.file() == judged.file();
        assert!(same, "the verdict or its file depends on octets outside");
        self.replies(held, &judged, call, &verdict);
        self.made_up(judged.file(), &verdict, random);
    }

    /// What is written from a verdict, and what it has to say by that.
    fn replies(&mut self, before: &Held, judged: &Held, call: &Call, verdict: &Octets) {
        let (mut whole, mut ample) = (before.clone(), call.clone());
        ample.room = call.room.max(REPLY_ROOM as u16);
        let served = EXACT.serve(&mut whole, &ample, 0x3C);
        let same = whole.length() == judged.length() && whole.file() == judged.file();
        assert!(same, "the file isn't that of the whole call");
        let written = EXACT.reply(judged.file(), verdict, ample.room.into(), 0x3C);
        self.count("reply", written.0);
        assert!(written == served, "the halves aren't the whole call");
        let again = EXACT.reply(judged.file(), verdict, ample.room.into(), 0xE7);
        assert!(again == written, "the reply depends on octets outside");
        if call.room < ample.room {
            let short = EXACT.reply(judged.file(), verdict, call.room.into(), 0x3C);
            self.count("reply", short.0);
            assert_eq!(short, (2, 0, 0, vec![]), "reply in a short room");
        }
        let due = halves::due(&campus(before.file()), call, &served);
        let missed = halves::missed(&due, verdict);
        assert_eq!(missed, None, "another verdict is due");
    }

    /// Any verdict with a file that may be refused: the room is tested first, then the file.
    fn refused_reply(&mut self, file: &[u8], room: usize, random: &mut Random) {
        let verdict = halves::any_octets(random);
        let due = match self.check(file) {
            _ if room < REPLY_ROOM => Some(2),
            0 => None,
            refusal => Some(refusal),
        };
        let (number, offset, count, reply) = EXACT.reply_to_any(file, &verdict, room, 0x3C);
        self.count("reply", number);
        let right = due.map_or(number <= 8, |due| number == due);
        assert!(right, "reply returned {number}, {due:?} is due");
        let nothing = (offset, count, reply.len()) == (0, 0, 0);
        assert!(
            nothing || due.is_none(),
            "a reply, offset or count with {number}"
        );
    }

    /// Verdicts that the first half didn't give, or not with this file: some outcome, within 512 octets.
    fn made_up(&mut self, file: &[u8], verdict: &Octets, random: &mut Random) {
        let another = sound(random).octets();
        for (made, file, verdict) in [
            (halves::RANDOM, file, halves::any_octets(random)),
            (halves::CHANGED, file, halves::changed(random, verdict)),
            (halves::ANOTHERS, &another, *verdict),
        ] {
            let room = random.pick(&[
                0,
                REPLY_ROOM - 1,
                REPLY_ROOM,
                REPLY_ROOM,
                REPLY_ROOM + 1,
                900,
            ]);
            let (number, ..) = EXACT.reply_to_any(file, &verdict, room, 0x3C);
            let right = number <= 8 && (number == 2 || room >= REPLY_ROOM);
            assert!(right, "reply returned {number} in {room} octets");
            self.count("made up", made);
        }
    }

    /// A replay, compared with its single serves.
    pub fn replay(&mut self, held: &mut Held, list: &[u8], room: usize) {
        let (mut by_one, mut due) = (held.clone(), self.refusal_due(held));
        let (mut used, mut answers) = (0, Vec::new());
        while due == 0 && used < list.len() {
            match Call::read(&list[used..]) {
                None => due = 24,
                Some(_) if room - answers.len() < ANSWER_ROOM => due = 27,
                Some(mut call) => {
                    call.room = call.room.min(REPLY_ROOM as u16);
                    let (outcome, offset, count, reply) = self.serve(&mut by_one, &call);
                    answers.push(outcome);
                    answers.extend((offset as u16).to_be_bytes());
                    answers.push(count as u8);
                    answers.extend((reply.len() as u16).to_be_bytes());
                    answers.extend(reply);
                    used += call.length();
                }
            }
        }
        let replayed = EXACT.replay(held, list, room);
        self.count("replay", replayed.0);
        assert_eq!(replayed.0, due, "replay's number, and the one that is due");
        let same = replayed.1 == used && replayed.2 == answers;
        assert!(
            same,
            "replay's calls used or answers aren't those of its serves"
        );
        let same = held.length() == by_one.length() && held.file() == by_one.file();
        assert!(same, "replay's file isn't that of its serves");
    }
}
