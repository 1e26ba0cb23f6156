//! Work to measure: campus files with a number of leases, and lists of calls that leave the book as it was.

use crate::holds::HOLD_TIME;
use crate::names::full_lists;
use crate::random::Random;
use crate::releases::MOST_RELEASES;
use crate::{DEFAULT_LEASE, LONGEST_FILE, SHORTEST_ROOM};
use banshorra_host::{library, ANSWER_ROOM, VERDICT_SIZE};
use builder::*;

const CLOCK: u32 = 1_700_000_000;
const SERVER: u32 = 0x0A01_0101;
/// The numbers of leases that calls are measured at.
pub const LEASES: [usize; 4] = [0, 16, 64, 128];
/// The number at which they are measured with full sections of names and of releases too, and the mixed list.
const FILLED_LEASES: usize = 64;

/// What stands before a reply in a list of answers: outcome(1), offset(2), count(1), reply length(2).
const ANSWER_HEAD: usize = 6;

/// What is done with a file.
pub enum Work {
    Check,
    /// A list of calls, read once and written once; so many calls.
    Replay(Vec<u8>, usize),
    /// One call by itself: whole, its first half, its second half.
    Serve(Call<'static>),
    Judge(Call<'static>),
    Reply(Box<Judged>),
}

/// A verdict as each side has it, of the same call on the same file.
pub struct Judged {
    proved: [u8; VERDICT_SIZE],
    plain: second::Verdict,
}

/// What the file's last sections have.
#[derive(Clone, Copy, PartialEq, Eq, Debug)]
pub enum Filled {
    /// No names, a release or two, and a hold where the calls need one.
    Little = 0,
    /// The longest names section.
    Names = 1,
    /// Four releases of each house.
    Releases = 2,
    Both = 3,
    /// And all of the records are holds.
    All = 7,
}

pub struct Job {
    pub name: &'static str,
    pub leases: usize,
    pub filled: Filled,
    pub file: Vec<u8>,
    pub work: Work,
    /// None for the mixed list.
    due: Option<Due>,
}

/// What a list has to come to.
struct Due {
    /// What its calls draw, in turn.
    draws: &'static [Draws],
    /// The file afterwards.
    file: Vec<u8>,
}

/// An outcome and, for a reply, its type.
type Draws = (u8, u8);
const OFFERED: Draws = (0, 2);
const ACKNOWLEDGED: Draws = (0, 5);
const REFUSED: Draws = (0, 6);
const BAD_HEADER: Draws = (4, 0);
const SILENT: Draws = (8, 0);
/// Calls, what they draw in turn, and their name.
type Turn = (&'static str, &'static [Draws], Vec<Call<'static>>);
/// A call that does no more than every call does, and the empty list; and both on a file with a hold.
const DISCARDED: &str = "other octets, discarded";
const DISCARDED_HELD: &str = "other octets, discarded, one hold";
pub const EMPTY: &str = "empty list";
const EMPTY_HELD: &str = "empty list, one hold";

#[derive(Clone, Copy, PartialEq, Eq, Debug)]
pub enum Side {
    Proved,
    Plain,
}

/// Does a job once. Gives a number made of what came out, so that both sides can be seen to do the same.
#[no_mangle]
#[inline(never)]
pub fn bench_measured(side: Side, job: &Job, file: &mut [u8], answers: &mut [u8]) -> usize {
    match side {
        Side::Proved => proved(job, file, answers),
        Side::Plain => plain(job, file, answers),
    }
}

fn proved(job: &Job, file: &mut [u8], answers: &mut [u8]) -> usize {
    let (mut length, mut used, mut filled, mut count) = (job.file.len(), 0, 0, 0);
    let number = match &job.work {
        Work::Check => return usize::from(library::check(&job.file)),
        Work::Replay(calls, _) => {
            library::replay(file, &mut length, calls, &mut used, answers, &mut filled)
        }
        Work::Serve(call) => {
            let (datagram, reply) = (&call.datagram, &mut answers[..SHORTEST_ROOM]);
            let (client, time) = (call.client, call.time);
            library::serve(
                file,
                &mut length,
                datagram,
                client,
                time,
                reply,
                &mut filled,
                &mut used,
                &mut count,
            )
        }
        Work::Judge(call) => {
            let (datagram, mut verdict) = (&call.datagram, [0; VERDICT_SIZE]);
            let (client, time) = (call.client, call.time);
            library::judge(file, &mut length, datagram, client, time, &mut verdict)
        }
        Work::Reply(judged) => {
            let (verdict, reply) = (&judged.proved, &mut answers[..SHORTEST_ROOM]);
            library::reply(
                &job.file,
                verdict,
                reply,
                &mut filled,
                &mut used,
                &mut count,
            )
        }
    };
    usize::from(number) + length + used + filled + count
}

fn plain(job: &Job, file: &mut [u8], answers: &mut [u8]) -> usize {
    let (length, told) = (
        job.file.len(),
        |(outcome, offset, count, filled): (u8, _, _, _)| {
            usize::from(outcome) + offset + count + filled
        },
    );
    let read = second::file::read;
    match &job.work {
        Work::Check => read(&job.file).map_or_else(usize::from, |_| 0),
        Work::Replay(calls, _) => plain_replay(file, length, calls, answers),
        Work::Serve(call) => plain_call(file, length, |book| {
            let reply = &mut answers[..SHORTEST_ROOM];
            told(second::serve(
                book,
                &call.datagram,
                call.client,
                call.time,
                reply,
            ))
        }),
        Work::Judge(call) => plain_call(file, length, |book| {
            match second::judge(book, &call.datagram, call.client, call.time) {
                second::Verdict::Reply(_) => 0,
                second::Verdict::Discard(discard) => discard.outcome.into(),
            }
        }),
        Work::Reply(judged) => read(&job.file).map_or_else(usize::from, |book| {
            let reply = &mut answers[..SHORTEST_ROOM];
            length + told(second::write(&book, &judged.plain, reply))
        }),
    }
}

/// Reads the file, has a call made on its book, writes the file.
fn plain_call(
    file: &mut [u8],
    length: usize,
    call: impl FnOnce(&mut second::Book) -> usize,
) -> usize {
    let Ok(mut book) = second::file::read(&file[..length]) else {
        return 0;
    };
    let told = call(&mut book);
    told + second::file::write(&book, file).unwrap_or(0)
}

/// What `banshorra_replay` does, by the second program: reads the file, applies the list, writes the file.
fn plain_replay(file: &mut [u8], length: usize, calls: &[u8], answers: &mut [u8]) -> usize {
    let Ok(mut book) = second::file::read(&file[..length]) else {
        return 0;
    };
    let (mut used, mut filled) = (0, 0);
    while let Some(call) = Call::read(&calls[used..]) {
        let (head, room) = answers[filled..].split_at_mut(ANSWER_HEAD);
        let length = room.len().min(call.room.into());
        let room = &mut room[..length];
        let (outcome, offset, count, length) =
            second::serve(&mut book, &call.datagram, call.client, call.time, room);
        head[0] = outcome;
        head[1..3].copy_from_slice(&(offset as u16).to_be_bytes());
        head[3] = count as u8;
        head[4..].copy_from_slice(&(length as u16).to_be_bytes());
        filled += ANSWER_HEAD + length;
        used += call.length();
    }
    let length = second::file::write(&book, file).unwrap_or(0);
    length + used + filled
}

impl Job {
    pub fn count(&self) -> usize {
        match self.work {
            Work::Replay(_, count) => count,
            _ => 0,
        }
    }

    /// Whether the second program gives what the job is there for, and leaves the file that is due.
    pub fn is_as_meant(&self) -> bool {
        let (mut file, mut answers) = self.rooms();
        bench_measured(Side::Plain, self, &mut file, &mut answers);
        let Some(due) = &self.due else {
            return true;
        };
        let mut place = 0;
        let mut draws = due.draws.iter().cycle().take(self.count());
        draws.all(|due| {
            let (head, reply) = answers[place..].split_at(ANSWER_HEAD);
            let length = usize::from(u16::from_be_bytes([head[4], head[5]]));
            let drawn = (head[0], if length > 0 { reply[1] } else { 0 });
            place += ANSWER_HEAD + length;
            drawn == *due
        }) && file.starts_with(&due.file)
            && second::file::read(&due.file).is_ok()
    }

    /// The file's buffer and room for the answers.
    pub fn rooms(&self) -> (Vec<u8>, Vec<u8>) {
        let mut file = vec![0; LONGEST_FILE];
        file[..self.file.len()].copy_from_slice(&self.file);
        (file, vec![0; ANSWER_ROOM * (self.count() + 1)])
    }
}

/// Eight houses, four scopes of 64 addresses, and leases of two addresses each, the same number for each house. House 2's
/// second lease follows its first on the same addresses. House 6 has released something, and house 1 too where there are no leases.
fn campus(leases: usize) -> Campus {
    let mut campus = settings();
    if leases == 0 {
        campus.releases.push(gone(1, MOST_RELEASES));
    }
    campus.releases.push(gone(6, MOST_RELEASES));
    for house in 1..=8_u8 {
        for number in 0..(leases / 8) as u8 {
            let first = (house - 1) * 8 + number / 4 * 2;
            let mut lease = Lease {
                house,
                scope: number % 4 + 1,
                identifier: name(house, number),
                kind: if house == 3 { RENEW } else { REQUEST },
                transaction: 2,
                start: CLOCK,
                end: CLOCK + DEFAULT_LEASE,
                offsets: vec![first, first + 1],
            };
            if (house, number) == (2, 1) {
                lease.scope = 1;
                (lease.start, lease.end) = (CLOCK + DEFAULT_LEASE, CLOCK + 2 * DEFAULT_LEASE);
            }
            campus.leases.push(lease);
        }
    }
    campus
}

fn settings() -> Campus {
    Campus {
        server: SERVER,
        clock: CLOCK,
        houses: (0..8)
            .map(|n| (0x0A00_0000 + (n << 8), 0x0A00_00FF + (n << 8)))
            .collect(),
        scopes: (0..4)
            .map(|n| Scope {
                lowest: 0xEFC0_0000 + (n << 8),
                size: 64,
                ttl: 15,
                parts: vec![(4, 32); 8],
                names: Vec::new(),
            })
            .collect(),
        leases: Vec::new(),
        releases: Vec::new(),
        holds: Vec::new(),
    }
}

/// An identifier of eight octets.
fn name(house: u8, number: u8) -> Vec<u8> {
    format!("house{house}{number:02}").into_bytes()
}

/// A release of a house: the fourth at the clock, those before it a second earlier each.
fn gone(house: u8, number: usize) -> Release {
    Release {
        house,
        identifier: name(house, 90 + number as u8),
        transaction: 2,
        time: CLOCK - (MOST_RELEASES - number) as u32,
    }
}

/// The campus with four releases of each house.
fn with_full_releases(mut campus: Campus) -> Campus {
    let releases = (1..=8).flat_map(|house| (1..=MOST_RELEASES).map(move |n| gone(house, n)));
    campus.releases = releases.collect();
    campus
}

/// The campus with the longest names section: four names in every list, with tags of 8 octets and texts of 32.
fn with_full_names(mut campus: Campus) -> Campus {
    for scope in &mut campus.scopes {
        scope.names = full_lists(8);
    }
    campus
}

/// The fullest sound file of leases: 128, identifiers of 32 octets, 32 addresses each, sixteen periods one after the other, the longest
/// names section, and four releases of each house, with identifiers of 32 octets.
fn full_campus() -> Campus {
    let mut campus = with_full_releases(with_full_names(settings()));
    for release in &mut campus.releases {
        release.identifier.resize(32, b'-');
    }
    campus
        .scopes
        .iter_mut()
        .for_each(|scope| scope.parts.fill((0, 32)));
    for house in 1..=8_u8 {
        for number in 0..16_u8 {
            let first = (house - 1) % 2 * 32;
            let mut identifier = name(house, number);
            identifier.resize(32, b'-');
            let start = CLOCK + DEFAULT_LEASE * u32::from(number);
            campus.leases.push(Lease {
                house,
                scope: (house - 1) / 2 + 1,
                identifier,
                kind: REQUEST,
                transaction: 2,
                start,
                end: start + DEFAULT_LEASE,
                offsets: (first..first + 32).collect(),
            });
        }
    }
    campus
}

/// The same with a hold in the place of each lease: no sound file is longer.
fn held_campus() -> Campus {
    let mut campus = full_campus();
    let leases = std::mem::take(&mut campus.leases);
    let hold = |lease: Lease| Hold {
        lapse: CLOCK + HOLD_TIME,
        lease: Lease {
            kind: DISCOVER,
            ..lease
        },
    };
    campus.holds = leases.into_iter().map(hold).collect();
    campus
}

fn call(house: u8, time: u32, message: &Message) -> Call<'static> {
    Call {
        time,
        client: 0x0A00_0005 + (u32::from(house - 1) << 8),
        room: 512,
        datagram: message.octets().into(),
    }
}

/// A DISCOVER or REQUEST for addresses of a scope, with Lease Time and Current Time.
fn asking(
    kind: u8,
    transaction: u32,
    of: &[u8],
    pool: u32,
    least: u16,
    desired: u16,
    time: u32,
) -> Message {
    let options = vec![
        identifier(of),
        lease_time(DEFAULT_LEASE),
        scope(0xEFC0_0000 + ((pool - 1) << 8)),
        number(least, desired),
        current_time(time),
    ];
    Message::new(kind, transaction, options)
}

fn renewal(transaction: u32, of: &[u8], length: u32, time: u32) -> Message {
    let options = vec![identifier(of), lease_time(length), current_time(time)];
    Message::new(RENEW, transaction, options)
}

fn release(transaction: u32, of: &[u8]) -> Message {
    Message::new(RELEASE, transaction, vec![identifier(of)])
}

/// A GETINFO with two codes in an option; 5 is the one that is for them.
fn information(code: u16) -> Message {
    let options = vec![identifier(b"info"), (code, vec![0, 9, 0, 11])];
    Message::new(GETINFO, 9, options)
}

/// A GETINFO that asks for the scope list in a language. That of the last name of the campus list is found last.
fn information_in(language: &[u8]) -> Message {
    let mut message = information(5);
    message.options.push(requested_language(language));
    message
}

/// A REQUEST and a RELEASE of house 1 in turn, which leave the book as it was. Its first lease has the lowest addresses, so a REQUEST after its
/// RELEASE brings back the same lease and forgets the release; where the house's last release is remembered, the REQUEST comes first. Or with a
/// DISCOVER before the REQUEST, which then takes up what is held.
fn in_turn(campus: &Campus, is_held: bool) -> Vec<Call<'static>> {
    let last = gone(1, MOST_RELEASES);
    let is_remembered = campus.releases.contains(&last);
    let of = if is_remembered {
        last.identifier
    } else {
        name(1, 0)
    };
    let discover = call(1, CLOCK, &asking(DISCOVER, 4, &of, 1, 2, 2, CLOCK));
    let request = call(1, CLOCK, &asking(REQUEST, 2, &of, 1, 2, 2, CLOCK));
    let released = call(1, CLOCK, &release(2, &of));
    let mut calls = vec![discover, request];
    if !is_held {
        calls.remove(0);
    }
    calls.insert(if is_remembered { calls.len() } else { 0 }, released);
    calls
}

/// House 1's DISCOVER of two addresses, at a time.
fn discover(time: u32) -> Call<'static> {
    call(1, time, &asking(DISCOVER, 3, b"new", 4, 1, 2, time))
}

/// Octets that are no message.
fn other_octets() -> Call<'static> {
    other_octets_at(CLOCK)
}

fn other_octets_at(time: u32) -> Call<'static> {
    Call {
        time,
        client: 0x0A00_0005,
        room: 512,
        datagram: vec![0; 40].into(),
    }
}

/// The campus after that DISCOVER at its clock, by the second program: with a hold.
fn held(campus: &Campus) -> Option<Campus> {
    let mut book = second::file::read(&campus.octets()).ok()?;
    let call = discover(CLOCK);
    second::server::answer(&mut book, &call.datagram, call.client, call.time, 512);
    let mut file = vec![0; LONGEST_FILE];
    let length = second::file::write(&book, &mut file).ok()?;
    Campus::read(&file[..length])
}

/// The same some seconds later, and its hold of then.
fn later(mut campus: Campus, seconds: u32) -> Campus {
    campus.clock += seconds;
    for hold in &mut campus.holds {
        hold.lease.start += seconds;
        hold.lease.end += seconds;
        hold.lapse += seconds;
    }
    campus
}

/// What is sent in turn and draws replies and an OFFER between them: it depends on where the turn begins.
fn draws_in_turn(calls: &[Call]) -> &'static [Draws] {
    match calls.iter().position(|call| call.datagram[1] == DISCOVER) {
        Some(0) => &[OFFERED, ACKNOWLEDGED, ACKNOWLEDGED],
        _ => &[ACKNOWLEDGED, OFFERED, ACKNOWLEDGED],
    }
}

/// The calls to measure on a campus: a name, what they draw, and calls that are sent in turn and leave the book as it was.
fn turns(campus: &Campus) -> Vec<Turn> {
    let at = |house: u8, message: Message| call(house, CLOCK, &message);
    let three = in_turn(campus, true);
    let mut turns: Vec<Turn> = vec![
        (
            "DISCOVER, refused (grant)",
            &[SILENT],
            vec![at(1, asking(DISCOVER, 3, b"new", 1, 40, 40, CLOCK))],
        ),
        (
            "REQUEST and RELEASE in turn, granted",
            &[ACKNOWLEDGED],
            in_turn(campus, false),
        ),
        (
            "DISCOVER, REQUEST and RELEASE in turn, granted",
            draws_in_turn(&three),
            three,
        ),
        (
            "REQUEST, refused (grant)",
            &[REFUSED],
            vec![at(1, asking(REQUEST, 3, b"new", 1, 40, 40, CLOCK))],
        ),
        (
            "RENEW, refused (not held)",
            &[REFUSED],
            vec![at(3, renewal(5, b"none", DEFAULT_LEASE, CLOCK))],
        ),
        (
            "RELEASE, refused (not held)",
            &[REFUSED],
            vec![at(3, release(5, b"none"))],
        ),
        (
            "RELEASE, sent again",
            &[ACKNOWLEDGED],
            vec![at(6, release(2, &gone(6, MOST_RELEASES).identifier))],
        ),
        (
            "GETINFO, answered",
            &[ACKNOWLEDGED],
            vec![at(5, information(5))],
        ),
        (
            "GETINFO, with a language",
            &[ACKNOWLEDGED],
            vec![at(5, information_in(&full_lists(0)[0][3].tag))],
        ),
        (
            "GETINFO, refused (option)",
            &[SILENT],
            vec![at(5, information(4))],
        ),
        (DISCARDED, &[BAD_HEADER], vec![other_octets()]),
    ];
    if !campus.leases.is_empty() {
        turns.extend(turns_of_leases());
    }
    turns
}

/// Those for which there have to be leases.
fn turns_of_leases() -> [Turn; 3] {
    let at = |house: u8, message: Message| call(house, CLOCK, &message);
    let leased = name(3, 0);
    [
        (
            "REQUEST, sent again",
            &[ACKNOWLEDGED],
            vec![at(4, asking(REQUEST, 2, &name(4, 0), 1, 2, 2, CLOCK))],
        ),
        (
            "RENEW, granted",
            &[ACKNOWLEDGED],
            vec![
                at(3, renewal(1, &leased, DEFAULT_LEASE, CLOCK)),
                at(3, renewal(2, &leased, DEFAULT_LEASE, CLOCK)),
            ],
        ),
        (
            "RENEW, refused (overlap)",
            &[REFUSED],
            vec![at(2, renewal(5, &name(2, 0), DEFAULT_LEASE + 1, CLOCK))],
        ),
    ]
}

/// A list of so many calls, the same few in turn; fewer where the last turn wouldn't be whole.
fn repeated(calls: &[Call], count: usize) -> Work {
    let count = count - count % calls.len().max(1);
    let list = calls
        .iter()
        .cycle()
        .take(count)
        .flat_map(Call::record)
        .collect();
    Work::Replay(list, count)
}

/// A mixed list: every message type from every house, a second between calls, offers held, taken up, dropped and lapsed, leases granted,
/// renewed, released and ended.
fn mixed(count: usize) -> Work {
    let mut random = Random::new("mixed", 0);
    let mut list = Vec::new();
    for number in 0..count {
        let time = CLOCK + number as u32;
        let house = random.between(1, 8) as u8;
        let identifier = name(house, random.below(16) as u8);
        let transaction = random.u32();
        let scope = random.between(1, 4) as u32;
        let least = random.between(1, 2) as u16;
        let message = match random.below(20) {
            0..=4 => asking(DISCOVER, transaction, &identifier, scope, least, 4, time),
            5..=10 => asking(REQUEST, transaction, &identifier, scope, least, 4, time),
            11..=14 => renewal(transaction, &identifier, DEFAULT_LEASE, time),
            15 | 16 => release(transaction, &identifier),
            17 | 18 => information(5),
            _ => Message {
                version: 1,
                ..information(5)
            },
        };
        list.extend(call(house, time, &message).record());
    }
    Work::Replay(list, count)
}

/// A campus with so many leases, and jobs on its file.
struct Bench {
    campus: Campus,
    leases: usize,
    filled: Filled,
}

impl Bench {
    fn job(&self, name: &'static str, work: Work, draws: &'static [Draws]) -> Job {
        let file = self.campus.octets();
        Job {
            name,
            leases: self.leases,
            filled: self.filled,
            file: file.clone(),
            work,
            due: Some(Due { draws, file }),
        }
    }

    fn empty(&self, name: &'static str) -> Job {
        self.job(name, repeated(&[], 0), &[])
    }

    fn turn(&self, (name, draws, calls): Turn, count: usize) -> Job {
        self.job(name, repeated(&calls, count), draws)
    }

    fn mixed(&self, count: usize) -> Job {
        Job {
            due: None,
            ..self.job("mixed list", mixed(count), &[])
        }
    }

    /// The same with a house 1 that gets further: with sixteen leases it doesn't, so it has one less where the grant rule is to be measured.
    fn freer(&self) -> Bench {
        let mut campus = self.campus.clone();
        if self.leases == 128 {
            campus.leases.remove(15);
        }
        Bench { campus, ..*self }
    }

    /// Lists of `count` calls, after an empty list on each file.
    fn lists(&self, count: usize) -> Vec<Job> {
        let freer = self.freer();
        let mut jobs = freer.held_lists(count);
        jobs.push(self.empty(EMPTY));
        let is_full = self.leases == 128;
        for turn in turns(&self.campus) {
            let grants = turn.0.ends_with("(grant)");
            let bench = if grants && is_full { &freer } else { self };
            jobs.push(bench.turn(turn, count));
        }
        if is_full {
            let less = Bench {
                leases: 127,
                ..freer
            };
            jobs.push(less.empty(EMPTY));
            let discarded = (DISCARDED, &[BAD_HEADER][..], vec![other_octets()]);
            jobs.push(less.turn(discarded, count));
        }
        jobs
    }

    /// A DISCOVER on a file with a hold: either at each lapse, so that it is offered anew each time and the last leaves a hold like the one before
    /// the first; or while the offer is held.
    fn held_lists(&self, count: usize) -> Vec<Job> {
        let Some(campus) = held(&self.campus) else {
            return Vec::new();
        };
        let held = Bench { campus, ..*self };
        let seconds = |calls: usize| HOLD_TIME * calls as u32;
        let calls: Vec<Call> = (1..=count)
            .map(|number| discover(CLOCK + seconds(number)))
            .collect();
        let mut offered = held.turn(("DISCOVER, offered", &[OFFERED], calls), count);
        offered.due = Some(Due {
            draws: &[OFFERED],
            file: later(held.campus.clone(), seconds(count)).octets(),
        });
        let repeats = ("DISCOVER, repeated", &[OFFERED][..], vec![discover(CLOCK)]);
        let discarded = (DISCARDED_HELD, &[BAD_HEADER][..], vec![other_octets()]);
        vec![
            held.empty(EMPTY_HELD),
            held.turn(discarded, count),
            offered,
            held.turn(repeats, count),
        ]
    }

    /// A DISCOVER that is offered by itself, with the file read and written: whole, and each of its halves.
    fn one_call(&self) -> Vec<Job> {
        let (call, file) = (discover(CLOCK), self.campus.octets());
        let (mut after, mut length) = (vec![0; LONGEST_FILE], file.len());
        after[..length].copy_from_slice(&file);
        let mut proved = [0; VERDICT_SIZE];
        let (datagram, client) = (&call.datagram, call.client);
        library::judge(
            &mut after,
            &mut length,
            datagram,
            client,
            CLOCK,
            &mut proved,
        );
        after.truncate(length);
        let Ok(mut book) = second::file::read(&file) else {
            return Vec::new();
        };
        let plain = second::judge(&mut book, datagram, client, CLOCK);
        let judged = Box::new(Judged { proved, plain });
        let job = |name, work, file| Job {
            file,
            due: None,
            ..self.job(name, work, &[])
        };
        vec![
            job("one call, whole", Work::Serve(call.clone()), file.clone()),
            job("one call, first half", Work::Judge(call), file),
            job("one call, second half", Work::Reply(judged), after),
        ]
    }

    /// What the clock does by itself: a discarded call at which no lease has ended, and one at which all have but house 2's second, with the file
    /// read and written.
    fn endings(&self) -> [Job; 2] {
        let serve = |name, time| Job {
            due: None,
            ..self.job(name, Work::Serve(other_octets_at(time)), &[])
        };
        [
            serve("clock, no lease ends", CLOCK),
            serve("clock, all leases but one end", CLOCK + DEFAULT_LEASE),
        ]
    }

    /// A full file, read, and read and written.
    fn whole(&self) -> [Job; 2] {
        [
            self.job("full file, read", Work::Check, &[]),
            self.empty("full file, read and written"),
        ]
    }
}

/// Every job: calls in lists of `count`, after an empty list on each file; then whole files, one call and its halves, and the mixed list. At one number of leases also with a
/// full section of names or of releases: what they cost a call, and what they cost one that has nothing to do with them.
pub fn jobs(count: usize, mixed_count: usize) -> Vec<Job> {
    let bench = |campus, leases, filled| Bench {
        campus,
        leases,
        filled,
    };
    let mut jobs = Vec::new();
    for leases in LEASES {
        jobs.extend(bench(campus(leases), leases, Filled::Little).lists(count));
    }
    let named = with_full_names(campus(FILLED_LEASES));
    let released = with_full_releases(campus(FILLED_LEASES));
    for (campus, filled) in [(named, Filled::Names), (released, Filled::Releases)] {
        let bench = bench(campus, FILLED_LEASES, filled);
        jobs.extend(bench.lists(count));
        jobs.push(bench.mixed(mixed_count));
    }
    jobs.extend(bench(full_campus(), 128, Filled::Both).whole());
    jobs.extend(bench(held_campus(), 0, Filled::All).whole());
    let little = bench(campus(FILLED_LEASES), FILLED_LEASES, Filled::Little);
    jobs.extend(little.one_call());
    jobs.extend(bench(campus(128), 128, Filled::Little).endings());
    jobs.push(little.mixed(mixed_count));
    jobs
}
