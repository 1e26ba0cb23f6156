//! The host: datagrams from a socket through the library, and nothing answered from a book that is not on disk.

use crate::args::{Args, Command, Failure};
use crate::files::{contents, refused};
use crate::inbox::{self, Arrived, Buffer, Inbox, List};
use crate::log::{Form, Log, Told};
use crate::store::{failed, Store};
use banshorra_host::campus::Campus;
use banshorra_host::library::{note_signals, noted_signal};
use banshorra_host::{answers, count, utc, Answer, CampusFile, Case, Outcome, ANSWER_ROOM};
use std::io::{self, ErrorKind};
use std::net::{Ipv4Addr, SocketAddrV4, UdpSocket};
use std::path::Path;
use std::thread;
use std::time::{Duration, Instant, SystemTime, UNIX_EPOCH};

pub const COMMAND: Command = Command {
    name: "serve",
    help: "\
banshorra serve FILE [--listen ADDRESS:PORT] [--group ADDRESS [--interface ADDRESS]] [--quiet] [--json] [--no-flush]

Serves the campus file: MADCAP over UDP. What changes is on disk before anybody hears of it, and the file is whole at every instant: the new one is written
as FILE.new, flushed, renamed over FILE, and the folder flushed. FILE.lock keeps a second host from it. Each call is a line on standard output.
It ends cleanly on SIGTERM, SIGINT and SIGHUP; killed, it has lost nothing that it acknowledged.

  --listen ADDRESS:PORT   where to listen; 0.0.0.0:2535 if not given (port 0: any that is free; the first line says which)
  --group ADDRESS         also hear what is sent to this multicast group, as clients do who look for a server
  --interface ADDRESS     the own address on the network to join the group on
  --quiet                 no line for a call; still what the host does and what fails
  --json                  lines as JSON
  --no-flush              don't wait for the disk. A power failure may then lose what was acknowledged: for measuring alone
",
    flags: &["quiet", "json", "no-flush"],
    valued: &["listen", "group", "interface"],
    run: serve,
};

/// MADCAP's port.
pub const PORT: u16 = 2535;
/// How long nothing may come before the host looks whether it is to end.
const LOOK: Duration = Duration::from_millis(200);
/// After a signal the host goes on for so long at most, while datagrams come.
const LAST: Duration = Duration::from_secs(2);
/// Between two tries to send where the system has no room for a reply.
const PAUSE: Duration = Duration::from_millis(1);
/// So long the replies of a list are tried: the host can't serve meanwhile, nor look for a signal.
const PATIENCE: Duration = Duration::from_secs(1);

/// Now, in whole seconds since 1970.
pub fn now() -> u32 {
    let since = SystemTime::now().duration_since(UNIX_EPOCH);
    since.map_or(0, |since| {
        u32::try_from(since.as_secs()).unwrap_or(u32::MAX)
    })
}

fn serve(args: &Args) -> Result<(), Failure> {
    let name = args.word("FILE")?;
    let listen = args.socket("listen", Ipv4Addr::UNSPECIFIED, PORT)?;
    let (group, interface) = (args.address("group")?, args.address("interface")?);
    if interface.is_some() && group.is_none() {
        return args.usage("--interface goes with --group");
    }
    if let Some(group) = group.filter(|group| !group.is_multicast()) {
        return args.usage(&format!("--group takes a multicast address, not {group}"));
    }
    let form = match (args.has("quiet"), args.has("json")) {
        (true, json) => Form::Quiet { json },
        (false, true) => Form::Json,
        (false, false) => Form::Words,
    };
    let path = Path::new(name);
    // No lock is left beside a file that isn't there.
    std::fs::metadata(path).map_err(|error| failed(path, error))?;
    // From the lock on the host ends by itself.
    note_signals();
    let store = Store::take(path, !args.has("no-flush"))?;
    let file = store.read()?;
    let campus = CampusFile::from_bytes(&file).map_err(|refusal| refused(name, &file, refusal))?;
    let settings =
        Campus::from_octets(&file).map_err(|fault| Failure::Refused(fault.to_string()))?;
    let sockets = open(listen, group, interface)?;
    let of_socket = |error| Failure::Machine(format!("the socket: {error}"));
    let socket = sockets[0].try_clone().map_err(of_socket)?;
    let mut host = Host {
        buffers: sockets.iter().map(Buffer::of).collect(),
        looked: Instant::now(),
        campus,
        settings,
        store,
        socket,
        inbox: Inbox::open(sockets).map_err(of_socket)?,
        log: Log::new(form),
        list: List::default(),
        answers: vec![0; inbox::MOST * ANSWER_ROOM],
        count: Count::default(),
        was_behind: false,
    };
    host.run();
    Ok(())
}

/// The sockets: the first is the one that answers. One on all addresses hears a group as well; beside one on a single address the group has its own.
fn open(
    listen: SocketAddrV4,
    group: Option<Ipv4Addr>,
    interface: Option<Ipv4Addr>,
) -> Result<Vec<UdpSocket>, Failure> {
    let failed =
        |what: String| move |error: io::Error| Failure::Machine(format!("{what}: {error}"));
    let bind = |address: SocketAddrV4| {
        UdpSocket::bind(address).map_err(failed(format!("listening on {address}")))
    };
    let mut sockets = vec![bind(listen)?];
    // While a thread waits in this socket, sending by it would wait as well: for so long, and then be tried again.
    sockets[0]
        .set_write_timeout(Some(PAUSE))
        .map_err(failed("the socket".to_owned()))?;
    let Some(group) = group else {
        return Ok(sockets);
    };
    let interface = interface.unwrap_or(Ipv4Addr::UNSPECIFIED);
    let join = |socket: &UdpSocket| {
        let joined = socket.join_multicast_v4(&group, &interface);
        joined.map_err(failed(format!("joining {group} on {interface}")))
    };
    if listen.ip().is_unspecified() {
        join(&sockets[0])?;
        return Ok(sockets);
    }
    let port = sockets[0]
        .local_addr()
        .map_err(failed("the socket".to_owned()))?
        .port();
    let of_group = bind(SocketAddrV4::new(group, port))?;
    join(&of_group)?;
    sockets.push(of_group);
    Ok(sockets)
}

/// What has been done so far.
#[derive(Default)]
struct Count {
    calls: usize,
    replies: usize,
    discards: usize,
    unanswered: usize,
    lists: usize,
    writes: usize,
    /// How often an identifier was looked up, how many records were compared for it, and the most for one call: what a box is sized by.
    lookups: usize,
    compared: usize,
    most_compared: usize,
}

impl Count {
    /// What was read for a call.
    fn read(&mut self, lookups: usize, compared: usize) {
        self.lookups += lookups;
        self.compared += compared;
        self.most_compared = self.most_compared.max(compared);
    }
}

struct Host {
    /// What the system dropped before each socket, and when that was looked at.
    buffers: Vec<Buffer>,
    looked: Instant,
    campus: CampusFile,
    /// Server, houses and scopes, which no call changes.
    settings: Campus,
    store: Store,
    socket: UdpSocket,
    inbox: Inbox,
    log: Log,
    list: List,
    answers: Vec<u8>,
    count: Count,
    /// Whether the machine's clock was behind the book's when last seen.
    was_behind: bool,
}

impl Host {
    fn run(&mut self) {
        let listens = self.socket.local_addr();
        let listens = listens.map_or_else(|error| error.to_string(), |listens| listens.to_string());
        let (path, book) = (
            self.store.path().display().to_string(),
            contents(&self.settings),
        );
        self.log.event(
            now(),
            "listening on",
            &format!("{listens}, serving {path}: {book}"),
        );
        self.look_at_clock(now());
        let signal = self.answer_until_ended();
        let Count {
            calls,
            replies,
            discards,
            unanswered,
            lists,
            writes,
            lookups,
            compared,
            most_compared,
        } = self.count;
        let what = format!(
            "by {signal}; {}: {replies} answered, {discards} discarded, {unanswered} not answered; {}, {}; {}, {} compared, at most {most_compared} for a call",
            count(calls, "call"),
            count(lists, "list"),
            count(writes, "write"),
            count(lookups, "lookup"),
            count(compared, "record")
        );
        self.log.event(now(), "ended", &what);
    }

    /// Answers what comes until a signal has been noted and what had come before it is answered: twice nothing came for a while, and nothing waits in a socket. What
    /// goes on coming keeps the host for no longer than `LAST`.
    fn answer_until_ended(&mut self) -> &'static str {
        let (mut noted, mut quiet) = (None, 0);
        loop {
            let signal = noted_signal();
            self.inbox.take(&mut self.list, LOOK);
            let has_come = !self.list.is_empty();
            self.answer();
            if signal.is_some() || self.looked.elapsed() >= Duration::from_secs(1) {
                self.look_at_lost();
            }
            if let Some(signal) = signal {
                let since = noted.get_or_insert_with(Instant::now);
                let waits = has_come || self.buffers.iter().any(Buffer::is_filled);
                quiet = if waits { 0 } else { quiet + 1 };
                if quiet == 2 || since.elapsed() >= LAST {
                    return signal;
                }
            }
        }
    }

    /// Answers what has come, and says what went wrong on the way.
    fn answer(&mut self) {
        for fault in std::mem::take(&mut self.list.faults) {
            self.log
                .event(now(), "fault", &format!("receiving: {fault}"));
        }
        if self.list.dropped > 0 {
            let what = format!(
                "{} came while {} waited",
                count(self.list.dropped, "datagram"),
                inbox::MOST
            );
            self.log.event(now(), "dropped", &what);
        }
        if !self.list.arrived.is_empty() {
            self.serve();
        }
        self.list.clear();
    }

    /// Serves what has come as one list, puts the book on disk, and sends the replies. If the disk fails, the old book goes on and nobody is answered.
    fn serve(&mut self) {
        let before = self.campus.clone();
        let replayed = self.campus.replay(&self.list.calls, &mut self.answers);
        let filled = &self.answers[..replayed.answers_filled];
        let told: Vec<Answer> = answers(filled).collect();
        let mut fault = None;
        if let Some(refusal) = replayed.stopped {
            fault = Some(refusal.to_string());
        } else if told.iter().any(|told| told.outcome.reply().is_some()) {
            match self.store.keep(self.campus.as_bytes()) {
                Ok(written) => self.count.writes += usize::from(written),
                Err(error) => {
                    fault = Some(format!("the campus file could not be written: {error}"))
                }
            }
        }
        if let Some(fault) = &fault {
            self.campus = before.clone();
            let path = self.store.path().display().to_string();
            self.log.event(
                now(),
                "fault",
                &format!(
                    "{path}: {fault}; {} not answered, the old book goes on",
                    count(told.len(), "call")
                ),
            );
        }
        self.count.lists += 1;
        tell(
            &mut self.log,
            &mut self.count,
            &self.socket,
            &Answered {
                settings: &self.settings,
                before: &before,
                arrived: &self.list.arrived,
                calls: &self.list.calls,
                told: &told,
                fault: fault.as_deref(),
            },
        );
        if let Some(time) = self.list.arrived.last().map(|last| last.time) {
            self.look_at_clock(time);
        }
    }

    /// Says what was lost before the host could take it.
    fn look_at_lost(&mut self) {
        self.looked = Instant::now();
        let lost: usize = self.buffers.iter_mut().map(Buffer::more_lost).sum();
        if lost > 0 {
            let what = format!("{}, as the socket's buffer was full; the system's net.core.rmem_default sets its size", count(lost, "datagram"));
            self.log.event(now(), "lost", &what);
        }
    }

    /// Says when the machine's clock falls behind the book's, which then stands until it is reached.
    fn look_at_clock(&mut self, time: u32) {
        let clock = clock_of(&self.campus);
        let is_behind = clock > time.saturating_add(1);
        if is_behind && !self.was_behind {
            let (ours, book) = (utc::in_words(time), utc::in_words(clock));
            let what = format!("the machine's clock says {ours}, the book's {book}: calls count as of the book's until it is reached");
            self.log.event(time, "clock", &what);
        }
        self.was_behind = is_behind;
    }
}

/// The clock of a campus file, which stands behind the server's count and address.
fn clock_of(campus: &CampusFile) -> u32 {
    let octets = campus.as_bytes();
    u32::from_be_bytes([5, 6, 7, 8].map(|at| octets[at]))
}

/// A list of calls and what came of it.
struct Answered<'a> {
    settings: &'a Campus,
    before: &'a CampusFile,
    arrived: &'a [Arrived],
    calls: &'a [u8],
    told: &'a [Answer<'a>],
    fault: Option<&'a str>,
}

/// Sends the replies, then tells the calls.
fn tell(log: &mut Log, count: &mut Count, socket: &UdpSocket, list: &Answered) {
    let mut failed = vec![None; list.told.len()];
    let until = Instant::now() + PATIENCE;
    for ((arrived, told), failed) in list.arrived.iter().zip(list.told).zip(&mut failed) {
        count.calls += 1;
        match (told.outcome, list.fault) {
            (Outcome::Discard(_), _) => count.discards += 1,
            (Outcome::Reply(_), Some(fault)) => *failed = Some(fault.to_owned()),
            (Outcome::Reply(reply), None) => {
                match patiently(until, || socket.send_to(reply, arrived.from)) {
                    Ok(_) => count.replies += 1,
                    Err(error) => *failed = Some(format!("it could not be sent: {error}")),
                }
            }
        }
        count.unanswered += usize::from(failed.is_some());
    }
    let before = Campus::from_octets(list.before.as_bytes()).ok();
    // The book before a call is known where the list has one call.
    let book = before.as_ref().filter(|_| list.arrived.len() == 1);
    let mut clock = clock_of(list.before);
    for ((arrived, told), failed) in list.arrived.iter().zip(list.told).zip(&failed) {
        clock = clock.max(arrived.time);
        let datagram = &list.calls[arrived.start..arrived.end];
        // Of a later call in a list it is the book before the list that tells what was sent again.
        let case = Case {
            settings: list.settings,
            book: before.as_ref(),
            clock,
            client: (*arrived.from.ip()).into(),
        };
        count.read(case.lookups(datagram, *told), told.count);
        let told = Told {
            time: arrived.time,
            clock,
            from: arrived.from,
            length: arrived.length,
            datagram,
            answer: *told,
            unsent: failed.as_deref(),
        };
        log.call(list.settings, book, &told);
    }
    log.flush();
}

/// Sends by a socket that doesn't wait, or not for long: what it has no room for is tried again, up to a time.
fn patiently<T>(until: Instant, mut send: impl FnMut() -> io::Result<T>) -> io::Result<T> {
    loop {
        match send() {
            Err(error) if error.kind() == ErrorKind::Interrupted => {}
            Err(error) if error.kind() == ErrorKind::WouldBlock && Instant::now() < until => {
                thread::sleep(PAUSE)
            }
            other => return other,
        }
    }
}

#[cfg(test)]
mod tests {
    use super::patiently;
    use std::io::{Error, ErrorKind};
    use std::time::{Duration, Instant};

    fn soon() -> Instant {
        Instant::now() + Duration::from_secs(60)
    }

    #[test]
    fn a_reply_waits_for_room() {
        let mut tries = 0;
        let sent = patiently(soon(), || {
            tries += 1;
            match tries {
                1 => Err(Error::from(ErrorKind::WouldBlock)),
                2 => Err(Error::from(ErrorKind::Interrupted)),
                _ => Ok("sent"),
            }
        });
        assert_eq!((sent.expect("sent"), tries), ("sent", 3));
    }

    #[test]
    fn what_fails_is_not_tried_again() {
        let mut tries = 0;
        let sent = patiently(soon(), || {
            tries += 1;
            Err::<(), _>(Error::from(ErrorKind::HostUnreachable))
        });
        let error = sent.expect_err("it fails");
        assert_eq!((error.kind(), tries), (ErrorKind::HostUnreachable, 1));
    }

    #[test]
    fn a_list_does_not_wait_for_ever() {
        let mut tries = 0;
        let sent = patiently(Instant::now(), || {
            tries += 1;
            Err::<(), _>(Error::from(ErrorKind::WouldBlock))
        });
        let error = sent.expect_err("there is no room");
        assert_eq!((error.kind(), tries), (ErrorKind::WouldBlock, 1));
    }
}
