//! What has come and waits. When the host is ready it takes all that waits in its sockets as one list, without waiting. Beside it each socket has a thread, so that
//! none is lost in the socket's small buffer while the host is at work or the disk is waited for: it takes what has come from time to time, not each datagram by itself,
//! which would cost a switch of threads each. When nothing has come, the host waits, and the threads wait in the sockets.

use crate::serve::now;
use banshorra_host::{Call, REPLY_ROOM};
use std::io::{self, ErrorKind};
use std::net::{SocketAddr, SocketAddrV4, UdpSocket};
use std::os::fd::AsRawFd;
use std::sync::{Arc, Condvar, Mutex, MutexGuard, PoisonError};
use std::thread;
use std::time::Duration;

/// So many may wait; what comes beyond is dropped, as the network drops it, and the client sends it again.
pub const MOST: usize = 4096;
/// So much of a datagram is kept. No longer one than 1,472 octets is served, so that more of it would tell nothing.
const KEPT: usize = 2048;
/// The longest datagram.
const LONGEST: usize = 65_536;
/// While the host is at work its sockets are looked at so often: some 250 datagrams fit into a socket's buffer.
const TICK: Duration = Duration::from_millis(1);
/// Between two tries of a socket that fails.
const PAUSE: Duration = Duration::from_millis(200);

/// A datagram that waits for its answer.
pub struct Arrived {
    pub time: u32,
    pub from: SocketAddrV4,
    /// As it came.
    pub length: usize,
    /// Where what is kept of it stands in the list of calls.
    pub start: usize,
    pub end: usize,
}

/// Calls as the library takes them, and where each came from.
#[derive(Default)]
pub struct List {
    pub calls: Vec<u8>,
    pub arrived: Vec<Arrived>,
    /// What came while there was no room.
    pub dropped: usize,
    /// Why nothing could be received.
    pub faults: Vec<String>,
}

impl List {
    pub fn is_empty(&self) -> bool {
        self.arrived.is_empty() && self.dropped == 0 && self.faults.is_empty()
    }

    pub fn clear(&mut self) {
        self.calls.clear();
        self.arrived.clear();
        self.dropped = 0;
        self.faults.clear();
    }

    /// Receives what waits in a socket that doesn't wait for it, up to so many. A lasting fault is told where it is waited for.
    fn receive(&mut self, socket: &UdpSocket, room: &mut [u8], most: usize) {
        let time = now();
        for _ in 0..most {
            let came = socket.recv_from(room);
            if came.is_err() {
                return;
            }
            self.note(came, time, room);
        }
    }

    /// Adds what came, or why nothing could be received. Gives whether that is a fault.
    fn note(&mut self, came: io::Result<(usize, SocketAddr)>, time: u32, room: &[u8]) -> bool {
        match came {
            Ok((length, SocketAddr::V4(from))) => self.add(from, time, &room[..length]),
            // An IPv4 socket hears of no others.
            Ok((_, SocketAddr::V6(_))) => {}
            Err(error)
                if matches!(error.kind(), ErrorKind::Interrupted | ErrorKind::WouldBlock) => {}
            Err(error) => {
                self.faults.push(error.to_string());
                return true;
            }
        }
        false
    }

    fn add(&mut self, from: SocketAddrV4, time: u32, datagram: &[u8]) {
        if self.arrived.len() >= MOST {
            self.dropped += 1;
            return;
        }
        let (length, datagram) = (datagram.len(), &datagram[..datagram.len().min(KEPT)]);
        let call = Call {
            time,
            client: *from.ip(),
            reply_room: REPLY_ROOM as u16,
            datagram,
        };
        call.append_to(&mut self.calls);
        let (end, start) = (self.calls.len(), self.calls.len() - datagram.len());
        self.arrived.push(Arrived {
            time,
            from,
            length,
            start,
            end,
        });
    }
}

/// What the host and the threads beside it share.
#[derive(Default)]
struct Waits {
    list: List,
    /// Whether the host has nothing to do until something comes.
    is_idle: bool,
    /// Of each socket whether its thread waits in it: so long it is the thread's alone.
    watched: Vec<bool>,
}

#[derive(Default)]
struct Shared {
    waits: Mutex<Waits>,
    /// The host waits for it.
    has_come: Condvar,
    /// The threads wait for it.
    is_idle: Condvar,
}

/// What waits for the host. The threads beside it, one a socket, end with the process.
pub struct Inbox {
    shared: Arc<Shared>,
    sockets: Vec<UdpSocket>,
    room: Vec<u8>,
}

impl Inbox {
    pub fn open(sockets: Vec<UdpSocket>) -> io::Result<Inbox> {
        let shared = Arc::new(Shared::default());
        lock(&shared).watched = vec![false; sockets.len()];
        for (at, socket) in sockets.iter().enumerate() {
            socket.set_nonblocking(true)?;
            let (shared, socket) = (shared.clone(), socket.try_clone()?);
            thread::Builder::new().spawn(move || watch(at, &socket, &shared))?;
        }
        Ok(Inbox {
            shared,
            sockets,
            room: vec![0; LONGEST],
        })
    }

    /// Puts what waits into an empty list, or waits for it for a time. The other way round the empty list is what is filled next.
    pub fn take(&mut self, list: &mut List, within: Duration) {
        let mut waits = lock(&self.shared);
        for (at, socket) in self.sockets.iter().enumerate() {
            if !waits.watched[at] {
                let most = MOST - waits.list.arrived.len();
                waits.list.receive(socket, &mut self.room, most);
            }
        }
        if waits.list.is_empty() {
            waits.is_idle = true;
            self.shared.is_idle.notify_all();
            let has_come = &self.shared.has_come;
            let waited = has_come.wait_timeout_while(waits, within, |waits| waits.list.is_empty());
            waits = waited.unwrap_or_else(PoisonError::into_inner).0;
            waits.is_idle = false;
        }
        std::mem::swap(&mut waits.list, list);
    }
}

/// The thread beside a socket. While the host is at work it takes what has come, tick by tick; while the host has nothing to do it waits for what comes.
fn watch(at: usize, socket: &UdpSocket, shared: &Shared) {
    let mut room = vec![0; LONGEST];
    let mut waits = lock(shared);
    loop {
        let is_idle = &shared.is_idle;
        let waited = is_idle.wait_timeout_while(waits, TICK, |waits| !waits.is_idle);
        waits = waited.unwrap_or_else(PoisonError::into_inner).0;
        waits.list.receive(socket, &mut room, MOST);
        let mut has_failed = false;
        if waits.is_idle && waits.list.is_empty() {
            waits.watched[at] = true;
            drop(waits);
            let came = wait_in(socket, &mut room);
            waits = lock(shared);
            waits.watched[at] = false;
            has_failed = waits.list.note(came, now(), &room);
            // What came with it goes into the same list.
            waits.list.receive(socket, &mut room, MOST);
        }
        if waits.is_idle && !waits.list.is_empty() {
            waits.is_idle = false;
            shared.has_come.notify_one();
        }
        if has_failed {
            drop(waits);
            thread::sleep(PAUSE);
            waits = lock(shared);
        }
    }
}

/// Waits for a datagram in a socket that else doesn't wait.
fn wait_in(socket: &UdpSocket, room: &mut [u8]) -> io::Result<(usize, SocketAddr)> {
    socket.set_nonblocking(false)?;
    let came = socket.recv_from(room);
    // So long the socket is the thread's alone: nobody else would come out of it.
    while socket.set_nonblocking(true).is_err() {
        thread::sleep(PAUSE);
    }
    came
}

/// What the system tells of a socket in /proc/net/udp: how many datagrams it has dropped before it, as its buffer was full, and whether one waits there.
pub struct Buffer {
    /// The socket's own number, which its line has.
    number: String,
    seen: usize,
}

impl Buffer {
    pub fn of(socket: &UdpSocket) -> Buffer {
        let link = std::fs::read_link(format!("/proc/self/fd/{}", socket.as_raw_fd()));
        let link = link.map_or_else(
            |_| String::new(),
            |link| link.to_string_lossy().into_owned(),
        );
        let number = link
            .trim_start_matches("socket:[")
            .trim_end_matches(']')
            .to_owned();
        Buffer { number, seen: 0 }
    }

    /// The words of its line; none where the system doesn't tell.
    fn words(&self) -> Vec<String> {
        let table = std::fs::read_to_string("/proc/net/udp").unwrap_or_default();
        let mut lines = table.lines().map(|line| {
            line.split_whitespace()
                .map(String::from)
                .collect::<Vec<_>>()
        });
        lines
            .find(|words| words.get(9) == Some(&self.number))
            .unwrap_or_default()
    }

    /// How many more were dropped than when last looked: the last column.
    pub fn more_lost(&mut self) -> usize {
        let words = self.words();
        let lost = words.last().and_then(|word| word.parse().ok());
        let lost = lost.unwrap_or(self.seen);
        let more = lost.saturating_sub(self.seen);
        self.seen = lost;
        more
    }

    /// Whether a datagram waits in it: the fifth column has the octets to send and those that were received.
    pub fn is_filled(&self) -> bool {
        let words = self.words();
        let received = words.get(4).and_then(|word| word.split(':').nth(1));
        received.is_some_and(|octets| octets.contains(|digit| digit != '0'))
    }
}

/// The lock. Nobody panics with it; if somebody did, the list would be whole all the same.
fn lock(shared: &Shared) -> MutexGuard<'_, Waits> {
    shared.waits.lock().unwrap_or_else(PoisonError::into_inner)
}
