//! The program `banshorra` as the tests run it: a campus of eight houses on the loopback range, a host on it, and clients of its houses.
#![allow(dead_code)]

use banshorra_host::campus::Campus;
use banshorra_host::message::{draft, Message};
use banshorra_host::text;
use std::fs;
use std::io::{BufRead, BufReader, Read};
use std::net::{SocketAddr, UdpSocket};
use std::path::{Path, PathBuf};
use std::process::{Child, Command, ExitStatus, Output, Stdio};
use std::sync::mpsc::{self, Receiver};
use std::time::{Duration, Instant, SystemTime, UNIX_EPOCH};

pub const PROGRAM: &str = env!("CARGO_BIN_EXE_banshorra");
pub const SAMPLES: &str = concat!(env!("CARGO_MANIFEST_DIR"), "/../samples/");
/// 239.192.1.0
pub const SCOPE: u32 = 0xEFC0_0100;
/// Longer than any answer takes on a machine that is busy with other things.
pub const PATIENCE: Duration = Duration::from_secs(20);

pub fn now() -> u32 {
    SystemTime::now()
        .duration_since(UNIX_EPOCH)
        .expect("after 1970")
        .as_secs() as u32
}

/// A folder of its own, which goes with the test.
pub struct Folder(pub PathBuf);

impl Folder {
    pub fn new(name: &str) -> Folder {
        let path = std::env::temp_dir().join(format!("banshorra-{name}-{}", std::process::id()));
        let _ = fs::remove_dir_all(&path);
        fs::create_dir_all(&path).expect("a folder");
        Folder(path)
    }

    pub fn path(&self, name: &str) -> PathBuf {
        self.0.join(name)
    }

    /// The campus of eight houses as a campus file.
    pub fn campus(&self) -> PathBuf {
        let path = self.path("campus.bin");
        fs::write(&path, loopback().to_octets()).expect("a campus file");
        path
    }
}

impl Drop for Folder {
    fn drop(&mut self) {
        let _ = fs::remove_dir_all(&self.0);
    }
}

pub fn loopback() -> Campus {
    let words = fs::read_to_string(format!("{SAMPLES}loopback.txt")).expect("a sample");
    text::read(&words).expect("a campus")
}

/// A campus file that is too long for a block of 512 or 1,024 octets.
pub fn long_campus() -> Vec<u8> {
    let mut campus = loopback();
    for scope in &mut campus.scopes {
        let names = scope.names[0].clone();
        scope.names.fill(names);
    }
    let file = campus.to_octets();
    assert!(file.len() > 1024);
    file
}

/// Runs the program to its end.
pub fn run(words: &[&str]) -> Output {
    Command::new(PROGRAM)
        .args(words)
        .stdin(Stdio::null())
        .output()
        .expect("the program runs")
}

/// The lines that a program prints, as they come.
pub fn lines_of(out: impl Read + Send + 'static) -> Receiver<String> {
    let (send, lines) = mpsc::channel();
    std::thread::spawn(move || {
        for line in BufReader::new(out).lines().map_while(Result::ok) {
            if send.send(line).is_err() {
                return;
            }
        }
    });
    lines
}

/// A host on a campus file, which is killed with the test.
pub struct Running {
    pub child: Child,
    pub server: SocketAddr,
    lines: Receiver<String>,
    pub log: Vec<String>,
}

impl Running {
    pub fn start(file: &Path, options: &[&str]) -> Running {
        let mut command = Command::new(PROGRAM);
        command
            .arg("serve")
            .arg(file)
            .args(["--listen", "127.0.0.1:0"])
            .args(options);
        Running::of(command)
    }

    /// A host by a command of any kind.
    pub fn of(mut command: Command) -> Running {
        command.stdin(Stdio::null()).stdout(Stdio::piped());
        let mut child = command.spawn().expect("the host starts");
        let out = child.stdout.take().expect("piped");
        let lines = lines_of(out);
        let server = SocketAddr::from(([127, 0, 0, 1], 0));
        let log = vec![];
        let mut host = Running {
            child,
            server,
            lines,
            log,
        };
        let first = host.line("listening on");
        let port = first
            .split("127.0.0.1:")
            .nth(1)
            .and_then(|rest| rest.split(',').next());
        let port = port.and_then(|port| port.parse().ok()).expect("the port");
        host.server.set_port(port);
        host
    }

    /// The next line of the log that has these words; those before it are passed.
    pub fn line(&mut self, words: &str) -> String {
        let until = Instant::now() + PATIENCE;
        loop {
            let left = until.saturating_duration_since(Instant::now());
            match self.lines.recv_timeout(left) {
                Ok(line) => {
                    self.log.push(line.clone());
                    if line.contains(words) {
                        return line;
                    }
                }
                Err(error) => panic!("no line with `{words}` ({error}) in {:#?}", self.log),
            }
        }
    }

    /// Sends a signal by name, as `TERM`.
    pub fn signal(&self, name: &str) {
        let status = Command::new("kill")
            .args(["-s", name, &self.child.id().to_string()])
            .status();
        assert!(status.expect("kill runs").success());
    }

    /// Ends it and gives how it ended, with all that it logged.
    pub fn end(mut self) -> (ExitStatus, Vec<String>) {
        self.signal("TERM");
        let status = self.child.wait().expect("it ends");
        let mut log = std::mem::take(&mut self.log);
        log.extend(self.lines.iter());
        (status, log)
    }
}

impl Drop for Running {
    fn drop(&mut self) {
        let _ = self.child.kill();
        let _ = self.child.wait();
    }
}

/// A client of a house.
pub struct Client {
    pub socket: UdpSocket,
    pub server: SocketAddr,
}

impl Client {
    pub fn new(house: u8, server: SocketAddr) -> Client {
        let socket = UdpSocket::bind(SocketAddr::from(([127, 0, house, 9], 0)))
            .expect("an address of the house");
        socket
            .set_read_timeout(Some(PATIENCE))
            .expect("a time limit");
        Client { socket, server }
    }

    pub fn send(&self, datagram: &[u8]) {
        self.socket.send_to(datagram, self.server).expect("sent");
    }

    /// What comes from the server within a time.
    pub fn hear(&self, within: Duration) -> Option<Vec<u8>> {
        let mut room = [0; 2048];
        self.socket
            .set_read_timeout(Some(within))
            .expect("a time limit");
        let (length, from) = self.socket.recv_from(&mut room).ok()?;
        assert_eq!(from, self.server);
        Some(room[..length].to_vec())
    }

    /// Sends and waits for the answer, which has the same transaction id and identifier.
    pub fn ask(&self, datagram: &[u8]) -> Vec<u8> {
        self.send(datagram);
        let reply = self.hear(PATIENCE).expect("an answer");
        let (asked, answer) = (Message(datagram), Message(&reply));
        assert_eq!(answer.transaction(), asked.transaction());
        assert_eq!(answer.value(3), asked.value(3));
        reply
    }
}

/// A message of an identifier, with options besides.
pub fn message(kind: u8, xid: u32, id: &[u8], options: &[(u16, Vec<u8>)]) -> Vec<u8> {
    let id = (3, id.to_vec());
    draft(kind, xid, &[&[id], options].concat())
}

pub fn in_scope(scope: u32) -> (u16, Vec<u8>) {
    (4, scope.to_be_bytes().to_vec())
}

/// The campus that stands on disk, which has to be accepted.
pub fn on_disk(path: &Path) -> Campus {
    let file = fs::read(path).expect("the campus file");
    assert_eq!(banshorra_host::lent::check(&file), Ok(()));
    Campus::from_octets(&file).expect("of right form")
}
