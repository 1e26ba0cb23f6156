//! The host on real sockets of the loopback range: all messages from eight houses at once, resends, faults of disk and clock, and its end.

#[path = "common/random.rs"]
mod random;
#[path = "common/running.rs"]
mod running;

use banshorra_host::campus::Campus;
use banshorra_host::message::{
    Message, ACK, DISCOVER, GETINFO, NAK, OFFER, RELEASE, RENEW, REQUEST,
};
use banshorra_host::utc;
use random::Random;
use running::*;
use std::fs;
use std::net::UdpSocket;
use std::os::unix::fs::{MetadataExt, PermissionsExt};
use std::path::Path;
use std::process::{Command, Stdio};
use std::thread;
use std::time::{Duration, Instant};

/// A house's morning, by one of its clients: every message, and what was not heard sent again. Gives the calls.
fn morning(client: &Client, house: u8, number: u8) -> usize {
    let id = [0, house, number];
    let xid = u32::from_be_bytes([1, house, number, 0]);
    let scope = in_scope(SCOPE + 256 * u32::from(number % 4));
    let ask = |datagram: &[u8]| client.ask(datagram);
    let info = ask(&message(
        GETINFO,
        xid,
        &id,
        &[(5, vec![0, 9, 0, 11]), (8, b"de".to_vec())],
    ));
    assert_eq!(Message(&info).kind(), ACK);
    assert_eq!(Message(&info).value(9).expect("the scopes")[0], 4);
    let discover = ask(&message(DISCOVER, xid + 1, &id, &[scope.clone()]));
    assert_eq!(Message(&discover).kind(), OFFER);
    let request = message(REQUEST, xid + 2, &id, &[scope.clone()]);
    let granted = ask(&request);
    assert_eq!(Message(&granted).kind(), ACK);
    assert_eq!(Message(&granted).ranges(), Message(&discover).ranges());
    let again = ask(&request);
    for code in [1, 4, 6, 10] {
        assert_eq!(Message(&again).value(code), Message(&granted).value(code));
    }
    let other = ask(&message(REQUEST, xid + 3, &id, &[scope]));
    assert_eq!(Message(&other).error(), Some(1));
    let renewed = ask(&message(
        RENEW,
        xid + 4,
        &id,
        &[(1, 7200u32.to_be_bytes().to_vec())],
    ));
    assert_eq!(Message(&renewed).number(1), Some(7200));
    let release = message(RELEASE, xid + 5, &id, &[]);
    for _ in 0..2 {
        assert_eq!(Message(&ask(&release)).kind(), ACK);
    }
    let gone = ask(&message(RENEW, xid + 6, &id, &[]));
    assert_eq!(
        (Message(&gone).kind(), Message(&gone).error()),
        (NAK, Some(3))
    );
    9
}

#[test]
fn all_messages_from_eight_houses_at_once() {
    let folder = Folder::new("houses");
    let file = folder.campus();
    let host = Running::start(&file, &[]);
    let clients = (1..=8).flat_map(|house| (0..3).map(move |number| (house, number)));
    let clients: Vec<_> = clients
        .map(|(house, number)| {
            let client = Client::new(house, host.server);
            thread::spawn(move || morning(&client, house, number))
        })
        .collect();
    let calls: usize = clients
        .into_iter()
        .map(|client| client.join().expect("a good morning"))
        .sum();
    let campus = on_disk(&file);
    assert_eq!((campus.leases.len(), campus.holds.len()), (0, 0));
    assert_eq!(campus.releases.len(), 24);
    let (status, log) = host.end();
    assert!(status.success());
    let told = log
        .iter()
        .filter(|line| line.contains(" house ") && line.contains(" xid 0x"));
    assert_eq!(told.count(), calls);
    let last = log.last().expect("a last line");
    assert!(
        last.contains(&format!(
            "ended: by SIGTERM; {calls} calls: {calls} answered, 0 discarded"
        )),
        "{last}"
    );
}

#[test]
fn each_call_is_a_line_in_words() {
    let folder = Folder::new("words");
    let mut host = Running::start(&folder.campus(), &[]);
    let client = Client::new(3, host.server);
    let (start, id) = (now(), b"truck");
    let reply = client.ask(&message(
        REQUEST,
        7,
        id,
        &[in_scope(SCOPE), (1, vec![0, 0, 0, 60])],
    ));
    let granted = Message(&reply).number(6).expect("a start");
    assert!((start..start + 20).contains(&granted));
    let (from, to) = (utc::in_words(granted), utc::in_words(granted + 60));
    let line = host.line("xid 0x00000007");
    let words = format!("REQUEST id \"truck\" scope 239.192.1.0 for 60 s xid 0x00000007: ACK 239.192.1.0 from {from} to {to}");
    assert!(
        line.contains(" house 3 127.0.3.9:") && line.ends_with(&words),
        "{line}"
    );
    let damaged = message(RELEASE, 8, id, &[(6, vec![0; 3])]);
    client.send(&damaged);
    let line = host.line("xid 0x00000008");
    assert!(
        line.ends_with(": discard 5 at octet 17, option 6 has length 3, not 4"),
        "{line}"
    );
    client.ask(&message(RENEW, 9, b"other", &[]));
    let line = host.line("xid 0x00000009");
    assert!(
        line.ends_with(": NAK, error 3, house 3 has no lease with that identifier"),
        "{line}"
    );
    Client::new(99, host.server).send(&message(GETINFO, 10, id, &[]));
    let line = host.line("xid 0x0000000a");
    assert!(line.contains(" no house 127.0.99.9:"), "{line}");
    assert!(
        line.ends_with(": discard 3, the client's address is in no house"),
        "{line}"
    );
    client.send(b"hello");
    assert!(host
        .line("5 octets")
        .ends_with(": discard 4, 5 octets, below 12"));
    client.send(b"x");
    assert!(host
        .line("1 octet")
        .ends_with(" 1 octet: discard 4, 1 octet, below 12"));
}

#[test]
fn its_last_line_says_what_was_read() {
    let folder = Folder::new("read");
    let host = Running::start(&folder.campus(), &["--quiet"]);
    let client = Client::new(1, host.server);
    let scope = in_scope(SCOPE);
    // Two lookups where there is no record, and one that is not the lease's. The hold lapses first, so that the lease is the second: found twice, and once by the
    // resend test alone.
    client.ask(&message(REQUEST, 1, b"truck", &[scope.clone()]));
    client.ask(&message(DISCOVER, 2, b"stage", &[scope.clone()]));
    client.ask(&message(RENEW, 3, b"truck", &[]));
    client.ask(&message(RENEW, 3, b"truck", &[]));
    client.ask(&message(GETINFO, 4, b"truck", &[]));
    // Found once, and then remembered.
    client.ask(&message(RELEASE, 5, b"truck", &[]));
    client.ask(&message(RELEASE, 5, b"truck", &[]));
    client.send(b"x");
    let (_, log) = host.end();
    let last = log.last().expect("a last line");
    assert!(
        last.contains("; 8 calls: 7 answered, 1 discarded, ")
            && last.ends_with("; 7 lookups, 9 records compared, at most 4 for a call"),
        "{last}"
    );
}

#[test]
fn lines_as_json() {
    let folder = Folder::new("json");
    let mut host = Running::start(&folder.campus(), &["--json"]);
    let client = Client::new(1, host.server);
    client.ask(&message(REQUEST, 7, b"\"\\\x01", &[in_scope(SCOPE)]));
    let line = host.line("\"xid\":\"0x00000007\"");
    for part in [
        "\"house\":1,\"client\":\"127.0.1.9:",
        "\"asked\":\"REQUEST\"",
        "\"id\":\"225c01\"",
        "\"scope\":\"239.192.1.0\",\"outcome\":0,\"compared\":0,\"answer\":\"ACK\",\"addresses\":\"239.192.1.0\",\"from\":\"2",
    ] {
        assert!(line.contains(part), "{line}");
    }
    client.send(b"x");
    let (_, log) = host.end();
    for line in &log {
        assert!(
            line.starts_with("{\"time\":\"2") && line.ends_with('}'),
            "{line}"
        );
        assert_eq!(line.matches('"').count() % 2, 0, "{line}");
    }
    assert_eq!(log.len(), 4);
}

#[test]
fn a_long_datagram_has_its_own_length_in_the_log() {
    let folder = Folder::new("long");
    let file = folder.campus();
    for (options, words) in [
        (&[][..], ": discard 4, 65000 octets, above 1472"),
        (&["--json"], "\"why\":\"65000 octets, above 1472\"}"),
    ] {
        let mut host = Running::start(&file, options);
        let mut long = message(RELEASE, 7, b"truck", &[]);
        long.resize(65_000, 0);
        Client::new(1, host.server).send(&long);
        let line = host.line("0x00000007");
        assert!(line.ends_with(words), "{line}");
        assert!(
            options.is_empty() || line.contains("\"octets\":65000,"),
            "{line}"
        );
        host.end();
    }
}

#[test]
fn quiet_says_only_what_the_host_does() {
    let folder = Folder::new("quiet");
    let host = Running::start(&folder.campus(), &["--quiet"]);
    Client::new(1, host.server).ask(&message(GETINFO, 7, b"id", &[]));
    let (_, log) = host.end();
    assert_eq!(log.len(), 2, "{log:#?}");
}

#[test]
fn any_octets_of_any_length() {
    let folder = Folder::new("octets");
    let file = folder.campus();
    let host = Running::start(&file, &[]);
    let (client, stranger) = (
        Client::new(2, host.server),
        UdpSocket::bind("127.0.0.1:0").expect("a socket"),
    );
    let mut random = Random::new(5);
    let lengths = (0..1500)
        .step_by(13)
        .chain([1471, 1472, 1473, 2047, 2048, 2049, 9000, 65_507]);
    let lengths: Vec<usize> = lengths.collect();
    let mut calls = 0;
    for (length, number) in lengths.iter().zip(1..) {
        let mut octets: Vec<u8> = (0..*length).map(|_| random.octet()).collect();
        // Half of them get past the header.
        if random.one_in(2) && *length > 8 {
            octets[..4].copy_from_slice(&[0, random.pick(&[1, 3, 4, 7, 8]), 0, 1]);
        }
        client.send(&octets);
        stranger.send_to(&octets, host.server).expect("sent");
        calls += 2;
        // Not to overrun the socket's buffer.
        if number % 10 == 0 {
            client.ask(&message(GETINFO, number, b"id", &[]));
            calls += 1;
        }
    }
    client.ask(&message(GETINFO, 0, b"id", &[]));
    calls += 1;
    let (status, log) = host.end();
    assert!(status.success());
    let last = log.last().expect("a last line");
    assert!(last.contains(&format!("{calls} calls")), "{last}");
    on_disk(&file);
}

#[test]
fn what_waits_is_one_list() {
    let folder = Folder::new("list");
    let host = Running::start(&folder.campus(), &["--quiet"]);
    let client = Client::new(1, host.server);
    host.signal("STOP");
    for xid in 1..=100 {
        client.send(&message(GETINFO, xid, b"id", &[]));
    }
    host.signal("CONT");
    for xid in 1..=100 {
        let reply = client.hear(PATIENCE).expect("an answer");
        assert_eq!(Message(&reply).transaction(), Some(xid));
    }
    let (_, log) = host.end();
    let last = log.last().expect("a last line");
    assert!(
        last.contains("; 100 calls: 100 answered, ") && last.contains("; 1 list, 1 write; "),
        "{last}"
    );
}

#[test]
fn what_the_system_drops_is_told() {
    let folder = Folder::new("lost");
    let mut host = Running::start(&folder.campus(), &["--quiet"]);
    let client = Client::new(1, host.server);
    client.ask(&message(GETINFO, 0, b"id", &[]));
    // More than a socket's buffer has room for, while nobody takes them.
    host.signal("STOP");
    let room = fs::read_to_string("/proc/sys/net/core/rmem_default").expect("its size");
    let calls = room.trim().parse::<u32>().expect("a number") / 500 + 1_000;
    for xid in 1..=calls {
        client.send(&message(RELEASE, xid, b"id", &[]));
    }
    host.signal("CONT");
    let line = host.line("lost: ");
    let number = |line: &str, before: &str, after: &str| {
        let rest = line.split(before).nth(1).expect("its words");
        rest.split(after)
            .next()
            .and_then(|word| word.parse::<u32>().ok())
            .expect("a number")
    };
    let mut lost = number(&line, "lost: ", " datagrams");
    let (_, log) = host.end();
    for more in log
        .iter()
        .filter(|other| other.contains(" lost: ") && **other != line)
    {
        lost += number(more, "lost: ", " datagrams");
    }
    let heard = number(log.last().expect("a line"), "SIGTERM; ", " calls");
    assert_eq!(lost + heard, calls + 1, "{log:#?}");
}

#[test]
fn a_second_host_is_refused() {
    let folder = Folder::new("second");
    let file = folder.campus();
    let mut host = Running::start(&file, &[]);
    // By another name, too.
    let link = folder.path("link.bin");
    std::os::unix::fs::symlink(&file, &link).expect("a link");
    let text = folder.path("campus.txt");
    fs::copy(format!("{SAMPLES}loopback.txt"), &text).expect("a text");
    let name = |path: &std::path::Path| path.to_str().expect("a name").to_owned();
    for words in [
        vec![
            "serve".to_owned(),
            name(&file),
            "--listen=127.0.0.1:0".to_owned(),
        ],
        vec![
            "serve".to_owned(),
            name(&link),
            "--listen=127.0.0.1:0".to_owned(),
        ],
        vec!["file".to_owned(), name(&text), name(&file)],
    ] {
        let words: Vec<&str> = words.iter().map(String::as_str).collect();
        let output = run(&words);
        let said = String::from_utf8_lossy(&output.stderr).into_owned();
        assert_eq!(output.status.code(), Some(3), "{said}");
        let process = host.child.id();
        assert!(
            said.contains(&format!(
                "another host has this campus file (process {process})"
            )),
            "{said}"
        );
    }
    // Killed, it leaves no lock behind. What is served by the link stays where it is.
    host.child.kill().expect("killed");
    host.child.wait().expect("ended");
    let host = Running::start(&link, &[]);
    Client::new(1, host.server).ask(&message(REQUEST, 1, b"id", &[in_scope(SCOPE)]));
    assert_eq!(on_disk(&file).leases.len(), 1);
    assert!(fs::symlink_metadata(&link).expect("the link").is_symlink());
}

#[test]
fn a_port_that_is_taken() {
    let folder = Folder::new("port");
    let socket = UdpSocket::bind("127.0.0.1:0").expect("a socket");
    let taken = socket.local_addr().expect("an address").to_string();
    let file = folder.campus();
    let output = run(&["serve", file.to_str().expect("a name"), "--listen", &taken]);
    let said = String::from_utf8_lossy(&output.stderr).into_owned();
    assert_eq!(output.status.code(), Some(3), "{said}");
    assert!(
        said.contains(&format!("listening on {taken}: Address already in use")),
        "{said}"
    );
}

#[test]
fn every_signal_to_end_ends_it() {
    for name in ["TERM", "INT", "HUP"] {
        let folder = Folder::new(name);
        let file = folder.campus();
        let mut host = Running::start(&file, &[]);
        Client::new(1, host.server).ask(&message(REQUEST, 1, b"id", &[in_scope(SCOPE)]));
        host.signal(name);
        let status = host.child.wait().expect("it ends");
        assert_eq!(status.code(), Some(0));
        assert!(host
            .line("ended")
            .contains(&format!("by SIG{name}; 1 call: 1 answered")));
        assert_eq!(on_disk(&file).leases.len(), 1);
        assert!(!folder.path("campus.bin.new").exists());
    }
}

/// Ends a host by the number in its lock, where it is another's child.
struct EndedByLock(std::path::PathBuf);

impl Drop for EndedByLock {
    fn drop(&mut self) {
        let number = fs::read_to_string(&self.0).unwrap_or_default();
        let _ = Command::new("kill")
            .args(["-s", "TERM", number.trim()])
            .status();
    }
}

/// A host whose calls of the system are told, delayed or failed by strace; the others don't wait for it. None where it doesn't run.
fn traced(file: &Path, trace: &Path, options: &[&str]) -> Option<Running> {
    let strace = || {
        let mut command = Command::new("strace");
        command.args(["-f", "--seccomp-bpf"]).args(options);
        command
    };
    let mut tried = strace();
    tried.args(["-o", "/dev/null", "true"]);
    let is_there = tried.stderr(Stdio::null()).status();
    if !is_there.is_ok_and(|status| status.success()) {
        println!("not tried: strace doesn't run here");
        return None;
    }
    let mut command = strace();
    command.arg("-o").arg(trace).args([PROGRAM, "serve"]);
    command.arg(file).args(["--listen", "127.0.0.1:0"]);
    Some(Running::of(command))
}

#[test]
fn on_disk_before_the_reply() {
    let folder = Folder::new("order");
    let (file, trace) = (folder.path("campus.bin"), folder.path("trace.txt"));
    // A clock ahead of the machine's, so that time alone changes nothing.
    let campus = Campus {
        clock: now() + 100_000,
        ..loopback()
    };
    fs::write(&file, campus.to_octets()).expect("a campus file");
    let Some(mut host) = traced(&file, &trace, &["-e", "trace=fsync,rename,sendto"]) else {
        return;
    };
    let lock = EndedByLock(folder.path("campus.bin.lock"));
    let client = Client::new(1, host.server);
    client.ask(&message(GETINFO, 1, b"id", &[]));
    client.ask(&message(GETINFO, 2, b"id", &[]));
    client.ask(&message(REQUEST, 3, b"id", &[in_scope(SCOPE)]));
    drop(lock);
    host.line("ended");
    host.child.wait().expect("it ends");
    let trace = fs::read_to_string(&trace).expect("a trace");
    let calls = trace
        .lines()
        .filter_map(|line| line.split_once(' ')?.1.trim_start().split_once('('));
    let calls: Vec<&str> = calls
        .map(|(name, _)| name)
        .filter(|name| ["fsync", "rename", "sendto"].contains(name))
        .collect();
    // The new file, its name, the folder; then the client hears. That the file as it was found is on disk nobody knows; once it is, it isn't written again.
    let written = ["fsync", "rename", "fsync", "sendto"];
    assert_eq!(
        calls,
        [&written[..], &["sendto"], &written].concat(),
        "{trace}"
    );
}

#[test]
fn what_comes_while_the_disk_is_waited_for_is_kept() {
    let folder = Folder::new("slow");
    let file = folder.campus();
    // A disk that takes a second for each of the two flushes.
    let slow = ["-e", "trace=fsync", "-e", "inject=fsync:delay_exit=1000000"];
    let Some(mut host) = traced(&file, Path::new("/dev/null"), &slow) else {
        return;
    };
    let lock = EndedByLock(folder.path("campus.bin.lock"));
    let client = Client::new(1, host.server);
    client.send(&message(REQUEST, 1, b"id", &[in_scope(SCOPE)]));
    // More than a socket's buffer has room for, while the first is on its way to the disk. They are no messages, so that they ask for no flush.
    let room = fs::read_to_string("/proc/sys/net/core/rmem_default").expect("its size");
    let calls = room.trim().parse::<u32>().expect("a number") / 500 + 200;
    for number in 0..calls {
        client.send(b"hello");
        if number % 25 == 24 {
            thread::sleep(Duration::from_millis(20));
        }
    }
    let reply = client.hear(PATIENCE).expect("an answer");
    assert_eq!(Message(&reply).kind(), ACK);
    drop(lock);
    let last = host.line("ended");
    host.child.wait().expect("it ends");
    let lost = host.log.iter().filter(|line| line.contains(" lost: "));
    assert_eq!(lost.count(), 0, "{:#?}", host.log);
    let all = format!("; {} calls: 1 answered, {calls} discarded", calls + 1);
    assert!(last.contains(&all), "{last}");
    assert!(last.contains(" 1 write;"), "{last}");
}

#[test]
fn a_reply_that_finds_no_room_is_sent_again() {
    let folder = Folder::new("room");
    let file = folder.campus();
    let fails = "inject=sendto:error=EAGAIN:when=1..5";
    let options = ["-e", "trace=sendto", "-e", fails];
    let Some(mut host) = traced(&file, Path::new("/dev/null"), &options) else {
        return;
    };
    let lock = EndedByLock(folder.path("campus.bin.lock"));
    let client = Client::new(1, host.server);
    let reply = client.ask(&message(GETINFO, 1, b"id", &[]));
    assert_eq!(Message(&reply).kind(), ACK);
    drop(lock);
    assert!(host.line("ended").contains("; 1 call: 1 answered, "));
    host.child.wait().expect("it ends");
}

#[test]
fn replies_that_never_find_room_hold_up_a_list_once() {
    let folder = Folder::new("no-room");
    let file = folder.campus();
    let options = ["-e", "trace=sendto", "-e", "inject=sendto:error=EAGAIN"];
    let Some(mut host) = traced(&file, Path::new("/dev/null"), &options) else {
        return;
    };
    let lock = EndedByLock(folder.path("campus.bin.lock"));
    let client = Client::new(1, host.server);
    client.send(&message(GETINFO, 1, b"id", &[]));
    assert!(host
        .line("xid 0x00000001")
        .contains("it could not be sent: "));
    for xid in 2..=9 {
        client.send(&message(GETINFO, xid, b"id", &[]));
    }
    let began = Instant::now();
    assert!(host
        .line("xid 0x00000009")
        .contains("it could not be sent: "));
    // A second for each of the eight would be too long to look for a signal.
    assert!(began.elapsed() < Duration::from_secs(6));
    drop(lock);
    assert!(host.line("ended").contains("; 9 calls: 0 answered, "));
    host.child.wait().expect("it ends");
}

#[test]
fn a_socket_that_fails_is_told_and_tried_again() {
    let folder = Folder::new("deaf");
    let file = folder.campus();
    let options = ["-e", "trace=recvfrom", "-e", "inject=recvfrom:error=ENOMEM"];
    let Some(mut host) = traced(&file, Path::new("/dev/null"), &options) else {
        return;
    };
    let lock = EndedByLock(folder.path("campus.bin.lock"));
    for _ in 0..3 {
        assert!(host.line("fault").contains("receiving"));
    }
    drop(lock);
    assert!(host.line("ended").contains("; 0 calls: "));
    host.child.wait().expect("it ends");
}

#[test]
fn a_socket_that_cannot_be_switched_back_is_nobody_elses() {
    let folder = Folder::new("switch");
    let file = folder.campus();
    // Of a thread beside a socket the second is the one that lets the host take from it again.
    let fails = "inject=ioctl:error=ENOMEM:when=2..4";
    let options = ["-e", "trace=ioctl", "-e", fails];
    let Some(mut host) = traced(&file, Path::new("/dev/null"), &options) else {
        return;
    };
    let lock = EndedByLock(folder.path("campus.bin.lock"));
    let client = Client::new(1, host.server);
    for xid in 1..=3 {
        let reply = client.ask(&message(GETINFO, xid, b"id", &[]));
        assert_eq!(Message(&reply).transaction(), Some(xid));
    }
    drop(lock);
    assert!(host.line("ended").contains("; 3 calls: 3 answered, "));
    host.child.wait().expect("it ends");
}

#[test]
fn signals_are_noted_before_the_lock() {
    let folder = Folder::new("noted");
    let (file, trace) = (folder.campus(), folder.path("trace.txt"));
    let Some(mut host) = traced(&file, &trace, &["-e", "trace=rt_sigaction,flock"]) else {
        return;
    };
    drop(EndedByLock(folder.path("campus.bin.lock")));
    host.line("ended");
    host.child.wait().expect("it ends");
    let trace = fs::read_to_string(&trace).expect("a trace");
    let place = |words: &str| trace.find(words).expect(words);
    for signal in ["SIGTERM", "SIGINT", "SIGHUP", "SIGXFSZ"] {
        assert!(
            place(&format!("rt_sigaction({signal}, {{")) < place("flock("),
            "{trace}"
        );
    }
}

#[test]
fn a_folder_that_cannot_be_written() {
    let folder = Folder::new("unwritable");
    let file = folder.campus();
    let mut host = Running::start(&file, &[]);
    let client = Client::new(1, host.server);
    client.ask(&message(REQUEST, 1, b"first", &[in_scope(SCOPE)]));
    let before = fs::read(&file).expect("the file");
    // What stands in the new file's place can be neither opened nor removed as one.
    let blocked = folder.path("campus.bin.new");
    fs::create_dir(&blocked).expect("a folder");
    client.send(&message(REQUEST, 2, b"second", &[in_scope(SCOPE)]));
    assert!(host.line("fault").contains("could not be written"));
    assert!(host
        .line("xid 0x00000002")
        .contains("not answered, the campus file could not be written"));
    assert_eq!(client.hear(Duration::from_millis(200)), None);
    assert_eq!(fs::read(&file).expect("the file"), before);
    fs::remove_dir(&blocked).expect("removed");
    // The old book went on: the call that was not answered has left nothing.
    let reply = client.ask(&message(RENEW, 3, b"second", &[]));
    assert_eq!(Message(&reply).error(), Some(3));
    let reply = client.ask(&message(REQUEST, 2, b"second", &[in_scope(SCOPE)]));
    assert_eq!(Message(&reply).kind(), ACK);
    assert_eq!(on_disk(&file).leases.len(), 2);
}

#[test]
fn a_rename_that_fails() {
    let folder = Folder::new("rename");
    let file = folder.campus();
    let mut host = Running::start(&file, &[]);
    let client = Client::new(1, host.server);
    // No file can be put in a folder's place.
    fs::remove_file(&file).expect("removed");
    fs::create_dir(&file).expect("a folder");
    let request = message(REQUEST, 1, b"id", &[in_scope(SCOPE)]);
    client.send(&request);
    assert!(host.line("fault").contains("could not be written"));
    assert_eq!(client.hear(Duration::from_millis(200)), None);
    assert!(!folder.path("campus.bin.new").exists());
    fs::remove_dir(&file).expect("removed");
    assert_eq!(Message(&client.ask(&request)).kind(), ACK);
    assert_eq!(on_disk(&file).leases.len(), 1);
}

#[test]
fn a_folder_that_cannot_be_flushed() {
    let folder = Folder::new("unflushed");
    let file = folder.campus();
    // The second flush of all is that of the folder.
    let fails = ["-e", "trace=fsync", "-e", "inject=fsync:error=EIO:when=2"];
    let Some(mut host) = traced(&file, Path::new("/dev/null"), &fails) else {
        return;
    };
    let lock = EndedByLock(folder.path("campus.bin.lock"));
    let client = Client::new(1, host.server);
    let request = message(REQUEST, 1, b"id", &[in_scope(SCOPE)]);
    client.send(&request);
    assert!(host.line("fault").contains("could not be written"));
    assert_eq!(client.hear(Duration::from_millis(200)), None);
    // Either file may be on disk. What changes nothing is written before its answer as well, and the call that was not answered has left nothing.
    let reply = client.ask(&message(RENEW, 2, b"id", &[]));
    assert_eq!(Message(&reply).error(), Some(3));
    assert_eq!(on_disk(&file).leases.len(), 0);
    assert_eq!(Message(&client.ask(&request)).kind(), ACK);
    assert_eq!(on_disk(&file).leases.len(), 1);
    drop(lock);
    assert!(host
        .line("ended")
        .contains("1 not answered; 3 lists, 2 writes;"));
    host.child.wait().expect("it ends");
}

#[test]
fn a_full_disk() {
    let folder = Folder::new("full");
    let (file, before) = (folder.path("campus.bin"), long_campus());
    fs::write(&file, &before).expect("a campus file");
    // A file may have one block, of 512 or 1,024 octets, as on a disk that has no more.
    let mut command = Command::new("sh");
    command
        .args([
            "-c",
            "ulimit -f 1; exec \"$0\" serve \"$1\" --listen 127.0.0.1:0",
            PROGRAM,
        ])
        .arg(&file);
    let mut host = Running::of(command);
    let client = Client::new(1, host.server);
    for xid in 1..4 {
        client.send(&message(REQUEST, xid, b"id", &[in_scope(SCOPE)]));
        assert!(host
            .line("fault")
            .contains("could not be written: File too large"));
    }
    assert_eq!(client.hear(Duration::from_millis(200)), None);
    client.send(b"hello");
    host.line("discard 4");
    let (status, log) = host.end();
    assert!(status.success());
    assert!(log
        .last()
        .expect("a line")
        .contains("0 answered, 1 discarded, 3 not answered"));
    assert_eq!(fs::read(&file).expect("the file"), before);
    assert!(!folder.path("campus.bin.new").exists());
}

#[test]
fn a_clock_set_back() {
    let folder = Folder::new("clock");
    let (file, mut campus) = (folder.path("campus.bin"), loopback());
    campus.clock = now() + 100_000;
    fs::write(&file, campus.to_octets()).expect("a campus file");
    let mut host = Running::start(&file, &[]);
    let line = host.line("clock: ");
    let clock = utc::in_words(campus.clock);
    assert!(
        line.contains(&format!(
            "the book's {clock}: calls count as of the book's until it is reached"
        )),
        "{line}"
    );
    let client = Client::new(1, host.server);
    let reply = client.ask(&message(REQUEST, 1, b"id", &[in_scope(SCOPE)]));
    assert_eq!(Message(&reply).number(11), Some(campus.clock));
    assert_eq!(Message(&reply).number(6), Some(campus.clock));
    assert_eq!(on_disk(&file).clock, campus.clock);
}

#[test]
fn a_refused_file() {
    let folder = Folder::new("refused");
    let (file, mut campus) = (folder.path("campus.bin"), loopback());
    campus.scopes[1].ttl = 0;
    let cases: [(Vec<u8>, &[&str]); 3] = [
        (
            campus.to_octets(),
            &[
                "refused 21: the campus file is unsound",
                "rule 5: scope 2 has TTL 0",
                "Edit the settings",
            ],
        ),
        (
            vec![1, 2, 3],
            &[
                "refused 20: the campus file's form is wrong",
                "octet 3: the file ends within the server's address",
            ],
        ),
        (
            vec![1; 40_000],
            &[
                "refused 20",
                "octet 32768: a campus file has at most 32,768 octets",
            ],
        ),
    ];
    for (octets, words) in cases {
        fs::write(&file, &octets).expect("a file");
        let output = run(&[
            "serve",
            file.to_str().expect("a name"),
            "--listen",
            "127.0.0.1:0",
        ]);
        let said = String::from_utf8_lossy(&output.stderr).into_owned();
        assert_eq!(output.status.code(), Some(1), "{said}");
        for words in words {
            assert!(said.contains(words), "{said}");
        }
        assert_eq!(fs::read(&file).expect("the file"), octets);
    }
    let output = run(&["serve", folder.path("none.bin").to_str().expect("a name")]);
    assert_eq!(output.status.code(), Some(3));
    assert!(String::from_utf8_lossy(&output.stderr).contains("No such file"));
    assert!(!folder.path("none.bin.lock").exists());
}

#[test]
fn a_file_keeps_its_mode_and_owner() {
    let folder = Folder::new("mode");
    let file = folder.campus();
    fs::set_permissions(&file, fs::Permissions::from_mode(0o640)).expect("a mode");
    // Root may give it away; for everybody else it is their own.
    let is_given = std::os::unix::fs::chown(&file, Some(65_534), Some(65_534)).is_ok();
    let before = fs::metadata(&file).expect("the file");
    assert_eq!(before.uid() == 65_534, is_given);
    let host = Running::start(&file, &[]);
    Client::new(1, host.server).ask(&message(REQUEST, 1, b"id", &[in_scope(SCOPE)]));
    let after = fs::metadata(&file).expect("the file");
    assert_ne!(after.ino(), before.ino());
    assert_eq!(
        (after.mode() & 0o777, after.uid(), after.gid()),
        (0o640, before.uid(), before.gid())
    );
}

#[test]
fn the_board_while_it_runs() {
    let folder = Folder::new("watch");
    let file = folder.campus();
    let host = Running::start(&file, &[]);
    let mut command = Command::new(PROGRAM);
    command
        .arg("board")
        .arg(&file)
        .args(["--watch", "--every", "0.02", "--at-clock"]);
    let mut watch = command
        .stdout(Stdio::piped())
        .spawn()
        .expect("the board starts");
    Client::new(5, host.server).ask(&message(
        REQUEST,
        1,
        b"id",
        &[in_scope(SCOPE), (7, vec![0, 2, 0, 2])],
    ));
    let lines = lines_of(watch.stdout.take().expect("piped"));
    let shows = |line: &String| line.ends_with("##====..........");
    let mut lines = std::iter::from_fn(|| lines.recv_timeout(PATIENCE).ok());
    let held = lines.find(shows);
    watch.kill().expect("killed");
    watch.wait().expect("ended");
    assert_eq!(
        held.as_deref(),
        Some("      5      6     16      2  ##====..........")
    );
}
