//! What the desk runs beside the host: files and texts, datagrams in words, a client, a load; and how each fails.

#[path = "common/random.rs"]
mod random;
#[path = "common/running.rs"]
mod running;

use banshorra_host::campus::Campus;
use banshorra_host::message::{draft, Message, ACK, GETINFO, RELEASE, REQUEST};
use banshorra_host::quoted::hex;
use random::Random;
use running::*;
use std::fs;
use std::io::{ErrorKind, Write};
use std::net::UdpSocket;
use std::process::{Command, Output, Stdio};

/// What it printed, on either way, and its status.
fn said(output: &Output) -> (String, String, i32) {
    let text = |octets: &[u8]| String::from_utf8(octets.to_vec()).expect("a text");
    let status = output.status.code().expect("no signal");
    (text(&output.stdout), text(&output.stderr), status)
}

fn sample(name: &str) -> String {
    format!("{SAMPLES}{name}")
}

#[test]
fn help_of_every_command() {
    let (help, _, status) = said(&run(&["--help"]));
    assert_eq!(status, 0);
    let lines = help
        .lines()
        .filter_map(|line| line.strip_prefix("  banshorra "));
    let commands: Vec<&str> = lines
        .filter_map(|line| line.split(' ').next())
        .filter(|word| *word != "COMMAND")
        .collect();
    assert_eq!(
        commands,
        [
            "serve", "board", "check", "salvage", "text", "file", "report", "explain", "ask",
            "load"
        ]
    );
    for command in commands {
        let (help, _, status) = said(&run(&[command, "--help"]));
        assert_eq!(status, 0);
        assert!(help.starts_with(&format!("banshorra {command} ")), "{help}");
    }
}

#[test]
fn name_and_version() {
    let expected = concat!("banshorra ", env!("CARGO_PKG_VERSION"), "\n");
    for word in ["--version", "-V"] {
        assert_eq!(said(&run(&[word])), (expected.to_owned(), String::new(), 0));
    }
}

#[test]
fn wrong_usage_is_2_and_says_what_is_wrong() {
    for (words, what) in [
        (&["frobnicate"][..], "there is no command `frobnicate`"),
        (&["serve"], "FILE is missing"),
        (&["serve", "a", "b"], "`b` is one word too many"),
        (&["serve", "a", "--listen"], "--listen lacks its value"),
        (
            &["serve", "a", "--listen", "here"],
            "--listen takes an IPv4 address and a port",
        ),
        (&["serve", "a", "--quiet=1"], "--quiet takes no value"),
        (
            &["serve", "a", "--quiet", "--quiet"],
            "--quiet is there twice",
        ),
        (&["serve", "a", "--loud"], "there is no option --loud"),
        (
            &["serve", "a", "--interface", "127.0.0.1"],
            "--interface goes with --group",
        ),
        (
            &["serve", "a", "--group", "10.0.0.1"],
            "--group takes a multicast address, not 10.0.0.1",
        ),
        (&["board", "a", "--every", "1"], "--every goes with --watch"),
        (&["salvage"], "a FILE is wanted"),
        (&["salvage", "a", "b", "c"], "a FILE is wanted"),
        (&["explain"], "one of HEX"),
        (
            &["explain", "0009", "--keep", "kept.bin"],
            "--keep goes with --campus or --calls",
        ),
        (&["ask", "beg"], "not `beg`"),
        (
            &["ask", "renew", "--start", "tomorrow"],
            "--start takes a time in UTC",
        ),
        (
            &["ask", "release", "--id", "truck", "--tries", "0"],
            "--tries takes a number from 1, not `0`",
        ),
        (&["load", "a", "b"], "`b` is one word too many"),
        (
            &["load", "a", "--clients", "17"],
            "--clients takes a number from 1 to 16, not `17`",
        ),
        (
            &["load", "a", "--clients", "0"],
            "--clients takes a number from 1 to 16, not `0`",
        ),
    ] {
        let (out, error, status) = said(&run(words));
        assert_eq!((out.as_str(), status), ("", 2), "{error}");
        assert!(error.contains(what), "{error}");
    }
}

#[test]
fn a_reader_that_goes_is_no_fault() {
    let (reader, writer) = std::io::pipe().expect("a pipe");
    drop(reader);
    let mut command = Command::new(PROGRAM);
    command
        .args(["text", &sample("campus.bin")])
        .stdout(writer)
        .stderr(Stdio::piped());
    let (_, error, status) = said(
        &command
            .spawn()
            .and_then(|child| child.wait_with_output())
            .expect("it runs"),
    );
    assert_eq!((error.as_str(), status), ("", 0));
}

#[test]
fn files_and_texts() {
    let folder = Folder::new("desk-files");
    let (text, file) = (folder.path("campus.txt"), folder.path("campus.bin"));
    let name = |path: &std::path::Path| path.to_str().expect("a name").to_owned();
    let (text_name, file_name) = (name(&text), name(&file));
    let (words, _, status) = said(&run(&["text", &sample("campus.bin")]));
    assert_eq!(
        (words.as_bytes(), status),
        (&fs::read(sample("campus.txt")).expect("a sample")[..], 0)
    );
    fs::write(&text, &words).expect("a text");
    assert_eq!(
        said(&run(&["file", &text_name, &file_name])),
        (String::new(), String::new(), 0)
    );
    let campus = fs::read(sample("campus.bin")).expect("a sample");
    assert_eq!(fs::read(&file).expect("a file"), campus);
    assert_eq!(run(&["file", &text_name]).stdout, campus);
    let accepted = "accepted; 2 houses, 2 scopes, 1 lease, 1 hold, 1 release; the clock is 2023-11-14T22:13:20Z\n";
    assert_eq!(
        said(&run(&["check", &file_name])),
        (format!("{file_name}: {accepted}"), String::new(), 0)
    );
    // An unsound one only where that is wanted; then it can be looked at again.
    let unsound = words.replace("size 16", "size 3");
    fs::write(&text, &unsound).expect("a text");
    let (_, error, status) = said(&run(&["file", &text_name, &file_name]));
    assert_eq!(status, 1);
    let rule = "refused 21: the campus file is unsound\n  rule 2: lease 1 (house 2, \"\\x00L1\") has offset 3 in scope 2, whose size is 3\n";
    assert!(error.contains(rule), "{error}");
    // The text is there, and is what has to be corrected.
    assert!(
        error.contains("\n  Correct it in the text.") && !error.contains("banshorra text"),
        "{error}"
    );
    assert_eq!(fs::read(&file).expect("a file"), campus);
    assert_eq!(
        said(&run(&["file", &text_name, &file_name, "--unsound"])).2,
        0
    );
    let (_, error, status) = said(&run(&["check", &file_name]));
    assert_eq!(status, 1);
    assert!(error.contains(rule), "{error}");
    assert_eq!(said(&run(&["text", &file_name])).0, unsound);
    // A text with a fault.
    fs::write(&text, words.replace("ttl 31", "tll 31")).expect("a text");
    let (_, error, status) = said(&run(&["file", &text_name, &file_name]));
    assert_eq!(
        (error, status),
        (
            format!("{text_name}: line 15, column 32: expected `ttl`, found `tll`\n"),
            1
        )
    );
}

#[test]
fn a_salvage() {
    let folder = Folder::new("desk-salvage");
    let name = |file: &str| folder.path(file).to_str().expect("a name").to_owned();
    let (text, broken, new) = (name("campus.txt"), name("broken.bin"), name("new.bin"));
    let made = |words: &str| {
        fs::write(&text, words).expect("a text");
        assert_eq!(said(&run(&["file", &text, &broken, "--unsound"])).2, 0);
        fs::read(&broken).expect("a file")
    };
    let words = fs::read_to_string(sample("campus.txt")).expect("a sample");
    let (settings, lease) = (
        words.find("lease").expect("one"),
        words.find("hold").expect("one"),
    );
    let kept = made(&words[..lease]);
    let spoiled = words.replace("on 239.192.1.2\n", "on 239.192.1.3\n");
    let old = made(&spoiled.replace("\\x00L0", "\\x00L1"));
    // Without another word nothing is written.
    let list = format!(
        "{broken}: 2 dropped; left are 2 houses, 2 scopes, 1 lease, 0 holds, 0 releases
  hold 1 (house 2, \"\\x00L2\"): rule 10: leases and holds on an address may not overlap
  release 1 (house 2, \"\\x00L1\"): rule 17: a release's identifier may not be that of another release, lease or hold of its house\n"
    );
    let salvage = |words: &[&str]| said(&run(&[&["salvage"], words].concat()));
    assert_eq!(salvage(&[&broken]), (list.clone(), String::new(), 0));
    assert_eq!(fs::read(&broken).expect("a file"), old);
    assert!(!folder.path("new.bin").exists());
    // While a host has the new file, it isn't written.
    let lock = fs::File::create(name("new.bin.lock")).expect("a lock");
    lock.lock().expect("nobody has it");
    let (_, error, status) = salvage(&[&broken, &new]);
    assert!(
        error.contains("another host has this campus file"),
        "{error}"
    );
    assert_eq!((status, folder.path("new.bin").exists()), (3, false));
    drop(lock);
    let written = (format!("{list}{new}: written\n"), String::new(), 0);
    assert_eq!(salvage(&[&broken, &new]), written);
    assert_eq!(fs::read(&broken).expect("a file"), old);
    assert_eq!(fs::read(&new).expect("a file"), kept);
    // A sound one stays as it is; a broken one may be replaced.
    let (sound, _, status) = salvage(&[&new, &new]);
    let left = "sound as it is; 2 houses, 2 scopes, 1 lease, 0 holds, 0 releases";
    assert_eq!(
        (sound, status),
        (format!("{new}: {left}\n{new}: written\n"), 0)
    );
    assert_eq!(salvage(&[&broken, &broken]).2, 0);
    for file in [&broken, &new] {
        assert_eq!(fs::read(file).expect("a file"), kept);
    }
    // Refused, and nothing written: unsound settings, and a wrong form.
    made(&words[..settings].replace("share 4", "share 9"));
    let (_, error, status) = salvage(&[&broken, &new]);
    let rule = "refused 25: the campus file's settings are unsound\n  rule 6: scope 2, house 1: share 9 above limit 8\n";
    assert!(error.contains(rule), "{error}");
    assert_eq!(status, 1);
    fs::write(&broken, &kept[1..]).expect("a file");
    let (_, error, status) = salvage(&[&broken, &new]);
    assert!(
        error.contains("refused 20: the campus file's form is wrong"),
        "{error}"
    );
    assert_eq!((status, fs::read(&new).expect("a file")), (1, kept));
}

#[test]
fn a_file_that_may_not_be_so_long() {
    let folder = Folder::new("desk-long");
    let name = |file: &str| folder.path(file).to_str().expect("a name").to_owned();
    let (text, file, new) = (name("campus.txt"), name("campus.bin"), name("kept.bin"));
    let octets = long_campus();
    fs::write(&file, &octets).expect("a file");
    fs::write(&text, said(&run(&["text", &file])).0).expect("a text");
    let release = hex(&draft(RELEASE, 1, &[(3, vec![0, 0x41])]));
    for words in [
        &["file", &text, &new][..],
        &["salvage", &file, &new],
        &["explain", &release, "--campus", &file, "--keep", &new],
    ] {
        // As a full disk, by a limit of one block; the program isn't ended by the signal for it.
        for is_there in [false, true] {
            if is_there {
                fs::write(&new, "the old one").expect("a file");
            }
            let mut command = Command::new("sh");
            command.args(["-c", "ulimit -f 1; exec \"$0\" \"$@\"", PROGRAM]);
            let output = command.args(words).stdin(Stdio::null()).output();
            let (_, error, status) = said(&output.expect("it runs"));
            assert_eq!(status, 3, "{words:?}: {error}");
            assert!(
                error.starts_with(&format!("{new}: File too large")),
                "{error}"
            );
            assert!(!folder.path("kept.bin.new").exists(), "{words:?}");
            assert_eq!(folder.path("kept.bin").exists(), is_there, "{words:?}");
        }
        assert_eq!(fs::read(&new).expect("a file"), b"the old one");
        fs::remove_file(&new).expect("removed");
    }
    // Without the limit it is written, and no other than a host's own.
    let explain = ["explain", &release, "--campus", &file, "--keep", &new];
    assert_eq!(said(&run(&explain)).2, 0);
    let lock = fs::File::open(name("kept.bin.lock")).expect("a lock");
    lock.lock().expect("nobody has it");
    let (words, error, status) = said(&run(&explain));
    assert!(
        error.contains("another host has this campus file"),
        "{error}"
    );
    assert_eq!((words.as_str(), status), ("", 3));
}

#[test]
fn what_is_no_file_is_refused_and_left() {
    let folder = Folder::new("desk-folder");
    let name = |file: &str| folder.path(file).to_str().expect("a name").to_owned();
    let (inner, text) = (name("inner"), sample("campus.txt"));
    fs::create_dir(&inner).expect("a folder");
    for words in [
        &["serve", &inner, "--listen", "127.0.0.1:0"][..],
        &["file", &text, &inner],
        &["salvage", &sample("campus.bin"), &inner],
    ] {
        let (_, error, status) = said(&run(words));
        assert!(
            status == 3 && error.contains("is a folder, not a campus file"),
            "{error}"
        );
        assert!(!folder.path("inner.lock").exists(), "{words:?}");
    }
}

#[test]
fn text_from_standard_input() {
    let mut command = Command::new(PROGRAM);
    command
        .args(["file", "-"])
        .stdin(Stdio::piped())
        .stdout(Stdio::piped());
    let mut child = command.spawn().expect("it starts");
    let text = fs::read(sample("campus.txt")).expect("a sample");
    child
        .stdin
        .take()
        .expect("piped")
        .write_all(&text)
        .expect("written");
    let output = child.wait_with_output().expect("it ends");
    assert_eq!(
        output.stdout,
        fs::read(sample("campus.bin")).expect("a sample")
    );
}

#[test]
fn the_board() {
    let (board, _, status) = said(&run(&["board", &sample("campus.bin"), "--at-clock"]));
    assert_eq!(status, 0);
    let expected = "\
Server 10.1.1.1, as of 2023-11-14T22:13:20Z

Scope 1 \"Small stage\": 239.192.0.0-3, TTL 15; 0 of 4 held
  house  share  limit  holds
      1      2      3      0  ==.
      2      1      4      0  =...

Scope 2: 239.192.1.0-15, TTL 31; 4 of 16 held
  house  share  limit  holds
      1      4      8      0  ====....
      2      4     12      4  ####........
";
    assert_eq!(board, expected);
    // Now, the sample's lease has ended long ago.
    let (board, ..) = said(&run(&["board", &sample("campus.bin")]));
    assert!(
        board.contains("Scope 2: 239.192.1.0-15, TTL 31; 0 of 16 held"),
        "{board}"
    );
    let (board, ..) = said(&run(&[
        "board",
        &sample("campus.bin"),
        "--at-clock",
        "--plain",
    ]));
    assert!(
        board.starts_with("scope house share limit holds\n239.192.0.0 1 2 3 0\n"),
        "{board}"
    );
}

#[test]
fn datagrams_in_words() {
    let release = hex(&draft(RELEASE, 0x0102_0304, &[(3, vec![0, 0x41])]));
    let (words, _, status) = said(&run(&["explain", &release[..10], &release[10..]]));
    let expected = "RELEASE, transaction 0x01020304, 18 octets\n      8  option 3, Lease Identifier: \"\\x00A\"\n     14  End\n";
    assert_eq!((words.as_str(), status), (expected, 0));
    let damaged = hex(&draft(REQUEST, 1, &[(3, vec![0, 0x41]), (6, vec![0; 3])]));
    let (words, ..) = said(&run(&["explain", &damaged]));
    assert!(words.contains("\n     14  option 6, Start Time: 000000   <-- discard 5 at octet 14: option 6 has length 3, not 4\n"), "{words}");
    let (words, ..) = said(&run(&["explain", &hex(&draft(REQUEST, 1, &[]))]));
    assert!(
        words.ends_with("\n     12  <-- discard 5 at octet 12: option 3 is missing\n"),
        "{words}"
    );
    let (words, ..) = said(&run(&["explain", "0009"]));
    assert_eq!(words, "2 octets: 0009\n  discard 4: 2 octets, below 12\n");
    let (words, ..) = said(&run(&["explain", "00"]));
    assert_eq!(words, "1 octet: 00\n  discard 4: 1 octet, below 12\n");
    let cut = [&draft(RELEASE, 1, &[])[..8], &[0, 1, 0, 1]].concat();
    let (words, ..) = said(&run(&["explain", &hex(&cut)]));
    assert!(words.contains("Lease Time: 0 of 1 octet: "), "{words}");
    let (_, error, status) = said(&run(&["explain", "0g"]));
    assert_eq!(
        (error.as_str(), status),
        ("datagram 1: hex digits in pairs are wanted, not `0g`\n", 1)
    );
}

#[test]
fn datagrams_served_on_a_campus() {
    let request = hex(&draft(
        REQUEST,
        1,
        &[
            (3, vec![0, 0x41]),
            in_scope(0xEFC0_0000),
            (7, vec![0, 4, 0, 4]),
        ],
    ));
    let campus = sample("campus.bin");
    let words = [
        "explain",
        &request,
        "--campus",
        &campus,
        "--from",
        "10.0.1.7",
        "--at",
        "2023-11-14T22:13:21Z",
    ];
    let (words, _, status) = said(&run(&words));
    let why = "  -> NAK, error 0, house 1 holds 0 of its limit 3 in 239.192.0.0; with the shares of the others it can have 3 in that period, below 4\n";
    assert!(status == 0 && words.contains(why), "{words}");
}

/// An Ethernet frame with a UDP datagram, as a capture has it at a time.
fn frame(time: u32, from: ([u8; 4], u16), to: ([u8; 4], u16), payload: &[u8]) -> Vec<u8> {
    let udp = 8 + payload.len() as u16;
    let mut ip = vec![0x45, 0];
    ip.extend((20 + udp).to_be_bytes());
    ip.extend([0, 0, 0, 0, 64, 17, 0, 0]);
    ip.extend(from.0);
    ip.extend(to.0);
    for number in [from.1, to.1, udp, 0] {
        ip.extend(number.to_be_bytes());
    }
    ip.extend(payload);
    let mut octets = vec![];
    for number in [time, 0, 14 + ip.len() as u32, 14 + ip.len() as u32] {
        octets.extend(number.to_le_bytes());
    }
    octets.extend([0; 12]);
    octets.extend([8, 0]);
    octets.extend(ip);
    octets
}

#[test]
fn a_capture() {
    let folder = Folder::new("desk-pcap");
    let (client, server) = (([10, 0, 1, 7], 40_000), ([10, 1, 1, 1], 2535));
    let mut capture = vec![0xD4, 0xC3, 0xB2, 0xA1, 2, 0, 4, 0];
    capture.extend([0; 12]);
    capture.extend([1, 0, 0, 0]);
    let request = draft(REQUEST, 5, &[(3, vec![0, 0x41]), in_scope(0xEFC0_0000)]);
    capture.extend(frame(1_700_000_001, client, server, &request));
    capture.extend(frame(
        1_700_000_001,
        client,
        ([10, 1, 1, 1], 53),
        b"no MADCAP",
    ));
    capture.extend(frame(
        1_700_000_002,
        server,
        client,
        &draft(ACK, 5, &[(3, vec![0, 0x41])]),
    ));
    let path = folder.path("calls.pcap");
    fs::write(&path, &capture).expect("a capture");
    let name = path.to_str().expect("a name");
    let (words, _, status) = said(&run(&[
        "explain",
        "--pcap",
        name,
        "--campus",
        &sample("campus.bin"),
    ]));
    assert_eq!(status, 0);
    let begins = "2023-11-14T22:13:21Z 10.0.1.7:40000 to 10.1.1.1:2535: REQUEST, transaction 0x00000005, 26 octets\n";
    assert!(words.starts_with(begins), "{words}");
    assert!(
        words.contains("  -> ACK 239.192.0.0 from 2023-11-14T22:13:21Z to 2023-11-14T23:13:21Z\n"),
        "{words}"
    );
    assert!(
        words.contains(
            "\n2023-11-14T22:13:22Z 10.1.1.1:2535 to 10.0.1.7:40000: ACK, transaction 0x00000005"
        ),
        "{words}"
    );
    assert!(!words.contains(":53:"), "{words}");
    // Of one that is cut off what stands before is said all the same, and nothing kept.
    fs::write(&path, &capture[..capture.len() - 1]).expect("a capture");
    let kept = folder.path("kept.bin");
    let (shown, error, status) = said(&run(&[
        "explain",
        "--pcap",
        name,
        "--campus",
        &sample("campus.bin"),
        "--keep",
        kept.to_str().expect("a name"),
    ]));
    assert_eq!(status, 1, "{error}");
    assert!(
        shown.starts_with(begins) && words.starts_with(&shown),
        "{shown}"
    );
    assert!(
        error.contains("cut off in the packet at octet")
            && error.contains("only what stands before"),
        "{error}"
    );
    assert!(!kept.exists());
    // Of one without MADCAP that is said.
    fs::write(&path, &capture).expect("a capture");
    let (shown, error, status) = said(&run(&["explain", "--pcap", name, "--port", "2536"]));
    assert_eq!((error.as_str(), status), ("", 0));
    assert_eq!(
        shown,
        format!("{name}: no datagram from or to port 2536; 3 datagrams of other ports (--port takes another)\n")
    );
    // Damaged ones are refused or said in words; none is a fault of the program.
    let mut random = Random::new(11);
    for _ in 0..60 {
        let mut damaged = capture.clone();
        for _ in 0..1 + random.below(6) {
            let at = random.below(damaged.len());
            damaged[at] = random.octet();
        }
        fs::write(&path, &damaged).expect("a capture");
        let (_, error, status) = said(&run(&["explain", "--pcap", name]));
        assert!(status <= 1, "{error}");
    }
    for (octets, what) in [
        (&capture[..20], "fewer than 24 octets"),
        (&capture[..90], "cut off in the packet at octet 24"),
        (
            &b"this is a text and no capture file"[..],
            "it begins otherwise",
        ),
        (
            &[
                0x0A, 0x0D, 0x0D, 0x0A, 0, 0, 0, 0, 0, 0, 0, 0, 0, 0, 0, 0, 0, 0, 0, 0, 0, 0, 0, 0,
            ][..],
            "editcap",
        ),
    ] {
        fs::write(&path, octets).expect("a capture");
        let (_, error, status) = said(&run(&["explain", "--pcap", name]));
        assert!(status == 1 && error.contains(what), "{error}");
    }
}

#[test]
fn a_morning_in_words_and_the_file_afterwards() {
    let folder = Folder::new("desk-morning");
    let kept = folder.path("kept.bin");
    let name = kept.to_str().expect("a name");
    let (words, _, status) = said(&run(&[
        "explain",
        "--calls",
        &sample("morning.bin"),
        "--short",
        "--keep",
        name,
    ]));
    assert_eq!(status, 0);
    assert!(
        words
            .starts_with("2023-11-14T22:13:30Z house 1 GETINFO id \"\\x00A\"\n    ACK, 2 scopes\n"),
        "{words}"
    );
    // `replay` prints the same campus file afterwards, in hex.
    let printed = fs::read_to_string(sample("morning.out")).expect("a sample");
    let book = printed
        .lines()
        .rev()
        .find_map(|line| line.strip_prefix("book "))
        .expect("a book");
    assert_eq!(hex(&fs::read(&kept).expect("the file")), book);
    // A line of its own for what each drew, with the discards' numbers.
    let drawn: Vec<&str> = words
        .lines()
        .filter_map(|line| line.strip_prefix("    "))
        .collect();
    let outcomes: Vec<&str> = printed
        .lines()
        .filter(|line| !line.starts_with("book "))
        .collect();
    assert_eq!(drawn.len(), outcomes.len());
    for (drawn, outcome) in drawn.iter().zip(&outcomes) {
        let number = outcome.split(' ').next().expect("a number");
        assert_eq!(
            drawn.starts_with("discard "),
            number != "0",
            "{drawn} {outcome}"
        );
        assert!(
            number == "0" || drawn.starts_with(&format!("discard {number}")),
            "{drawn} {outcome}"
        );
    }
}

#[test]
fn a_client_for_the_desk() {
    let folder = Folder::new("desk-ask");
    let host = Running::start(&folder.campus(), &["--quiet"]);
    let server = host.server.to_string();
    let ask = |words: &[&str]| {
        let common = ["--server", &server, "--wait", "10", "--tries", "1"];
        said(&run(&[&["ask"], words, &common].concat()))
    };
    let (words, _, status) = ask(&[
        "discover",
        "--from",
        "127.0.2.7",
        "--id",
        "truck",
        "--scope",
        "239.192.1.0",
        "--number",
        "1-3",
    ]);
    assert!(
        status == 0 && words.contains("ms: OFFER, ") && words.contains("Ranges: 239.192.1.0-2\n"),
        "{words}"
    );
    let request = [
        "request",
        "--from",
        "127.0.2.7",
        "--id",
        "truck",
        "--scope",
        "239.192.1.0",
        "--xid",
        "0x77",
    ];
    let (words, _, status) = ask(&request);
    assert!(
        status == 0 && words.contains("ms: ACK, transaction 0x00000077"),
        "{words}"
    );
    assert_eq!(ask(&request).2, 0);
    let (words, error, status) = ask(&[
        "request",
        "--from",
        "127.0.2.7",
        "--id",
        "truck",
        "--scope",
        "239.192.1.0",
    ]);
    assert!(
        words.contains("option 16, Error: 1, the request is invalid"),
        "{words}"
    );
    assert_eq!(
        (error.as_str(), status),
        ("refused: error 1, the request is invalid\n", 1)
    );
    assert_eq!(
        ask(&[
            "renew",
            "--from",
            "127.0.2.7",
            "--id",
            "0x747275636b",
            "--lease",
            "60"
        ])
        .2,
        0
    );
    let (words, _, status) = ask(&["getinfo", "--from", "127.0.2.7", "--language", "de"]);
    assert!(
        status == 0 && words.contains("\"B\u{fc}hne\" (de)"),
        "{words}"
    );
    assert!(words.starts_with("the identifier is 0x00"), "{words}");
    assert_eq!(
        ask(&["release", "--from", "127.0.2.7", "--id", "truck"]).2,
        0
    );
}

#[test]
fn it_sends_again_what_is_not_answered() {
    let server = UdpSocket::bind("127.0.0.1:0").expect("a socket");
    server
        .set_read_timeout(Some(PATIENCE))
        .expect("a time limit");
    let name = server.local_addr().expect("an address").to_string();
    let mut command = Command::new(PROGRAM);
    command.args([
        "ask", "release", "--server", &name, "--id", "truck", "--wait", "0.1", "--tries", "9",
    ]);
    let child = command.stdout(Stdio::piped()).spawn().expect("it starts");
    let (mut room, mut heard) = ([0; 2048], vec![]);
    for _ in 0..3 {
        let (length, from) = server.recv_from(&mut room).expect("a message");
        heard.push((room[..length].to_vec(), from));
    }
    assert!(heard.windows(2).all(|two| two[0] == two[1]));
    let (asked, from) = &heard[0];
    let xid = Message(asked).transaction().expect("an id");
    // Only the answer to what was asked counts.
    server
        .send_to(&draft(ACK, xid ^ 1, &[(3, b"truck".to_vec())]), from)
        .expect("sent");
    server
        .send_to(&draft(ACK, xid, &[(3, b"other".to_vec())]), from)
        .expect("sent");
    server.send_to(b"noise", from).expect("sent");
    server
        .send_to(&draft(ACK, xid, &[(3, b"truck".to_vec())]), from)
        .expect("sent");
    let (words, _, status) = said(&child.wait_with_output().expect("it ends"));
    assert_eq!(status, 0);
    assert!(
        words.contains(
            "no answer within 0.1 s; sending it again\nno answer within 0.2 s; sending it again\n"
        ),
        "{words}"
    );
    // Whatever was asked, the server's log is where it says why.
    for kind in ["discover", "release"] {
        let nobody = [
            "ask", kind, "--server", &name, "--id", "truck", "--wait", "0.05", "--tries", "2",
        ];
        let (_, error, status) = said(&run(&nobody));
        assert!(status == 4 && error.contains("no answer from"), "{error}");
        assert!(
            error.contains("discard") && error.contains("its log says why"),
            "{error}"
        );
    }
    drop(server);
}

#[test]
fn a_host_in_a_group() {
    let folder = Folder::new("desk-group");
    // A client's address of the loopback range can't send to a group on every machine.
    let probe = UdpSocket::bind("127.0.2.7:0").expect("a socket");
    if let Err(error) = probe.send_to(b"", "239.255.255.254:9") {
        assert_eq!(error.kind(), ErrorKind::NetworkUnreachable);
        println!("not tried: {error}");
        return;
    }
    let options = ["--group", "239.255.255.254", "--interface", "127.0.0.1"];
    let host = Running::start(&folder.campus(), &options);
    let server = format!("239.255.255.254:{}", host.server.port());
    let ask = [
        "ask",
        "getinfo",
        "--server",
        &server,
        "--from",
        "127.0.2.7",
        "--id",
        "truck",
        "--wait",
        "2",
        "--tries",
        "4",
    ];
    let (words, error, status) = said(&run(&ask));
    assert!(
        status == 0 && words.contains("Multicast Scope List: 239.192.1.0-63"),
        "{words}{error}"
    );
    // The answer comes from the host's own address, and who asks that address is answered too.
    assert!(
        words.contains(&format!("answer from {} after", host.server)),
        "{words}"
    );
    Client::new(2, host.server).ask(&message(GETINFO, 1, b"id", &[]));
}

#[test]
fn a_load() {
    let folder = Folder::new("desk-load");
    let file = folder.campus();
    let host = Running::start(&file, &["--quiet"]);
    let (name, server) = (file.to_str().expect("a name"), host.server.to_string());
    let words = [
        "load",
        name,
        "--server",
        &server,
        "--seconds",
        "0.5",
        "--clients",
        "2",
        "--mix",
        "all",
        "--patience",
        "20000",
    ];
    let (words, error, status) = said(&run(&words));
    assert_eq!(status, 0, "{error}");
    let number = |label: &str| {
        let rest = words.split(label).nth(1).expect(label).trim_start();
        rest.split(' ')
            .next()
            .and_then(|word| word.parse::<u64>().ok())
            .expect("a number")
    };
    assert!(number("exchanges ") > 0, "{words}");
    assert!(words.contains(" 0 of them NAK, 0 lost\n"), "{words}");
    let campus = on_disk(&file);
    assert_eq!((campus.leases.len(), campus.holds.len()), (0, 0));
    // More than any server can: the rate isn't reached, and that is said.
    let fast = [
        "load",
        name,
        "--server",
        &server,
        "--seconds",
        "0.5",
        "--rate",
        "9000000",
    ];
    let (words, error, status) = said(&run(&fast));
    assert_eq!(status, 0, "{error}");
    assert!(
        words.ends_with("\nrate      9000000 a second was asked for, and not reached\n"),
        "{words}"
    );
    drop(host);
    let nobody = [
        "load",
        name,
        "--server",
        &server,
        "--seconds",
        "0.05",
        "--patience",
        "10",
    ];
    let (words, _, status) = said(&run(&nobody));
    assert_eq!(status, 4);
    assert!(words.ends_with("\nresponse  -\n"), "{words}");
    let (_, error, status) = said(&run(&["load", name, "--houses", "9"]));
    assert!(
        status == 2 && error.contains("--houses takes a number from 1 to 8"),
        "{error}"
    );
    for patience in ["0", "18446744073709551615"] {
        let (_, error, status) = said(&run(&["load", name, "--patience", patience]));
        assert!(
            status == 2 && error.contains("--patience takes milliseconds, up to an hour"),
            "{error}"
        );
    }
    let foreign = ["load", &sample("campus.bin"), "--seconds", "0.05"];
    let (_, error, status) = said(&run(&foreign));
    assert!(
        status == 3 && error.contains("each house's own addresses"),
        "{error}"
    );
}

#[test]
fn the_campus_of_the_operators_page_is_sound() {
    let page = fs::read_to_string(format!("{SAMPLES}../docs/OPERATING.md")).expect("the page");
    let lines = page
        .lines()
        .skip_while(|line| !line.starts_with("    server "));
    let block: Vec<&str> = lines
        .take_while(|line| line.is_empty() || line.starts_with("    "))
        .collect();
    let campus = banshorra_host::text::read(&block.join("\n")).expect("a campus");
    assert_eq!((campus.houses.len(), campus.scopes.len()), (2, 1));
    assert_eq!(banshorra_host::lent::check(&campus.to_octets()), Ok(()));
}

#[test]
fn what_the_quick_start_leaves_is_ignored() {
    let ignored = fs::read_to_string(format!("{SAMPLES}../.gitignore")).expect("the list");
    for name in ["/campus.bin", "/campus.bin.lock", "/campus.bin.new"] {
        assert!(ignored.lines().any(|line| line == name), "{name}");
    }
}

#[test]
fn the_showing_explains_every_sign_of_the_board() {
    let showing = fs::read_to_string(format!("{SAMPLES}../run")).expect("the script");
    let legend = showing.lines().find(|line| line.contains("#: held"));
    let legend = legend.expect("a legend");
    for sign in ["#: ", "=: ", "+: ", ".: "] {
        assert!(legend.contains(sign), "{sign} in {legend}");
    }
}

#[test]
fn the_samples_texts_are_sound() {
    for name in ["campus.txt", "loopback.txt"] {
        let text = fs::read_to_string(sample(name)).expect("a sample");
        let campus: Campus = banshorra_host::text::read(&text).expect(name);
        assert_eq!(banshorra_host::lent::check(&campus.to_octets()), Ok(()));
    }
}
