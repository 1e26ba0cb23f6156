//! Runs the programs over a folder of cases, named by the environment variable SECOND_VECTORS: every `N.bin` or `N.in` in
//! it or below it is given on standard input, and `N.out` is what must come out. The cases in a folder `W-211` are
//! `van`'s, those in `W-212` are `salvage`'s, and `N.rooms` has two other rooms for each: the length of the file's, of the
//! list's, and `written` or `refused NUMBER`. Those in `W-213` are `report`'s: `N.count` of the files `001.bin`, `002.bin`
//! and so on in `N.d`, of which some may be missing. All others are `replay`'s. Cases from before W-210 have no counts; they
//! are compared without them.

use std::fs;
use std::io::Write;
use std::path::{Path, PathBuf};
use std::process::{Command, Stdio};

/// The endings of a case's own file. The files of a report aren't cases by themselves.
const CASES: [&str; 3] = ["bin", "in", "count"];

/// Every case in a folder and below it.
fn cases(folder: &Path) -> Vec<PathBuf> {
    let mut found = Vec::new();
    for entry in fs::read_dir(folder).expect("the folder of vectors") {
        let path = entry.expect("an entry of the folder").path();
        let ending = path.extension().and_then(|ending| ending.to_str());
        if ending == Some("d") {
            continue;
        }
        if path.is_dir() {
            found.extend(cases(&path));
        } else if ending.is_some_and(|ending| CASES.contains(&ending)) {
            found.push(path);
        }
    }
    found.sort();
    found
}

/// The program that a case is for, by its folder.
fn program_of(case: &Path) -> &'static str {
    let folder = case.parent().and_then(Path::file_name);
    match folder.and_then(|name| name.to_str()) {
        Some("W-211") => "van",
        Some("W-212") => "salvage",
        Some("W-213") => "report",
        _ => "replay",
    }
}

/// What a case's program prints: for its input, or for the files that it counts.
fn printed(case: &Path, input: &[u8]) -> Vec<u8> {
    let program = program_of(case);
    if program != "report" {
        return run(program, input);
    }
    let count = String::from_utf8_lossy(input);
    let count: usize = count.trim().parse().expect("the number of files");
    let folder = case.with_extension("d");
    let names = (1..=count).map(|number| folder.join(format!("{number:03}.bin")));
    let mut program = Command::new(env!("CARGO_BIN_EXE_second"));
    let output = program.arg("report").args(names).output();
    output.expect("its output").stdout
}

/// What a program prints for an input.
fn run(program: &str, input: &[u8]) -> Vec<u8> {
    let mut program = Command::new(env!("CARGO_BIN_EXE_second"))
        .arg(program)
        .stdin(Stdio::piped())
        .stdout(Stdio::piped())
        .spawn()
        .expect("the program starts");
    let mut stdin = program.stdin.take().expect("its standard input");
    stdin.write_all(input).expect("the input is taken");
    drop(stdin);
    program.wait_with_output().expect("its output").stdout
}

/// The lines without the counts at their ends.
fn without_counts(text: &str) -> String {
    let line = |line: &str| line.split(" #").next().unwrap_or_default().to_string() + "\n";
    text.lines().map(line).collect()
}

/// Whether what came out is what is expected.
fn agrees(found: &[u8], expected: &[u8]) -> bool {
    let text = String::from_utf8_lossy(found);
    let is_older = !expected.windows(2).any(|pair| pair == b" #");
    found == expected || is_older && without_counts(&text).as_bytes() == expected
}

/// What `salvage` makes of the rooms of a case, in the words of `N.rooms`.
fn in_rooms(input: &[u8], rooms: &str) -> String {
    let mut words = rooms.split_whitespace();
    let mut length = || words.next().and_then(|word| word.parse().ok());
    let (Some(room), Some(list)) = (length(), length()) else {
        panic!("no lengths of rooms in {rooms:?}");
    };
    match second::salvage::salvage(input, &mut vec![0; room], &mut vec![0; list]) {
        Ok(_) => format!("{room} {list} written\n"),
        Err(number) => format!("{room} {list} refused {number}\n"),
    }
}

/// Whether a case's rooms come to what is expected, where it has such.
fn rooms_agree(case: &Path, input: &[u8]) -> bool {
    let rooms = fs::read_to_string(case.with_extension("rooms"));
    rooms.is_ok_and(|rooms| in_rooms(input, &rooms) == rooms) || program_of(case) != "salvage"
}

#[test]
fn counts_are_passed_over_in_older_cases_alone() {
    let found = b"8 #2\n5 @12 #0\nbook 01\n";
    assert!(agrees(found, found));
    assert!(agrees(found, b"8\n5 @12\nbook 01\n"));
    assert!(!agrees(found, b"8\n5 @13\nbook 01\n"));
    assert!(!agrees(found, b"8 #2\n5 @12\nbook 01\n"));
    assert!(!agrees(found, b"8 #3\n5 @12 #0\nbook 01\n"));
}

#[test]
fn every_case_agrees() {
    let Some(folder) = std::env::var_os("SECOND_VECTORS") else {
        eprintln!("skipped: SECOND_VECTORS names no folder of vectors");
        return;
    };
    let cases = cases(Path::new(&folder));
    assert!(!cases.is_empty(), "no case in {}", folder.to_string_lossy());
    let disagreeing: Vec<_> = cases
        .iter()
        .filter(|case| {
            let input = fs::read(case).expect("the input");
            let expected = fs::read(case.with_extension("out")).expect("the expected output");
            !agrees(&printed(case, &input), &expected) || !rooms_agree(case, &input)
        })
        .collect();
    assert!(disagreeing.is_empty(), "disagreeing: {disagreeing:?}");
    eprintln!("{} cases agree", cases.len());
}
