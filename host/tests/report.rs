//! `banshorra report`: the address-seconds of a quarter in words, over the proved program `report`, which has to be built: `tools/built report`.

#[path = "common/running.rs"]
mod running;

use banshorra_host::campus::Campus;
use running::*;
use std::fs;
use std::path::PathBuf;
use std::process::{Command, Stdio};

/// What it printed, on either way, and its status.
fn report(names: &[impl AsRef<str>], option: &[&str]) -> (String, String, i32) {
    let names: Vec<&str> = names.iter().map(AsRef::as_ref).collect();
    let output = run(&[&["report"], &names[..], option].concat());
    let text = |octets: Vec<u8>| String::from_utf8(octets).expect("a text");
    let status = output.status.code().expect("no signal");
    (text(output.stdout), text(output.stderr), status)
}

fn samples() -> Vec<String> {
    (1..=4)
        .map(|number| format!("{SAMPLES}quarter/{number}.bin"))
        .collect()
}

fn refused(names: &[impl AsRef<str>], words: &str) {
    let (out, error, status) = report(names, &[]);
    assert_eq!((out.as_str(), status), ("", 1), "{error}");
    assert!(error.contains(words), "{error}");
}

/// The samples, of which the third is made anew after a change.
fn changed(folder: &Folder, change: impl FnOnce(&mut Campus)) -> Vec<String> {
    let mut names = samples();
    let file = fs::read(&names[2]).expect("a sample");
    let mut campus = Campus::from_octets(&file).expect("a campus");
    change(&mut campus);
    names[2] = name(folder.path("third.bin"));
    fs::write(&names[2], campus.to_octets()).expect("a file");
    names
}

fn name(path: PathBuf) -> String {
    path.into_os_string().into_string().expect("a name")
}

#[test]
fn the_sample_quarter() {
    let text = "\
Address-seconds from 2023-11-14T22:13:20Z to 2023-11-16T22:13:20Z, 4 files

Scope 1 \"Small stage\": 239.192.0.0-3
  house  address-seconds   part
      1            14400  100.0%
      2                0    0.0%

Scope 2: 239.192.1.0-15
  house  address-seconds   part
      1            21600    2.0%
      2          1045800   98.0%

All scopes
  house  address-seconds   part
      1            36000    3.3%
      2          1045800   96.7%
";
    assert_eq!(report(&samples(), &[]), (text.to_owned(), String::new(), 0));
    let plain = fs::read_to_string(format!("{SAMPLES}quarter.out")).expect("a sample");
    assert_eq!(report(&samples(), &["--plain"]), (plain, String::new(), 0));
    // One file has nothing to count up to.
    let (text, _, status) = report(&samples()[..1], &[]);
    assert!(text.contains("to 2023-11-14T22:13:20Z, 1 file\n"), "{text}");
    assert!(
        text.contains("\n      2                0    0.0%\n"),
        "{text}"
    );
    assert_eq!(status, 0);
}

#[test]
fn no_file_and_too_many() {
    refused(
        &[""; 0],
        "refused 26: a report takes 1 to 1,000 campus files, and 0 files are named",
    );
    refused(&["x"; 1_001], "and 1001 files are named");
    let of_all = vec![samples().remove(0); 1_000];
    refused(&of_all, "file 2, ");
}

#[test]
fn files_that_are_refused_by_themselves() {
    let folder = Folder::new("report-files");
    let mut names = samples();
    names[1] = name(folder.path("missing.bin"));
    let (out, error, status) = report(&names, &[]);
    assert_eq!((out.as_str(), status), ("", 3));
    assert!(error.contains("missing.bin: No such file"), "{error}");
    fs::write(&names[1], [1, 2, 3]).expect("a file");
    refused(
        &names,
        &format!(
            "file 2, {}: refused 20: the campus file's form is wrong\n  octet 3: ",
            names[1]
        ),
    );
    let names = changed(&folder, |campus| campus.scopes[0].ttl = 0);
    refused(
        &names,
        &format!(
            "file 3, {}: refused 21: the campus file is unsound\n  rule 5: ",
            names[2]
        ),
    );
}

#[test]
fn files_that_do_not_go_with_the_first() {
    type Change = fn(&mut Campus);
    let changes: [(&str, Change); 10] = [
        ("the server's address is", |c| c.server += 1),
        ("house 2's client addresses are", |c| c.houses[1].1 -= 1),
        ("the number of houses is", |c| {
            c.houses.push((0x0A00_0300, 0x0A00_03FF));
            c.scopes.iter_mut().for_each(|scope| {
                scope.parts.push((0, 0));
                scope.names.push(vec![]);
            });
        }),
        ("scope 1's lowest address is", |c| {
            c.scopes[0].lowest += 0x0001_0000
        }),
        ("scope 2's size is", |c| c.scopes[1].size += 1),
        ("scope 2's TTL is", |c| c.scopes[1].ttl += 1),
        ("scope 2's share of house 1 is", |c| {
            c.scopes[1].parts[0].0 -= 1
        }),
        ("scope 2's limit of house 2 is", |c| {
            c.scopes[1].parts[1].1 -= 1
        }),
        ("the number of scopes is", |c| {
            c.scopes.truncate(1);
            (c.leases, c.holds) = (vec![], vec![]);
        }),
        ("the number of scopes is", |c| {
            let mut scope = c.scopes[1].clone();
            scope.lowest += 0x0001_0000;
            c.scopes.push(scope);
        }),
    ];
    let folder = Folder::new("report-settings");
    for (what, change) in changes {
        let names = changed(&folder, change);
        let words = "refused 26: it does not go with the files before it";
        refused(&names, &format!("file 3, {}: {words}\n  {what} not as in the first file\n  A report is of one campus", names[2]));
    }
    // Names may differ.
    let names = changed(&folder, |campus| campus.scopes[0].names[0].clear());
    assert_eq!(report(&names, &[]).2, 0);
}

#[test]
fn clocks_that_are_not_later() {
    let mut names = samples();
    names.swap(2, 3);
    let clock = "its clock, 2023-11-15T22:13:20Z, is not later than that of the file before, 2023-11-16T22:13:20Z";
    refused(&names, &format!("file 4, {}: refused 26: it does not go with the files before it\n  {clock}\n  Name the files in order", names[3]));
    let names = [&samples()[0], &samples()[0]];
    refused(&names, "its clock, 2023-11-14T22:13:20Z, is not later than that of the file before, 2023-11-14T22:13:20Z");
}

#[test]
fn without_the_proved_program_it_says_where_it_was_looked_for() {
    let folder = Folder::new("report-missing");
    let mut command = Command::new(PROGRAM);
    let output = command
        .args(["report", "a"])
        .env("BANSHORRA_BIN", &folder.0)
        .stdin(Stdio::null())
        .output()
        .expect("it runs");
    let error = String::from_utf8(output.stderr).expect("a text");
    assert_eq!(output.status.code(), Some(3));
    let place = folder.path("report");
    assert!(
        error.contains(&format!(
            "there is no {}; `tools/built report` makes it",
            place.display()
        )),
        "{error}"
    );
}
