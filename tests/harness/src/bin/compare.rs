//! `compare [CASES] [SEED]`: cases made from a seed, run by the proved library and the second program.
//! `compare --first [CASES] [SEED]` stops at the first case that differs; `compare --case FILE` runs a kept case. Where the programs `van` and
//! `report` are there, days of the van and quarters of campus files are given to them and to the second program's.

use builder::Call;
use harness::case::Case;
use harness::compare::{compare, expected, hex};
use harness::days::Day;
use harness::programs::Program;
use harness::quarters::Quarter;
use harness::tally::Tally;
use std::fs;
use std::io;
use std::path::PathBuf;
use std::process::ExitCode;

/// A default run takes about a minute.
const DEFAULT_CASES: u64 = 40_000;
const DEFAULT_SEED: &str = "1";
/// So many differences are shown; all are counted and kept.
const SHOWN: u64 = 10;
/// So many cases to a file to salvage, to a day of the van and to a quarter of campus files.
const CASES_TO_A_WRECK: u64 = 10;
const CASES_TO_A_DAY: u64 = 20;
const CASES_TO_A_QUARTER: u64 = 40;
/// Holds the case under way, should the process be ended by a fault.
const RUNNING: &str = "running.case";

fn main() -> ExitCode {
    let mut arguments: Vec<String> = std::env::args().skip(1).collect();
    if arguments.first().is_some_and(|word| word == "--case") {
        return arguments.get(1).map_or_else(usage, |name| run_kept(name));
    }
    let first_only = arguments.first().is_some_and(|word| word == "--first");
    if first_only {
        arguments.remove(0);
    }
    let cases = match arguments.first().map(|word| word.parse()) {
        None => DEFAULT_CASES,
        Some(Ok(cases)) => cases,
        Some(Err(_)) => return usage(),
    };
    let seed = arguments.get(1).map_or(DEFAULT_SEED, String::as_str);
    let is_default = arguments.is_empty() && !first_only;
    // A panic of the second program is reported as a difference.
    std::panic::set_hook(Box::new(|_| {}));
    match run(cases, seed, first_only, is_default) {
        Ok(true) => ExitCode::SUCCESS,
        Ok(false) => ExitCode::FAILURE,
        Err(error) => {
            eprintln!("compare: {error}");
            ExitCode::from(2)
        }
    }
}

fn usage() -> ExitCode {
    eprintln!("usage: compare [--first] [CASES] [SEED] | compare --case FILE");
    ExitCode::from(2)
}

/// Where cases that differ are kept, and the case under way.
fn kept_folder() -> PathBuf {
    PathBuf::from(concat!(env!("CARGO_MANIFEST_DIR"), "/../../target/compare"))
}

/// A run under way.
struct Run<'a> {
    seed: &'a str,
    folder: PathBuf,
    tally: Tally,
    differ: u64,
    van: Option<Program>,
    report: Option<Program>,
}

impl Run<'_> {
    fn new(seed: &str) -> Run<'_> {
        let mut run = Run {
            seed,
            folder: kept_folder(),
            tally: Tally::default(),
            differ: 0,
            van: Program::find("van"),
            report: Program::find("report"),
        };
        if run.van.is_some() {
            run.tally.expect_days();
        }
        if run.report.is_some() {
            run.tally.expect_quarters();
        }
        run
    }

    /// The case of a number; and at times a file to salvage, a day of the van and a quarter of files.
    fn number(&mut self, number: u64) -> io::Result<()> {
        self.case(number, "case", &Case::new(self.seed, number))?;
        if number % CASES_TO_A_WRECK == 0 {
            let wreck = Case::wreck(self.seed, number / CASES_TO_A_WRECK);
            let mut wrecks = wreck.iter();
            wrecks.try_for_each(|wreck| self.case(number, "wreck", wreck))?;
        }
        let van = self.van.clone();
        if let (Some(van), 0) = (van, number % CASES_TO_A_DAY) {
            let day = Day::new(self.seed, number / CASES_TO_A_DAY);
            match day.compare(&van) {
                Ok(why) => self.tally.day(why),
                Err(difference) => self.keep(number, "day", &day.input, &difference)?,
            }
        }
        let report = self.report.clone();
        match (report, number % CASES_TO_A_QUARTER) {
            (Some(report), 0) => self.quarter(number, &report),
            _ => Ok(()),
        }
    }

    /// A quarter's files are written for the program; those that differ are kept.
    fn quarter(&mut self, number: u64, report: &Program) -> io::Result<()> {
        let quarter = Quarter::new(self.seed, number / CASES_TO_A_QUARTER);
        let names = quarter.write(&self.folder.join("quarter"))?;
        match quarter.compare(report, &names) {
            Ok(why) => self.tally.quarter(why),
            Err(difference) => {
                let name = self.differs(number, "quarter", &difference);
                quarter.write(&self.folder.join(name))?;
            }
        }
        Ok(())
    }

    fn case(&mut self, number: u64, kind: &str, case: &Case) -> io::Result<()> {
        fs::write(self.folder.join(RUNNING), case.octets())?;
        match compare(case, &mut self.tally) {
            Ok(()) => Ok(()),
            Err(difference) => self.keep(number, kind, &case.octets(), &difference),
        }
    }

    /// Keeps what differs, and says so.
    fn keep(&mut self, number: u64, kind: &str, octets: &[u8], difference: &str) -> io::Result<()> {
        let name = self.differs(number, kind, difference);
        fs::write(self.folder.join(name), octets)
    }

    /// Says what differs, and gives the name by which it is kept.
    fn differs(&mut self, number: u64, kind: &str, difference: &str) -> String {
        self.differ += 1;
        let plain = |c: char| if c.is_ascii_alphanumeric() { c } else { '_' };
        let seed: String = self.seed.chars().map(plain).collect();
        let name = format!("{seed}-{number}.{kind}");
        if self.differ <= SHOWN {
            println!("differs: case {number}, target/compare/{name}: {difference}");
        }
        name
    }
}

fn run(cases: u64, seed: &str, first_only: bool, is_default: bool) -> io::Result<bool> {
    let mut run = Run::new(seed);
    fs::create_dir_all(&run.folder)?;
    let mut number = 0;
    while number < cases && !(first_only && run.differ > 0) {
        run.number(number)?;
        number += 1;
    }
    // A run of no cases hasn't made it.
    let _ = fs::remove_file(run.folder.join(RUNNING));
    let Run { tally, differ, .. } = &run;
    tally.lines().iter().for_each(|line| println!("{line}"));
    let never = tally.never_occurred();
    if !never.is_empty() {
        println!("never occurred: {}", never.join("; "));
    }
    if run.van.is_none() {
        println!("van isn't built, and no day is compared");
    }
    if run.report.is_none() {
        println!("report isn't built, and no quarter is compared");
    }
    println!("{number} cases, {} calls, {differ} differ", tally.calls);
    Ok(*differ == 0 && (never.is_empty() || !is_default))
}

/// A kept case: what the second program makes of each call, and the first difference.
fn run_kept(name: &str) -> ExitCode {
    let Some(case) = fs::read(name).ok().and_then(|octets| Case::read(&octets)) else {
        eprintln!("compare: {name}: no case");
        return ExitCode::from(2);
    };
    println!("file {}", hex(&case.file));
    match expected(&case) {
        Err(difference) => println!("{difference}"),
        Ok(expected) => {
            println!("second: file {}", expected.refusal);
            let mut place = 0;
            for (number, answer) in expected.answers.iter().enumerate() {
                let Some(call) = Call::read(&case.calls[place..]) else {
                    break;
                };
                println!(
                    "call {}: time {} client {:08x} room {} datagram {}",
                    number + 1,
                    call.time,
                    call.client,
                    call.room,
                    hex(&call.datagram)
                );
                println!(
                    "  second: {} @{} #{} {}",
                    answer.outcome,
                    answer.offset,
                    answer.count,
                    hex(&answer.reply)
                );
                place += call.length();
            }
        }
    }
    match compare(&case, &mut Tally::default()) {
        Ok(()) => {
            println!("no difference");
            ExitCode::SUCCESS
        }
        Err(difference) => {
            println!("differs: {difference}");
            ExitCode::FAILURE
        }
    }
}
