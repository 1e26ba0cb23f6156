//! Measures the proved library and the second program at the same work. `bench/run` calls it.
//!
//!   bench sizes CALLS MIXED          a line for each job: name, leases, which of its last sections are full (0 none, 1 names, 2 releases, 3
//!                                    both, 7 holds too), calls in its list, octets of its file, the place of the job with an empty list on
//!                                    the same file, or -1
//!   bench once SIDE CALLS MIXED      does every job once, for counting instructions; SIDE is proved or plain
//!   bench time RUNS CALLS MIXED      a line for each job and side: name, leases, side, median of the nanoseconds of so many runs

use harness::jobs::{bench_measured, jobs, Job, Side, EMPTY};
use std::process::ExitCode;
use std::time::Instant;

fn main() -> ExitCode {
    let arguments: Vec<String> = std::env::args().skip(1).collect();
    let words: Vec<&str> = arguments.iter().map(String::as_str).collect();
    let number = |word: &str| word.parse::<usize>().ok();
    match words[..] {
        ["sizes", calls, mixed] => {
            let (Some(calls), Some(mixed)) = (number(calls), number(mixed)) else {
                return usage();
            };
            let jobs = jobs(calls, mixed);
            for job in &jobs {
                if !job.is_as_meant() {
                    eprintln!(
                        "bench: {} at {} leases isn't what it is meant to be",
                        job.name, job.leases
                    );
                    return ExitCode::FAILURE;
                }
                let empty = jobs
                    .iter()
                    .position(|other| other.name.starts_with(EMPTY) && other.file == job.file);
                let empty = empty.map_or(-1, |place| place as i64);
                println!(
                    "{}\t{}\t{}\t{}\t{}\t{empty}",
                    job.name,
                    job.leases,
                    job.filled as u8,
                    job.count(),
                    job.file.len()
                );
            }
        }
        ["once", side, calls, mixed] => {
            let (Some(side), Some(calls), Some(mixed)) =
                (side_of(side), number(calls), number(mixed))
            else {
                return usage();
            };
            for job in jobs(calls, mixed) {
                let (mut file, mut answers) = job.rooms();
                println!("{}", bench_measured(side, &job, &mut file, &mut answers));
            }
        }
        ["time", runs, calls, mixed] => {
            let (Some(runs), Some(calls), Some(mixed)) =
                (number(runs), number(calls), number(mixed))
            else {
                return usage();
            };
            for job in jobs(calls, mixed) {
                time(&job, runs);
            }
        }
        _ => return usage(),
    }
    ExitCode::SUCCESS
}

fn usage() -> ExitCode {
    eprintln!("usage: bench sizes CALLS MIXED | bench once proved|plain CALLS MIXED | bench time RUNS CALLS MIXED");
    ExitCode::from(2)
}

fn side_of(word: &str) -> Option<Side> {
    match word {
        "proved" => Some(Side::Proved),
        "plain" => Some(Side::Plain),
        _ => None,
    }
}

/// Both sides in turn, so that what else the machine does falls on both.
fn time(job: &Job, runs: usize) {
    let mut times = [Vec::new(), Vec::new()];
    let mut results = [0, 0];
    for run in 0..=runs {
        for (place, side) in [Side::Proved, Side::Plain].into_iter().enumerate() {
            let (mut file, mut answers) = job.rooms();
            let start = Instant::now();
            results[place] = bench_measured(side, job, &mut file, &mut answers);
            let nanoseconds = start.elapsed().as_nanos();
            // The first run warms up.
            if run > 0 {
                times[place].push(nanoseconds);
            }
        }
    }
    for (place, side) in ["proved", "plain"].into_iter().enumerate() {
        times[place].sort_unstable();
        println!(
            "{}\t{}\t{side}\t{}\t{}",
            job.name,
            job.leases,
            times[place][runs / 2],
            results[place]
        );
    }
}
