//! The address-seconds of a quarter, in words. The totals and the refusals are those of the proved program `report`, which is run for them.

use crate::args::{Args, Command, Failure};
use crate::files::{read, refused};
use crate::print;
use banshorra_host::campus::{Campus, Scope};
use banshorra_host::{count, quoted, text, utc, Refusal};
use std::fmt::Write;
use std::net::Ipv4Addr;
use std::path::PathBuf;
use std::process;

pub const COMMAND: Command = Command {
    name: "report",
    help: "\
banshorra report FILE.. [--plain]

Shows for each scope and house the address-seconds that leases cover, from the first file's clock to the last one's: an address that is leased for an hour is 3,600.
FILE.. are 1 to 1,000 copies of one campus file, in order of their clocks. A file's leases count up to the next file's clock, so that the last file only ends the report;
offers that are held don't count. The address-seconds are exact; the percentages are rounded.

  --plain   the lines of document 02's `report`: scope, house, total

The program `report` adds them up. It is looked for in the folder that BANSHORRA_BIN names; else beside this program, as `banshorra-report`, or where `tools/built report` puts it.
",
    flags: &["plain"],
    valued: &[],
    run: report,
};

/// A line of the program's: a scope's lowest address, a house, its address-seconds.
type Total = (Ipv4Addr, u8, u64);

/// What the program says.
#[derive(Debug, PartialEq, Eq)]
enum Said {
    Totals(Vec<Total>),
    /// A number, and the place of the file that draws it.
    Refused(u8, usize),
}

fn report(args: &Args) -> Result<(), Failure> {
    let names = args.words();
    let lines = ask(names)?;
    let Some(said) = said(&lines) else {
        return Err(Failure::Machine(format!("report printed `{lines}`")));
    };
    match said {
        Said::Refused(number, place) => Err(in_words(names, number, place)),
        Said::Totals(_) if args.has("plain") => print(&lines),
        Said::Totals(totals) => {
            let (first, last) = (campus(&names[0])?, campus(&names[names.len() - 1])?);
            let times = [first.clock, last.clock].map(utc::in_words);
            let files = count(names.len(), "file");
            let head = format!(
                "Address-seconds from {} to {}, {files}\n",
                times[0], times[1]
            );
            print(&(head + &tables(&first, &totals)))
        }
    }
}

/// Where the proved program may be. A `report` in a folder of all sorts of programs would be anybody's.
fn places() -> Vec<PathBuf> {
    if let Some(folder) = std::env::var_os("BANSHORRA_BIN") {
        return vec![PathBuf::from(folder).join("report")];
    }
    let Ok(program) = std::env::current_exe() else {
        return vec![];
    };
    let mut places = vec![program.with_file_name("banshorra-report")];
    let built = program.ancestors().nth(2);
    places.extend(
        built
            .filter(|folder| folder.ends_with("target"))
            .map(|folder| folder.join("bin/report")),
    );
    places
}

/// What the program prints for these files.
fn ask(names: &[String]) -> Result<String, Failure> {
    let places = places();
    let Some(program) = places.iter().find(|place| place.is_file()) else {
        let looked: Vec<String> = places
            .iter()
            .map(|place| place.display().to_string())
            .collect();
        let (looked, make) = (
            looked.join(" or "),
            "`tools/built report` makes it as target/bin/report",
        );
        return Err(Failure::Machine(format!("there is no {looked}; {make}")));
    };
    let failed = |why: String| Failure::Machine(format!("{}: {why}", program.display()));
    let output = process::Command::new(program)
        .args(names)
        .stdin(process::Stdio::null())
        .output();
    let output = output.map_err(|error| failed(error.to_string()))?;
    if !output.status.success() {
        return Err(failed(output.status.to_string()));
    }
    String::from_utf8(output.stdout).map_err(|error| failed(error.to_string()))
}

fn said(lines: &str) -> Option<Said> {
    if let Some(words) = lines.strip_prefix("refused ") {
        let (number, place) = words.trim_end().split_once(' ')?;
        return Some(Said::Refused(number.parse().ok()?, place.parse().ok()?));
    }
    let lines = lines.strip_prefix("scope house total\n")?.lines();
    let total = |line: &str| {
        let mut words = line.split(' ');
        let mut next = || words.next();
        Some((
            next()?.parse().ok()?,
            next()?.parse().ok()?,
            next()?.parse().ok()?,
        ))
    };
    lines.map(total).collect::<Option<_>>().map(Said::Totals)
}

fn campus(name: &str) -> Result<Campus, Failure> {
    Campus::from_octets(&read(name)?).map_err(|_| changed(name))
}

fn changed(name: &str) -> Failure {
    Failure::Machine(format!("{name} has changed while it was read"))
}

/// A table for each scope, and one for all of them where there are several.
fn tables(campus: &Campus, totals: &[Total]) -> String {
    let mut text = String::new();
    for (number, scope) in (1..).zip(&campus.scopes) {
        let last = scope.lowest + u32::from(scope.size.max(1)) - 1;
        let range = text::range(scope.lowest, last);
        let name = scope
            .name()
            .map(|name| format!(" {}", quoted::quoted(&name.text)));
        let _ = writeln!(
            text,
            "\nScope {number}{}: {range}",
            name.unwrap_or_default()
        );
        let lowest = Ipv4Addr::from(scope.lowest);
        let of_scope = totals.iter().filter(|total| total.0 == lowest);
        table(
            &mut text,
            &of_scope
                .map(|total| (total.1, total.2.into()))
                .collect::<Vec<_>>(),
        );
    }
    if campus.scopes.len() > 1 {
        let _ = writeln!(text, "\nAll scopes");
        let sum = |house: u8| {
            totals
                .iter()
                .filter(move |total| total.1 == house)
                .map(|total| u128::from(total.2))
                .sum()
        };
        let houses = (1..)
            .zip(&campus.houses)
            .map(|(house, _)| (house, sum(house)));
        table(&mut text, &houses.collect::<Vec<_>>());
    }
    text
}

/// A line a house: its address-seconds, and how much of all of them.
fn table(text: &mut String, rows: &[(u8, u128)]) {
    let all: u128 = rows.iter().map(|row| row.1).sum();
    let _ = writeln!(text, "  house  address-seconds   part");
    for (house, total) in rows {
        let part = (total * 1_000 + all / 2).checked_div(all).unwrap_or(0);
        let _ = writeln!(
            text,
            "  {house:>5}  {total:>15}  {:>3}.{}%",
            part / 10,
            part % 10
        );
    }
}

/// Why a file is refused, and what to do about it. A file that can't be opened is no campus file to the program; here its own reason is given.
fn in_words(names: &[String], number: u8, place: usize) -> Failure {
    let Some(name) = place.checked_sub(1).and_then(|place| names.get(place)) else {
        let named = count(names.len(), "file");
        return Failure::Refused(format!(
            "refused {number}: a report takes 1 to 1,000 campus files, and {named} are named"
        ));
    };
    let file = match read(name) {
        Ok(file) => file,
        Err(failure) => return failure,
    };
    let placed = format!("file {place}, {name}");
    match number {
        20 => refused(&placed, &file, Refusal::Form),
        21 => refused(&placed, &file, Refusal::Unsound),
        _ => match (
            campus(&names[0]),
            campus(&names[place.max(2) - 2]),
            campus(name),
        ) {
            (Ok(first), Ok(before), Ok(this)) => unlike(&placed, number, &first, &before, &this),
            _ => changed(name),
        },
    }
}

/// A file that doesn't go with those before it.
fn unlike(name: &str, number: u8, first: &Campus, before: &Campus, this: &Campus) -> Failure {
    let settings = "A report is of one campus with the same settings throughout: where they were changed, make one up to the last file before and one from this file on.";
    let (what, todo) = match other(first, this) {
        Some(what) => (format!("{what} not as in the first file"), settings),
        None => {
            let [clock, earlier] = [this.clock, before.clock].map(utc::in_words);
            let what =
                format!("its clock, {clock}, is not later than that of the file before, {earlier}");
            (what, "Name the files in order of their clocks, each once: `banshorra check` shows a file's clock.")
        }
    };
    Failure::Refused(format!(
        "{name}: refused {number}: it does not go with the files before it\n  {what}\n  {todo}"
    ))
}

/// The first setting that differs, names aside.
fn other(first: &Campus, this: &Campus) -> Option<String> {
    if this.server != first.server {
        return Some("the server's address is".to_owned());
    }
    if this.houses.len() != first.houses.len() {
        return Some("the number of houses is".to_owned());
    }
    let mut houses = (1..).zip(this.houses.iter().zip(&first.houses));
    if let Some((house, _)) = houses.find(|(_, two)| two.0 != two.1) {
        return Some(format!("house {house}'s client addresses are"));
    }
    if this.scopes.len() != first.scopes.len() {
        return Some("the number of scopes is".to_owned());
    }
    let mut scopes = (1..).zip(this.scopes.iter().zip(&first.scopes));
    scopes.find_map(|(number, two)| Some(format!("scope {number}'s {}", other_in(two.0, two.1)?)))
}

fn other_in(this: &Scope, first: &Scope) -> Option<String> {
    let whole = [
        ("lowest address is", this.lowest != first.lowest),
        ("size is", this.size != first.size),
        ("TTL is", this.ttl != first.ttl),
    ];
    if let Some((what, _)) = whole.into_iter().find(|row| row.1) {
        return Some(what.to_owned());
    }
    let mut parts = (1..).zip(this.parts.iter().zip(&first.parts));
    let (house, (this, first)) = parts.find(|(_, two)| two.0 != two.1)?;
    let what = if this.0 != first.0 { "share" } else { "limit" };
    Some(format!("{what} of house {house} is"))
}

#[cfg(test)]
mod tests {
    use super::{said, table, Said};
    use std::net::Ipv4Addr;

    #[test]
    fn what_the_program_says() {
        assert_eq!(said("refused 21 3\n"), Some(Said::Refused(21, 3)));
        let lines = "scope house total\n239.192.0.0 1 274877906880\n239.192.0.0 2 0\n";
        let scope = Ipv4Addr::new(239, 192, 0, 0);
        let totals = vec![(scope, 1, 274_877_906_880), (scope, 2, 0)];
        assert_eq!(said(lines), Some(Said::Totals(totals)));
        for other in [
            "",
            "refused 20\n",
            "scope house\n",
            "scope house total\n239.192.0.0 1\n",
        ] {
            assert_eq!(said(other), None, "{other}");
        }
    }

    #[test]
    fn parts_of_all() {
        let shown = |rows: &[(u8, u128)]| {
            let mut text = String::new();
            table(&mut text, rows);
            text.lines()
                .skip(1)
                .map(|line| line.trim().to_owned())
                .collect::<Vec<_>>()
        };
        assert_eq!(
            shown(&[(1, 0), (2, 0)]),
            ["1                0    0.0%", "2                0    0.0%"]
        );
        assert_eq!(
            shown(&[(1, 1), (2, 2)]),
            ["1                1   33.3%", "2                2   66.7%"]
        );
        assert_eq!(
            shown(&[(1, 1_099_511_623_680)]),
            ["1    1099511623680  100.0%"]
        );
    }
}
