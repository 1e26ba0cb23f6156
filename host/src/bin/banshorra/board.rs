//! The board as a table that a house can read at a glance.

use crate::args::{Args, Command, Failure};
use crate::files::{read, refused};
use crate::print;
use crate::serve::now;
use banshorra_host::campus::{Campus, Scope};
use banshorra_host::{quoted, text, utc, CampusFile, Occupancy, REPLY_ROOM};
use std::fmt::Write;
use std::io::IsTerminal;
use std::net::Ipv4Addr;
use std::time::Duration;

pub const COMMAND: Command = Command {
    name: "board",
    help: "\
banshorra board FILE [--watch [--every SECONDS]] [--at-clock] [--plain]

Shows for each scope what each house has: its share, its limit, what it holds, and a bar, a sign an address:
  #  held within the share       =  share that is not used: kept for the house
  +  held above the share        .  may be had up to the limit, if no other house needs it for its share

  --watch           again and again, while the host runs
  --every SECONDS   how often; each second if not given
  --at-clock        as of the file's clock, the last call; else as of now
  --plain           the lines of document 01's `board`
",
    flags: &["watch", "at-clock", "plain"],
    valued: &["every"],
    run: board,
};

fn board(args: &Args) -> Result<(), Failure> {
    let name = args.word("FILE")?;
    let every = args.read_as("every", "seconds, as 0.5", |value| {
        let seconds = value
            .parse()
            .ok()
            .filter(|seconds: &f64| (0.01..1e6).contains(seconds))?;
        Some(Duration::from_secs_f64(seconds))
    })?;
    if every.is_some() && !args.has("watch") {
        return args.usage("--every goes with --watch");
    }
    let mut shown = String::new();
    loop {
        let text = show(name, args)?;
        if !args.has("watch") {
            return print(&text);
        }
        let is_screen = std::io::stdout().is_terminal();
        if is_screen {
            print(&format!("\x1b[H\x1b[2J{text}"))?;
        } else if text != shown {
            print(&format!("{text}\n"))?;
        }
        shown = text;
        std::thread::sleep(every.unwrap_or(Duration::from_secs(1)));
    }
}

/// The board's text as of now. The host puts each new file in the old one's place as a whole, so that none is read half written.
fn show(name: &str, args: &Args) -> Result<String, Failure> {
    let file = read(name)?;
    let mut campus =
        CampusFile::from_bytes(&file).map_err(|refusal| refused(name, &file, refusal))?;
    if !args.has("at-clock") {
        // A call without octets is discarded, and drops what has ended.
        campus.serve(&[], Ipv4Addr::UNSPECIFIED, now(), &mut [0; REPLY_ROOM]);
    }
    if args.has("plain") {
        return Ok(campus.board());
    }
    let book = Campus::from_octets(campus.as_bytes())
        .map_err(|fault| Failure::Refused(fault.to_string()))?;
    Ok(table(&book, &campus.occupancy()))
}

fn table(campus: &Campus, occupancy: &Occupancy) -> String {
    let (server, clock) = (Ipv4Addr::from(campus.server), utc::in_words(campus.clock));
    let mut text = format!("Server {server}, as of {clock}\n");
    for (scope, number) in campus.scopes.iter().zip(1..) {
        scope_table(&mut text, scope, number, occupancy);
    }
    text
}

fn scope_table(text: &mut String, scope: &Scope, number: u8, occupancy: &Occupancy) {
    let houses = || (1..).zip(&scope.parts);
    let held: usize = houses()
        .map(|(house, _)| usize::from(occupancy.holding(number, house)))
        .sum();
    let range = text::range(
        scope.lowest,
        scope.lowest + u32::from(scope.size.max(1)) - 1,
    );
    let name = scope
        .name()
        .map(|name| format!(" {}", quoted::quoted(&name.text)));
    let (name, size, ttl) = (name.unwrap_or_default(), scope.size, scope.ttl);
    let _ = writeln!(
        text,
        "\nScope {number}{name}: {range}, TTL {ttl}; {held} of {size} held"
    );
    let _ = writeln!(text, "  house  share  limit  holds");
    for (house, &(share, limit)) in houses() {
        let holds = occupancy.holding(number, house);
        let bar = bar(share, limit, holds);
        let line = format!("  {house:>5}  {share:>5}  {limit:>5}  {holds:>5}  {bar}");
        let _ = writeln!(text, "{}", line.trim_end());
    }
}

/// A sign an address: held within the share, share not used, held above it, what may be had up to the limit.
fn bar(share: u8, limit: u8, holds: u8) -> String {
    let signs = [
        ('#', share.min(holds)),
        ('=', share.saturating_sub(holds)),
        ('+', holds.saturating_sub(share)),
        ('.', limit.saturating_sub(holds.max(share))),
    ];
    let bar = signs
        .iter()
        .flat_map(|&(sign, count)| std::iter::repeat_n(sign, count.into()));
    bar.collect()
}

#[cfg(test)]
mod tests {
    use super::bar;

    #[test]
    fn bars() {
        assert_eq!(bar(2, 3, 0), "==.");
        assert_eq!(bar(2, 3, 1), "#=.");
        assert_eq!(bar(2, 5, 3), "##+..");
        assert_eq!(bar(0, 0, 0), "");
        assert_eq!(bar(4, 4, 4), "####");
    }
}
