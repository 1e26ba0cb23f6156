//! How often each outcome, error, refusal and rule occurred.

use crate::bounds;
use crate::counts;
use crate::damage::DAMAGES;
use crate::days;
use crate::ending;
use crate::fault::{Cause, CAUSES};
use crate::halves;
use crate::judged;
use crate::names;
use crate::occupancy;
use crate::quarters;
use crate::releases;
use crate::salvage;
use std::collections::BTreeMap;

/// Message types by number; the server's own are among them.
const TYPES: [&str; 9] = [
    "0", "DISCOVER", "OFFER", "REQUEST", "RENEW", "ACK", "NAK", "RELEASE", "GETINFO",
];
/// Replies that clients can draw: the type sent and the type of the reply.
const REPLIES: [(u8, u8); 8] = [
    (1, 2),
    (3, 5),
    (3, 6),
    (4, 5),
    (4, 6),
    (7, 5),
    (7, 6),
    (8, 5),
];
const CODES: [(u8, &str); 7] = [
    (0, "replay answered the whole list"),
    (20, "refused 20: wrong form"),
    (21, "refused 21: unsound"),
    (23, "refused 23: file room below 32,768"),
    (24, "stopped 24: a record cut off"),
    (27, "stopped 27: answers' room used up"),
    (28, "refused 28: file length past its room"),
];

#[derive(Default)]
pub struct Tally {
    counts: BTreeMap<String, u64>,
    pub calls: u64,
    /// What has to occur because a program is there to be compared.
    of_programs: Vec<String>,
}

fn outcome_name(outcome: u8) -> String {
    format!("outcome {outcome}")
}

fn reply_name(sent: u8, reply: u8) -> String {
    let name = |kind: u8| TYPES.get(usize::from(kind)).copied().unwrap_or("unknown");
    format!("reply {} to {}", name(reply), name(sent))
}

fn code_name(code: u8) -> String {
    let known = CODES.iter().find(|known| known.0 == code);
    known.map_or_else(|| format!("code {code}"), |known| known.1.to_string())
}

fn damage_name(place: usize) -> String {
    let damage = &DAMAGES[place];
    match damage.refusal {
        0 => format!("accepted: {}", damage.name),
        refusal => format!("refused {refusal} for: {}", damage.name),
    }
}

fn named_for(why: &str) -> String {
    format!("name: {why}")
}

fn released_for(why: &str) -> String {
    format!("release: {why}")
}

fn bounded_for(why: String) -> String {
    format!("bounds: {why}")
}

fn held_for(why: String) -> String {
    format!("hold: {why}")
}

fn occupied_for(why: &str) -> String {
    format!("occupancy: {why}")
}

fn ordered_for(why: String) -> String {
    format!("order: {why}")
}

fn halved_for(why: String) -> String {
    format!("halves: {why}")
}

fn read_for(why: String) -> String {
    format!("count: {why}")
}

fn salvaged_for(why: String) -> String {
    format!("salvage: {why}")
}

fn day_for(why: String) -> String {
    format!("van: {why}")
}

fn quarter_for(why: String) -> String {
    format!("report: {why}")
}

fn fault_name(cause: Cause) -> String {
    format!("discard 5 for: {}", cause.name())
}

fn broken_name(cause: Cause) -> String {
    format!("discard 5 where it was broken: {}", cause.name())
}

impl Tally {
    fn add(&mut self, name: String) {
        *self.counts.entry(name).or_default() += 1;
    }

    /// An answered call.
    pub fn call(&mut self, datagram: &[u8], outcome: u8, reply: &[u8]) {
        self.calls += 1;
        self.add(outcome_name(outcome));
        let (Some(&sent), Some(&kind)) = (datagram.get(1), reply.get(1)) else {
            return;
        };
        self.add(reply_name(sent, kind));
        if kind == 6 {
            // Option 16 is the last before End.
            let error = reply[reply.len() - 5];
            self.add(format!("error {error}"));
        }
    }

    /// What a function answered for a whole file or list.
    pub fn code(&mut self, code: u8) {
        self.add(code_name(code));
    }

    /// Why the name of a scope was chosen, or none.
    pub fn named(&mut self, why: &str) {
        self.add(named_for(why));
    }

    /// Why a release was remembered, known or forgotten.
    pub fn released(&mut self, why: &str) {
        self.add(released_for(why));
    }

    /// How a minimum lease or a latest start stood to the period.
    pub fn bounded(&mut self, why: String) {
        self.add(bounded_for(why));
    }

    /// What was judged of an offer that is held.
    pub fn held(&mut self, why: impl Into<String>) {
        self.add(held_for(why.into()));
    }

    /// What was seen of an occupancy board.
    pub fn occupied(&mut self, why: &str) {
        self.add(occupied_for(why));
    }

    /// How a house's records stood by their ending, and what moved.
    pub fn ordered(&mut self, why: String) {
        self.add(ordered_for(why));
    }

    /// What was seen of a call in two halves.
    pub fn halved(&mut self, why: impl Into<String>) {
        self.add(halved_for(why.into()));
    }

    /// What was seen of the records that were read.
    pub fn read(&mut self, why: String) {
        self.add(read_for(why));
    }

    /// What was seen of a file that is salvaged.
    pub fn salvaged(&mut self, why: impl Into<String>) {
        self.add(salvaged_for(why.into()));
    }

    /// The program `van` is there: its days have to show all that they can.
    pub fn expect_days(&mut self) {
        self.of_programs
            .extend(days::counted().into_iter().map(day_for));
    }

    /// What was seen of a day of the van.
    pub fn day(&mut self, why: Vec<String>) {
        why.into_iter().for_each(|why| self.add(day_for(why)));
    }

    /// The program `report` is there, and the same of its quarters.
    pub fn expect_quarters(&mut self) {
        self.of_programs
            .extend(quarters::counted().into_iter().map(quarter_for));
    }

    /// What was seen of a quarter of campus files.
    pub fn quarter(&mut self, why: Vec<String>) {
        why.into_iter().for_each(|why| self.add(quarter_for(why)));
    }

    /// The first fault of a datagram that drew discard 5.
    pub fn fault(&mut self, cause: Cause) {
        self.add(fault_name(cause));
    }

    /// A datagram that was broken at a known place, and drew discard 5 with that offset.
    pub fn broken(&mut self, cause: Cause) {
        self.add(broken_name(cause));
    }

    /// A file that was damaged on purpose, and what it drew.
    pub fn damaged(&mut self, place: usize, refusal: u8) {
        if refusal == DAMAGES[place].refusal {
            self.add(damage_name(place));
        } else {
            self.add(format!("drew {refusal} for: {}", DAMAGES[place].name));
        }
    }

    /// What has to occur in a default run. An unsound file is refused as 21, so discard 1 can't occur.
    fn expected(&self) -> Vec<String> {
        let mut names: Vec<String> = [0, 2, 3, 4, 5, 6, 7, 8].map(outcome_name).to_vec();
        names.extend(REPLIES.map(|(sent, reply)| reply_name(sent, reply)));
        names.extend((0..4).map(|error| format!("error {error}")));
        names.extend(CODES.map(|(code, _)| code_name(code)));
        names.extend(CAUSES.map(fault_name));
        names.extend(CAUSES.map(broken_name));
        names.extend(names::COUNTED.map(named_for));
        names.extend(releases::COUNTED.map(released_for));
        names.extend(bounds::counted().into_iter().map(bounded_for));
        names.extend(judged::counted().into_iter().map(held_for));
        names.extend(occupancy::counted().into_iter().map(occupied_for));
        names.extend(ending::counted().into_iter().map(ordered_for));
        names.extend(halves::counted().into_iter().map(halved_for));
        names.extend(counts::counted().into_iter().map(read_for));
        names.extend(salvage::counted().into_iter().map(salvaged_for));
        names.extend((0..DAMAGES.len()).map(damage_name));
        names.extend(self.of_programs.iter().cloned());
        names
    }

    pub fn never_occurred(&self) -> Vec<String> {
        let mut names = self.expected();
        names.retain(|name| !self.counts.contains_key(name));
        names
    }

    /// A line for each thing that occurred, or should have.
    pub fn lines(&self) -> Vec<String> {
        let expected = self.expected();
        let others = self.counts.keys().filter(|name| !expected.contains(name));
        let mut lines = Vec::new();
        for name in expected.iter().chain(others) {
            lines.push(format!(
                "{:8}  {name}",
                self.counts.get(name).copied().unwrap_or(0)
            ));
            if *name == outcome_name(0) {
                let unsound = self.counts.get(&code_name(21)).copied().unwrap_or(0);
                lines.push(format!(
                    "{:>8}  outcome 1 (book unsound) can't occur through files: refused as 21, {unsound} times",
                    "-"
                ));
            }
        }
        lines
    }
}
