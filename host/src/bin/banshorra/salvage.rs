//! What can be kept of a campus file that is refused as unsound, for the desk.

use crate::args::{Args, Command, Failure};
use crate::files::{contents, read, refused};
use crate::print;
use crate::store::{self, Store};
use banshorra_host::campus::Campus;
use banshorra_host::CampusFile;
use std::path::Path;

pub const COMMAND: Command = Command {
    name: "salvage",
    help: "\
banshorra salvage FILE [NEW]

Says what can be kept of a campus file that is refused as unsound (21), and what has to go: each lease, then each hold, then each remembered release is
kept that leaves the book sound together with those kept before it. Each of the others has a line with the first rule that it breaks.

Nothing is written without NEW. The file of those kept goes to NEW, the old or the new at every instant; FILE is left as it is, unless it is NEW. While a host
serves NEW it is refused: end the host first. Look at the list before: what is dropped is gone from the campus.
",
    flags: &[],
    valued: &[],
    run: salvage,
};

fn salvage(args: &Args) -> Result<(), Failure> {
    let (name, new) = match args.words() {
        [name] => (name, None),
        [name, new] => (name, Some(Path::new(new))),
        _ => return args.usage("a FILE is wanted, and perhaps a NEW one"),
    };
    // Taken before FILE is read, which may be the same.
    let store = new.map(|path| Store::take(path, true)).transpose()?;
    let old = read(name)?;
    let (kept, dropped) =
        CampusFile::salvage(&old).map_err(|refusal| refused(name, &old, refusal))?;
    let campus = |file: &[u8]| {
        Campus::from_octets(file).map_err(|fault| Failure::Refused(fault.to_string()))
    };
    let (before, after) = (campus(&old)?, campus(kept.as_bytes())?);
    let left = contents(&after);
    let mut text = match dropped.len() {
        0 => format!("{name}: sound as it is; {left}\n"),
        number => format!("{name}: {number} dropped; left are {left}\n"),
    };
    for one in &dropped {
        text += &format!("  {}\n", one.in_words(&before));
    }
    if let (Some(path), Some(mut store)) = (new, store) {
        let written = store.keep(kept.as_bytes());
        written.map_err(|error| store::failed(path, error))?;
        text += &format!("{}: written\n", path.display());
    }
    print(&text)
}
