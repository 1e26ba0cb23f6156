//! Programs that are compared by running them, where they stand: in target/bin, or in the folder that BANSHORRA_BIN names.

use crate::compare::Difference;
use std::ffi::OsStr;
use std::io::Write;
use std::path::PathBuf;
use std::process::{Command, Stdio};

/// A program that is there.
#[derive(Clone, Debug)]
pub struct Program(PathBuf);

impl Program {
    /// None where it hasn't been built.
    pub fn find(name: &str) -> Option<Program> {
        let usual = concat!(env!("CARGO_MANIFEST_DIR"), "/../../target/bin");
        let folder = std::env::var_os("BANSHORRA_BIN").unwrap_or_else(|| usual.into());
        let path = PathBuf::from(folder).join(name);
        path.is_file().then_some(Program(path))
    }

    /// What it prints for some arguments and its standard input. It has to end well, whatever it is given.
    pub fn run(
        &self,
        arguments: &[impl AsRef<OsStr>],
        input: &[u8],
    ) -> Result<Vec<u8>, Difference> {
        let failed = |why: &dyn std::fmt::Display| format!("{}: {why}", self.0.display());
        let mut child = Command::new(&self.0)
            .args(arguments)
            .stdin(Stdio::piped())
            .stdout(Stdio::piped())
            .spawn()
            .map_err(|why| failed(&why))?;
        // One that refuses need not read all of its input, and then there is nobody to write to.
        let mut stdin = child.stdin.take().expect("it is piped");
        let input = input.to_vec();
        let writer = std::thread::spawn(move || {
            let _ = stdin.write_all(&input);
        });
        let output = child.wait_with_output().map_err(|why| failed(&why))?;
        let _ = writer.join();
        match output.status.success() {
            true => Ok(output.stdout),
            false => Err(failed(&output.status)),
        }
    }
}
