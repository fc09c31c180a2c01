//! The map program against the ordinary one, each a whole process: started, given the file, waited for.

use crate::timing::{nanoseconds, Times};
use std::fs::File;
use std::io;
use std::path::Path;
use std::process::{Command, Stdio};

const ROUNDS: usize = 101;

/// What a program prints for the file at `input`.
fn printed(program: &Path, input: &Path) -> io::Result<Vec<u8>> {
    let output = Command::new(program).stdin(Stdio::from(File::open(input)?)).output()?;
    Ok(output.stdout)
}

/// The two programs in turns on the file at `input`; they must print the same.
pub fn in_turns(mapper: &Path, ordinary: &Path, input: &Path) -> io::Result<Times> {
    assert!(printed(mapper, input)? == printed(ordinary, input)?, "both programs print the same");
    let round = |_| (nanoseconds(|| printed(mapper, input)), nanoseconds(|| printed(ordinary, input)));
    Ok(Times::of(&(0..ROUNDS).map(round).collect::<Vec<_>>()))
}
