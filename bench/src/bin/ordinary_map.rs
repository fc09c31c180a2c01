//! The map program in its ordinary version, as a process of its own.

use std::io::{Read, Write};

fn main() -> std::io::Result<()> {
    let mut input = Vec::new();
    std::io::stdin().read_to_end(&mut input)?;
    std::io::stdout().write_all(bench::ordinary::output(&input).as_bytes())
}
