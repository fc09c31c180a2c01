//! Prints the map program's output for a file, or writes what the program crates are held to.

use std::io::{self, Write};
use std::path::Path;
use std::process::ExitCode;

fn main() -> ExitCode {
    let arguments: Vec<String> = std::env::args().skip(1).collect();
    let words: Vec<&str> = arguments.iter().map(String::as_str).collect();
    let done = match words[..] {
        ["print", path] => print(path),
        ["store", crates] => store(Path::new(crates)),
        _ => Err("usage: model print FILE | model store CRATES".to_string()),
    };
    match done {
        Ok(()) => ExitCode::SUCCESS,
        Err(message) => {
            eprintln!("{message}");
            ExitCode::FAILURE
        }
    }
}

/// What the map program prints of a file.
fn print(path: &str) -> Result<(), String> {
    let input = std::fs::read(path).map_err(|error| format!("{path}: {error}"))?;
    io::stdout().write_all(model::program::output(&input).as_bytes()).map_err(|error| error.to_string())
}

/// Writes `stdin` and `stdout` of each program crate.
fn store(crates: &Path) -> Result<(), String> {
    for stored in model::stored::all() {
        for (file, bytes) in [("stdin", &stored.stdin[..]), ("stdout", stored.stdout.as_bytes())] {
            let path = crates.join(stored.name).join(file);
            std::fs::write(&path, bytes).map_err(|error| format!("{}: {error}", path.display()))?;
        }
    }
    Ok(())
}
