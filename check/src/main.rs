//! Holds the six calls of the built library against the second model: every reply and every lent byte, on files, runs, lists, maps
//! and writes drawn from a seed, damaged ones among them. Words: `quick` (as with none) or `long`, and `--seed N`.

mod files;
mod held;
mod library;
mod lists;
mod maps;
mod runs;
mod stack;
mod writes;

use held::Held;
use std::process::ExitCode;
use std::time::Instant;

/// The seed when none is given: each run of the gate makes the same calls.
const SEED: u64 = 20_261_115;

fn main() -> ExitCode {
    let words: Vec<String> = std::env::args().skip(1).collect();
    let words: Vec<&str> = words.iter().map(String::as_str).collect();
    let Some((seed, long)) = asked(&words) else {
        eprintln!("usage: check/run [quick|long] [--seed N]");
        return ExitCode::from(2);
    };
    let started = Instant::now();
    let mut held = Held::new(seed, long);
    println!("seed {seed}");
    files::hold(&mut held);
    runs::hold(&mut held);
    lists::hold(&mut held);
    maps::hold(&mut held);
    writes::hold(&mut held);
    stack::hold(&mut held);
    held.close();
    report(&held);
    println!("{:.1} s", started.elapsed().as_secs_f64());
    ExitCode::SUCCESS
}

/// The seed, and whether the long mode is asked for; nothing for other words.
fn asked(words: &[&str]) -> Option<(u64, bool)> {
    match words {
        [] => Some((SEED, false)),
        ["quick", rest @ ..] => asked(rest).map(|(seed, _)| (seed, false)),
        ["long", rest @ ..] => asked(rest).map(|(seed, _)| (seed, true)),
        ["--seed", seed, rest @ ..] => asked(rest).and_then(|(_, long)| Some((seed.parse().ok()?, long))),
        _ => None,
    }
}

/// How often each number was given, and how many comparisons there were. A number never given is a gap in the samples, and
/// as bad as a difference.
fn report(held: &Held) {
    let numbers = held.numbers().iter().enumerate();
    let given: Vec<String> = numbers.map(|(number, count)| format!("{number}: {count}")).collect();
    println!("numbers given, {}", given.join(", "));
    if let Some(number) = held.numbers().iter().position(|&count| count == 0) {
        held.differ(&format!("no call gave {number}"));
    }
    println!("{} comparisons, no difference", held.kinds().iter().map(|(_, count)| count).sum::<u64>());
}
