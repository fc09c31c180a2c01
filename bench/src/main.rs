//! Prints the times of the library's calls and of the map program, each against the ordinary version, and how they grow. Its one
//! word is the path of the map program.

mod calls;
mod growth;
mod inputs;
mod programs;
mod table;
mod timing;

use growth::Cost;
use model::samples;
use std::path::Path;
use table::Table;
use timing::Times;

fn main() -> std::io::Result<()> {
    let mapper = std::env::args().nth(1).expect("the path of the map program");
    println!("Medians. A ratio is the library's time to the ordinary version's, on the same input, one right after the other.\n");
    let table = Table::new(&[("call", 42), ("library", 10), ("ordinary", 10), ("ratio", 5)]);
    let row = |name: &str, times: Times| {
        let ratio = format!("{:.1}", times.ratio);
        table.row(&[name.to_string(), shown(times.library), shown(times.ordinary), ratio]);
    };
    calls::table(row);
    map_programs(Path::new(&mapper), row)?;
    println!("\nThe library's time as sizes grow, and its ratio. The list is the whole drawn run.\n");
    let sizes = [("E", 2), ("S", 1), ("V", 2), ("steps", 6)];
    let times = [("load", 15), ("list", 15), ("map", 16), ("write", 15)];
    let table = Table::new(&[sizes, times].concat());
    growth::table(|cost| table.row(&cells(&cost)));
    Ok(())
}

/// A row of the second table.
fn cells(cost: &Cost) -> Vec<String> {
    let Cost { e, s, v, steps, load, list, map, write } = cost;
    let sizes = [usize::from(*e), usize::from(*s), usize::from(*v), *steps].map(|size| size.to_string());
    let times = [load, list, map, write].map(|times| format!("{} ({:.1})", shown(times.library), times.ratio));
    [sizes, times].concat()
}

/// The map program's rows. The programs read their files from beside this one, in cargo's own folder.
fn map_programs(mapper: &Path, row: impl Fn(&str, Times)) -> std::io::Result<()> {
    let here = std::env::current_exe()?;
    let ordinary = here.with_file_name("ordinary_map");
    let input = here.with_file_name("input");
    let files = [
        ("map program, the ring", samples::RING.to_vec()),
        ("map program, the longest file", samples::longest()),
        ("map program, permuted records", inputs::permuted(32)),
    ];
    for (name, bytes) in files {
        std::fs::write(&input, bytes)?;
        row(name, programs::in_turns(mapper, &ordinary, &input)?);
    }
    std::fs::remove_file(&input)
}

/// A time with a unit that leaves one to three digits before the point.
fn shown(nanoseconds: f64) -> String {
    match nanoseconds {
        n if n < 1e3 => format!("{n:.0} ns"),
        n if n < 1e6 => format!("{:.1} µs", n / 1e3),
        n => format!("{:.2} ms", n / 1e6),
    }
}
