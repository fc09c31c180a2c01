//! What the program crates are held to: it is what the model says now, no sheet is too long, and all refusals and all rules occur.

use model::program::output;
use model::stored::{all, Stored};
use std::path::Path;

/// The crates whose standard input is a sheet, and the kind of a call that prints a text before its line.
const SHEETS: [&str; 2] = ["bench_sheet", "vectors"];
const PRINT: u8 = 11;

/// The room that a sheet has in the programs.
const SHEET_SPACE: usize = 131_072;

fn kept(stored: &Stored, file: &str) -> Vec<u8> {
    let path = Path::new(env!("CARGO_MANIFEST_DIR")).join("../crates").join(stored.name).join(file);
    std::fs::read(&path).unwrap_or_else(|error| panic!("{}: {error}", path.display()))
}

#[test]
fn the_crates_hold_what_the_model_says() {
    for stored in all() {
        assert!(kept(&stored, "stdin") == stored.stdin, "{}/stdin: run `model store`", stored.name);
        assert!(kept(&stored, "stdout") == stored.stdout.as_bytes(), "{}/stdout: run `model store`", stored.name);
        assert!(stored.stdin.len() < SHEET_SPACE, "{}: {} bytes", stored.name, stored.stdin.len());
    }
}

/// The calls of a sheet, each with the line that it prints; what comes before the line of a print is passed over.
fn calls<'a>(sheet: &'a [u8], lines: &'a str) -> Vec<(u8, &'a str)> {
    let mut lines = lines.lines();
    let mut calls = Vec::new();
    let mut at = 0;
    while at < sheet.len() {
        let size = usize::from(u16::from_le_bytes([sheet[at + 1], sheet[at + 2]]));
        let bytes = &sheet[at + 3..at + 3 + size];
        let before = if sheet[at] == PRINT { output(bytes).lines().count() } else { 0 };
        calls.push((sheet[at], lines.nth(before).unwrap_or_else(|| panic!("a line for each call"))));
        at += 3 + size;
    }
    assert_eq!(lines.next(), None, "a call for each line");
    calls
}

#[test]
fn every_refusal_and_every_rule_occurs() {
    let (mut refusals, mut rules) = ([false; 20], [false; 11]);
    for stored in all().iter().filter(|stored| SHEETS.contains(&stored.name)) {
        for (kind, line) in calls(&stored.stdin, &stored.stdout) {
            let reply: Vec<usize> = line.split(' ').take(2).map_while(|word| word.parse().ok()).collect();
            if [1, 3, 4, 5, 6].contains(&kind) {
                refusals[reply[0]] = true;
            }
            if kind == 3 {
                rules[reply[1]] = true;
            }
        }
    }
    assert!(refusals.iter().all(|&occurs| occurs), "{refusals:?}");
    assert!(rules.iter().all(|&occurs| occurs), "{rules:?}");
}
