//! The map program's text for a file: loaded, run to its end at drawn places, mapped.

use super::files::load;
use super::layout::{pending, MAP_BYTES, RUN_BYTES};
use super::rules::{take, waits};
use std::fmt::Write;

/// What the map program prints when this is its standard input.
pub fn output(input: &[u8]) -> String {
    let mut run = vec![0; RUN_BYTES];
    let (number, position) = load(input, &mut run);
    if number != 0 {
        return format!("refused {number} at {position}\n");
    }
    run_to_end(&mut run);
    let mut map = [0; MAP_BYTES];
    if super::map(&run, &mut map) != 0 {
        return "clash\n".to_string();
    }
    lines(&map, usize::from(run[3]))
}

fn run_to_end(run: &mut [u8]) {
    let mut x: u32 = 1;
    while run[0] == 0 && pending(run) > 0 {
        x = x.wrapping_mul(1_664_525).wrapping_add(1_013_904_223);
        let count = pending(run);
        let drawn = (x / 65_536) as usize % count;
        let Some(place) = (drawn..count).chain(0..drawn).find(|&place| !waits(run, place)) else {
            return;
        };
        if take(run, place).is_err() {
            return;
        }
    }
}

fn lines(map: &[u8], v: usize) -> String {
    let mut text = format!("items {v}\n");
    for (x, row) in map.chunks_exact(11).take(v).enumerate() {
        // Writing to a string does not fail.
        let _ = write!(text, "{x} {}", row[0]);
        if row[1] == 0 {
            text.push_str(" open");
        } else {
            let _ = write!(text, " plate {}", u32::from_le_bytes([row[2], row[3], row[4], row[5]]));
            for part in &row[7..7 + usize::from(row[6])] {
                let _ = write!(text, " {part}");
            }
        }
        text.push('\n');
    }
    text
}
