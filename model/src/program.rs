//! The map program: what it draws, which places it takes and what it prints for a file on standard input.

use crate::file::Fault;
use crate::map::{self, Map, MAP_LENGTH};
use crate::run::Run;

/// The program's generator.
pub struct Draws {
    x: u32,
}

impl Draws {
    pub fn new() -> Draws {
        Draws { x: 1 }
    }

    /// The next draw; the first is 1,015,568,748.
    pub fn draw(&mut self) -> u32 {
        self.x = self.x.wrapping_mul(1_664_525).wrapping_add(1_013_904_223);
        self.x
    }
}

impl Default for Draws {
    fn default() -> Draws {
        Draws::new()
    }
}

/// The first place from `place` on, going round, whose item does not wait; the pending count when all wait.
pub fn first_ready(run: &Run, place: usize) -> usize {
    let count = run.items().len();
    (0..count)
        .map(|further| (place % count + further) % count)
        .find(|&candidate| !run.waits(candidate))
        .unwrap_or(count)
}

/// Takes drawn places until the run clashes or has nothing pending, and gives them in order. A run from an accepted
/// file always has a ready place and is never refused; a run made by hand stops at its first refusal.
pub fn run_to_end(run: &mut Run) -> Vec<u32> {
    let mut draws = Draws::new();
    let mut places = Vec::new();
    while run.clash().is_none() && !run.items().is_empty() {
        let drawn = draws.draw() / 65_536;
        let place = first_ready(run, drawn as usize % run.items().len());
        if run.step(place).is_err() {
            break;
        }
        places.push(place as u32);
    }
    places
}

/// The places the program takes for this input, or why it refuses it.
pub fn places(input: &[u8]) -> Result<Vec<u32>, Fault> {
    Run::load(input).map(|mut run| run_to_end(&mut run))
}

/// What the program prints when this is the whole of its standard input.
pub fn output(input: &[u8]) -> String {
    let mut run = match Run::load(input) {
        Ok(run) => run,
        Err(fault) => return format!("refused {} at {}\n", fault.number, fault.position),
    };
    run_to_end(&mut run);
    if run.clash().is_some() {
        return "clash\n".to_string();
    }
    match map::of_run(&run) {
        Ok(map) => lines(run.unknowns(), &map),
        Err(number) => format!("refused {number} at 0\n"),
    }
}

/// The lines of a map: the number of items, then one line for each unknown.
fn lines(v: u8, map: &Map) -> String {
    let mut text = format!("items {v}\n");
    for (x, row) in map.chunks(MAP_LENGTH / 32).take(usize::from(v)).enumerate() {
        text += &format!("{x} {}", row[0]);
        if row[1] == 0 {
            text += " open";
        } else {
            let symbol = u32::from_le_bytes([row[2], row[3], row[4], row[5]]);
            text += &format!(" plate {symbol}");
            for part in &row[7..7 + usize::from(row[6])] {
                text += &format!(" {part}");
            }
        }
        text += "\n";
    }
    text
}
