//! How cost grows with E, S and V: files of one kind, one size changed at a time.

use crate::calls::{list, load, map, write};
use crate::inputs::{drawn, ended, loaded, sized};
use crate::timing::Times;

/// S, V and E of each row: at the largest limits but for one.
const SIZES: [(u8, u8, u8); 12] = [
    (8, 32, 8),
    (8, 32, 16),
    (8, 32, 32),
    (8, 32, 64),
    (1, 32, 64),
    (2, 32, 64),
    (4, 32, 64),
    (8, 32, 64),
    (8, 4, 64),
    (8, 8, 64),
    (8, 16, 64),
    (8, 32, 64),
];

/// What a file of these sizes costs.
pub struct Cost {
    pub s: u8,
    pub v: u8,
    pub e: u8,
    /// How many steps its drawn run has.
    pub steps: usize,
    pub load: Times,
    pub list: Times,
    pub map: Times,
    pub write: Times,
}

/// Each row, as it is made.
pub fn table(mut row: impl FnMut(Cost)) {
    for (s, v, e) in SIZES {
        let bytes = sized(s, v, e);
        let run = drawn(&bytes);
        row(Cost {
            s,
            v,
            e,
            steps: run.places.len(),
            load: load(&bytes),
            list: list(&run.run, &run.places, 51),
            map: map(&ended(&bytes), 101),
            write: write(&loaded(&bytes)),
        });
    }
}
