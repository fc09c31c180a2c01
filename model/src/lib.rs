//! A second model of document 01, written from the document alone: it says what every public call must
//! reply and leave behind, slowly and plainly, so that another implementation can be held against it.
//!
//! The six public calls of the library are at the root, over lent bytes: [`load`], [`statement`], [`step()`],
//! [`steps`], [`map()`] and [`write`]. Each is total: it gives a reply for every input and never panics.
//! Inside, a run is the structured [`Run`], which steps in place and is fast enough for the longest runs.

pub mod alike;
pub mod file;
pub mod map;
pub mod numbers;
pub mod program;
pub mod refusal;
pub mod rng;
pub mod run;
pub mod samples;
pub mod sheets;
pub mod step;
pub mod stored;

pub use file::{statement, Fault, File, Record, Statement};
pub use map::map;
pub use run::{load, sound, write, Item, Mark, Run};
pub use step::{step, steps, Rule};
