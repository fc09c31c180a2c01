//! The six calls of Sceolandra for Rust: load a statement file into a run, carry out steps, read the map, write the
//! file.
//!
//! The calls are proved to reply as document 01 says, for every input. This crate is their safe face and adds no rule
//! of its own: a [`Run`] has the right length by its type, refusals and rules have names, and nothing here panics,
//! whatever bytes a file or a run holds.
//!
//! The ring file of document 01 has one cabinet, two unknowns and two records with the symbol 7, and says that 0 = 7(0)
//! and 1 = 7(1). Both look the same to any depth, so 0 and 1 are the same item:
//!
//! ```
//! use sceolandra::{Kind, Refusal, Run};
//!
//! let file = [1, 2, 2, 7, 1, 0, 7, 1, 1, 2, 0, 0, 2, 0, 1, 3];
//! let mut run = Run::load(&file)?;
//!
//! // The map is the same in every order of steps. The simplest takes the first place that does not wait.
//! while run.clash().is_none() && run.pending() > 0 {
//!     let ready = (0..run.pending()).find_map(|place| match run.step(place) {
//!         Err(Refusal::Waits) => None,
//!         taken => Some(taken),
//!     });
//!     ready.unwrap_or(Err(Refusal::Waits))?;
//! }
//!
//! let map = run.map()?;
//! for row in map.rows().take(run.unknowns()) {
//!     assert_eq!(row.lowest_same_item(), 0);
//!     assert_eq!(row.kind(), Kind::Record);
//!     assert_eq!(row.symbol(), 7);
//!     assert_eq!(row.parts(), [0]);
//! }
//! # Ok::<(), Box<dyn std::error::Error>>(())
//! ```
//!
//! Who holds the buffers in some other way, as in memory shared with the cabinets, uses [`calls`], which take slices.

#![warn(missing_docs)]

pub mod calls;
mod map;
mod numbered;
mod refusal;
mod rule;
mod run;

pub use calls::statement;
pub use map::{Kind, Map, Row, MAP_BYTES, MAP_ROWS, ROW_BYTES};
pub use refusal::{LoadRefused, Refusal, StepsRefused};
pub use rule::Rule;
pub use run::{Run, RUN_BYTES};
