//! An ordinary Rust version of the six calls and the map program, to time the library against: in place on the same bytes, with the
//! same checks and nothing proved.

mod agreement;
mod files;
mod layout;
mod program;
mod rules;
mod soundness;

pub use agreement::map;
pub use files::{load, statement, write};
pub use program::output;
pub use rules::{step, steps};
