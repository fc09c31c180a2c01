//! The six calls twice, to be timed against each other: the built library's, and an ordinary Rust version.

#[path = "../../check/src/library.rs"]
pub mod library;
pub mod ordinary;

/// The six calls of one version, as function pointers, so that neither is inlined into what times it.
pub struct Calls {
    pub load: fn(&[u8], &mut [u8]) -> (usize, usize),
    pub statement: fn(&[u8], usize) -> (usize, usize),
    pub step: fn(&mut [u8], usize) -> (usize, usize),
    pub steps: fn(&mut [u8], &[u32]) -> (usize, usize),
    pub map: fn(&[u8], &mut [u8]) -> usize,
    pub write: fn(&[u8], &mut [u8]) -> (usize, usize),
}

pub const LIBRARY: Calls = Calls {
    load: library::load,
    statement: library::statement,
    step: library::step,
    steps: library::steps,
    map: library::map,
    write: library::write,
};

pub const ORDINARY: Calls = Calls {
    load: ordinary::load,
    statement: ordinary::statement,
    step: ordinary::step,
    steps: ordinary::steps,
    map: ordinary::map,
    write: ordinary::write,
};
