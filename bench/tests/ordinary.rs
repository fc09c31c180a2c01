//! The ordinary version held against the second model, by the comparisons that `check` makes of the library.

#[path = "../../check/src/files.rs"]
mod files;
#[path = "../../check/src/held.rs"]
mod held;
#[path = "../../check/src/lists.rs"]
mod lists;
#[path = "../../check/src/maps.rs"]
mod maps;
#[path = "../../check/src/runs.rs"]
mod runs;
#[path = "../../check/src/writes.rs"]
mod writes;

/// The calls that the comparisons call the library's.
mod library {
    pub use bench::ordinary::{load, map, statement, step, steps, write};
}

use model::rng::Rng;
use model::{file, program, samples};

#[test]
fn the_calls_are_the_models() {
    let mut held = held::Held::new(1, false);
    files::hold(&mut held);
    runs::hold(&mut held);
    lists::hold(&mut held);
    maps::hold(&mut held);
    writes::hold(&mut held);
    assert!(held.kinds().iter().all(|&(_, count)| count > 0));
    assert!(held.numbers().iter().all(|&count| count > 0));
}

#[test]
fn the_map_program_prints_the_models_text() {
    let mut rng = Rng::new(2);
    let mut inputs = vec![samples::rich(), samples::longest(), samples::RING.to_vec(), samples::CLASH.to_vec(), vec![]];
    inputs.extend((0..300).map(|_| file::write(&samples::random_file(&mut rng))));
    for input in inputs {
        assert_eq!(bench::ordinary::output(&input), program::output(&input));
        let damaged = input.get(1..).unwrap_or(&[0]);
        assert_eq!(bench::ordinary::output(damaged), program::output(damaged));
    }
}
