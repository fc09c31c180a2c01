//! The map in a small stack: the deepest nesting of agreement that is known, in a thread with 1 MiB.

use crate::held::Held;
use crate::library;
use crate::maps::permuted;
use model::map::MAP_LENGTH;
use model::run::RUN_LENGTH;
use model::{map, program, run, step};

pub fn hold(held: &mut Held) {
    let mut rng = held.kind("maps in 1 MiB of stack");
    for _ in 0..held.rounds(50) {
        let bytes = permuted(&mut rng);
        let Ok(places) = program::places(&bytes) else {
            held.differ("a file of permuted records is refused");
        };
        let (mut ended, mut expected) = (vec![0; RUN_LENGTH], vec![7; MAP_LENGTH]);
        run::load(&bytes, &mut ended);
        step::steps(&mut ended, &places);
        let number = map(&ended, &mut expected);
        held.same(number, 0, || "a run of permuted records has come to its end".to_string());
        let what = format!("the map of permuted records {bytes:02x?}");
        held.same(mapped_in_a_small_stack(bytes, places), (number, expected), || what.clone());
    }
}

/// The file's run to its end and its map, by the library alone, in a thread with 1 MiB of stack.
fn mapped_in_a_small_stack(bytes: Vec<u8>, places: Vec<u32>) -> (usize, Vec<u8>) {
    let calls = move || {
        let (mut run, mut map) = (vec![0; RUN_LENGTH], vec![7; MAP_LENGTH]);
        library::load(&bytes, &mut run);
        library::steps(&mut run, &places);
        (library::map(&run, &mut map), map)
    };
    std::thread::Builder::new().stack_size(1 << 20).spawn(calls).expect("a thread").join().expect("1 MiB is enough")
}
