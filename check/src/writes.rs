//! Writing: there and back for each file, and 19 for what is not as loaded.

use crate::held::{dirty, Held};
use crate::lists::random_order;
use model::file::LONGEST_FILE;
use model::{file, samples, Run};

pub fn hold(held: &mut Held) {
    there_and_back(held);
    after_steps(held);
}

/// A file is loaded and written: the same bytes and then zeros, and loading those leaves the same run.
fn there_and_back(held: &mut Held) {
    let mut rng = held.kind("writes there and back");
    let mut files = vec![samples::rich(), samples::longest(), vec![1, 0, 0, 0], samples::RING.to_vec()];
    files.extend((0..held.rounds(1500)).map(|_| file::write(&samples::random_file(&mut rng))));
    for bytes in files {
        let (_, run) = held.load(&bytes, &dirty());
        let (reply, written) = held.write(&run);
        let mut expected = bytes.clone();
        expected.resize(LONGEST_FILE, 0);
        held.same((reply, written), ((0, bytes.len()), expected), || format!("written {bytes:02x?}"));
        let (_, again) = held.load(&bytes, &run);
        held.same(again == run, true, || format!("loaded again {bytes:02x?}"));
    }
}

/// Runs after a few steps: as loaded only where the steps led back to what some file leaves.
fn after_steps(held: &mut Held) {
    let mut rng = held.kind("writes after steps");
    for _ in 0..held.rounds(700) {
        let bytes = file::write(&samples::random_file(&mut rng));
        let Ok(mut run) = Run::load(&bytes) else {
            held.differ("a file of the samples is refused");
        };
        for _ in 0..3 {
            random_order(&mut rng, &mut run, 1);
            let lent = run.to_bytes();
            let ((number, length), written) = held.write(&lent);
            if number == 0 {
                let (_, again) = held.load(&written[..length], &dirty());
                held.same(again == lent, true, || format!("loaded after steps {bytes:02x?}"));
            }
        }
    }
}
