//! Steps and lists of steps of runs from files: one at a time, as lists that stop at each refusal, and to the end.

use crate::held::{dirty, pending, Held};
use model::program::first_ready;
use model::rng::Rng;
use model::{file, samples, Run};

pub fn hold(held: &mut Held) {
    one_at_a_time(held);
    lists(held);
    lists_that_stop(held);
}

/// Ready places drawn at random until the run ends or there are `most`, carried out on the model's run.
pub fn random_order(rng: &mut Rng, run: &mut Run, most: usize) -> Vec<u32> {
    let mut places = Vec::new();
    while run.clash().is_none() && !run.items().is_empty() && places.len() < most {
        let place = first_ready(run, rng.below(run.items().len()));
        if run.step(place).is_err() {
            break;
        }
        places.push(place as u32);
    }
    places
}

/// Steps at any places, refused ones too, with maps and writes on the way.
fn one_at_a_time(held: &mut Held) {
    let mut rng = held.kind("steps");
    for _ in 0..held.rounds(250) {
        let bytes = file::write(&samples::random_file(&mut rng));
        let (_, mut run) = held.load(&bytes, &dirty());
        for _ in 0..40 {
            let place = rng.below(pending(&run) + 1);
            (_, run) = held.step(&run, place);
            if rng.one_in(10) {
                held.map(&run);
                held.write(&run);
            }
        }
    }
}

/// Lists at any places, one after another: most stop early.
fn lists(held: &mut Held) {
    let mut rng = held.kind("lists at any places");
    for _ in 0..held.rounds(250) {
        let bytes = file::write(&samples::random_file(&mut rng));
        let (_, mut run) = held.load(&bytes, &dirty());
        for _ in 0..10 {
            let places: Vec<u32> = (0..rng.below(8)).map(|_| rng.below(pending(&run) + 1) as u32).collect();
            (_, run) = held.steps(&run, &places);
        }
    }
}

/// Lists that are carried out up to a place that is refused, by 13, 14 or 15, with ready places after it.
fn lists_that_stop(held: &mut Held) {
    let mut rng = held.kind("lists that stop");
    for _ in 0..held.rounds(900) {
        let bytes = file::write(&samples::random_file(&mut rng));
        let (_, loaded) = held.load(&bytes, &dirty());
        let Ok(mut run) = Run::load(&bytes) else {
            held.differ("a file of the samples is refused");
        };
        let most = rng.below(60);
        let mut places = random_order(&mut rng, &mut run, most);
        let count = run.items().len();
        let waiting = (0..count).find(|&place| run.waits(place));
        let (number, place) = match (run.clash(), waiting) {
            (Some(_), _) => (15, 0),
            (None, Some(place)) if !rng.one_in(3) => (14, place),
            (None, _) => (13, [count, count + 1, u32::MAX as usize][rng.below(3)]),
        };
        let done = places.len();
        places.extend([place as u32, 0, 0]);
        let (reply, after) = held.steps(&loaded, &places);
        held.same(reply, (number, done), || format!("a list that stops, {bytes:02x?}"));
        held.same(after == run.to_bytes(), true, || format!("what a list that stops leaves, {bytes:02x?}"));
    }
}
