//! Maps: of runs taken to their ends in different orders, of the same statements told in other ways, of the statements alone, and
//! of runs made by hand.

use crate::held::{dirty, Held};
use crate::lists::random_order;
use model::map::from_statements;
use model::rng::Rng;
use model::{file, samples, File, Record, Run, Statement};

pub fn hold(held: &mut Held) {
    of_statements(held);
    at_the_limits(held);
    by_hand(held);
}

/// The run of a file taken to its end in a random order by the library: the list, what it leaves and the map or the clash
/// are the model's, and those of the statements alone.
fn to_the_end(held: &mut Held, rng: &mut Rng, bytes: &[u8]) {
    let Ok(expected) = from_statements(bytes) else {
        held.differ("a file of the samples is refused");
    };
    let (_, loaded) = held.load(bytes, &dirty());
    let Ok(mut run) = Run::load(bytes) else {
        held.differ("a file of the samples is refused");
    };
    let places = random_order(rng, &mut run, usize::MAX);
    let (_, ended) = held.steps(&loaded, &places);
    held.same(ended == run.to_bytes(), true, || format!("the run of {bytes:02x?} at its end"));
    let (number, map) = held.map(&ended);
    let what = || format!("the map of the statements of {bytes:02x?}");
    match expected {
        Some(expected) => held.same((number, map), (0, expected.to_vec()), what),
        None => held.same(number, 15, what),
    }
}

/// One map for a file in two orders, and for two retellings of it: shuffled, some statements twice, at other cabinets.
fn of_statements(held: &mut Held) {
    let mut rng = held.kind("maps in random orders, retold, and of the statements");
    for _ in 0..held.rounds(700) {
        let said = samples::random_file(&mut rng);
        let bytes = file::write(&said);
        let Ok(expected) = from_statements(&bytes) else {
            held.differ("a file of the samples is refused");
        };
        to_the_end(held, &mut rng, &bytes);
        to_the_end(held, &mut rng, &bytes);
        for _ in 0..2 {
            let retold = file::write(&samples::retold(&mut rng, &said));
            held.same(from_statements(&retold), Ok(expected), || format!("retold {retold:02x?}"));
            to_the_end(held, &mut rng, &retold);
        }
    }
}

/// The largest files, and those whose agreement goes deepest.
fn at_the_limits(held: &mut Held) {
    let mut rng = held.kind("maps at the limits");
    let mut files = vec![samples::longest()];
    files.extend([0, 29, 30, 31].map(samples::deep));
    files.extend((0..held.rounds(6)).map(|_| permuted(&mut rng)));
    for bytes in files {
        to_the_end(held, &mut rng, &bytes);
    }
}

/// Records whose four parts are permutations of the 32 unknowns: agreement nests deep.
pub fn permuted(rng: &mut Rng) -> Vec<u8> {
    let mut parts: Vec<Vec<u8>> = vec![(0..32).collect(); 4];
    parts.iter_mut().for_each(|list| rng.shuffle(list));
    let records = (0..32).map(|i| Record { symbol: 7, parts: parts.iter().map(|list| list[i]).collect() }).collect();
    let statements = (0..32).map(|i| Statement { cabinet: i % 8, left: i, right: 32 + i }).collect();
    file::write(&File { s: 8, v: 32, records, statements })
}

/// Owner marks made by hand: chains that no run leaves.
fn by_hand(held: &mut Held) {
    let mut rng = held.kind("maps by hand");
    for _ in 0..held.rounds(1500) {
        let run = samples::hand_made(&mut rng);
        if run.items().is_empty() {
            held.map(&run.to_bytes());
        } else if rng.one_in(4) {
            // With nothing pending, so that the marks are looked at.
            let mut bytes = run.to_bytes();
            bytes[0..2].fill(0);
            bytes[6..8].fill(0);
            bytes[9064..].fill(0);
            held.map(&bytes);
        }
    }
}
