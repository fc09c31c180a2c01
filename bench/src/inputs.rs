//! The files and runs that the calls are timed on.

use model::program::first_ready;
use model::rng::Rng;
use model::run::RUN_LENGTH;
use model::{file, program, samples, steps, File, Record, Run, Statement};

/// A file and its run at a moment, with the places that come next.
pub struct Moment {
    pub run: Vec<u8>,
    pub places: Vec<u32>,
}

pub fn loaded(bytes: &[u8]) -> Vec<u8> {
    let mut run = vec![0; RUN_LENGTH];
    assert_eq!(model::load(bytes, &mut run), (0, 0), "an accepted file");
    run
}

/// The run of a file as loaded, and the map program's places to its end.
pub fn drawn(bytes: &[u8]) -> Moment {
    Moment { run: loaded(bytes), places: program::places(bytes).expect("an accepted file") }
}

/// The run of a file at its end.
pub fn ended(bytes: &[u8]) -> Vec<u8> {
    let Moment { mut run, places } = drawn(bytes);
    steps(&mut run, &places);
    run
}

/// The longest file's run when its list first holds `count` items, and the next `most` places, drawn at random.
pub fn crowded(count: usize, most: usize) -> Moment {
    let mut run = Run::load(&samples::longest()).expect("an accepted file");
    for place in samples::growing_places(&samples::longest()) {
        if run.items().len() >= count {
            break;
        }
        run.step(place as usize).expect("a ready place");
    }
    assert!(run.items().len() >= count, "the list grows to {count}");
    let bytes = run.to_bytes();
    let mut rng = Rng::new(3);
    let draw = |_| {
        let place = first_ready(&run, rng.below(run.items().len()));
        run.step(place).expect("a ready place");
        place as u32
    };
    let places = (0..most).map(draw).collect();
    Moment { run: bytes, places }
}

/// Records whose four parts are permutations of v unknowns, each equated with one: agreement nests deep.
pub fn permuted(v: u8) -> Vec<u8> {
    let mut rng = Rng::new(4);
    let mut parts: Vec<Vec<u8>> = vec![(0..v).collect(); 4];
    parts.iter_mut().for_each(|list| rng.shuffle(list));
    let parts_of = |i: u8| parts.iter().map(|list| list[usize::from(i)]).collect();
    let records = (0..v).map(|i| Record { symbol: 7, parts: parts_of(i) }).collect();
    let statements = (0..v).map(|i| Statement { cabinet: i % 8, left: i, right: v + i }).collect();
    file::write(&File { s: 8, v, records, statements })
}

/// A file of the longest one's kind with these sizes: unknown i is record i, whose parts are its neighbours; two records
/// of that kind are equated; over and over until there are e statements.
pub fn sized(s: u8, v: u8, e: u8) -> Vec<u8> {
    let parts = |i: u8| vec![(i + 1) % v, if i < 2 { (1 - i) % v } else { i }, (i + v - 1) % v, (i + 1) % v];
    let record = |i: u8| Record { symbol: u32::MAX, parts: parts(i % v) };
    let records = (0..v).map(record).chain((0..v).map(|i| record(7 * i + 3))).collect();
    let statement = |k: u8| {
        let (i, cabinet) = (k % v, k % s);
        // Whether this is a round of unknowns with records, or one of records with records.
        let first = if (k / v).is_multiple_of(2) { 0 } else { v };
        Statement { cabinet, left: first + i, right: first + v + i }
    };
    file::write(&File { s, v, records, statements: (0..e).map(statement).collect() })
}
