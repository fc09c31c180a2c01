//! The table of calls: each timed on small and on the largest inputs.

use crate::inputs::{crowded, drawn, ended, loaded, permuted, Moment};
use crate::timing::{in_turns, nanoseconds, Times};
use model::file::LONGEST_FILE;
use model::map::MAP_LENGTH;
use model::run::RUN_LENGTH;
use model::samples;

/// How often a call that takes less than a few microseconds is made for one time.
const BATCH: usize = 50;

/// Each row's name and times, as they are made.
pub fn table(mut row: impl FnMut(&str, Times)) {
    let longest = samples::longest();
    row("load, 16 bytes", load(samples::RING));
    row("load, 836 bytes", load(&longest));
    row("load, refused at byte 835", load(&longest[..835]));
    row("statement 0 of 2", statement(samples::RING, 0));
    row("statement 63 of 64", statement(&longest, 63));
    let crowd = crowded(12_000, 400);
    let midway = Moment { places: drawn(&longest).places[..400].to_vec(), run: loaded(&longest) };
    row("step, 64 pending", step(&loaded(&longest), 0));
    row("step, 12,000 pending, in the middle", step(&crowd.run, ready(&crowd)));
    row("step, refused (17) at the last byte", step(&damaged(&crowd.run), 0));
    row("list, empty, 64 pending", list(&loaded(&longest), &[], 400));
    row("list, empty, 12,000 pending", list(&crowd.run, &[], 400));
    row("list, 400 drawn places from the start", list(&midway.run, &midway.places, 300));
    let whole = drawn(&longest);
    row(&format!("list, all {} drawn places", whole.places.len()), list(&whole.run, &whole.places, 21));
    row("list, 400 places, 12,000 pending", list(&crowd.run, &crowd.places, 101));
    row("map, V 2 (ring)", map(&ended(samples::RING), 400));
    row("map, V 32, open", map(&ended(&[1, 32, 0, 0]), 400));
    row("map, V 32, a chain of 31 records", map(&ended(&samples::deep(31)), 200));
    row("map, V 32, the longest file", map(&ended(&longest), 200));
    row("map, V 32, permuted records", map(&ended(&permuted(32)), 101));
    row("write, 16 bytes", write(&loaded(samples::RING)));
    row("write, 836 bytes", write(&loaded(&longest)));
}

/// A ready place in the middle of the list: a drawn one is ready for the first step alone.
fn ready(moment: &Moment) -> usize {
    moment.places[0] as usize
}

/// A run that is not sound in its last byte.
fn damaged(run: &[u8]) -> Vec<u8> {
    let mut run = run.to_vec();
    run[RUN_LENGTH - 1] = 1;
    run
}

pub fn load(bytes: &[u8]) -> Times {
    let mut run = vec![0; RUN_LENGTH];
    in_turns(2000, |calls| {
        run.fill(7);
        nanoseconds(|| (calls.load)(bytes, &mut run))
    })
}

fn statement(bytes: &[u8], n: usize) -> Times {
    in_turns(500, |calls| {
        let batch = || (0..BATCH).map(|_| (calls.statement)(std::hint::black_box(bytes), n).0).sum::<usize>();
        nanoseconds(batch) / BATCH as f64
    })
}

fn step(before: &[u8], place: usize) -> Times {
    let mut run = before.to_vec();
    in_turns(1000, |calls| {
        run.copy_from_slice(before);
        nanoseconds(|| (calls.step)(&mut run, place))
    })
}

pub fn list(before: &[u8], places: &[u32], rounds: usize) -> Times {
    let mut run = before.to_vec();
    in_turns(rounds, |calls| {
        run.copy_from_slice(before);
        nanoseconds(|| assert_eq!((calls.steps)(&mut run, places), (0, places.len()), "every place is ready"))
    })
}

pub fn map(run: &[u8], rounds: usize) -> Times {
    let mut map = [0; MAP_LENGTH];
    in_turns(rounds, |calls| {
        map.fill(7);
        nanoseconds(|| assert_eq!((calls.map)(run, &mut map), 0, "the run has come to its end"))
    })
}

pub fn write(run: &[u8]) -> Times {
    let mut file = [0; LONGEST_FILE];
    in_turns(1000, |calls| {
        file.fill(7);
        nanoseconds(|| assert_eq!((calls.write)(run, &mut file).0, 0, "the run is as loaded"))
    })
}
