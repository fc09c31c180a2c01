//! Runs made by hand, such as no file need lead to: sound ones, ones with one byte changed in each region, full lists, everything
//! waiting, and buffers of the wrong length.

use crate::held::{dirty, pending, Held};
use model::file::LONGEST_FILE;
use model::map::MAP_LENGTH;
use model::rng::Rng;
use model::run::{self, INITIATED, MOST_ITEMS, RUN_LENGTH};
use model::{file, samples};
use std::ops::Range;

const HEADER: Range<usize> = 0..8;
const RECORDS: Range<usize> = 8..584;
const MARKS: Range<usize> = 584..872;
const STORES: Range<usize> = 616..872;
const MEMOS: Range<usize> = 872..9064;
const ITEMS: usize = 9064;

pub fn hold(held: &mut Held) {
    sound(held);
    one_byte_changed(held);
    full(held);
    all_waiting(held);
    wrong_lengths(held);
}

/// The four calls that look at a run, each once.
fn all_calls(held: &mut Held, rng: &mut Rng, run: &[u8]) {
    held.step(run, rng.below(pending(run) + 1));
    held.steps(run, &places(rng, pending(run), 5));
    held.map(run);
    held.write(run);
}

/// Up to `most` places, now and then one that is not there.
fn places(rng: &mut Rng, count: usize, most: usize) -> Vec<u32> {
    (0..rng.below(most + 1)).map(|_| rng.below(count + 1) as u32).collect()
}

fn sound(held: &mut Held) {
    let mut rng = held.kind("runs by hand, sound");
    for _ in 0..held.rounds(500) {
        let run = samples::hand_made(&mut rng).to_bytes();
        held.steps(&run, &[]);
        all_calls(held, &mut rng, &run);
        let count = pending(&run);
        for place in (0..count).chain([count, usize::MAX]).take(14) {
            held.step(&run, place);
        }
    }
}

/// A run made by hand, clashed or not, with something in each region and room for more.
fn varied(rng: &mut Rng, clashed: bool) -> Vec<u8> {
    loop {
        let run = samples::hand_made(rng).to_bytes();
        let (s, v, r) = (run[2], run[3], run[4]);
        if run[0] == u8::from(clashed)
            && (2..8).contains(&s)
            && (3..32).contains(&v)
            && (2..64).contains(&r)
            && (4..100).contains(&pending(&run))
        {
            return run;
        }
    }
}

/// One byte of a sound run changed, at each position and to the values that matter there: most are no longer sound.
fn one_byte_changed(held: &mut Held) {
    let mut rng = held.kind("runs by hand, one byte changed");
    for round in 0..held.rounds(2) {
        let run = varied(&mut rng, round % 2 == 1);
        let (s, v, entries) = (run[2], run[3], run[3] + run[4]);
        let used = ITEMS..ITEMS + 4 * pending(&run);
        let all: Vec<u8> = (0..=255).collect();
        let part = [0, 1, 4, 5, v - 1, v, 255, rng.value() as u8];
        let mark = [0, v - 1, v, entries - 1, entries, 253, INITIATED, 255, rng.value() as u8];
        let side = [0, 1, 2, 3, 4, s - 1, s, v - 1, v, entries - 1, entries, 255];
        changed(held, &mut rng, &run, HEADER, 1, &all);
        changed(held, &mut rng, &run, RECORDS, 1, &part);
        changed(held, &mut rng, &run, MARKS, 1, &mark);
        changed(held, &mut rng, &run, MEMOS, 1, &[0, 1, 2]);
        changed(held, &mut rng, &run, used.clone(), 1, &side);
        // The bytes after the last item are many, and all alike: each of them in the long mode alone, and there twice.
        let apart = if held.long && round < 2 { 1 } else { 13 };
        let value = 1 + rng.below(255) as u8;
        changed(held, &mut rng, &run, used.end..RUN_LENGTH, apart, &[1, value]);
        changed(held, &mut rng, &run, RUN_LENGTH - 8..RUN_LENGTH, 1, &[1, value]);
    }
}

/// Every `apart`th byte of the region, from a drawn one on, changed to each of the values.
fn changed(held: &mut Held, rng: &mut Rng, run: &[u8], region: Range<usize>, apart: usize, values: &[u8]) {
    for at in region.skip(rng.below(apart)).step_by(apart) {
        for &value in values.iter().filter(|&&value| value != run[at]) {
            let mut run = run.to_vec();
            run[at] = value;
            held.steps(&run, &[]);
            if rng.one_in(6) {
                all_calls(held, rng, &run);
            }
        }
    }
}

/// Lists of pending items that are full or nearly so: 18 exactly when the products have no room.
fn full(held: &mut Held) {
    let mut rng = held.kind("runs by hand, full lists");
    // S 8, V 2, a record of four parts; then an item for each number of products: 8, 4, 2, 1, 1 and none.
    let wide = [8, 2, 1, 7, 4, 0, 1, 0, 1, 0];
    let items = [[2, 0, 1, 0], [1, 0, 2, 2], [1, 0, 1, 0], [1, 0, 0, 1], [1, 0, 0, 2], [1, 0, 0, 0], [3, 0, 1, 0]];
    let mut loaded = vec![0; RUN_LENGTH];
    run::load(&wide, &mut loaded);
    for item in items {
        for count in MOST_ITEMS - 9..=MOST_ITEMS {
            let mut run = filled(&loaded, &[[1, 0, 1, 1]], count);
            let place = [0, count / 2, count - 1][rng.below(3)];
            run[ITEMS + 4 * place..ITEMS + 4 * place + 4].copy_from_slice(&item);
            held.step(&run, place);
            held.steps(&run, &[0, place as u32, 0, 0]);
            held.step(&run, count);
        }
    }
    for _ in 0..held.rounds(200) {
        let run = varied(&mut rng, false);
        let items: Vec<[u8; 4]> = (0..pending(&run)).map(|place| item(&run, place)).collect();
        let run = filled(&run, &items, MOST_ITEMS - rng.below(5));
        let places = places(&mut rng, pending(&run), 40);
        held.steps(&run, &places);
        all_calls(held, &mut rng, &run);
    }
}

fn item(run: &[u8], place: usize) -> [u8; 4] {
    let at = ITEMS + 4 * place;
    [run[at], run[at + 1], run[at + 2], run[at + 3]]
}

/// The run with `count` pending items: these, over and over.
fn filled(run: &[u8], items: &[[u8; 4]], count: usize) -> Vec<u8> {
    let mut run = run.to_vec();
    run[6..8].copy_from_slice(&(count as u16).to_le_bytes());
    for (bytes, item) in run[ITEMS..].chunks_mut(4).take(count).zip(items.iter().cycle()) {
        bytes.copy_from_slice(item);
    }
    run
}

/// Every mark initiated and every item a statement x = u, u less: each place gives 14, and so does a list.
fn all_waiting(held: &mut Held) {
    let mut rng = held.kind("runs by hand, everything waits");
    for round in 0..held.rounds(40) {
        let (s, v) = (1 + rng.below(8), 2 + rng.below(31));
        let mut run = vec![0; RUN_LENGTH];
        run::load(&[s as u8, v as u8, 0, 0], &mut run);
        for cabinet in 0..s {
            let start = STORES.start + 32 * cabinet;
            run[start..start + v].fill(INITIATED);
        }
        let mut waiting = || {
            let x = 1 + rng.below(v - 1);
            [1, rng.below(s) as u8, x as u8, rng.below(x) as u8]
        };
        let items: Vec<[u8; 4]> = (0..50).map(|_| waiting()).collect();
        let count = if round % 8 == 0 { MOST_ITEMS } else { 1 + rng.below(60) };
        let run = filled(&run, &items, count);
        for place in [0, count / 2, count - 1] {
            let (reply, _) = held.step(&run, place);
            held.same(reply, (14, 0), || "a statement that waits".to_string());
        }
        held.step(&run, count);
        held.steps(&run, &[rng.below(count) as u32, 0]);
        held.map(&run);
        held.write(&run);
    }
}

/// 12 before all else, for every buffer of every call.
fn wrong_lengths(held: &mut Held) {
    let mut rng = held.kind("buffers of the wrong length");
    let bytes = file::write(&samples::random_file(&mut rng));
    let mut loaded = dirty();
    run::load(&bytes, &mut loaded);
    loaded.push(0);
    for run_length in [0, 1, RUN_LENGTH - 1, RUN_LENGTH, RUN_LENGTH + 1] {
        let run = &loaded[..run_length];
        held.load(&bytes, run);
        held.load(&[], run);
        held.step(run, 0);
        held.steps(run, &[0]);
        held.steps(run, &[]);
        for length in [0, 1, MAP_LENGTH - 1, MAP_LENGTH, MAP_LENGTH + 1] {
            held.map_into(run, &vec![7; length]);
        }
        for length in [0, 1, LONGEST_FILE - 1, LONGEST_FILE, LONGEST_FILE + 1] {
            held.write_into(run, &vec![9; length]);
        }
    }
}
