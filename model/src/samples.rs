//! Files and runs to try things on: those of the bench sheet and the settled readings, the longest ones, and random ones.

use crate::file::{self, File, Record, Statement};
use crate::rng::Rng;
use crate::run::{Item, Mark, Run, MOST_ITEMS};
use crate::step::Rule;
use std::collections::BTreeSet;

/// Two unknowns that agree though they are never equated.
pub const RING: &[u8] = &[1, 2, 2, 7, 1, 0, 7, 1, 1, 2, 0, 0, 2, 0, 1, 3];

/// Two cabinets that give one unknown two symbols, and the bench sheet's places for it: rules 7 7 8 9 10 3 5.
pub const CLASH: &[u8] = &[2, 1, 2, 10, 0, 11, 0, 2, 0, 0, 1, 1, 0, 2];
pub const CLASH_PLACES: &[u32] = &[0, 0, 2, 0, 2, 0, 2];

/// Tells one memo for all cabinets apart from one for each: rules 7 8 10 10 3 3.
pub const TWO_MEMOS: &[u8] = &[2, 2, 0, 2, 0, 1, 0, 1, 1, 0];
pub const TWO_MEMOS_PLACES: &[u32] = &[0, 1, 2, 2, 1, 0];

/// Tells a memo of statements with records apart from none: rules 7 8 10 3 3.
pub const RECORD_TWICE: &[u8] = &[1, 1, 1, 7, 0, 2, 0, 0, 1, 0, 0, 1];
pub const RECORD_TWICE_PLACES: &[u32] = &[0, 1, 2, 0, 0];

/// A file with numbers of every length and records of every part count.
pub fn rich() -> Vec<u8> {
    let record = |symbol, parts: &[u8]| Record { symbol, parts: parts.to_vec() };
    let statement = |cabinet, left, right| Statement { cabinet, left, right };
    file::write(&File {
        s: 3,
        v: 5,
        records: vec![
            record(0, &[]),
            record(127, &[4]),
            record(128, &[0, 1]),
            record(16_384, &[2, 2, 3]),
            record(2_097_152, &[0, 1, 2, 3]),
            record(u32::MAX, &[4, 3, 2, 1]),
        ],
        statements: vec![
            statement(0, 0, 5),
            statement(1, 6, 1),
            statement(2, 3, 2),
            statement(0, 4, 4),
            statement(2, 10, 10),
            statement(1, 2, 7),
        ],
    })
}

/// A file of 836 bytes, the longest there is. Unknown i is equated with record i, whose parts are permutations of i
/// that lead from any two unknowns to any other two, so that every cabinet comes to compare every pair.
pub fn longest() -> Vec<u8> {
    let permuted = |i: u8| {
        let swapped = if i < 2 { 1 - i } else { i };
        vec![(i + 1) % 32, swapped, (i + 31) % 32, (i + 1) % 32]
    };
    let record = |i| Record { symbol: u32::MAX, parts: permuted(i) };
    // i and 7i + 3 differ for every i (6i + 3 is odd), so these pairs of records equate no unknown with itself.
    let records = (0..32).map(record).chain((0..32).map(|i| record((7 * i + 3) % 32))).collect();
    let bound = (0..32).map(|i| Statement { cabinet: i % 8, left: i, right: 32 + i });
    let paired = (0..32).map(|i| Statement { cabinet: i % 8, left: 32 + i, right: 64 + i });
    file::write(&File { s: 8, v: 32, records, statements: bound.chain(paired).collect() })
}

/// Places that make the list of statements long: marks are initiated first, then asks and news are taken, then whatever
/// drops no statement, and only then the rest, over and over to the end of the run.
pub fn growing_places(file: &[u8]) -> Vec<u32> {
    let phases: [fn(Rule) -> bool; 4] = [
        |rule| rule == Rule::Initiate,
        |rule| matches!(rule, Rule::Win | Rule::Lose | Rule::Arrive),
        |rule| !matches!(rule, Rule::Memo | Rule::Identify),
        |_| true,
    ];
    let mut places = Vec::new();
    let Ok(mut run) = Run::load(file) else {
        return places;
    };
    // A run from an accepted file always has a ready place, so the rounds end with nothing pending or a clash.
    let mut before = usize::MAX;
    while places.len() != before {
        before = places.len();
        for wanted in phases {
            // Products are appended, so one pass over the list meets them too.
            let mut place = 0;
            while place < run.items().len() {
                let taken = run.effect(place).is_ok_and(|effect| wanted(effect.rule)) && run.step(place).is_ok();
                if taken {
                    places.push(place as u32);
                } else {
                    place += 1;
                }
            }
        }
    }
    places
}

/// A chain of 31 records, each with the next unknown as its one part, the last of them with unknown `last`. Left open
/// (31), no depth below 31 tells its first two unknowns apart; closed on itself (30 or less), all 31 agree.
pub fn deep(last: u8) -> Vec<u8> {
    let next = |i: u8| if i == 30 { last } else { i + 1 };
    let records = (0..31).map(|i| Record { symbol: 1, parts: vec![next(i)] });
    let statements = (0..31).map(|i| Statement { cabinet: 0, left: i, right: 32 + i });
    file::write(&File { s: 1, v: 32, records: records.collect(), statements: statements.collect() })
}

/// A random accepted file: mostly small, sometimes up to every limit, and of several kinds, so that clashes, rings and
/// open ends are all common.
pub fn random_file(rng: &mut Rng) -> File {
    let large = rng.one_in(20);
    let size = |rng: &mut Rng, small: usize, limit: usize| rng.below(if large { limit } else { small } + 1);
    let s = 1 + size(rng, 3, 7) as u8;
    let v = size(rng, 7, 32) as u8;
    let r = size(rng, 9, 64);
    let symbols = 1 + rng.below(3);
    // A symbol that fixes its part count makes clashes rarer.
    let counts_by_symbol = !rng.one_in(4);
    let most_parts = if v == 0 { 0 } else { 4 };
    let first_count = rng.below(5);
    let records = (0..r).map(|_| {
        let symbol = rng.below(symbols);
        let part_count = if counts_by_symbol { (first_count + symbol) % 5 } else { rng.below(5) };
        let parts = (0..part_count.min(most_parts)).map(|_| rng.below(usize::from(v)) as u8).collect();
        Record { symbol: (symbol as u32).wrapping_mul(0x5555_5555), parts }
    });
    let records: Vec<Record> = records.collect();
    let entries = usize::from(v) + r;
    let e = if entries == 0 { 0 } else { size(rng, 9, 64) };
    let statements = (0..e).map(|_| {
        // Half of the left sides are unknowns, or records would meet too often.
        let left = if v > 0 && rng.one_in(2) { rng.below(usize::from(v)) } else { rng.below(entries) };
        Statement { cabinet: rng.below(usize::from(s)) as u8, left: left as u8, right: rng.below(entries) as u8 }
    });
    let statements = statements.collect();
    File { s, v, records, statements }
}

/// A file that says the same in another way: its statements shuffled, some of them twice, some with their sides
/// exchanged, at other cabinets and perhaps with another number of cabinets.
pub fn retold(rng: &mut Rng, file: &File) -> File {
    let mut told = file.clone();
    told.s = 1 + rng.below(8) as u8;
    while told.statements.len() < 64 && !told.statements.is_empty() && !rng.one_in(3) {
        let again = told.statements[rng.below(told.statements.len())];
        told.statements.push(again);
    }
    rng.shuffle(&mut told.statements);
    for statement in &mut told.statements {
        statement.cabinet = rng.below(usize::from(told.s)) as u8;
        if rng.one_in(2) {
            (statement.left, statement.right) = (statement.right, statement.left);
        }
    }
    told
}

/// A random sound run such as no file need lead to: marks, memos and items have nothing to do with one another.
pub fn hand_made(rng: &mut Rng) -> Run {
    let large = rng.one_in(4);
    let s = 1 + rng.below(8) as u8;
    let v = rng.below(if large { 33 } else { 6 }) as u8;
    let r = rng.below(if large { 65 } else { 6 });
    let most_parts = if v == 0 { 0 } else { 4 };
    let records = (0..r).map(|_| {
        let part_count = rng.below(most_parts + 1);
        let parts = (0..part_count).map(|_| rng.below(usize::from(v)) as u8).collect();
        Record { symbol: rng.below(2) as u32, parts }
    });
    let records: Vec<Record> = records.collect();
    let owners = (0..v).map(|x| if rng.one_in(4) { None } else { lesser(rng, x, v, r) });
    let owners = owners.collect();
    let mut store = || {
        let mark = |x| match rng.below(4) {
            0 => Mark::Nothing,
            1 => Mark::Initiated,
            _ => lesser(rng, x, v, r).map_or(Mark::Nothing, Mark::Entry),
        };
        (0..v).map(mark).collect()
    };
    let stores = (0..s).map(|_| store()).collect();
    let mut memo = || {
        let pairs = (0..v).flat_map(|greater| (0..greater).map(move |smaller| (greater, smaller)));
        pairs.filter(|_| rng.one_in(2)).collect::<BTreeSet<_>>()
    };
    let memos = (0..s).map(|_| memo()).collect();
    let count = match rng.below(12) {
        0 => MOST_ITEMS - rng.below(9),
        1 | 2 => 0,
        _ => rng.below(12),
    };
    let items = (0..count).filter_map(|_| random_item(rng, s, v, r)).collect();
    let clash = rng.one_in(8).then(|| rng.below(usize::from(s)) as u8);
    Run { clash, s, v, e: rng.below(65) as u8, records, owners, stores, memos, items }
}

/// A random entry less than unknown x, if there is one.
fn lesser(rng: &mut Rng, x: u8, v: u8, r: usize) -> Option<u8> {
    let chosen = rng.below(usize::from(x) + r) as u8;
    let entry = if chosen < x { chosen } else { v + (chosen - x) };
    (usize::from(x) + r > 0).then_some(entry)
}

/// A random item of a run with these sizes, or nothing where there is none of the kind drawn.
fn random_item(rng: &mut Rng, s: u8, v: u8, r: usize) -> Option<Item> {
    let entries = usize::from(v) + r;
    let kind = rng.below(4);
    let cabinet = rng.below(usize::from(s)) as u8;
    if kind < 2 {
        let (left, right) = (rng.below(entries) as u8, rng.below(entries) as u8);
        return (entries > 0).then_some(Item::Statement { cabinet, left, right });
    }
    if v == 0 {
        return None;
    }
    let left = rng.below(usize::from(v)) as u8;
    let right = lesser(rng, left, v, r)?;
    Some(if kind == 2 { Item::Ask { cabinet, left, right } } else { Item::News { cabinet, left, right } })
}
