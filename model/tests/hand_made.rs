//! Sound runs made by hand and damaged runs: soundness byte by byte, the order of refusals, and calls that leave every lent byte.

mod common;

use common::{loaded, poked};
use model::map::{of_run, MAP_LENGTH};
use model::refusal::*;
use model::rng::Rng;
use model::run::{MOST_ITEMS, RUN_LENGTH};
use model::{load, map, samples, sound, step, steps, write, Item, Record, Run};

#[test]
fn runs_made_by_hand_are_sound_and_stay_so() {
    let mut rng = Rng::new(20);
    for _ in 0..1500 {
        let mut run = samples::hand_made(&mut rng);
        let mut bytes = run.to_bytes();
        assert!(sound(&bytes));
        assert_eq!(Run::from_bytes(&bytes), Some(run.clone()));
        for _ in 0..10 {
            let place = rng.below(run.items().len() + 1);
            let before = bytes.clone();
            let reply = step(&mut bytes, place);
            match run.step(place) {
                Ok(rule) => assert_eq!(reply, (DONE, rule as usize)),
                Err(number) => {
                    assert_eq!(reply, (number, 0));
                    assert_eq!(bytes, before);
                }
            }
            assert_eq!(run.to_bytes(), bytes);
            assert!(sound(&bytes));
        }
    }
}

/// Sound bytes are exactly the bytes of a structured run: one changed byte either makes them unsound or says another
/// run, and nothing is said in two ways.
#[test]
fn no_byte_of_a_sound_run_is_free() {
    let mut rng = Rng::new(21);
    let (mut still_sound, mut unsound) = (0, 0);
    for _ in 0..300 {
        let mut bytes = samples::hand_made(&mut rng).to_bytes();
        for _ in 0..40 {
            // The first bytes are few and decide the rest, so they are changed as often as all the others.
            let offset = if rng.one_in(2) { rng.below(9100) } else { rng.below(RUN_LENGTH) };
            let offset = if rng.one_in(3) { offset % 900 } else { offset };
            let value = if rng.one_in(2) { rng.below(4) as u8 } else { rng.value() as u8 };
            let before = std::mem::replace(&mut bytes[offset], value);
            match Run::from_bytes(&bytes) {
                Some(run) => {
                    assert_eq!(run.to_bytes(), bytes);
                    still_sound += 1;
                }
                None => {
                    refuse_everything(&mut bytes);
                    bytes[offset] = before;
                    unsound += 1;
                }
            }
        }
    }
    assert!(still_sound > 500 && unsound > 500, "{still_sound} {unsound}");
}

fn refuse_everything(unsound: &mut [u8]) {
    let before = unsound.to_vec();
    let (mut made, mut said) = ([170; MAP_LENGTH], [170; 836]);
    assert_eq!(step(unsound, 0), (NOT_SOUND, 0));
    assert_eq!(steps(unsound, &[]), (NOT_SOUND, 0));
    assert_eq!(map(unsound, &mut made), NOT_SOUND);
    assert_eq!(write(unsound, &mut said), (NOT_SOUND, 0));
    assert_eq!((made, said), ([170; MAP_LENGTH], [170; 836]));
    assert_eq!(unsound, before);
}

/// One line of document 01's definition of sound after another, at the edges of its ranges.
#[test]
fn what_is_sound() {
    // S 2, V 3, R 2: records 3 (parts 0 and 2) and 4 (none); E 0.
    let run = loaded(&[2, 3, 2, 7, 2, 0, 2, 9, 0, 0]);
    let with = |offset: usize, value: u8| sound(&poked(&run, offset, &[value]));
    assert!(sound(&run));
    assert!(!sound(&run[1..]));
    assert!(!sound(&[]));
    // State and cabinet of the clash.
    assert!(with(0, 1) && !with(0, 2) && !with(0, 255));
    assert!(!with(1, 1));
    assert!(sound(&poked(&run, 0, &[1, 1])) && !sound(&poked(&run, 0, &[1, 2])));
    // S, V, R, E.
    assert!(with(2, 1) && with(2, 8) && !with(2, 0) && !with(2, 9));
    assert!(with(3, 32) && !with(3, 33) && !with(3, 2));
    assert!(with(4, 64) && !with(4, 65) && !with(4, 1));
    assert!(with(5, 64) && !with(5, 65));
    // Pending count without items.
    assert!(!with(6, 1) && !with(7, 1));
    // Records: symbol, part count, parts, places beyond, records beyond.
    assert!((8..12).all(|offset| with(offset, 255)));
    assert!(with(12, 3) && with(12, 4) && !with(12, 5) && !with(12, 1) && !with(12, 255));
    assert!(with(13, 2) && !with(13, 3) && with(14, 0) && !with(14, 255));
    assert!(!with(15, 1) && !with(16, 1) && !with(22, 1) && with(21, 4));
    assert!((8 + 18..584).all(|offset| !with(offset, 1)));
    // Owner marks.
    assert!(with(584, 3) && with(584, 4) && !with(584, 0) && !with(584, 5) && !with(584, 254));
    assert!(with(586, 0) && with(586, 1) && !with(586, 2) && with(586, 3));
    assert!((587..616).all(|offset| !with(offset, 0) && !with(offset, 3) && !with(offset, 254)));
    // Stores: both cabinets, then those that are not there.
    for at in [616, 648] {
        assert!(with(at, 254) && with(at, 4) && !with(at, 0) && !with(at, 5) && !with(at, 253));
        assert!(with(at + 2, 1) && !with(at + 2, 2));
        assert!((at + 3..at + 32).all(|offset| !with(offset, 254) && !with(offset, 3)));
    }
    assert!((680..872).all(|offset| !with(offset, 254) && !with(offset, 3)));
    // Memos: of two cabinets, pairs (1, 0), (2, 0) and (2, 1).
    let allowed: Vec<usize> = (872..9064).filter(|&offset| with(offset, 1)).collect();
    assert_eq!(allowed, [32, 64, 65, 1056, 1088, 1089].map(|place| 872 + place));
    assert!(allowed.iter().all(|&offset| !with(offset, 2)));
    // Items beyond the pending count.
    assert!([9064, 9067, 9068, RUN_LENGTH - 1].iter().all(|&offset| !with(offset, 1)));
    // Items: kind, cabinet, sides.
    let item = |bytes: [u8; 4]| sound(&poked(&poked(&run, 6, &[1]), 9064, &bytes));
    assert!(!item([0, 0, 0, 0]) && !item([4, 0, 0, 0]));
    assert!(item([1, 1, 4, 4]) && !item([1, 2, 4, 4]) && !item([1, 1, 5, 4]) && !item([1, 1, 4, 5]));
    assert!(item([1, 0, 0, 0]) && item([1, 0, 0, 2]));
    for kind in [2, 3] {
        assert!(item([kind, 1, 2, 1]) && item([kind, 0, 0, 3]) && item([kind, 0, 2, 4]));
        assert!(!item([kind, 2, 2, 1]) && !item([kind, 0, 1, 1]) && !item([kind, 0, 1, 2]));
        assert!(!item([kind, 0, 3, 4]) && !item([kind, 0, 3, 0]) && !item([kind, 0, 0, 5]));
    }
}

#[test]
fn wrong_lengths() {
    let good = loaded(&[1, 0, 0, 0]);
    for length in [0, 1, RUN_LENGTH - 1, RUN_LENGTH + 1] {
        let mut run: Vec<u8> = good.iter().copied().chain([0]).take(length).collect();
        let before = run.clone();
        assert_eq!(load(&[1, 0, 0, 0], &mut run), (WRONG_LENGTH, 0));
        assert_eq!(load(&[], &mut run), (WRONG_LENGTH, 0));
        assert_eq!(step(&mut run, 0), (WRONG_LENGTH, 0));
        assert_eq!(steps(&mut run, &[]), (WRONG_LENGTH, 0));
        assert_eq!(map(&run, &mut [0; 352]), WRONG_LENGTH);
        assert_eq!(write(&run, &mut [0; 836]), (WRONG_LENGTH, 0));
        assert_eq!(run, before);
    }
    let unsound = poked(&good, 0, &[2]);
    for length in [0, 351, 353] {
        assert_eq!(map(&good, &mut vec![170; length]), WRONG_LENGTH);
        assert_eq!(map(&unsound, &mut vec![170; length]), WRONG_LENGTH);
    }
    for length in [0, 835, 837] {
        assert_eq!(write(&good, &mut vec![170; length]), (WRONG_LENGTH, 0));
        assert_eq!(write(&unsound, &mut vec![170; length]), (WRONG_LENGTH, 0));
    }
}

/// A run of S 8, V 2 and `count` items, all of them 1 = 1 but the first.
fn crowded(first: [u8; 4], count: usize) -> Vec<u8> {
    let mut run = loaded(&[8, 2, 1, 7, 4, 0, 1, 0, 1, 0]);
    run[6..8].copy_from_slice(&(count as u16).to_le_bytes());
    run[9064..9064 + 4 * count].copy_from_slice(&[1, 0, 1, 1].repeat(count));
    run[9064..9068].copy_from_slice(&first);
    assert!(sound(&run));
    run
}

#[test]
fn a_step_may_fill_the_list_but_no_more() {
    // Win gives eight, Decompose four, Initiate two, Interchange one, and Identify none.
    for (first, rule, products) in
        [([2, 0, 1, 0], 8, 8), ([1, 0, 2, 2], 6, 4), ([1, 0, 1, 0], 7, 2), ([1, 0, 0, 1], 1, 1), ([1, 0, 0, 0], 4, 0)]
    {
        let most = (MOST_ITEMS + 1 - products).min(MOST_ITEMS);
        let mut fits = crowded(first, most);
        assert_eq!(step(&mut fits, 0), (DONE, rule));
        assert!(sound(&fits));
        if most < MOST_ITEMS {
            let mut full = crowded(first, most + 1);
            let before = full.clone();
            assert_eq!(step(&mut full, 0), (LIST_FULL, 0));
            assert_eq!(steps(&mut full, &[0]), (LIST_FULL, 0));
            assert_eq!(full, before);
        }
    }
}

#[test]
fn the_order_of_refusals() {
    // A clashed run is 15 whatever the place; a waiting statement is 14 even when the list is full.
    let mut clashed = poked(&crowded([1, 0, 1, 0], MOST_ITEMS), 0, &[1]);
    assert_eq!(step(&mut clashed, usize::MAX), (CLASHED, 0));
    assert_eq!(map(&clashed, &mut [0; 352]), CLASHED);
    let mut waiting = poked(&crowded([1, 0, 1, 0], MOST_ITEMS), 617, &[254]);
    assert_eq!(step(&mut waiting, 0), (WAITS, 0));
    assert_eq!(step(&mut waiting, MOST_ITEMS), (NO_SUCH_PLACE, 0));
    assert_eq!(step(&mut waiting, usize::MAX), (NO_SUCH_PLACE, 0));
    assert_eq!(map(&waiting, &mut [0; 352]), ITEMS_PENDING);
}

/// News takes the place of whatever mark is there, and a lost ask changes nothing.
#[test]
fn asks_and_news_made_by_hand() {
    let run = loaded(&[2, 3, 1, 7, 0, 0]);
    for mark in [255, 254, 0, 3] {
        let mut lent = poked(&poked(&poked(&run, 6, &[1]), 9064, &[3, 1, 2, 1]), 648 + 2, &[mark]);
        assert_eq!(step(&mut lent, 0), (DONE, 10));
        assert_eq!(lent, poked(&run, 648 + 2, &[1]));
    }
    let owned = poked(&run, 584 + 2, &[0]);
    let mut lent = poked(&poked(&owned, 6, &[1]), 9064, &[2, 1, 2, 1]);
    assert_eq!(step(&mut lent, 0), (DONE, 9));
    assert_eq!(lent, owned);
    let mut lent = poked(&poked(&run, 6, &[1]), 9064, &[2, 1, 2, 1]);
    assert_eq!(step(&mut lent, 0), (DONE, 8));
    let run = Run::from_bytes(&lent).unwrap();
    assert_eq!(run.owners()[2], Some(1));
    assert_eq!(run.items(), [0, 1].map(|cabinet| Item::News { cabinet, left: 2, right: 1 }));
}

/// The answer of depth V by met pairs instead of depths: a pair already met is taken to agree.
fn agree(run: &Run, met: &mut Vec<(u8, u8)>, x: u8, y: u8) -> bool {
    let end = |x: u8| {
        let mut at = x;
        while let Some(Some(next)) = run.owners().get(usize::from(at)) {
            at = *next;
        }
        at
    };
    if met.contains(&(x, y)) {
        return true;
    }
    met.push((x, y));
    let record = |entry: u8| entry.checked_sub(run.unknowns()).map(|place| &run.records()[usize::from(place)]);
    match (record(end(x)), record(end(y))) {
        (None, None) => end(x) == end(y),
        (Some(Record { symbol: one, parts: left }), Some(Record { symbol: other, parts: right })) => {
            one == other && left.len() == right.len() && left.iter().zip(right).all(|(&p, &q)| agree(run, met, p, q))
        }
        _ => false,
    }
}

#[test]
fn the_map_of_a_run_made_by_hand() {
    let mut rng = Rng::new(22);
    let (mut made, mut shared) = (0, 0);
    while made < 1500 {
        let run = samples::hand_made(&mut rng);
        let Ok(map) = of_run(&run) else { continue };
        made += 1;
        for x in 0..run.unknowns() {
            let lowest = (0..=x).find(|&y| agree(&run, &mut Vec::new(), x, y)).unwrap();
            assert_eq!(map[11 * usize::from(x)], lowest);
            shared += usize::from(lowest != x);
        }
    }
    assert!(shared > 500, "{shared}");
}

/// Depths up to V count: a chain through all unknowns is told apart only at depth V - 1.
#[test]
fn the_whole_depth_is_needed_and_enough() {
    for (last, closed) in [(31, false), (30, true), (0, true)] {
        let mut run = Run::load(&samples::deep(last)).unwrap();
        model::program::run_to_end(&mut run);
        let map = of_run(&run).unwrap();
        let lowest: Vec<u8> = map.chunks(11).map(|row| row[0]).collect();
        let expected: Vec<u8> = (0..32).map(|x| if closed && x < 31 { 0 } else { x }).collect();
        assert_eq!(lowest, expected);
    }
}
