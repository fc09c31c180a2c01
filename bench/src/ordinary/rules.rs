//! The ten rules on a run's bytes: a step, a list of steps, and whether an item waits.

use super::layout::*;
use super::soundness::sound;

/// What a statement does at its cabinet.
enum Choice {
    Waits,
    Interchange,
    Memo,
    Dereference(u8),
    Identify,
    Conflict,
    Decompose,
    Initiate,
}

fn choose(run: &[u8], cabinet: u8, left: u8, right: u8) -> Choice {
    let v = run[3];
    if left >= v && right >= v {
        let (one, other) = (record(run, usize::from(left - v)), record(run, usize::from(right - v)));
        // The symbol and the part count are a record's first five bytes.
        return if one[..5] == other[..5] { Choice::Decompose } else { Choice::Conflict };
    }
    if left == right {
        return Choice::Identify;
    }
    if left >= v || (right < v && left < right) {
        return Choice::Interchange;
    }
    match run[store_at(cabinet, left)] {
        NOTHING => Choice::Initiate,
        INITIATED => Choice::Waits,
        _ if right < v && run[memo_at(cabinet, left, right)] == 1 => Choice::Memo,
        entry => Choice::Dereference(entry),
    }
}

fn item(run: &[u8], place: usize) -> [u8; ITEM_BYTES] {
    let at = ITEMS + ITEM_BYTES * place;
    [run[at], run[at + 1], run[at + 2], run[at + 3]]
}

/// Whether the item at a place of a sound run waits.
pub fn waits(run: &[u8], place: usize) -> bool {
    let [kind, cabinet, left, right] = item(run, place);
    kind == STATEMENT && matches!(choose(run, cabinet, left, right), Choice::Waits)
}

/// The item at a place goes, later ones move up, and the products come after them.
fn replace(run: &mut [u8], place: usize, products: &[[u8; ITEM_BYTES]]) {
    let count = pending(run);
    let (at, end) = (ITEMS + ITEM_BYTES * place, ITEMS + ITEM_BYTES * count);
    run.copy_within(at + ITEM_BYTES..end, at);
    run[end - ITEM_BYTES..end].fill(0);
    let products = products.as_flattened();
    run[end - ITEM_BYTES..end - ITEM_BYTES + products.len()].copy_from_slice(products);
    set_pending(run, count - 1 + products.len() / ITEM_BYTES);
}

/// Refuses a step whose products have no room.
fn room(run: &[u8], products: usize) -> Result<(), usize> {
    if pending(run) - 1 + products > MOST_ITEMS {
        return Err(18);
    }
    Ok(())
}

fn take_statement(run: &mut [u8], place: usize, cabinet: u8, left: u8, right: u8) -> Result<usize, usize> {
    let statement = |left, right| [STATEMENT, cabinet, left, right];
    let v = run[3];
    match choose(run, cabinet, left, right) {
        Choice::Waits => Err(14),
        Choice::Interchange => {
            room(run, 1)?;
            replace(run, place, &[statement(right, left)]);
            Ok(1)
        }
        Choice::Memo => {
            replace(run, place, &[]);
            Ok(2)
        }
        Choice::Dereference(entry) => {
            room(run, 1)?;
            if right < v {
                run[memo_at(cabinet, left, right)] = 1;
            }
            replace(run, place, &[statement(entry, right)]);
            Ok(3)
        }
        Choice::Identify => {
            replace(run, place, &[]);
            Ok(4)
        }
        Choice::Conflict => {
            run[0..2].copy_from_slice(&[1, cabinet]);
            replace(run, place, &[]);
            Ok(5)
        }
        Choice::Decompose => {
            let (one, other) = (record(run, usize::from(left - v)), record(run, usize::from(right - v)));
            let count = usize::from(one[4]);
            room(run, count)?;
            let mut products = [[0; ITEM_BYTES]; 4];
            for (product, (&part, &its)) in products.iter_mut().zip(parts(one).iter().zip(parts(other))) {
                *product = statement(part, its);
            }
            replace(run, place, &products[..count]);
            Ok(6)
        }
        Choice::Initiate => {
            room(run, 2)?;
            run[store_at(cabinet, left)] = INITIATED;
            replace(run, place, &[[ASK, cabinet, left, right], statement(left, right)]);
            Ok(7)
        }
    }
}

fn take_ask(run: &mut [u8], place: usize, left: u8, right: u8) -> Result<usize, usize> {
    let owner = OWNERS + usize::from(left);
    if run[owner] != NOTHING {
        replace(run, place, &[]);
        return Ok(9);
    }
    let s = usize::from(run[2]);
    room(run, s)?;
    run[owner] = right;
    let news = [0, 1, 2, 3, 4, 5, 6, 7].map(|cabinet| [NEWS, cabinet, left, right]);
    replace(run, place, &news[..s]);
    Ok(8)
}

/// The item at a place of a sound run is taken: the rule, or the refusal.
pub fn take(run: &mut [u8], place: usize) -> Result<usize, usize> {
    if run[0] != 0 {
        return Err(15);
    }
    if place >= pending(run) {
        return Err(13);
    }
    let [kind, cabinet, left, right] = item(run, place);
    match kind {
        STATEMENT => take_statement(run, place, cabinet, left, right),
        ASK => take_ask(run, place, left, right),
        _ => {
            run[store_at(cabinet, left)] = right;
            replace(run, place, &[]);
            Ok(10)
        }
    }
}

/// One step: the refusal, and the rule.
pub fn step(run: &mut [u8], place: usize) -> (usize, usize) {
    if run.len() != RUN_BYTES {
        return (12, 0);
    }
    if !sound(run) {
        return (17, 0);
    }
    match take(run, place) {
        Ok(rule) => (0, rule),
        Err(number) => (number, 0),
    }
}

/// A list of steps: the first refusal, and how many were done.
pub fn steps(run: &mut [u8], places: &[u32]) -> (usize, usize) {
    if run.len() != RUN_BYTES {
        return (12, 0);
    }
    if !sound(run) {
        return (17, 0);
    }
    for (done, &place) in places.iter().enumerate() {
        if let Err(number) = take(run, place as usize) {
            return (number, done);
        }
    }
    (0, places.len())
}
