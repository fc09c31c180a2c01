//! The settled readings of document 01, each by its number in the design.

mod common;

use common::{loaded, poked};
use model::refusal::*;
use model::run::{MOST_ITEMS, RUN_LENGTH};
use model::samples::{self, CLASH, CLASH_PLACES};
use model::{load, map, program, sound, statement, step, steps, write, Item, Rule, Run};

fn rules(file: &[u8], places: &[u32]) -> Vec<usize> {
    let mut run = Run::load(file).unwrap();
    places.iter().map(|&place| run.step(place as usize).unwrap() as usize).collect()
}

#[test]
fn reading_1_as_loaded_is_a_property_of_the_bytes() {
    // Interchange turns one as-loaded run into another.
    let mut run = loaded(&[1, 2, 0, 1, 0, 0, 1]);
    assert_eq!(step(&mut run, 0), (DONE, 1));
    let mut file = [170; 836];
    assert_eq!(write(&run, &mut file), (DONE, 7));
    assert_eq!(file[..7], [1, 2, 0, 1, 0, 1, 0]);
    // So does decomposing records of one part.
    let mut run = loaded(&[1, 2, 2, 7, 1, 0, 7, 1, 1, 1, 0, 2, 3]);
    assert_eq!(step(&mut run, 0), (DONE, 6));
    assert_eq!(write(&run, &mut file), (DONE, 13));
    assert_eq!(file[..13], [1, 2, 2, 7, 1, 0, 7, 1, 1, 1, 0, 0, 1]);
    // A statement that goes leaves fewer than E.
    let mut run = loaded(&[1, 1, 0, 1, 0, 0, 0]);
    assert_eq!(step(&mut run, 0), (DONE, 4));
    assert_eq!(write(&run, &mut file), (NOT_AS_LOADED, 0));
    // A clashed run is not as loaded, even one whose other bytes are.
    let clashed = poked(&loaded(CLASH), 0, &[1]);
    assert!(sound(&clashed));
    assert_eq!(write(&clashed, &mut file), (NOT_AS_LOADED, 0));
}

#[test]
fn reading_2_an_owner_is_never_initiated() {
    let run = loaded(&[1, 2, 0, 0]);
    assert!(!sound(&poked(&run, 584, &[254])));
    assert!(!sound(&poked(&run, 584 + 31, &[254])));
    assert!(sound(&poked(&run, 616, &[254])));
}

#[test]
fn reading_3_a_record_with_itself_is_decomposed() {
    let mut run = Run::load(&[1, 2, 1, 7, 2, 1, 0, 1, 0, 2, 2]).unwrap();
    assert_eq!(run.step(0), Ok(Rule::Decompose));
    let same = |x| Item::Statement { cabinet: 0, left: x, right: x };
    assert_eq!(run.items(), [same(1), same(0)]);
}

#[test]
fn reading_4_the_order_of_a_lists_refusals() {
    let mut clashed = loaded(CLASH);
    assert_eq!(steps(&mut clashed, CLASH_PLACES), (DONE, 7));
    assert_eq!(steps(&mut clashed, &[]), (DONE, 0));
    assert_eq!(steps(&mut clashed, &[u32::MAX]), (CLASHED, 0));
    let mut unsound = poked(&clashed, 1, &[2]);
    assert_eq!(steps(&mut unsound, &[]), (NOT_SOUND, 0));
    assert_eq!(steps(&mut unsound[1..], &[]), (WRONG_LENGTH, 0));
    let mut stopped = loaded(CLASH);
    assert_eq!(steps(&mut stopped, &[0, 0, 1, 0]), (WAITS, 2));
    let mut short = loaded(CLASH);
    assert_eq!(steps(&mut short, &[0, 0]), (DONE, 2));
    assert_eq!(stopped, short);
    let mut beyond = loaded(CLASH);
    let all_and_more: Vec<u32> = CLASH_PLACES.iter().copied().chain([0, 0]).collect();
    assert_eq!(steps(&mut beyond, &all_and_more), (CLASHED, 7));
}

#[test]
fn reading_5_positions() {
    let mut short = vec![170; RUN_LENGTH - 1];
    assert_eq!(load(&[], &mut short), (WRONG_LENGTH, 0));
    let mut run = vec![170; RUN_LENGTH];
    assert_eq!(load(&[1, 0, 0], &mut run), (FILE_ENDS, 3));
    assert_eq!(load(&[1, 0, 0, 0], &mut run), (DONE, 0));
}

#[test]
fn reading_6_the_empty_part() {
    assert_eq!(statement(&[1, 1, 0, 1, 0, 0, 0], 0), (4, 3));
    assert_eq!(statement(&[1, 1, 0, 1, 0, 0, 0], 1), (0, 0));
    assert_eq!(statement(&[1, 1, 0, 1, 0, 0], 0), (0, 0));
    // Two equal statements are two parts.
    assert_eq!(statement(&[1, 1, 0, 2, 0, 0, 0, 0, 0, 0], 1), (7, 3));
}

#[test]
fn reading_7_the_program_reads_840_bytes() {
    let mut input = samples::longest();
    input.truncate(835);
    input.extend([0x80, 0x80, 0x80, 0x80, 0x00]);
    assert_eq!(input.len(), 840);
    assert_eq!(program::output(&input), "refused 2 at 835\n");
    // One byte fewer and the number has no end.
    assert_eq!(program::output(&input[..839]), "refused 1 at 835\n");
    input.extend([0; 100]);
    assert_eq!(program::output(&input), "refused 2 at 835\n");
}

#[test]
fn reading_8_permutation_records_at_the_limit_all_agree() {
    let mut run = Run::load(&samples::longest()).unwrap();
    program::run_to_end(&mut run);
    let mut made = [170; 352];
    assert_eq!(map(&run.to_bytes(), &mut made), DONE);
    for row in made.chunks(11) {
        assert_eq!(row, [0, 1, 255, 255, 255, 255, 4, 0, 0, 0, 0]);
    }
}

#[test]
fn reading_9_the_cabinet_of_a_clash_depends_on_the_steps() {
    // Two records with different symbols, equated at cabinet 0 and at cabinet 1.
    let file = [2, 0, 2, 1, 0, 2, 0, 2, 0, 0, 1, 1, 0, 1];
    for (place, cabinet) in [(0, 0), (1, 1)] {
        let mut run = loaded(&file);
        assert_eq!(step(&mut run, place), (DONE, 5));
        assert_eq!(run[..2], [1, cabinet]);
    }
}

#[test]
fn reading_10_runs_made_by_hand() {
    // Only waiting items: a scan gives the pending count.
    let initiated = poked(&loaded(&[1, 2, 0, 1, 0, 1, 0]), 616 + 1, &[254]);
    let run = Run::from_bytes(&initiated).unwrap();
    assert_eq!(program::first_ready(&run, 0), 1);
    assert_eq!(step(&mut initiated.clone(), 0), (WAITS, 0));
    // More statements than E.
    let more = poked(&loaded(&[1, 1, 0, 0]), 6, &[1, 0]);
    assert!(!sound(&more));
    assert!(sound(&poked(&more, 9064, &[1, 0, 0, 0])));
    // Bytes that must be 0.
    let run = loaded(&[2, 1, 1, 7, 1, 0, 0]);
    assert!(sound(&run));
    assert!(!sound(&poked(&run, 1, &[1])));
    assert!(!sound(&poked(&run, 8 + 6, &[1])));
    // A pending count above the most.
    let mut full = run.clone();
    full[6..8].copy_from_slice(&(MOST_ITEMS as u16).to_le_bytes());
    full[9064..].copy_from_slice(&[1, 0, 0, 0].repeat(MOST_ITEMS));
    assert!(sound(&full));
    full[6..8].copy_from_slice(&(MOST_ITEMS as u16 + 1).to_le_bytes());
    assert!(!sound(&full));
}

#[test]
fn reading_11_vectors_that_tell_memos_apart() {
    assert_eq!(rules(samples::TWO_MEMOS, samples::TWO_MEMOS_PLACES), [7, 8, 10, 10, 3, 3]);
    assert_eq!(rules(samples::RECORD_TWICE, samples::RECORD_TWICE_PLACES), [7, 8, 10, 3, 3]);
}

/// The most statements there can be, 4E + 3SP, are reached on the way through a run of tens of thousands of steps.
#[test]
fn reading_12_the_bound_on_statements_is_reached() {
    let places = samples::growing_places(&samples::longest());
    let mut run = Run::load(&samples::longest()).unwrap();
    let mut most = 0;
    for &place in &places {
        run.step(place as usize).unwrap();
        if run.items().len() > most {
            let statement = |item: &&Item| matches!(item, Item::Statement { .. });
            most = most.max(run.items().iter().filter(statement).count());
        }
    }
    assert_eq!(most, 4 * 64 + 3 * 8 * 496);
    assert_eq!(most, 12_160);
    assert!(run.items().is_empty() && run.clash().is_none());
    assert!(places.len() > 30_000, "{}", places.len());
}
