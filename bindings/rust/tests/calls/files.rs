//! Accepted files: the ring's map, the bench sheet's rules, statements, and a file written back.

use crate::common::{to_the_end, CLASH, CLASH_PLACES, RING};
use sceolandra::{calls, statement, Kind, Refusal, Rule, Run, MAP_BYTES};

#[test]
fn the_ring_has_one_map_in_every_order() {
    let orders: [fn(usize) -> usize; 3] = [|_| 0, |count| count - 1, |count| count / 2];
    for choose in orders {
        let mut run = Run::load(RING).unwrap();
        to_the_end(&mut run, choose).unwrap();
        let map = run.map().unwrap();
        let row = [0, 1, 7, 0, 0, 0, 1, 0, 0, 0, 0];
        assert_eq!(map.bytes()[..22], [row, row].concat());
        assert_eq!(map.bytes()[22..], [0; MAP_BYTES - 22]);
        assert_eq!(map.rows().count(), 32);
        for row in map.rows().take(run.unknowns()) {
            assert_eq!((row.lowest_same_item(), row.kind(), row.symbol()), (0, Kind::Record, 7));
            assert_eq!((row.part_count(), row.parts()), (1, &[0][..]));
        }
        assert_eq!(map.row(2).map(|row| (row.kind(), row.part_count())), Some((Kind::Open, 0)));
        assert_eq!(map.row(32), None);
        assert_eq!(map.row(usize::MAX), None);
    }
}

#[test]
fn every_field_of_a_row() {
    // 0 is a record with the symbol 0x04030201 and the parts 3 1 2 3; 2 = 1.
    let file = [1, 4, 1, 0x81, 0x84, 0x8C, 0x20, 4, 3, 1, 2, 3, 2, 0, 0, 4, 0, 2, 1];
    let mut run = Run::load(&file).unwrap();
    assert_eq!((run.cabinets(), run.unknowns(), run.records(), run.statements()), (1, 4, 1, 2));
    to_the_end(&mut run, |_| 0).unwrap();
    let map = run.map().unwrap();
    let lowest: Vec<u8> = map.rows().take(4).map(|row| row.lowest_same_item()).collect();
    assert_eq!(lowest, [0, 1, 1, 3]);
    let row = map.row(0).unwrap();
    assert_eq!((row.symbol(), row.part_count(), row.parts()), (0x0403_0201, 4, &[3, 1, 1, 3][..]));
}

#[test]
fn the_bench_sheets_rules() {
    let mut run = Run::load(CLASH).unwrap();
    let rules: Vec<usize> = CLASH_PLACES.iter().map(|&place| run.step(place as usize).unwrap().number()).collect();
    assert_eq!(rules, [7, 7, 8, 9, 10, 3, 5]);
    assert_eq!(run.clash(), Some(0));
    let mut listed = Run::load(CLASH).unwrap();
    assert_eq!(listed.steps(CLASH_PLACES), Ok(7));
    assert!(run == listed);
}

#[test]
fn rules_have_document_01s_numbers_and_names() {
    assert!(Rule::ALL.iter().map(|rule| rule.number()).eq(1..=10));
    let names: Vec<String> = Rule::ALL.iter().map(|rule| rule.to_string()).collect();
    assert_eq!(names[0], "Interchange");
    assert_eq!(names[9], "Arrive");
}

#[test]
fn a_run_writes_the_file_it_was_loaded_from() {
    for file in [RING, CLASH, &[1, 0, 0, 0]] {
        let run = Run::load(file).unwrap();
        assert_eq!(run.write().as_deref(), Ok(file));
        let mut buffer = [9; calls::FILE_BYTES];
        assert_eq!(calls::write(run.bytes(), &mut buffer), Ok(file.len()));
        assert_eq!(buffer[..file.len()], *file);
        assert!(buffer[file.len()..].iter().all(|&byte| byte == 0));
    }
}

#[test]
fn a_statement_is_its_own_bytes_in_the_file() {
    assert_eq!(statement(RING, 0), Some(&RING[10..13]));
    let second = statement(RING, 1).unwrap();
    assert!(std::ptr::eq(second, &RING[13..16]));
    for n in [2, 63, 64, usize::MAX] {
        assert_eq!(statement(RING, n), None);
    }
    assert_eq!(statement(&RING[..15], 0), None);
    assert_eq!(statement(&[], 0), None);
}

#[test]
fn what_a_run_held_before_does_not_matter_to_a_load() {
    let mut run = Run::load(CLASH).unwrap();
    run.steps(CLASH_PLACES).unwrap();
    run.bytes_mut()[900..40_000].fill(0xA5);
    run.reload(RING).unwrap();
    assert!(run == Run::load(RING).unwrap());
    assert!(Run::from_bytes(run.bytes()).unwrap() == run);
}

#[test]
fn a_map_comes_from_a_run_at_its_end_alone() {
    let mut run = Run::load(RING).unwrap();
    assert_eq!(run.map().err(), Some(Refusal::ItemsPending));
    to_the_end(&mut run, |_| 0).unwrap();
    assert_eq!(run.map(), run.clone().map());
}
