//! Every line of document 01's bench sheet, starred or not, and the map program's printed example.

use model::refusal::*;
use model::run::RUN_LENGTH;
use model::samples::{CLASH, CLASH_PLACES, RING};
use model::{file, load, map, numbers, program, step, steps, Fault};

fn written(value: u32) -> Vec<u8> {
    let mut out = Vec::new();
    numbers::write(value, &mut out);
    out
}

fn loaded(file: &[u8]) -> Vec<u8> {
    let mut run = vec![170; RUN_LENGTH];
    assert_eq!(load(file, &mut run), (DONE, 0));
    run
}

#[test]
fn numbers_and_their_bytes() {
    for (value, bytes) in
        [(0, &[0x00][..]), (127, &[0x7F]), (128, &[0x80, 0x01]), (u32::MAX, &[0xFF, 0xFF, 0xFF, 0xFF, 0x0F])]
    {
        assert_eq!(written(value), bytes);
        assert_eq!(numbers::read(bytes, 0), Ok((value, bytes.len())));
    }
}

#[test]
fn refused_numbers() {
    assert_eq!(numbers::read(&[0x80, 0x00], 0), Err(2));
    assert_eq!(numbers::read(&[0x80], 0), Err(1));
    assert_eq!(numbers::read(&[0xFF, 0xFF, 0xFF, 0xFF, 0x10], 0), Err(2));
}

#[test]
fn short_files() {
    assert_eq!(file::read(&[]), Err(Fault { number: 1, position: 0 }));
    assert_eq!(file::read(&[0x00]), Err(Fault { number: 3, position: 0 }));
    assert!(file::read(&[0x01, 0x20, 0x00, 0x00]).is_ok());
    assert_eq!(file::read(&[0x01, 0x21, 0x00, 0x00]), Err(Fault { number: 4, position: 1 }));
}

#[test]
fn the_file_of_nothing() {
    let run = loaded(&[1, 0, 0, 0]);
    let mut made = [170; 352];
    assert_eq!(map(&run, &mut made), DONE);
    assert_eq!(made, [0; 352]);
    assert_eq!(program::output(&[1, 0, 0, 0]), "items 0\n");
}

#[test]
fn the_clash() {
    let mut run = loaded(CLASH);
    let rules: Vec<_> = CLASH_PLACES.iter().map(|&place| step(&mut run, place as usize)).collect();
    assert_eq!(rules, [(0, 7), (0, 7), (0, 8), (0, 9), (0, 10), (0, 3), (0, 5)]);
    assert_eq!(run[..2], [1, 0]);
    assert_eq!(step(&mut run, 0), (CLASHED, 0));
    assert_eq!(program::output(CLASH), "clash\n");

    let mut at_once = loaded(CLASH);
    assert_eq!(steps(&mut at_once, CLASH_PLACES), (DONE, 7));
    assert_eq!(at_once, run);
}

#[test]
fn the_clash_file_after_two_places() {
    let mut run = loaded(CLASH);
    assert_eq!(steps(&mut run, &[0, 0]), (DONE, 2));
    let before = run.clone();
    assert_eq!(step(&mut run, 1), (WAITS, 0));
    assert_eq!(step(&mut run, 4), (NO_SUCH_PLACE, 0));
    let mut made = [170; 352];
    assert_eq!(map(&run, &mut made), ITEMS_PENDING);
    assert_eq!(made, [170; 352]);
    assert_eq!(run, before);
}

#[test]
fn the_ring() {
    assert_eq!(program::output(RING), "items 2\n0 0 plate 7 0\n1 0 plate 7 0\n");
}

#[test]
fn the_first_draw_and_the_places_drawn() {
    assert_eq!(program::Draws::new().draw(), 1_015_568_748);
    let ring_places = vec![0, 0, 2, 3, 0, 1, 2, 1, 0, 1, 1, 0];
    assert_eq!(program::places(RING), Ok(ring_places));
    assert_eq!(program::places(CLASH), Ok(CLASH_PLACES.to_vec()));
}
