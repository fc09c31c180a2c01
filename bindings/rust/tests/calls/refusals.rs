//! Every refusal of document 01's table is met with its number, its position or its finished steps, and changes nothing
//! else.

use crate::common::{CLASH, CLASH_PLACES, RING};
use sceolandra::{calls, LoadRefused, Refusal, Run, StepsRefused, MAP_BYTES, RUN_BYTES};

#[test]
fn refusals_have_document_01s_numbers_and_texts() {
    assert!(Refusal::ALL.iter().map(|refusal| refusal.number()).eq(1..=19));
    assert_eq!(Refusal::FileEnds.to_string(), "file ends in or before a number");
    assert_eq!(Refusal::CabinetsOutOfRange.to_string(), "S outside its range");
    assert_eq!(Refusal::NotAsLoaded.to_string(), "write asked of a sound run that isn't as loaded");
}

#[test]
fn numbers_1_to_11_of_a_load() {
    let files: [(usize, usize, &[u8]); 13] = [
        (1, 0, &[]),
        (1, 0, &[0x80]),
        (2, 0, &[0x80, 0x00]),
        (2, 3, &[1, 0, 1, 0xFF, 0xFF, 0xFF, 0xFF, 0x10]),
        (3, 0, &[0]),
        (4, 1, &[1, 0x21, 0, 0]),
        (5, 2, &[1, 0, 0x41]),
        (6, 4, &[1, 0, 1, 0, 5]),
        (7, 5, &[1, 1, 1, 0, 1, 1]),
        (8, 3, &[1, 0, 0, 0x41]),
        (9, 4, &[1, 1, 0, 1, 1]),
        (10, 5, &[1, 1, 0, 1, 0, 1]),
        (11, 4, &[1, 0, 0, 0, 0]),
    ];
    let mut run = Run::load(RING).unwrap();
    for (number, position, file) in files {
        let refused = run.reload(file).unwrap_err();
        assert_eq!((refused.refusal.number(), refused.position), (number, position), "{file:02x?}");
        assert_eq!(Run::load(file), Err(refused));
        assert_eq!(sceolandra::statement(file, 0), None);
    }
    assert!(run == Run::load(RING).unwrap(), "a refused load leaves the run");
    let refused = Run::load(&[1, 0x21, 0, 0]).unwrap_err();
    assert_eq!(refused.to_string(), "refused 4 at 1: V outside its range");
}

#[test]
fn number_12_for_every_other_length() {
    let run = Run::load(RING).unwrap();
    for length in [0, 1, RUN_BYTES - 1, RUN_BYTES + 1] {
        let mut other = vec![3; length];
        assert_eq!(Run::from_bytes(&other), Err(Refusal::WrongLength));
        assert_eq!(calls::load(RING, &mut other), Err(LoadRefused { refusal: Refusal::WrongLength, position: 0 }));
        assert_eq!(calls::step(&mut other, 0), Err(Refusal::WrongLength));
        assert_eq!(calls::steps(&mut other, &[0]), Err(StepsRefused { refusal: Refusal::WrongLength, done: 0 }));
        assert_eq!(calls::map(&other, &mut [0; MAP_BYTES]), Err(Refusal::WrongLength));
        assert_eq!(calls::write(&other, &mut [0; calls::FILE_BYTES]), Err(Refusal::WrongLength));
        assert!(other.iter().all(|&byte| byte == 3));
    }
    for length in [0, 1, MAP_BYTES - 1, MAP_BYTES + 1] {
        assert_eq!(calls::map(run.bytes(), &mut vec![0; length]), Err(Refusal::WrongLength));
    }
    for length in [0, 1, calls::FILE_BYTES - 1, calls::FILE_BYTES + 1] {
        assert_eq!(calls::write(run.bytes(), &mut vec![0; length]), Err(Refusal::WrongLength));
    }
}

#[test]
fn empty_slices() {
    assert_eq!(calls::load(&[], &mut []), Err(LoadRefused { refusal: Refusal::WrongLength, position: 0 }));
    assert_eq!(calls::step(&mut [], 0), Err(Refusal::WrongLength));
    assert_eq!(calls::steps(&mut [], &[]), Err(StepsRefused { refusal: Refusal::WrongLength, done: 0 }));
    assert_eq!(calls::map(&[], &mut []), Err(Refusal::WrongLength));
    assert_eq!(calls::write(&[], &mut []), Err(Refusal::WrongLength));
    assert_eq!(Run::load(RING).unwrap().steps(&[]), Ok(0));
}

#[test]
fn numbers_13_to_16_and_19_on_the_way() {
    let mut run = Run::load(CLASH).unwrap();
    assert_eq!(run.step(2), Err(Refusal::NoSuchPlace));
    assert_eq!(run.step(usize::MAX), Err(Refusal::NoSuchPlace));
    assert_eq!(run.steps(&[0, 0, 1, 0]), Err(StepsRefused { refusal: Refusal::Waits, done: 2 }));
    let before = run.clone();
    assert_eq!(run.step(1), Err(Refusal::Waits));
    assert_eq!(run.step(4), Err(Refusal::NoSuchPlace));
    assert_eq!(run.map(), Err(Refusal::ItemsPending));
    assert_eq!(run.write(), Err(Refusal::NotAsLoaded));
    assert!(run == before, "a refused call leaves the run");
    assert_eq!(run.steps(&CLASH_PLACES[2..]), Ok(5));
    assert_eq!(run.step(0), Err(Refusal::Clashed));
    assert_eq!(run.steps(&[0]), Err(StepsRefused { refusal: Refusal::Clashed, done: 0 }));
    assert_eq!(run.steps(&[]), Ok(0));
    assert_eq!(run.map(), Err(Refusal::Clashed));
    assert_eq!(run.write(), Err(Refusal::NotAsLoaded));
}

#[test]
fn number_18_of_a_run_made_by_hand() {
    // The list is full of statements 0 = 1, an unknown and a record; Initiate would leave one item more.
    const MOST: u16 = 12_672;
    let mut run = Run::load(&[1, 1, 1, 7, 0, 0]).unwrap();
    run.bytes_mut()[6..8].copy_from_slice(&MOST.to_le_bytes());
    run.bytes_mut()[9_064..].chunks_exact_mut(4).for_each(|item| item.copy_from_slice(&[1, 0, 0, 1]));
    let before = run.clone();
    for place in [0, usize::from(MOST) - 1] {
        assert_eq!(run.step(place), Err(Refusal::ListFull));
    }
    assert_eq!(run.steps(&[7]), Err(StepsRefused { refusal: Refusal::ListFull, done: 0 }));
    assert!(run == before);
}
