//! Number 17, and no panic: runs and files with damaged bytes are refused, or taken as what they have become.

use crate::common::{to_the_end, CLASH, RING};
use sceolandra::{Refusal, Run, StepsRefused, RUN_BYTES};

/// All that can be asked of a run; what it answers is the other tests' matter.
fn ask_everything(run: &mut Run, place: usize) {
    let _ = format!("{run:?} {:?} {:?}", run.map(), run.write());
    let _ = run.step(place);
    let _ = run.steps(&[0, 0, place as u32, 1]);
}

/// Numbers drawn as the map program draws.
fn draws() -> impl FnMut() -> usize {
    let mut x = 1_u32;
    move || {
        x = x.wrapping_mul(1_664_525).wrapping_add(1_013_904_223);
        (x >> 16) as usize
    }
}

#[test]
fn a_damaged_byte_is_not_sound_unless_it_is_a_symbols() {
    let mut run = Run::load(RING).unwrap();
    for at in (0..900).chain((900..RUN_BYTES).step_by(331)) {
        let before = run.bytes()[at];
        run.bytes_mut()[at] = 0xA5;
        let damaged = run.clone();
        if matches!(at, 8..=11 | 17..=20) {
            assert_eq!(run.steps(&[]), Ok(0), "byte {at}");
        } else {
            assert_eq!(run.step(0), Err(Refusal::NotSound), "byte {at}");
            assert_eq!(run.steps(&[]), Err(StepsRefused { refusal: Refusal::NotSound, done: 0 }), "byte {at}");
            assert_eq!(run.map(), Err(Refusal::NotSound), "byte {at}");
            assert_eq!(run.write(), Err(Refusal::NotSound), "byte {at}");
        }
        assert!(run == damaged, "byte {at}");
        run.bytes_mut()[at] = before;
    }
}

#[test]
fn no_bytes_make_a_panic() {
    let mut draw = draws();
    for round in 0..400 {
        let mut run = Run::load(if round % 2 == 0 { RING } else { CLASH }).unwrap();
        for _ in 0..draw() % 12 {
            let place = draw() % (run.pending() + 1);
            ask_everything(&mut run, place);
        }
        // Small values near the start leave many runs sound, others few.
        for _ in 0..draw() % 3 {
            let at = draw() % [900, RUN_BYTES][draw() % 2];
            run.bytes_mut()[at] = (draw() % [4, 256][draw() % 2]) as u8;
        }
        let place = draw() % (run.pending() + 2);
        ask_everything(&mut run, place);
    }
    for byte in [0, 1, 2, 254, 255] {
        let mut run = Run::from_bytes(&[byte; RUN_BYTES]).unwrap();
        ask_everything(&mut run, 0);
        assert_eq!(run.step(0), Err(Refusal::NotSound));
    }
}

#[test]
fn damaged_files_are_refused_or_run_to_their_end() {
    for file in [RING, CLASH] {
        for at in 0..file.len() {
            for change in [1, 2, 64, 128, 255] {
                let mut damaged = file.to_vec();
                damaged[at] ^= change;
                match Run::load(&damaged) {
                    Ok(mut run) => {
                        assert_eq!(run.write(), Ok(damaged));
                        to_the_end(&mut run, |count| count - 1).unwrap();
                        assert_eq!(run.map().is_err(), run.clash().is_some());
                    }
                    Err(refused) => {
                        assert!((1..=11).contains(&refused.refusal.number()));
                        assert!(refused.position <= damaged.len());
                        assert_eq!(sceolandra::statement(&damaged, 0), None);
                    }
                }
            }
            assert_eq!(Run::load(&file[..at]).map_err(|refused| refused.refusal), Err(Refusal::FileEnds));
        }
    }
}
