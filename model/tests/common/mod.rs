//! Runs that tests start from: a file loaded into a buffer that held something else, and bytes laid over a run.

use model::load;
use model::refusal::DONE;
use model::run::RUN_LENGTH;

pub fn loaded(file: &[u8]) -> Vec<u8> {
    let mut run = vec![170; RUN_LENGTH];
    assert_eq!(load(file, &mut run), (DONE, 0));
    run
}

pub fn poked(run: &[u8], offset: usize, bytes: &[u8]) -> Vec<u8> {
    let mut run = run.to_vec();
    run[offset..offset + bytes.len()].copy_from_slice(bytes);
    run
}
