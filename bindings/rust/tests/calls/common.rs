//! Files of document 01, and a run taken to its end.

use sceolandra::{Refusal, Run};

/// Two unknowns that agree though they are never equated.
pub const RING: &[u8] = &[1, 2, 2, 7, 1, 0, 7, 1, 1, 2, 0, 0, 2, 0, 1, 3];

/// Two cabinets that give one unknown two symbols, and the bench sheet's places for it: rules 7 7 8 9 10 3 5.
pub const CLASH: &[u8] = &[2, 1, 2, 10, 0, 11, 0, 2, 0, 0, 1, 1, 0, 2];
pub const CLASH_PLACES: &[u32] = &[0, 0, 2, 0, 2, 0, 2];

/// Takes, of the places that do not wait, the one that `choose` points to, until the run clashes or nothing is pending.
/// `choose` is given the pending count.
pub fn to_the_end(run: &mut Run, mut choose: impl FnMut(usize) -> usize) -> Result<(), Refusal> {
    while run.clash().is_none() && run.pending() > 0 {
        let (count, from) = (run.pending(), choose(run.pending()));
        let taken = (0..count).find_map(|further| match run.step((from + further) % count) {
            Err(Refusal::Waits) => None,
            taken => Some(taken),
        });
        taken.unwrap_or(Err(Refusal::Waits))?;
    }
    Ok(())
}
