//! The six calls over slices that the caller holds. All of the crate's unsafe code is here.
//!
//! Each takes slices of any length, and refuses a wrong one with [`Refusal::WrongLength`]: a run has
//! [`RUN_BYTES`](crate::RUN_BYTES), a map [`MAP_BYTES`](crate::MAP_BYTES), a file to be written [`FILE_BYTES`].

use crate::{LoadRefused, Refusal, Rule, StepsRefused};

/// The length of a file's buffer to be written: the longest file.
pub const FILE_BYTES: usize = 836;

/// The declarations of `include/sceolandra.h`. A slice goes as its pointer and its length.
mod declared {
    /// A reply of two numbers, the first of which is the refusal or, for a statement, its start.
    #[repr(C)]
    pub struct Two {
        pub first: usize,
        pub second: usize,
    }

    /// A reply of the refusal alone.
    #[repr(C)]
    pub struct One {
        pub number: usize,
    }

    extern "C" {
        pub fn sc_load(file: *const u8, file_len: usize, run: *mut u8, run_len: usize) -> Two;
        pub fn sc_statement(file: *const u8, file_len: usize, n: usize) -> Two;
        pub fn sc_step(run: *mut u8, run_len: usize, place: usize) -> Two;
        pub fn sc_steps(run: *mut u8, run_len: usize, places: *const u32, count: usize) -> Two;
        pub fn sc_map(run: *const u8, run_len: usize, map: *mut u8, map_len: usize) -> One;
        pub fn sc_write(run: *const u8, run_len: usize, file: *mut u8, file_len: usize) -> Two;
    }
}

// Why each call below is safe: a slice's pointer is valid for its length, is aligned and is not null even if the slice
// is empty; what is written is borrowed mutably, so nothing overlaps it; and the calls take every content and ask
// nothing else.

/// The file into the run, whatever the run held before.
pub fn load(file: &[u8], run: &mut [u8]) -> Result<(), LoadRefused> {
    // SAFETY: as above.
    let reply = unsafe { declared::sc_load(file.as_ptr(), file.len(), run.as_mut_ptr(), run.len()) };
    Refusal::check(reply.first).map_err(|refusal| LoadRefused { refusal, position: reply.second })
}

/// The bytes of statement `n` of the file, a part of it; none, where document 01 gives the empty part, exactly when the
/// file is refused or `n` is not below E.
///
/// ```
/// let ring = [1, 2, 2, 7, 1, 0, 7, 1, 1, 2, 0, 0, 2, 0, 1, 3];
/// assert_eq!(sceolandra::statement(&ring, 1), Some(&[0, 1, 3][..]));
/// assert_eq!(sceolandra::statement(&ring, 2), None);
/// ```
pub fn statement(file: &[u8], n: usize) -> Option<&[u8]> {
    // SAFETY: as above.
    let reply = unsafe { declared::sc_statement(file.as_ptr(), file.len(), n) };
    let end = reply.first.checked_add(reply.second)?;
    file.get(reply.first..end).filter(|part| !part.is_empty())
}

/// One step, at a place of the pending list, from 0.
pub fn step(run: &mut [u8], place: usize) -> Result<Rule, Refusal> {
    // SAFETY: as above.
    let reply = unsafe { declared::sc_step(run.as_mut_ptr(), run.len(), place) };
    Refusal::check(reply.first).map(|()| Rule::of(reply.second))
}

/// A list of steps, each in the run as the one before left it; how many were done, which is all of them.
pub fn steps(run: &mut [u8], places: &[u32]) -> Result<usize, StepsRefused> {
    // SAFETY: as above.
    let reply = unsafe { declared::sc_steps(run.as_mut_ptr(), run.len(), places.as_ptr(), places.len()) };
    let done = reply.second;
    Refusal::check(reply.first).map(|()| done).map_err(|refusal| StepsRefused { refusal, done })
}

/// The map of a run that has come to its end unclashed.
pub fn map(run: &[u8], map: &mut [u8]) -> Result<(), Refusal> {
    // SAFETY: as above.
    let reply = unsafe { declared::sc_map(run.as_ptr(), run.len(), map.as_mut_ptr(), map.len()) };
    Refusal::check(reply.number)
}

/// A run that is as loaded, back into its file, with zeros after it; the file's length.
pub fn write(run: &[u8], file: &mut [u8]) -> Result<usize, Refusal> {
    // SAFETY: as above.
    let reply = unsafe { declared::sc_write(run.as_ptr(), run.len(), file.as_mut_ptr(), file.len()) };
    Refusal::check(reply.first).map(|()| reply.second)
}
