//! The six calls of the built library, as functions on slices: a slice goes as its pointer and its length.

#[repr(C)]
struct Two {
    first: usize,
    second: usize,
}

#[repr(C)]
struct One {
    number: usize,
}

extern "C" {
    fn sc_load(file: *const u8, file_len: usize, run: *mut u8, run_len: usize) -> Two;
    fn sc_statement(file: *const u8, file_len: usize, n: usize) -> Two;
    fn sc_step(run: *mut u8, run_len: usize, place: usize) -> Two;
    fn sc_steps(run: *mut u8, run_len: usize, places: *const u32, count: usize) -> Two;
    fn sc_map(run: *const u8, run_len: usize, map: *mut u8, map_len: usize) -> One;
    fn sc_write(run: *const u8, run_len: usize, file: *mut u8, file_len: usize) -> Two;
}

fn pair(reply: Two) -> (usize, usize) {
    (reply.first, reply.second)
}

// Each call is safe for every input: slices are never null, a lent buffer is not shared while it may be written, and the
// library reads and writes within the lengths it is given.

pub fn load(file: &[u8], run: &mut [u8]) -> (usize, usize) {
    pair(unsafe { sc_load(file.as_ptr(), file.len(), run.as_mut_ptr(), run.len()) })
}

pub fn statement(file: &[u8], n: usize) -> (usize, usize) {
    pair(unsafe { sc_statement(file.as_ptr(), file.len(), n) })
}

pub fn step(run: &mut [u8], place: usize) -> (usize, usize) {
    pair(unsafe { sc_step(run.as_mut_ptr(), run.len(), place) })
}

pub fn steps(run: &mut [u8], places: &[u32]) -> (usize, usize) {
    pair(unsafe { sc_steps(run.as_mut_ptr(), run.len(), places.as_ptr(), places.len()) })
}

pub fn map(run: &[u8], map: &mut [u8]) -> usize {
    unsafe { sc_map(run.as_ptr(), run.len(), map.as_mut_ptr(), map.len()) }.number
}

pub fn write(run: &[u8], file: &mut [u8]) -> (usize, usize) {
    pair(unsafe { sc_write(run.as_ptr(), run.len(), file.as_mut_ptr(), file.len()) })
}
