//! The statement file: read into what a run will hold, statement n found in it, and written back.

use super::layout::*;
use super::soundness::{sound, zeros};

/// A refusal and where the faulty number starts.
type Fault = (usize, usize);

/// What a file says, in the form that a run holds it.
struct Said {
    sizes: [u8; 4],
    table: [u8; OWNERS - TABLE],
    items: [[u8; ITEM_BYTES]; 64],
    /// Where each statement starts; the last of them ends where the file does.
    starts: [usize; 64],
}

struct Reader<'a> {
    bytes: &'a [u8],
    at: usize,
}

impl Reader<'_> {
    fn number(&mut self) -> Result<u32, Fault> {
        let start = self.at;
        let mut value = 0;
        for shift in [0, 7, 14, 21, 28] {
            let Some(&byte) = self.bytes.get(self.at) else {
                return Err((1, start));
            };
            self.at += 1;
            if shift == 28 && byte > 15 {
                return Err((2, start));
            }
            value |= u32::from(byte & 127) << shift;
            if byte < 128 {
                return if byte == 0 && shift > 0 { Err((2, start)) } else { Ok(value) };
            }
        }
        Err((2, start))
    }

    /// A number that is at least `low` and below `limit`, which is at most 256.
    fn ranged(&mut self, low: u32, limit: u32, refusal: usize) -> Result<u8, Fault> {
        let start = self.at;
        let value = self.number()?;
        if value < low || value >= limit {
            return Err((refusal, start));
        }
        Ok(value as u8)
    }
}

fn read(bytes: &[u8]) -> Result<Said, Fault> {
    let mut reader = Reader { bytes, at: 0 };
    let s = reader.ranged(1, 9, 3)?;
    let v = reader.ranged(0, 33, 4)?;
    let r = reader.ranged(0, 65, 5)?;
    let mut said = Said { sizes: [s, v, r, 0], table: [0; OWNERS - TABLE], items: [[0; 4]; 64], starts: [0; 64] };
    for record in said.table.chunks_exact_mut(RECORD_BYTES).take(usize::from(r)) {
        record[..4].copy_from_slice(&reader.number()?.to_le_bytes());
        record[4] = reader.ranged(0, 5, 6)?;
        let count = usize::from(record[4]);
        for part in &mut record[5..5 + count] {
            *part = reader.ranged(0, u32::from(v), 7)?;
        }
    }
    let e = reader.ranged(0, 65, 8)?;
    said.sizes[3] = e;
    let entries = u32::from(v) + u32::from(r);
    for (item, start) in said.items.iter_mut().zip(&mut said.starts).take(usize::from(e)) {
        *start = reader.at;
        let cabinet = reader.ranged(0, u32::from(s), 9)?;
        *item = [STATEMENT, cabinet, reader.ranged(0, entries, 10)?, reader.ranged(0, entries, 10)?];
    }
    if reader.at < bytes.len() {
        return Err((11, reader.at));
    }
    Ok(said)
}

/// The file into the run: the refusal and its position.
pub fn load(file: &[u8], run: &mut [u8]) -> (usize, usize) {
    if run.len() != RUN_BYTES {
        return (12, 0);
    }
    let said = match read(file) {
        Ok(said) => said,
        Err(fault) => return fault,
    };
    let e = usize::from(said.sizes[3]);
    run.fill(0);
    run[2..6].copy_from_slice(&said.sizes);
    set_pending(run, e);
    run[TABLE..OWNERS].copy_from_slice(&said.table);
    run[OWNERS..MEMOS].fill(NOTHING);
    run[ITEMS..ITEMS + ITEM_BYTES * e].copy_from_slice(said.items[..e].as_flattened());
    (0, 0)
}

/// The start and length of statement n; 0 and 0 where there is none.
pub fn statement(file: &[u8], n: usize) -> (usize, usize) {
    let Ok(said) = read(file) else {
        return (0, 0);
    };
    let e = usize::from(said.sizes[3]);
    if n >= e {
        return (0, 0);
    }
    let end = if n + 1 < e { said.starts[n + 1] } else { file.len() };
    (said.starts[n], end - said.starts[n])
}

struct Writer<'a> {
    bytes: &'a mut [u8],
    at: usize,
}

impl Writer<'_> {
    fn number(&mut self, value: u32) {
        let mut left = value;
        while left >= 128 {
            self.byte(left as u8 | 128);
            left >>= 7;
        }
        self.byte(left as u8);
    }

    fn byte(&mut self, byte: u8) {
        self.bytes[self.at] = byte;
        self.at += 1;
    }
}

/// Whether a sound run is as loading some file leaves it.
fn as_loaded(run: &[u8]) -> bool {
    let e = usize::from(run[5]);
    run[0] == 0
        && pending(run) == e
        && run[OWNERS..MEMOS].iter().all(|&mark| mark == NOTHING)
        && zeros(&run[MEMOS..ITEMS])
        && run[ITEMS..ITEMS + ITEM_BYTES * e].chunks_exact(ITEM_BYTES).all(|item| item[0] == STATEMENT)
}

/// The run's file and then zeros: the refusal, and the file's length.
pub fn write(run: &[u8], file: &mut [u8]) -> (usize, usize) {
    if run.len() != RUN_BYTES || file.len() != FILE_BYTES {
        return (12, 0);
    }
    if !sound(run) {
        return (17, 0);
    }
    if !as_loaded(run) {
        return (19, 0);
    }
    let mut writer = Writer { bytes: file, at: 0 };
    let [s, v, r, e] = [run[2], run[3], run[4], run[5]];
    [s, v, r].iter().for_each(|&size| writer.number(u32::from(size)));
    for record in run[TABLE..OWNERS].chunks_exact(RECORD_BYTES).take(usize::from(r)) {
        writer.number(u32::from_le_bytes([record[0], record[1], record[2], record[3]]));
        writer.number(u32::from(record[4]));
        parts(record).iter().for_each(|&part| writer.number(u32::from(part)));
    }
    writer.number(u32::from(e));
    for item in run[ITEMS..].chunks_exact(ITEM_BYTES).take(usize::from(e)) {
        item[1..].iter().for_each(|&number| writer.number(u32::from(number)));
    }
    let length = writer.at;
    file[length..].fill(0);
    (0, length)
}
