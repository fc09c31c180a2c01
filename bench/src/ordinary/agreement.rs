//! The map: owner marks followed to their ends once, agreement with a table of met pairs, each unknown's lowest same item once.

use super::layout::*;
use super::soundness::sound;

/// A run's table, and where each unknown's owner marks end: at an unknown or at a record.
struct Ends<'a> {
    run: &'a [u8],
    v: u8,
    ends: [u8; 32],
}

impl<'a> Ends<'a> {
    fn of(run: &'a [u8]) -> Ends<'a> {
        let v = run[3];
        let mut ends = [0; 32];
        for x in 0..v {
            // A mark is less than its unknown, so its own end is known already.
            ends[usize::from(x)] = match run[OWNERS + usize::from(x)] {
                NOTHING => x,
                entry if entry < v => ends[usize::from(entry)],
                entry => entry,
            };
        }
        Ends { run, v, ends }
    }

    /// The nine bytes of the record at which x ends, if it does.
    fn record(&self, x: u8) -> Option<&'a [u8]> {
        self.ends[usize::from(x)].checked_sub(self.v).map(|i| record(self.run, usize::from(i)))
    }

    /// Whether x and y agree, given the pairs that are met; one bit for each pair, greater first.
    fn agree(&self, x: u8, y: u8, met: &mut [u32; 32]) -> bool {
        if x == y {
            return true;
        }
        let (word, bit) = (usize::from(x.max(y)), 1 << x.min(y));
        if met[word] & bit != 0 {
            return true;
        }
        met[word] |= bit;
        match (self.record(x), self.record(y)) {
            (None, None) => self.ends[usize::from(x)] == self.ends[usize::from(y)],
            (Some(one), Some(other)) => {
                let mut pairs = parts(one).iter().zip(parts(other));
                one[..5] == other[..5] && pairs.all(|(&part, &its)| self.agree(part, its, met))
            }
            _ => false,
        }
    }
}

/// The map of a run that is over: the refusal.
pub fn map(run: &[u8], map: &mut [u8]) -> usize {
    if run.len() != RUN_BYTES || map.len() != MAP_BYTES {
        return 12;
    }
    if !sound(run) {
        return 17;
    }
    if run[0] != 0 {
        return 15;
    }
    if pending(run) != 0 {
        return 16;
    }
    let ends = Ends::of(run);
    let mut lowest = [0; 32];
    for x in 0..ends.v {
        lowest[usize::from(x)] = (0..x).find(|&y| ends.agree(x, y, &mut [0; 32])).unwrap_or(x);
    }
    map.fill(0);
    for (x, row) in (0..ends.v).zip(map.chunks_exact_mut(11)) {
        row[0] = lowest[usize::from(x)];
        if let Some(record) = ends.record(x) {
            row[1] = 1;
            row[2..7].copy_from_slice(&record[..5]);
            for (place, &part) in row[7..].iter_mut().zip(parts(record)) {
                *place = lowest[usize::from(part)];
            }
        }
    }
    0
}
