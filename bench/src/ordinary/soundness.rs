//! Whether a run's bytes are sound, region by region.

use super::layout::*;

/// Whether all these bytes are 0. With no way out inside a chunk the compiler tests many bytes at once; byte by byte the
/// whole check takes some six times as long.
pub fn zeros(bytes: &[u8]) -> bool {
    bytes.chunks(64).all(|chunk| chunk.iter().fold(0, |all, &byte| all | byte) == 0)
}

/// The sizes that the other ranges depend on.
struct Sizes {
    s: usize,
    v: usize,
    r: usize,
}

impl Sizes {
    fn is_entry(&self, entry: u8) -> bool {
        usize::from(entry) < self.v + self.r
    }

    /// Whether `entry` is less than unknown x.
    fn less(&self, entry: u8, x: usize) -> bool {
        x < self.v && self.is_entry(entry) && (usize::from(entry) >= self.v || usize::from(entry) < x)
    }

    fn record(&self, i: usize, record: &[u8]) -> bool {
        if i >= self.r {
            return zeros(record);
        }
        record[4] <= 4
            && parts(record).iter().all(|&part| usize::from(part) < self.v)
            && zeros(&record[5 + usize::from(record[4])..])
    }

    fn store(&self, cabinet: usize, store: &[u8]) -> bool {
        let mark_ok = |(x, &mark): (usize, &u8)| {
            mark == NOTHING || (cabinet < self.s && x < self.v && (mark == INITIATED || self.less(mark, x)))
        };
        store.iter().enumerate().all(mark_ok)
    }

    fn memo(&self, cabinet: usize, memo: &[u8]) -> bool {
        memo.chunks_exact(32).enumerate().all(|(x, row)| {
            let used = if cabinet < self.s && x < self.v { x } else { 0 };
            row[..used].iter().all(|&byte| byte <= 1) && zeros(&row[used..])
        })
    }

    fn item(&self, item: &[u8]) -> bool {
        usize::from(item[1]) < self.s
            && match item[0] {
                STATEMENT => self.is_entry(item[2]) && self.is_entry(item[3]),
                ASK | NEWS => self.less(item[3], usize::from(item[2])),
                _ => false,
            }
    }
}

/// Whether a run of the right length is sound.
pub fn sound(run: &[u8]) -> bool {
    let sizes = Sizes { s: usize::from(run[2]), v: usize::from(run[3]), r: usize::from(run[4]) };
    let count = pending(run);
    if !(1..=8).contains(&sizes.s) || sizes.v > 32 || sizes.r > 64 || run[5] > 64 || count > MOST_ITEMS {
        return false;
    }
    let state = match run[0] {
        0 => run[1] == 0,
        1 => usize::from(run[1]) < sizes.s,
        _ => false,
    };
    let (used, unused) = run[ITEMS..].split_at(ITEM_BYTES * count);
    state
        && run[TABLE..OWNERS].chunks_exact(RECORD_BYTES).enumerate().all(|(i, record)| sizes.record(i, record))
        && run[OWNERS..STORES].iter().enumerate().all(|(x, &mark)| mark == NOTHING || sizes.less(mark, x))
        && run[STORES..MEMOS].chunks_exact(32).enumerate().all(|(cabinet, store)| sizes.store(cabinet, store))
        && run[MEMOS..ITEMS].chunks_exact(MEMO_BYTES).enumerate().all(|(cabinet, memo)| sizes.memo(cabinet, memo))
        && used.chunks_exact(ITEM_BYTES).all(|item| sizes.item(item))
        && zeros(unused)
}
