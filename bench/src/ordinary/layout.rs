//! Where each field of a run stands, and the few accessors that several calls share.

pub const RUN_BYTES: usize = 59_752;
pub const MAP_BYTES: usize = 352;
pub const FILE_BYTES: usize = 836;

pub const MOST_ITEMS: usize = 12_672;

pub const TABLE: usize = 8;
pub const RECORD_BYTES: usize = 9;
pub const OWNERS: usize = 584;
pub const STORES: usize = 616;
pub const MEMOS: usize = 872;
pub const MEMO_BYTES: usize = 1024;
pub const ITEMS: usize = 9064;
pub const ITEM_BYTES: usize = 4;

pub const NOTHING: u8 = 255;
pub const INITIATED: u8 = 254;

pub const STATEMENT: u8 = 1;
pub const ASK: u8 = 2;
pub const NEWS: u8 = 3;

/// How many items are pending.
pub fn pending(run: &[u8]) -> usize {
    usize::from(u16::from_le_bytes([run[6], run[7]]))
}

pub fn set_pending(run: &mut [u8], count: usize) {
    run[6..8].copy_from_slice(&(count as u16).to_le_bytes());
}

/// The nine bytes of record i.
pub fn record(run: &[u8], i: usize) -> &[u8] {
    &run[TABLE + RECORD_BYTES * i..][..RECORD_BYTES]
}

/// The parts of a record, from its nine bytes.
pub fn parts(record: &[u8]) -> &[u8] {
    &record[5..5 + usize::from(record[4])]
}

/// Where the mark of unknown x stands in the store of a cabinet.
pub fn store_at(cabinet: u8, x: u8) -> usize {
    STORES + 32 * usize::from(cabinet) + usize::from(x)
}

/// Where a pair, greater first, stands in the memo of a cabinet.
pub fn memo_at(cabinet: u8, greater: u8, smaller: u8) -> usize {
    MEMOS + MEMO_BYTES * usize::from(cabinet) + 32 * usize::from(greater) + usize::from(smaller)
}
