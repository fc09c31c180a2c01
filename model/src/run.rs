//! The run: its 59,752 bytes, what makes them sound, the structured form they are decoded into, loading and writing.

use crate::file::{
    self, Fault, File, Record, Statement, LONGEST_FILE, MOST_CABINETS, MOST_PARTS, MOST_RECORDS, MOST_STATEMENTS,
    MOST_UNKNOWNS,
};
use crate::refusal::*;
use std::collections::BTreeSet;

pub const RUN_LENGTH: usize = 59_752;
pub const MOST_ITEMS: usize = 12_672;

/// Mark of nothing, and mark of initiated (stores only).
pub const NOTHING: u8 = 255;
pub const INITIATED: u8 = 254;

const PENDING_COUNT: usize = 6;
const RECORDS: usize = 8;
const RECORD_LENGTH: usize = 9;
const OWNERS: usize = 584;
const STORES: usize = 616;
const MEMOS: usize = 872;
const MEMO_LENGTH: usize = 1024;
const ITEMS: usize = 9064;
const ITEM_LENGTH: usize = 4;

/// A pending item: a statement (1), an ask (2) or a news (3).
#[derive(Clone, Copy, Debug, PartialEq, Eq)]
pub enum Item {
    Statement { cabinet: u8, left: u8, right: u8 },
    Ask { cabinet: u8, left: u8, right: u8 },
    News { cabinet: u8, left: u8, right: u8 },
}

impl Item {
    fn from_bytes(bytes: &[u8]) -> Option<Item> {
        let &[kind, cabinet, left, right] = bytes else {
            return None;
        };
        match kind {
            1 => Some(Item::Statement { cabinet, left, right }),
            2 => Some(Item::Ask { cabinet, left, right }),
            3 => Some(Item::News { cabinet, left, right }),
            _ => None,
        }
    }

    fn to_bytes(self) -> [u8; ITEM_LENGTH] {
        match self {
            Item::Statement { cabinet, left, right } => [1, cabinet, left, right],
            Item::Ask { cabinet, left, right } => [2, cabinet, left, right],
            Item::News { cabinet, left, right } => [3, cabinet, left, right],
        }
    }
}

/// A mark of a cabinet's store.
#[derive(Clone, Copy, Debug, PartialEq, Eq)]
pub enum Mark {
    Nothing,
    Initiated,
    Entry(u8),
}

impl Mark {
    fn from_byte(byte: u8) -> Mark {
        match byte {
            NOTHING => Mark::Nothing,
            INITIATED => Mark::Initiated,
            entry => Mark::Entry(entry),
        }
    }

    fn to_byte(self) -> u8 {
        match self {
            Mark::Nothing => NOTHING,
            Mark::Initiated => INITIATED,
            Mark::Entry(entry) => entry,
        }
    }
}

/// A sound run. Only loading, decoding sound bytes and steps make one, so its fields always keep their ranges.
#[derive(Clone, Debug, PartialEq, Eq)]
pub struct Run {
    /// The cabinet of the clash, or nothing while running.
    pub(crate) clash: Option<u8>,
    pub(crate) s: u8,
    pub(crate) v: u8,
    pub(crate) e: u8,
    pub(crate) records: Vec<Record>,
    /// One mark for each unknown.
    pub(crate) owners: Vec<Option<u8>>,
    /// For each cabinet below S, one mark for each unknown.
    pub(crate) stores: Vec<Vec<Mark>>,
    /// For each cabinet below S, the pairs in its memo, greater unknown first.
    pub(crate) memos: Vec<BTreeSet<(u8, u8)>>,
    pub(crate) items: Vec<Item>,
}

impl Run {
    /// The run that loading `file` leaves, or the file's first fault.
    pub fn load(file: &[u8]) -> Result<Run, Fault> {
        file::read(file).map(|file| Run::as_loaded(&file))
    }

    fn as_loaded(file: &File) -> Run {
        Run {
            clash: None,
            s: file.s,
            v: file.v,
            e: file.statements.len() as u8,
            records: file.records.clone(),
            owners: vec![None; usize::from(file.v)],
            stores: vec![vec![Mark::Nothing; usize::from(file.v)]; usize::from(file.s)],
            memos: vec![BTreeSet::new(); usize::from(file.s)],
            items: file
                .statements
                .iter()
                .map(|&Statement { cabinet, left, right }| Item::Statement { cabinet, left, right })
                .collect(),
        }
    }

    /// The run that these bytes hold; nothing when they are of another length or not sound.
    pub fn from_bytes(bytes: &[u8]) -> Option<Run> {
        if !sound(bytes) {
            return None;
        }
        let (s, v, r) = (bytes[2], bytes[3], bytes[4]);
        let records = (0..usize::from(r)).map(|record| {
            let at = RECORDS + RECORD_LENGTH * record;
            let part_count = usize::from(bytes[at + 4]);
            Record {
                symbol: u32::from_le_bytes([bytes[at], bytes[at + 1], bytes[at + 2], bytes[at + 3]]),
                parts: bytes[at + 5..at + 5 + part_count].to_vec(),
            }
        });
        let owners = (0..usize::from(v)).map(|x| match Mark::from_byte(bytes[OWNERS + x]) {
            Mark::Entry(entry) => Some(entry),
            Mark::Nothing | Mark::Initiated => None,
        });
        let stores = (0..usize::from(s))
            .map(|cabinet| (0..usize::from(v)).map(|x| Mark::from_byte(bytes[store_place(cabinet, x)])).collect());
        let memos = (0..usize::from(s)).map(|cabinet| {
            let mut memo = BTreeSet::new();
            for greater in 0..v {
                for smaller in 0..greater {
                    if bytes[memo_place(cabinet, usize::from(greater), usize::from(smaller))] == 1 {
                        memo.insert((greater, smaller));
                    }
                }
            }
            memo
        });
        let items = (0..pending_count(bytes)).filter_map(|place| Item::from_bytes(item_bytes(bytes, place)));
        Some(Run {
            clash: if bytes[0] == 1 { Some(bytes[1]) } else { None },
            s,
            v,
            e: bytes[5],
            records: records.collect(),
            owners: owners.collect(),
            stores: stores.collect(),
            memos: memos.collect(),
            items: items.collect(),
        })
    }

    /// The 59,752 bytes of the run.
    pub fn to_bytes(&self) -> Vec<u8> {
        let mut bytes = vec![0; RUN_LENGTH];
        bytes[OWNERS..MEMOS].fill(NOTHING);
        bytes[0] = u8::from(self.clash.is_some());
        bytes[1] = self.clash.unwrap_or(0);
        bytes[2..6].copy_from_slice(&[self.s, self.v, self.records.len() as u8, self.e]);
        bytes[PENDING_COUNT..PENDING_COUNT + 2].copy_from_slice(&(self.items.len() as u16).to_le_bytes());
        for (n, record) in self.records.iter().enumerate() {
            let at = RECORDS + RECORD_LENGTH * n;
            bytes[at..at + 4].copy_from_slice(&record.symbol.to_le_bytes());
            bytes[at + 4] = record.parts.len() as u8;
            bytes[at + 5..at + 5 + record.parts.len()].copy_from_slice(&record.parts);
        }
        for (x, owner) in self.owners.iter().enumerate() {
            bytes[OWNERS + x] = owner.unwrap_or(NOTHING);
        }
        for (cabinet, store) in self.stores.iter().enumerate() {
            for (x, mark) in store.iter().enumerate() {
                bytes[store_place(cabinet, x)] = mark.to_byte();
            }
        }
        for (cabinet, memo) in self.memos.iter().enumerate() {
            for &(greater, smaller) in memo {
                bytes[memo_place(cabinet, usize::from(greater), usize::from(smaller))] = 1;
            }
        }
        for (place, item) in self.items.iter().enumerate() {
            let at = ITEMS + ITEM_LENGTH * place;
            bytes[at..at + ITEM_LENGTH].copy_from_slice(&item.to_bytes());
        }
        bytes
    }

    /// The file that leaves exactly this run when loaded, if there is one. This looks at the run as it is, not at how
    /// it came about: a run may step back into such a state.
    pub fn file(&self) -> Option<File> {
        let statement = |item: &Item| match *item {
            Item::Statement { cabinet, left, right } => Some(Statement { cabinet, left, right }),
            Item::Ask { .. } | Item::News { .. } => None,
        };
        let statements: Vec<Statement> = self.items.iter().filter_map(statement).collect();
        let file = File { s: self.s, v: self.v, records: self.records.clone(), statements };
        (Run::as_loaded(&file) == *self).then_some(file)
    }

    /// The cabinet of the clash, or nothing while running.
    pub fn clash(&self) -> Option<u8> {
        self.clash
    }

    /// S, the number of cabinets.
    pub fn cabinets(&self) -> u8 {
        self.s
    }

    /// V, the number of unknowns.
    pub fn unknowns(&self) -> u8 {
        self.v
    }

    /// E, which in a run made by hand has nothing to do with its items.
    pub fn statements(&self) -> u8 {
        self.e
    }

    pub fn records(&self) -> &[Record] {
        &self.records
    }

    pub fn owners(&self) -> &[Option<u8>] {
        &self.owners
    }

    pub fn stores(&self) -> &[Vec<Mark>] {
        &self.stores
    }

    pub fn memos(&self) -> &[BTreeSet<(u8, u8)>] {
        &self.memos
    }

    pub fn items(&self) -> &[Item] {
        &self.items
    }
}

/// Loads `file` into the lent run: the refusal and its position, or (0, 0).
pub fn load(file: &[u8], run: &mut [u8]) -> (usize, usize) {
    if run.len() != RUN_LENGTH {
        return (WRONG_LENGTH, 0);
    }
    match Run::load(file) {
        Ok(loaded) => {
            run.copy_from_slice(&loaded.to_bytes());
            (DONE, 0)
        }
        Err(fault) => (fault.number, fault.position),
    }
}

/// Writes the file whose loading leaves exactly `run` into the lent 836 bytes, then zeros: the refusal and 0, or 0 and
/// the file's length.
pub fn write(run: &[u8], file: &mut [u8]) -> (usize, usize) {
    if run.len() != RUN_LENGTH || file.len() != LONGEST_FILE {
        return (WRONG_LENGTH, 0);
    }
    let Some(run) = Run::from_bytes(run) else {
        return (NOT_SOUND, 0);
    };
    let Some(said) = run.file() else {
        return (NOT_AS_LOADED, 0);
    };
    let bytes = file::write(&said);
    file.fill(0);
    file[..bytes.len()].copy_from_slice(&bytes);
    (DONE, bytes.len())
}

/// Whether these bytes are a sound run: every one of them is looked at, in the order of the layout. Bytes of another
/// length are no run at all.
pub fn sound(run: &[u8]) -> bool {
    if run.len() != RUN_LENGTH {
        return false;
    }
    let (s, v, r, e) = (usize::from(run[2]), usize::from(run[3]), usize::from(run[4]), usize::from(run[5]));
    let count = pending_count(run);
    let table = Table { s, v, r };
    let ranges = (1..=MOST_CABINETS).contains(&s)
        && v <= MOST_UNKNOWNS
        && r <= MOST_RECORDS
        && e <= MOST_STATEMENTS
        && count <= MOST_ITEMS;
    let state = match run[0] {
        0 => run[1] == 0,
        1 => usize::from(run[1]) < s,
        _ => false,
    };
    ranges
        && state
        && (0..MOST_RECORDS).all(|record| table.record_sound(run, record))
        && (0..MOST_UNKNOWNS).all(|x| table.owner_sound(run, x))
        && (0..MOST_CABINETS).all(|cabinet| (0..MOST_UNKNOWNS).all(|x| table.store_sound(run, cabinet, x)))
        && (0..MOST_CABINETS).all(|cabinet| table.memo_sound(run, cabinet))
        && (0..MOST_ITEMS).all(|place| table.item_sound(run, place, place < count))
}

/// The sizes that the ranges of a run's other bytes depend on.
struct Table {
    s: usize,
    v: usize,
    r: usize,
}

impl Table {
    fn is_entry(&self, byte: u8) -> bool {
        usize::from(byte) < self.v + self.r
    }

    /// Whether `byte` is an entry less than unknown x: a record or a smaller-numbered unknown.
    fn less(&self, byte: u8, x: usize) -> bool {
        self.is_entry(byte) && (usize::from(byte) >= self.v || usize::from(byte) < x)
    }

    /// A used record has up to four parts, each an unknown; part places beyond its count and unused records are 0.
    fn record_sound(&self, run: &[u8], record: usize) -> bool {
        let at = RECORDS + RECORD_LENGTH * record;
        let bytes = &run[at..at + RECORD_LENGTH];
        if record >= self.r {
            return bytes.iter().all(|&byte| byte == 0);
        }
        let part_count = usize::from(bytes[4]);
        part_count <= MOST_PARTS
            && bytes[5..5 + part_count].iter().all(|&part| usize::from(part) < self.v)
            && bytes[5 + part_count..].iter().all(|&byte| byte == 0)
    }

    /// 254 is a mark of stores only: at an owner it is neither nothing nor an entry.
    fn owner_sound(&self, run: &[u8], x: usize) -> bool {
        let mark = run[OWNERS + x];
        mark == NOTHING || (x < self.v && self.less(mark, x))
    }

    fn store_sound(&self, run: &[u8], cabinet: usize, x: usize) -> bool {
        let mark = run[store_place(cabinet, x)];
        let used = cabinet < self.s && x < self.v;
        mark == NOTHING || (used && (mark == INITIATED || self.less(mark, x)))
    }

    fn memo_sound(&self, run: &[u8], cabinet: usize) -> bool {
        let pair_sound = |first: usize, second: usize| match run[memo_place(cabinet, first, second)] {
            0 => true,
            1 => cabinet < self.s && first < self.v && second < first,
            _ => false,
        };
        (0..MOST_UNKNOWNS).all(|first| (0..MOST_UNKNOWNS).all(|second| pair_sound(first, second)))
    }

    fn item_sound(&self, run: &[u8], place: usize, used: bool) -> bool {
        let bytes = item_bytes(run, place);
        if !used {
            return bytes.iter().all(|&byte| byte == 0);
        }
        match Item::from_bytes(bytes) {
            Some(Item::Statement { cabinet, left, right }) => {
                usize::from(cabinet) < self.s && self.is_entry(left) && self.is_entry(right)
            }
            Some(Item::Ask { cabinet, left, right } | Item::News { cabinet, left, right }) => {
                usize::from(cabinet) < self.s && usize::from(left) < self.v && self.less(right, usize::from(left))
            }
            None => false,
        }
    }
}

fn pending_count(run: &[u8]) -> usize {
    usize::from(u16::from_le_bytes([run[PENDING_COUNT], run[PENDING_COUNT + 1]]))
}

fn store_place(cabinet: usize, x: usize) -> usize {
    STORES + MOST_UNKNOWNS * cabinet + x
}

fn memo_place(cabinet: usize, greater: usize, smaller: usize) -> usize {
    MEMOS + MEMO_LENGTH * cabinet + 32 * greater + smaller
}

fn item_bytes(run: &[u8], place: usize) -> &[u8] {
    let at = ITEMS + ITEM_LENGTH * place;
    &run[at..at + ITEM_LENGTH]
}
