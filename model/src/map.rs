//! The map, made in two independent ways: from a run's owner marks, and from the statements alone by their union-find.

use crate::alike::Alike;
use crate::file::{self, Fault, Record};
use crate::refusal::*;
use crate::run::{Run, RUN_LENGTH};

pub const MAP_LENGTH: usize = 352;
const ROW_LENGTH: usize = 11;

pub type Map = [u8; MAP_LENGTH];

/// Where an unknown leads: to an open end, known by a number that only its likes share, or to a record.
#[derive(Clone, Copy, Debug, PartialEq, Eq)]
enum End {
    Open(usize),
    Record(usize),
}

/// Puts the map of a finished run into the lent 352 bytes: 0, or the refusal.
pub fn map(run: &[u8], map: &mut [u8]) -> usize {
    if run.len() != RUN_LENGTH || map.len() != MAP_LENGTH {
        return WRONG_LENGTH;
    }
    let Some(run) = Run::from_bytes(run) else {
        return NOT_SOUND;
    };
    match of_run(&run) {
        Ok(made) => {
            map.copy_from_slice(&made);
            DONE
        }
        Err(number) => number,
    }
}

/// The map of a run, or refusal 15 or 16.
pub fn of_run(run: &Run) -> Result<Map, usize> {
    if run.clash().is_some() {
        return Err(CLASHED);
    }
    if !run.items().is_empty() {
        return Err(ITEMS_PENDING);
    }
    let ends: Vec<End> = (0..run.unknowns()).map(|x| owner_end(run, x)).collect();
    let same = agreement_by_rounds(run.records(), &ends);
    Ok(rows(run.records(), &ends, &same))
}

/// The map from the statements alone, without any run; nothing when the statements clash.
pub fn from_statements(file: &[u8]) -> Result<Option<Map>, Fault> {
    let file = file::read(file)?;
    let v = usize::from(file.v);
    let Some(alike) = Alike::of(&file) else {
        return Ok(None);
    };
    let end = |x: usize| alike.record(x).map_or(End::Open(alike.root(x)), End::Record);
    let ends: Vec<End> = (0..v).map(end).collect();
    let mut questions = Questions { records: &file.records, ends: &ends, answers: vec![None; v * v * (v + 1)] };
    let mut same = vec![vec![false; v]; v];
    for (x, row) in same.iter_mut().enumerate() {
        for (y, answer) in row.iter_mut().enumerate() {
            *answer = questions.agree(x, y, v);
        }
    }
    Ok(Some(rows(&file.records, &ends, &same)))
}

/// Follows owner marks from unknown x to their end. Every mark is less than its unknown, so this ends.
fn owner_end(run: &Run, x: u8) -> End {
    match run.owners()[usize::from(x)] {
        None => End::Open(usize::from(x)),
        Some(entry) if entry < run.unknowns() => owner_end(run, entry),
        Some(entry) => End::Record(usize::from(entry - run.unknowns())),
    }
}

fn same_shape(one: &Record, other: &Record) -> bool {
    one.symbol == other.symbol && one.parts.len() == other.parts.len()
}

/// Agreement to depth V by the definition: all pairs to depth 0, then V rounds, each taking the table of depth d to
/// that of depth d + 1.
fn agreement_by_rounds(records: &[Record], ends: &[End]) -> Vec<Vec<bool>> {
    let v = ends.len();
    let mut to_depth = vec![vec![true; v]; v];
    for _ in 0..v {
        let deeper = |x: usize, y: usize| match (ends[x], ends[y]) {
            (End::Open(one), End::Open(other)) => one == other,
            (End::Record(one), End::Record(other)) => {
                let (one, other) = (&records[one], &records[other]);
                let mut parts = one.parts.iter().zip(&other.parts);
                same_shape(one, other) && parts.all(|(&p, &q)| to_depth[usize::from(p)][usize::from(q)])
            }
            _ => false,
        };
        to_depth = (0..v).map(|x| (0..v).map(|y| deeper(x, y)).collect()).collect();
    }
    to_depth
}

/// Agreement by recursion over the depth, each pair and depth answered once: the second way shares no code with the
/// first.
struct Questions<'a> {
    records: &'a [Record],
    ends: &'a [End],
    /// At (depth × V + x) × V + y.
    answers: Vec<Option<bool>>,
}

impl Questions<'_> {
    fn agree(&mut self, x: usize, y: usize, depth: usize) -> bool {
        let place = (depth * self.ends.len() + x) * self.ends.len() + y;
        if let Some(answer) = self.answers[place] {
            return answer;
        }
        let answer = depth == 0 || self.agree_deeper(x, y, depth - 1);
        self.answers[place] = Some(answer);
        answer
    }

    /// Agreement to depth d + 1, asking that of the parts to depth d.
    fn agree_deeper(&mut self, x: usize, y: usize, depth: usize) -> bool {
        let (End::Record(one), End::Record(other)) = (self.ends[x], self.ends[y]) else {
            return self.ends[x] == self.ends[y];
        };
        let records = self.records;
        let (one, other) = (&records[one], &records[other]);
        if !same_shape(one, other) {
            return false;
        }
        for (&p, &q) in one.parts.iter().zip(&other.parts) {
            if !self.agree(usize::from(p), usize::from(q), depth) {
                return false;
            }
        }
        true
    }
}

/// The 32 rows of the map, given where each unknown leads and which unknowns are the same item.
fn rows(records: &[Record], ends: &[End], same: &[Vec<bool>]) -> Map {
    // Every unknown agrees with itself, so the search always ends at x or before.
    let lowest = |x: usize| (0..x).find(|&y| same[x][y]).unwrap_or(x) as u8;
    let mut map = [0; MAP_LENGTH];
    for (x, row) in map.chunks_mut(ROW_LENGTH).take(ends.len()).enumerate() {
        row[0] = lowest(x);
        if let End::Record(record) = ends[x] {
            let record = &records[record];
            row[1] = 1;
            row[2..6].copy_from_slice(&record.symbol.to_le_bytes());
            row[6] = record.parts.len() as u8;
            for (place, &part) in record.parts.iter().enumerate() {
                row[7 + place] = lowest(usize::from(part));
            }
        }
    }
    map
}
