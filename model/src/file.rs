//! The statement file: reading it whole with the first fault in reading order, writing it, and finding one statement in it.

use crate::numbers;
use crate::refusal::*;
use std::ops::Range;

/// The length of the longest accepted file, and of the buffer a writer is lent.
pub const LONGEST_FILE: usize = 836;

pub const MOST_CABINETS: usize = 8;
pub const MOST_UNKNOWNS: usize = 32;
pub const MOST_RECORDS: usize = 64;
pub const MOST_PARTS: usize = 4;
pub const MOST_STATEMENTS: usize = 64;

/// A record: its symbol and its parts, each the number of an unknown.
#[derive(Clone, Debug, PartialEq, Eq)]
pub struct Record {
    pub symbol: u32,
    pub parts: Vec<u8>,
}

/// A statement that two entries are equal, made at a cabinet.
#[derive(Clone, Copy, Debug, PartialEq, Eq)]
pub struct Statement {
    pub cabinet: u8,
    pub left: u8,
    pub right: u8,
}

/// What a statement file says: S cabinets, V unknowns, the records and the statements, in file order.
#[derive(Clone, Debug, PartialEq, Eq)]
pub struct File {
    pub s: u8,
    pub v: u8,
    pub records: Vec<Record>,
    pub statements: Vec<Statement>,
}

/// Why a file is refused (1 to 11), and where.
#[derive(Clone, Copy, Debug, PartialEq, Eq)]
pub struct Fault {
    pub number: usize,
    pub position: usize,
}

/// Reads a whole file.
pub fn read(bytes: &[u8]) -> Result<File, Fault> {
    read_with_places(bytes).map(|(file, _)| file)
}

/// The start and length of statement `n` in the file; (0, 0), the empty part, exactly when the file is refused or
/// has no statement `n`.
pub fn statement(bytes: &[u8], n: usize) -> (usize, usize) {
    match read_with_places(bytes) {
        Ok((_, places)) => places.get(n).map_or((0, 0), |place| (place.start, place.len())),
        Err(_) => (0, 0),
    }
}

/// The bytes that say `file`. They are accepted only if its ranges are those of document 01.
pub fn write(file: &File) -> Vec<u8> {
    let mut out = Vec::new();
    let length = |n: usize| u32::try_from(n).unwrap_or(u32::MAX);
    numbers::write(u32::from(file.s), &mut out);
    numbers::write(u32::from(file.v), &mut out);
    numbers::write(length(file.records.len()), &mut out);
    for record in &file.records {
        numbers::write(record.symbol, &mut out);
        numbers::write(length(record.parts.len()), &mut out);
        for &part in &record.parts {
            numbers::write(u32::from(part), &mut out);
        }
    }
    numbers::write(length(file.statements.len()), &mut out);
    for statement in &file.statements {
        numbers::write(u32::from(statement.cabinet), &mut out);
        numbers::write(u32::from(statement.left), &mut out);
        numbers::write(u32::from(statement.right), &mut out);
    }
    out
}

/// Reads a whole file, and the place of each statement's own bytes.
fn read_with_places(bytes: &[u8]) -> Result<(File, Vec<Range<usize>>), Fault> {
    let mut reader = Reader { bytes, position: 0 };
    let s = reader.number_in(1..9, CABINETS_OUT_OF_RANGE)?;
    let v = reader.number_in(0..33, UNKNOWNS_OUT_OF_RANGE)?;
    let r = reader.number_in(0..65, RECORDS_OUT_OF_RANGE)?;
    let mut records = Vec::new();
    for _ in 0..r {
        let symbol = reader.number()?;
        let part_count = reader.number_in(0..5, TOO_MANY_PARTS)?;
        let mut parts = Vec::new();
        for _ in 0..part_count {
            parts.push(reader.number_in(0..u32::from(v), PART_NOT_AN_UNKNOWN)?);
        }
        records.push(Record { symbol, parts });
    }
    let e = reader.number_in(0..65, STATEMENTS_OUT_OF_RANGE)?;
    let entries = u32::from(v) + u32::from(r);
    let mut statements = Vec::new();
    let mut places = Vec::new();
    for _ in 0..e {
        let start = reader.position;
        let cabinet = reader.number_in(0..u32::from(s), NO_SUCH_CABINET)?;
        let left = reader.number_in(0..entries, NO_SUCH_ENTRY)?;
        let right = reader.number_in(0..entries, NO_SUCH_ENTRY)?;
        statements.push(Statement { cabinet, left, right });
        places.push(start..reader.position);
    }
    if reader.position != bytes.len() {
        return Err(Fault { number: BYTES_LEFT, position: reader.position });
    }
    Ok((File { s, v, records, statements }, places))
}

struct Reader<'a> {
    bytes: &'a [u8],
    position: usize,
}

impl Reader<'_> {
    /// The next number, of any value.
    fn number(&mut self) -> Result<u32, Fault> {
        match numbers::read(self.bytes, self.position) {
            Ok((value, next)) => {
                self.position = next;
                Ok(value)
            }
            Err(number) => Err(Fault { number, position: self.position }),
        }
    }

    /// The next number, refused with `refusal` outside `range`. Every range of the file lies below 256.
    fn number_in(&mut self, range: Range<u32>, refusal: usize) -> Result<u8, Fault> {
        let start = self.position;
        let value = self.number()?;
        if range.contains(&value) {
            Ok(value as u8)
        } else {
            Err(Fault { number: refusal, position: start })
        }
    }
}
