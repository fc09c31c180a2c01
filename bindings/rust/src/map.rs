//! The map: for each unknown the lowest that is the same item, and the plate of that item.

use std::fmt;

/// The length of a map.
pub const MAP_BYTES: usize = MAP_ROWS * ROW_BYTES;

/// The rows of a map, as many as there can be unknowns.
pub const MAP_ROWS: usize = 32;

/// The length of a row.
pub const ROW_BYTES: usize = 11;

/// The map of a run that has come to its end. Only [`Run::map`](crate::Run::map) makes one. Two maps are compared byte
/// by byte.
#[derive(Clone, PartialEq, Eq, Hash)]
pub struct Map([u8; MAP_BYTES]);

impl Map {
    pub(crate) fn new(bytes: [u8; MAP_BYTES]) -> Map {
        Map(bytes)
    }

    /// The map's bytes, as they go to the service store.
    pub fn bytes(&self) -> &[u8; MAP_BYTES] {
        &self.0
    }

    /// The row of an unknown; none from 32 on. Rows from V on hold 0.
    pub fn row(&self, unknown: usize) -> Option<Row<'_>> {
        self.rows().nth(unknown)
    }

    /// All 32 rows. The map does not say V: [`Run::unknowns`](crate::Run::unknowns) does.
    pub fn rows(&self) -> impl Iterator<Item = Row<'_>> {
        self.0.chunks_exact(ROW_BYTES).filter_map(|row| row.try_into().ok()).map(Row)
    }
}

impl fmt::Debug for Map {
    fn fmt(&self, f: &mut fmt::Formatter<'_>) -> fmt::Result {
        f.debug_list().entries(self.rows()).finish()
    }
}

/// Whether an item has a plate.
#[derive(Clone, Copy, Debug, PartialEq, Eq, Hash)]
pub enum Kind {
    /// No record is known of the item.
    Open,
    /// The item has a record: a symbol and parts.
    Record,
}

/// One unknown's row of a map.
#[derive(Clone, Copy, PartialEq, Eq, Hash)]
pub struct Row<'a>(&'a [u8; ROW_BYTES]);

impl<'a> Row<'a> {
    /// The lowest unknown that is the same item.
    pub fn lowest_same_item(self) -> u8 {
        self.0[0]
    }

    /// Open or record.
    pub fn kind(self) -> Kind {
        match self.0[1] {
            0 => Kind::Open,
            _ => Kind::Record,
        }
    }

    /// The record's symbol; 0 if open.
    pub fn symbol(self) -> u32 {
        let [_, _, a, b, c, d, ..] = *self.0;
        u32::from_le_bytes([a, b, c, d])
    }

    /// How many parts the record has, 0 to 4; 0 if open.
    pub fn part_count(self) -> usize {
        self.parts().len()
    }

    /// For each part its lowest same item.
    pub fn parts(self) -> &'a [u8] {
        let [_, _, _, _, _, _, count, parts @ ..] = self.0;
        parts.get(..usize::from(*count)).unwrap_or(parts)
    }
}

impl fmt::Debug for Row<'_> {
    fn fmt(&self, f: &mut fmt::Formatter<'_>) -> fmt::Result {
        let mut row = f.debug_struct("Row");
        row.field("lowest_same_item", &self.lowest_same_item()).field("kind", &self.kind());
        row.field("symbol", &self.symbol()).field("parts", &self.parts()).finish()
    }
}
