//! Alike entries from the statements alone, by union-find: classes of entries, each with the one record that speaks for it.

use crate::file::{File, Record};

/// The classes of a file whose statements do not clash.
pub struct Alike<'a> {
    records: &'a [Record],
    /// Each entry's parent; a root is its own.
    parents: Vec<usize>,
    /// How many entries a root's class has.
    sizes: Vec<usize>,
    /// A root's first record, by its number among the records.
    speakers: Vec<Option<usize>>,
    /// Pairs of entries still to be made alike.
    waiting: Vec<(usize, usize)>,
}

impl Alike<'_> {
    /// The least equivalence that the statements ask for, or nothing when two alike records differ in symbol or part
    /// count.
    pub fn of(file: &File) -> Option<Alike<'_>> {
        let (v, r) = (usize::from(file.v), file.records.len());
        let mut alike = Alike {
            records: &file.records,
            parents: (0..v + r).collect(),
            sizes: vec![1; v + r],
            speakers: (0..v + r).map(|entry| entry.checked_sub(v)).collect(),
            waiting: file.statements.iter().map(|said| (usize::from(said.left), usize::from(said.right))).collect(),
        };
        while let Some((one, other)) = alike.waiting.pop() {
            alike.join(one, other)?;
        }
        Some(alike)
    }

    /// The entry that stands for the class of `entry`: the same for alike entries alone.
    pub fn root(&self, entry: usize) -> usize {
        let mut at = entry;
        while self.parents[at] != at {
            at = self.parents[at];
        }
        at
    }

    /// A record alike to unknown x, by its number among the records, if there is one.
    pub fn record(&self, x: usize) -> Option<usize> {
        self.speakers[self.root(x)]
    }

    /// Makes two entries alike, the smaller class going under the larger; nothing when their records clash. One record
    /// for each class is enough: the class's others were compared with it when they came in.
    fn join(&mut self, one: usize, other: usize) -> Option<()> {
        let (one, other) = (self.root(one), self.root(other));
        if one == other {
            return Some(());
        }
        let (under, over) = if self.sizes[one] < self.sizes[other] { (one, other) } else { (other, one) };
        self.parents[under] = over;
        self.sizes[over] += self.sizes[under];
        match (self.speakers[under], self.speakers[over]) {
            (Some(first), Some(second)) => self.pair_parts(first, second)?,
            (speaker, None) => self.speakers[over] = speaker,
            (None, Some(_)) => {}
        }
        Some(())
    }

    /// Two alike records: their parts in turn become alike, unless they clash.
    fn pair_parts(&mut self, first: usize, second: usize) -> Option<()> {
        let (first, second) = (&self.records[first], &self.records[second]);
        if first.symbol != second.symbol || first.parts.len() != second.parts.len() {
            return None;
        }
        let parts = first.parts.iter().zip(&second.parts);
        self.waiting.extend(parts.map(|(&part, &other)| (usize::from(part), usize::from(other))));
        Some(())
    }
}
