//! The ten rules: which one an item meets, what it produces and changes, and the two calls that carry steps out.

use crate::file::Record;
use crate::refusal::*;
use crate::run::{Item, Mark, Run, MOST_ITEMS, RUN_LENGTH};
use std::collections::BTreeSet;

/// The rule a step meets; `rule as usize` is its number in document 01.
#[derive(Clone, Copy, Debug, PartialEq, Eq)]
pub enum Rule {
    Interchange = 1,
    Memo = 2,
    Dereference = 3,
    Identify = 4,
    Conflict = 5,
    Decompose = 6,
    Initiate = 7,
    Win = 8,
    Lose = 9,
    Arrive = 10,
}

/// What a step does besides taking its item away: the products it appends, in order, and the one place it changes.
#[derive(Clone, Debug, PartialEq, Eq)]
pub struct Effect {
    pub rule: Rule,
    pub products: Vec<Item>,
    pub change: Change,
}

#[derive(Clone, Copy, Debug, PartialEq, Eq)]
pub enum Change {
    None,
    Clash { cabinet: u8 },
    Memo { cabinet: u8, greater: u8, smaller: u8 },
    Store { cabinet: u8, unknown: u8, mark: Mark },
    Owner { unknown: u8, entry: u8 },
}

/// What a statement's step can see: the table and its own cabinet's store and memo, and nothing else. That a step
/// depends on no other cabinet is so by the form of this type.
struct Local<'a> {
    v: u8,
    records: &'a [Record],
    store: &'a [Mark],
    memo: &'a BTreeSet<(u8, u8)>,
}

impl Local<'_> {
    /// The effect of statement left = right at the cabinet, or nothing when it waits.
    fn statement(&self, cabinet: u8, left: u8, right: u8) -> Option<Effect> {
        let statement = |left, right| Item::Statement { cabinet, left, right };
        let effect = |rule, products, change| Some(Effect { rule, products, change });
        let unknown = |entry| entry < self.v;

        if !unknown(left) && !unknown(right) {
            let (first, second) = (self.record(left), self.record(right));
            if first.symbol != second.symbol || first.parts.len() != second.parts.len() {
                return effect(Rule::Conflict, vec![], Change::Clash { cabinet });
            }
            let parts = first.parts.iter().zip(&second.parts);
            return effect(Rule::Decompose, parts.map(|(&l, &r)| statement(l, r)).collect(), Change::None);
        }
        if left == right {
            return effect(Rule::Identify, vec![], Change::None);
        }
        if unknown(right) && self.less(left, right) {
            return effect(Rule::Interchange, vec![statement(right, left)], Change::None);
        }

        // What is left is x = u with u less than x.
        let (x, u) = (left, right);
        match self.store[usize::from(x)] {
            Mark::Entry(_) if self.memo.contains(&(x, u)) => effect(Rule::Memo, vec![], Change::None),
            Mark::Entry(v) => {
                // The memo holds pairs of unknowns only: a statement with a record is never remembered.
                let change = if unknown(u) { Change::Memo { cabinet, greater: x, smaller: u } } else { Change::None };
                effect(Rule::Dereference, vec![statement(v, u)], change)
            }
            Mark::Nothing => effect(
                Rule::Initiate,
                vec![Item::Ask { cabinet, left: x, right: u }, statement(x, u)],
                Change::Store { cabinet, unknown: x, mark: Mark::Initiated },
            ),
            Mark::Initiated => None,
        }
    }

    /// Whether `entry` is less than unknown `x`: a record or a smaller-numbered unknown.
    fn less(&self, entry: u8, x: u8) -> bool {
        entry >= self.v || entry < x
    }

    fn record(&self, entry: u8) -> &Record {
        &self.records[usize::from(entry - self.v)]
    }
}

impl Run {
    /// What taking the item at `place` does, or the step's refusal: 15, 13, 14 or 18, in that order.
    pub fn effect(&self, place: usize) -> Result<Effect, usize> {
        if self.clash.is_some() {
            return Err(CLASHED);
        }
        let Some(&item) = self.items.get(place) else {
            return Err(NO_SUCH_PLACE);
        };
        let Some(effect) = self.item_effect(item) else {
            return Err(WAITS);
        };
        if self.items.len() - 1 + effect.products.len() > MOST_ITEMS {
            return Err(LIST_FULL);
        }
        Ok(effect)
    }

    /// Whether the item at `place` is a statement that waits.
    pub fn waits(&self, place: usize) -> bool {
        self.items.get(place).is_some_and(|&item| self.item_effect(item).is_none())
    }

    /// What taking `item` does, or nothing when it waits.
    fn item_effect(&self, item: Item) -> Option<Effect> {
        match item {
            Item::Statement { cabinet, left, right } => {
                let local = Local {
                    v: self.v,
                    records: &self.records,
                    store: &self.stores[usize::from(cabinet)],
                    memo: &self.memos[usize::from(cabinet)],
                };
                local.statement(cabinet, left, right)
            }
            Item::Ask { left, right, .. } => Some(match self.owners[usize::from(left)] {
                None => Effect {
                    rule: Rule::Win,
                    products: (0..self.s).map(|cabinet| Item::News { cabinet, left, right }).collect(),
                    change: Change::Owner { unknown: left, entry: right },
                },
                Some(_) => Effect { rule: Rule::Lose, products: vec![], change: Change::None },
            }),
            Item::News { cabinet, left, right } => Some(Effect {
                rule: Rule::Arrive,
                products: vec![],
                change: Change::Store { cabinet, unknown: left, mark: Mark::Entry(right) },
            }),
        }
    }

    /// Carries out one step in place: its rule, or the refusal with the run as it was.
    pub fn step(&mut self, place: usize) -> Result<Rule, usize> {
        let effect = self.effect(place)?;
        self.items.remove(place);
        self.items.extend(effect.products);
        match effect.change {
            Change::None => {}
            Change::Clash { cabinet } => self.clash = Some(cabinet),
            Change::Memo { cabinet, greater, smaller } => {
                self.memos[usize::from(cabinet)].insert((greater, smaller));
            }
            Change::Store { cabinet, unknown, mark } => {
                self.stores[usize::from(cabinet)][usize::from(unknown)] = mark;
            }
            Change::Owner { unknown, entry } => self.owners[usize::from(unknown)] = Some(entry),
        }
        Ok(effect.rule)
    }
}

/// Carries out one step on the lent run: the refusal and 0, or 0 and the rule's number.
pub fn step(run: &mut [u8], place: usize) -> (usize, usize) {
    if run.len() != RUN_LENGTH {
        return (WRONG_LENGTH, 0);
    }
    let Some(mut state) = Run::from_bytes(run) else {
        return (NOT_SOUND, 0);
    };
    match state.step(place) {
        Ok(rule) => {
            run.copy_from_slice(&state.to_bytes());
            (DONE, rule as usize)
        }
        Err(number) => (number, 0),
    }
}

/// Carries out a list of steps up to its first refused place: that place's refusal, or 0, and how many were done.
pub fn steps(run: &mut [u8], places: &[u32]) -> (usize, usize) {
    if run.len() != RUN_LENGTH {
        return (WRONG_LENGTH, 0);
    }
    let Some(mut state) = Run::from_bytes(run) else {
        return (NOT_SOUND, 0);
    };
    let mut number = DONE;
    let mut done = 0;
    for &place in places {
        if let Err(refusal) = state.step(place as usize) {
            number = refusal;
            break;
        }
        done += 1;
    }
    run.copy_from_slice(&state.to_bytes());
    (number, done)
}
