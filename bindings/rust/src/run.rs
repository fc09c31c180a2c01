//! The run: its bytes, and the calls on them.

use crate::calls::{self, FILE_BYTES};
use crate::{LoadRefused, Map, Refusal, Rule, StepsRefused, MAP_BYTES};
use std::fmt;

/// The length of a run.
pub const RUN_BYTES: usize = 59_752;

/// A run, held in a box. Its bytes may be anything: each call tests first that they are sound, and refuses them if not.
#[derive(Clone, PartialEq, Eq, Hash)]
pub struct Run(Box<[u8; RUN_BYTES]>);

impl Run {
    /// The run that loading this file leaves.
    pub fn load(file: &[u8]) -> Result<Run, LoadRefused> {
        let mut run = Run(Box::new([0; RUN_BYTES]));
        run.reload(file).map(|()| run)
    }

    /// Loads a file into this run, whatever it held. A refused file leaves the run as it was.
    pub fn reload(&mut self, file: &[u8]) -> Result<(), LoadRefused> {
        calls::load(file, self.bytes_mut())
    }

    /// The run with these bytes. Only their length is tested here.
    pub fn from_bytes(bytes: &[u8]) -> Result<Run, Refusal> {
        let bytes: &[u8; RUN_BYTES] = bytes.try_into().map_err(|_| Refusal::WrongLength)?;
        Ok(Run(Box::new(*bytes)))
    }

    /// The run's bytes, as document 01 lays them out.
    pub fn bytes(&self) -> &[u8; RUN_BYTES] {
        &self.0
    }

    /// The run's bytes, to be changed by hand.
    pub fn bytes_mut(&mut self) -> &mut [u8; RUN_BYTES] {
        &mut self.0
    }

    /// One step, at a place of the pending list, from 0: the rule that it carried out.
    pub fn step(&mut self, place: usize) -> Result<Rule, Refusal> {
        calls::step(self.bytes_mut(), place)
    }

    /// A list of steps, each in the run as the one before left it; how many were done, which is all of them.
    pub fn steps(&mut self, places: &[u32]) -> Result<usize, StepsRefused> {
        calls::steps(self.bytes_mut(), places)
    }

    /// The map, if the run has come to its end unclashed. This nests deep: in a thread of its own, give it 1 MiB of
    /// stack.
    pub fn map(&self) -> Result<Map, Refusal> {
        let mut bytes = [0; MAP_BYTES];
        calls::map(self.bytes(), &mut bytes).map(|()| Map::new(bytes))
    }

    /// The file of a run that is as loaded.
    pub fn write(&self) -> Result<Vec<u8>, Refusal> {
        let mut file = vec![0; FILE_BYTES];
        let length = calls::write(self.bytes(), &mut file)?;
        file.truncate(length);
        Ok(file)
    }

    /// The cabinet of the clash, if the run has clashed. This and those below say what the bytes say, sound or not.
    pub fn clash(&self) -> Option<u8> {
        (self.0[0] != 0).then_some(self.0[1])
    }

    /// How many cabinets there are, S.
    pub fn cabinets(&self) -> usize {
        usize::from(self.0[2])
    }

    /// How many unknowns there are, V.
    pub fn unknowns(&self) -> usize {
        usize::from(self.0[3])
    }

    /// How many records there are, R.
    pub fn records(&self) -> usize {
        usize::from(self.0[4])
    }

    /// How many statements the file had, E.
    pub fn statements(&self) -> usize {
        usize::from(self.0[5])
    }

    /// How many items are pending.
    pub fn pending(&self) -> usize {
        usize::from(u16::from_le_bytes([self.0[6], self.0[7]]))
    }
}

/// What the first bytes say, not all 59,752.
impl fmt::Debug for Run {
    fn fmt(&self, f: &mut fmt::Formatter<'_>) -> fmt::Result {
        let mut run = f.debug_struct("Run");
        run.field("clash", &self.clash()).field("cabinets", &self.cabinets()).field("unknowns", &self.unknowns());
        run.field("records", &self.records()).field("statements", &self.statements());
        run.field("pending", &self.pending()).finish_non_exhaustive()
    }
}
