//! Each call made twice, by the library and by the second model: the reply, every lent byte and the bytes around it must be equal.

use crate::library;
use model::file::{self, LONGEST_FILE};
use model::map::{self, MAP_LENGTH};
use model::rng::Rng;
use model::run::{self, RUN_LENGTH};
use model::step;

/// How many bytes around a lent buffer are watched.
const GUARD: usize = 64;

/// What is being compared, and how many calls of each kind have been.
pub struct Held {
    pub seed: u64,
    /// Quick for the gate, or long.
    pub long: bool,
    kinds: Vec<(&'static str, u64)>,
    /// How often the library gave each number, 0 to 19.
    numbers: [u64; 20],
}

impl Held {
    pub fn new(seed: u64, long: bool) -> Held {
        Held { seed, long, kinds: vec![], numbers: [0; 20] }
    }

    /// Starts the next kind. Its draws depend on the seed and the kind's name alone, so that one kind can change without
    /// the others.
    pub fn kind(&mut self, name: &'static str) -> Rng {
        self.close();
        self.kinds.push((name, 0));
        Rng::new(self.seed ^ hash(name.as_bytes()))
    }

    /// Prints the row of the kind that has come to its end, if there is one.
    pub fn close(&self) {
        if let Some((name, count)) = self.kinds.last() {
            println!("{count:>9}  {name}");
        }
    }

    /// How many rounds a kind makes: more in the long mode.
    pub fn rounds(&self, quick: usize) -> usize {
        if self.long {
            30 * quick
        } else {
            quick
        }
    }

    pub fn kinds(&self) -> &[(&'static str, u64)] {
        &self.kinds
    }

    pub fn numbers(&self) -> &[u64; 20] {
        &self.numbers
    }

    /// Counts a comparison, and ends the program where the two differ.
    pub fn same<T: PartialEq + std::fmt::Debug>(&mut self, ours: T, theirs: T, what: impl Fn() -> String) {
        if ours != theirs {
            self.differ(&format!("{}: library {ours:?}, model {theirs:?}", what()));
        }
        if let Some((_, count)) = self.kinds.last_mut() {
            *count += 1;
        }
    }

    pub fn differ(&self, what: &str) -> ! {
        let kind = self.kinds.last().map_or("", |(name, _)| name);
        eprintln!("difference in {kind}, seed {}: {what}", self.seed);
        std::process::exit(1);
    }

    fn same_bytes(&self, ours: &[u8], theirs: &[u8], what: &str) {
        if let Some(at) = (0..ours.len()).find(|&at| ours[at] != theirs[at]) {
            self.differ(&format!("{what}, byte {at}: library {}, model {}", ours[at], theirs[at]));
        }
    }

    /// Lends a copy of `before`, with bytes around it, to the library's call, and a plain copy to the model's. Gives the
    /// library's number and what it left.
    fn lend<R: PartialEq + std::fmt::Debug + Copy>(
        &mut self,
        before: &[u8],
        ours: impl FnOnce(&mut [u8]) -> R,
        theirs: impl FnOnce(&mut [u8]) -> R,
        what: impl Fn() -> String,
    ) -> (R, Vec<u8>) {
        let mut lent = vec![170; before.len() + 2 * GUARD];
        lent[GUARD..GUARD + before.len()].copy_from_slice(before);
        let reply = ours(&mut lent[GUARD..GUARD + before.len()]);
        let mut expected = before.to_vec();
        let expected_reply = theirs(&mut expected);
        self.same(reply, expected_reply, &what);
        let after = lent[GUARD..GUARD + before.len()].to_vec();
        if after != expected {
            self.same_bytes(&after, &expected, &what());
        }
        let around = lent[..GUARD].iter().chain(&lent[GUARD + before.len()..]);
        if around.into_iter().any(|&byte| byte != 170) {
            self.differ(&format!("{}: a byte outside the lent ones was written", what()));
        }
        (reply, after)
    }

    fn count_number(&mut self, number: usize) {
        match self.numbers.get_mut(number) {
            Some(count) => *count += 1,
            None => self.differ(&format!("there is no refusal {number}")),
        }
    }

    /// Loads `bytes` into a run that holds `before`: the reply and the run.
    pub fn load(&mut self, bytes: &[u8], before: &[u8]) -> ((usize, usize), Vec<u8>) {
        let what = || format!("load {bytes:02x?}");
        let (reply, run) = self.lend(before, |run| library::load(bytes, run), |run| run::load(bytes, run), what);
        self.count_number(reply.0);
        (reply, run)
    }

    pub fn statement(&mut self, bytes: &[u8], n: usize) {
        let what = || format!("statement {n} of {bytes:02x?}");
        self.same(library::statement(bytes, n), file::statement(bytes, n), what);
    }

    /// One step of a copy of `run`.
    pub fn step(&mut self, run: &[u8], place: usize) -> ((usize, usize), Vec<u8>) {
        let what = || format!("step at {place} of {}", told(run));
        let (reply, after) = self.lend(run, |run| library::step(run, place), |run| step::step(run, place), what);
        self.count_number(reply.0);
        (reply, after)
    }

    /// A list of steps of a copy of `run`.
    pub fn steps(&mut self, run: &[u8], places: &[u32]) -> ((usize, usize), Vec<u8>) {
        let what = || format!("steps at {places:?} of {}", told(run));
        let (reply, after) = self.lend(run, |run| library::steps(run, places), |run| step::steps(run, places), what);
        self.count_number(reply.0);
        (reply, after)
    }

    /// The map of `run`, into 352 bytes that hold something else.
    pub fn map(&mut self, run: &[u8]) -> (usize, Vec<u8>) {
        self.map_into(run, &[7; MAP_LENGTH])
    }

    pub fn map_into(&mut self, run: &[u8], before: &[u8]) -> (usize, Vec<u8>) {
        let lent = run.to_vec();
        let what = || format!("map of {}", told(run));
        let (number, map) = self.lend(before, |map| library::map(&lent, map), |map| map::map(run, map), what);
        self.count_number(number);
        self.left_alone(run, &lent, "map");
        (number, map)
    }

    /// The file of `run`, into 836 bytes that hold something else.
    pub fn write(&mut self, run: &[u8]) -> ((usize, usize), Vec<u8>) {
        self.write_into(run, &[9; LONGEST_FILE])
    }

    pub fn write_into(&mut self, run: &[u8], before: &[u8]) -> ((usize, usize), Vec<u8>) {
        let lent = run.to_vec();
        let what = || format!("write of {}", told(run));
        let (reply, file) = self.lend(before, |file| library::write(&lent, file), |file| run::write(run, file), what);
        self.count_number(reply.0);
        self.left_alone(run, &lent, "write");
        (reply, file)
    }

    /// A run that a call may only read.
    fn left_alone(&self, before: &[u8], after: &[u8], call: &str) {
        if before != after {
            self.differ(&format!("{call} changed the run"));
        }
    }
}

/// A run in short: its first bytes and a hash of all. The seed makes it again.
fn told(run: &[u8]) -> String {
    format!("a run that starts {:02x?}, hash {}", &run[..run.len().min(8)], hash(run))
}

/// FNV-1a of 64 bits.
fn hash(bytes: &[u8]) -> u64 {
    bytes.iter().fold(0xCBF2_9CE4_8422_2325, |hash, &byte| (hash ^ u64::from(byte)).wrapping_mul(0x0100_0000_01B3))
}

/// A run's length of bytes that are no run.
pub fn dirty() -> Vec<u8> {
    (0..RUN_LENGTH).map(|i| (i * 31 % 251) as u8).collect()
}

/// The pending count of a run.
pub fn pending(run: &[u8]) -> usize {
    usize::from(u16::from_le_bytes([run[6], run[7]]))
}
