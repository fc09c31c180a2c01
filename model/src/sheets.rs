//! The sheets: calls of the library written as bytes, and the lines that a program which makes them has to print. A sheet is the
//! standard input of a program crate, and its lines are that crate's `stdout`.
//!
//! A call is its kind, the count of its bytes (two bytes, low first) and its bytes; numbers in it are two bytes, low first. All
//! calls share one run, one map and one file, 0 at first, each a byte longer than a call takes, so that a call can be lent too much.
//! A call prints two numbers and the hash of a buffer.
//!
//! | kind | bytes | prints |
//! |---|---|---|
//! | 1 load | lent of the run, file | number, position, run |
//! | 2 statement | n, file | start, size, the part of the file |
//! | 3 step | lent of the run, place | number, rule, run |
//! | 4 list | lent of the run, places | number, done, run |
//! | 5 map | lent of the run, lent of the map | number, 0, map |
//! | 6 write | lent of the run, lent of the file | number, length, file |
//! | 7 poke | where, how many bytes of the run, the pattern that they get over and over | 0, 0, run |
//! | 8 fill | the byte that every byte of the three buffers gets | 0, 0, run |
//! | 9 damage | where, file: loaded with each of 256 values there | size, hash of the replies, hash of the runs loaded |
//! | 10 sweep | where: an empty list with each of 256 values of the run there | 0, hash of the numbers, run |
//! | 11 print | file | the map program's text, then a line: size, 0, file |

use crate::file::LONGEST_FILE;
use crate::map::MAP_LENGTH;
use crate::run::RUN_LENGTH;
use crate::{load, map, program, statement, step, steps, write};
use std::fmt::Write;

/// A sheet under way: its bytes, its lines, and the buffers as the calls so far left them.
pub struct Sheet {
    pub calls: Vec<u8>,
    pub lines: String,
    run: Vec<u8>,
    map: Vec<u8>,
    file: Vec<u8>,
}

/// The largest prime below 2^55.
const PRIME: u64 = 36_028_797_018_963_913;

/// A hash with one number more.
fn fold(hash: u64, number: u64) -> u64 {
    (257 * (hash % PRIME) + number % PRIME) % PRIME
}

/// The bytes as the digits of a number to base 257 after a leading 1, modulo the prime.
pub fn hash(bytes: &[u8]) -> u64 {
    bytes.iter().fold(1, |hash, &byte| fold(hash, u64::from(byte)))
}

/// A number as two bytes, low first.
fn two(n: usize) -> [u8; 2] {
    u16::try_from(n).expect("a sheet's number has two bytes").to_le_bytes()
}

impl Default for Sheet {
    fn default() -> Sheet {
        Sheet {
            calls: Vec::new(),
            lines: String::new(),
            run: vec![0; RUN_LENGTH + 1],
            map: vec![0; MAP_LENGTH + 1],
            file: vec![0; LONGEST_FILE + 1],
        }
    }
}

impl Sheet {
    fn call(&mut self, kind: u8, parts: &[&[u8]]) {
        let bytes = parts.concat();
        self.calls.push(kind);
        self.calls.extend(two(bytes.len()));
        self.calls.extend(bytes);
    }

    fn line(&mut self, first: usize, second: u64, hash: u64) {
        writeln!(self.lines, "{first} {second} {hash}").expect("a string takes all");
    }

    fn line_of_run(&mut self, (first, second): (usize, usize)) {
        self.line(first, second as u64, hash(&self.run));
    }

    /// The run that the calls so far left.
    pub fn run(&self) -> &[u8] {
        &self.run[..RUN_LENGTH]
    }

    pub fn load_lent(&mut self, lent: usize, file: &[u8]) {
        self.call(1, &[&two(lent), file]);
        let reply = load(file, &mut self.run[..lent]);
        self.line_of_run(reply);
    }

    pub fn load(&mut self, file: &[u8]) {
        self.load_lent(RUN_LENGTH, file);
    }

    pub fn statement(&mut self, n: usize, file: &[u8]) {
        self.call(2, &[&two(n), file]);
        let (start, size) = statement(file, n);
        self.line(start, size as u64, hash(&file[start..start + size]));
    }

    pub fn step_lent(&mut self, lent: usize, place: usize) {
        self.call(3, &[&two(lent), &two(place)]);
        let reply = step(&mut self.run[..lent], place);
        self.line_of_run(reply);
    }

    pub fn step(&mut self, place: usize) {
        self.step_lent(RUN_LENGTH, place);
    }

    pub fn steps_lent(&mut self, lent: usize, places: &[u32]) {
        let bytes: Vec<u8> = places.iter().flat_map(|&place| two(place as usize)).collect();
        self.call(4, &[&two(lent), &bytes]);
        let reply = steps(&mut self.run[..lent], places);
        self.line_of_run(reply);
    }

    pub fn steps(&mut self, places: &[u32]) {
        self.steps_lent(RUN_LENGTH, places);
    }

    pub fn map_lent(&mut self, lent: usize, of_map: usize) {
        self.call(5, &[&two(lent), &two(of_map)]);
        let number = map(&self.run[..lent], &mut self.map[..of_map]);
        self.line(number, 0, hash(&self.map));
    }

    pub fn map(&mut self) {
        self.map_lent(RUN_LENGTH, MAP_LENGTH);
    }

    pub fn write_lent(&mut self, lent: usize, of_file: usize) {
        self.call(6, &[&two(lent), &two(of_file)]);
        let (number, length) = write(&self.run[..lent], &mut self.file[..of_file]);
        self.line(number, length as u64, hash(&self.file));
    }

    pub fn write(&mut self) {
        self.write_lent(RUN_LENGTH, LONGEST_FILE);
    }

    pub fn poke_times(&mut self, at: usize, pattern: &[u8], times: usize) {
        let count = times * pattern.len();
        self.call(7, &[&two(at), &two(count), pattern]);
        self.run[at..at + count].copy_from_slice(&pattern.repeat(times));
        self.line_of_run((0, 0));
    }

    pub fn poke(&mut self, at: usize, bytes: &[u8]) {
        self.poke_times(at, bytes, 1);
    }

    pub fn fill(&mut self, value: u8) {
        self.call(8, &[&[value]]);
        for buffer in [&mut self.run, &mut self.map, &mut self.file] {
            buffer.fill(value);
        }
        self.line_of_run((0, 0));
    }

    pub fn damage(&mut self, at: usize, file: &[u8]) {
        self.call(9, &[&two(at), file]);
        self.file[..file.len()].copy_from_slice(file);
        let (mut replies, mut runs) = (1, 1);
        for value in 0..=u8::MAX {
            self.file[at] = value;
            let (number, position) = load(&self.file[..file.len()], &mut self.run[..RUN_LENGTH]);
            replies = fold(fold(replies, number as u64), position as u64);
            runs = fold(runs, if number == 0 { hash(&self.run) } else { 0 });
        }
        self.line(file.len(), replies, runs);
    }

    pub fn sweep(&mut self, at: usize) {
        self.call(10, &[&two(at)]);
        let mut numbers = 1;
        for value in 0..=u8::MAX {
            let mut run = self.run().to_vec();
            run[at] = value;
            numbers = fold(numbers, steps(&mut run, &[]).0 as u64);
        }
        self.line(0, numbers, hash(&self.run));
    }

    pub fn print(&mut self, file: &[u8]) {
        self.call(11, &[file]);
        self.lines.push_str(&program::output(file));
        self.line(file.len(), 0, hash(file));
    }
}
