//! Files: accepted ones, each refusal, every one-byte damage, every cut; the run they leave, and statement n of each.

use crate::held::{dirty, Held};
use model::rng::Rng;
use model::{file, numbers, samples, File};

pub fn hold(held: &mut Held) {
    let dirty = dirty();
    accepted(held, &dirty);
    refused(held, &dirty);
    one_byte_changed(held, &dirty);
    cut_and_grown(held, &dirty);
}

fn accepted(held: &mut Held, dirty: &[u8]) {
    let mut rng = held.kind("files, accepted");
    let small = [samples::RING, samples::CLASH, &[1, 0, 0, 0], &[1, 0x20, 0, 0], &[8, 32, 0, 0]];
    let mut files: Vec<Vec<u8>> = small.iter().map(|file| file.to_vec()).collect();
    files.extend([samples::rich(), samples::longest(), samples::deep(0)]);
    files.extend((0..held.rounds(400)).map(|_| file::write(&samples::random_file(&mut rng))));
    for bytes in files {
        held.load(&bytes, dirty);
        let e = file::read(&bytes).map_or(0, |file| file.statements.len());
        for n in (0..e + 2).chain([64, 65, usize::MAX]) {
            held.statement(&bytes, n);
        }
    }
}

/// What a number of a file says; its range depends on it.
#[derive(Clone, Copy)]
enum Says {
    Size(u32),
    Symbol,
    PartCount,
    Part,
    StatementCount,
    Cabinet,
    Side,
}

/// The numbers of a file in reading order, and what each says.
fn numbers_of(file: &File) -> Vec<(u32, Says)> {
    let length = |n: usize| n as u32;
    let mut said = vec![
        (u32::from(file.s), Says::Size(9)),
        (u32::from(file.v), Says::Size(33)),
        (length(file.records.len()), Says::Size(65)),
    ];
    for record in &file.records {
        said.push((record.symbol, Says::Symbol));
        said.push((length(record.parts.len()), Says::PartCount));
        said.extend(record.parts.iter().map(|&part| (u32::from(part), Says::Part)));
    }
    said.push((length(file.statements.len()), Says::StatementCount));
    for statement in &file.statements {
        said.push((u32::from(statement.cabinet), Says::Cabinet));
        said.extend([statement.left, statement.right].map(|side| (u32::from(side), Says::Side)));
    }
    said
}

/// The first value out of range, one far out of range, or for S, at its other end.
fn out_of_range(rng: &mut Rng, file: &File, says: Says) -> u32 {
    let entries = u32::from(file.v) + file.records.len() as u32;
    let limit = match says {
        Says::Size(9) if rng.one_in(2) => return 0,
        Says::Size(limit) => limit,
        Says::Symbol => u32::MAX,
        Says::PartCount => 5,
        Says::Part => u32::from(file.v),
        Says::StatementCount => 65,
        Says::Cabinet => u32::from(file.s),
        Says::Side => entries,
    };
    limit.saturating_add(if rng.one_in(2) { 0 } else { rng.value() as u32 >> rng.below(32) })
}

/// A number in one of the forms that are refused: too long by a zero group, too large in the fifth byte, cut.
fn bad_form(rng: &mut Rng, value: u32, out: &mut Vec<u8>) {
    let start = out.len();
    numbers::write(value, out);
    match rng.below(3) {
        0 => {
            if let Some(last) = out.last_mut() {
                *last |= 128;
            }
            out.push(0);
        }
        1 => {
            out.truncate(start);
            out.extend([255, 255, 255, 255, 16 + rng.below(240) as u8]);
        }
        _ => {
            if let Some(last) = out.last_mut() {
                *last |= 128;
            }
        }
    }
}

/// One number of an accepted file made faulty, or bytes left over: each refusal of loading, at any place of the file.
fn refused(held: &mut Held, dirty: &[u8]) {
    let mut rng = held.kind("files, each refusal");
    for _ in 0..held.rounds(6000) {
        let said = samples::random_file(&mut rng);
        let all = numbers_of(&said);
        let faulty = if rng.one_in(3) { rng.below(3) } else { rng.below(all.len()) };
        let form = rng.below(8);
        let mut bytes = Vec::new();
        for (n, &(value, says)) in all.iter().enumerate() {
            match form {
                0 if n == faulty => bad_form(&mut rng, value, &mut bytes),
                1 if n == faulty => break,
                2.. if n == faulty => numbers::write(out_of_range(&mut rng, &said, says), &mut bytes),
                _ => numbers::write(value, &mut bytes),
            }
        }
        if rng.one_in(6) {
            bytes.extend((0..rng.below(4)).map(|_| rng.value() as u8));
        }
        held.load(&bytes, dirty);
        held.statement(&bytes, rng.below(3));
    }
}

fn one_byte_changed(held: &mut Held, dirty: &[u8]) {
    let mut rng = held.kind("files, every other byte at each position");
    let mut files = vec![samples::rich(), samples::RING.to_vec(), samples::CLASH.to_vec()];
    if held.long {
        files.push(samples::longest());
        files.extend((0..20).map(|_| file::write(&samples::random_file(&mut rng))));
    }
    for bytes in &files {
        for position in 0..bytes.len() {
            for other in 1..=255 {
                let mut damaged = bytes.clone();
                damaged[position] ^= other;
                held.load(&damaged, dirty);
                if rng.one_in(8) {
                    held.statement(&damaged, rng.below(7));
                }
            }
        }
    }
    // Of the longest file, which is slow to load, one drawn value at each position.
    let longest = samples::longest();
    for position in 0..longest.len() {
        let mut damaged = longest.clone();
        damaged[position] ^= 1 + rng.below(255) as u8;
        held.load(&damaged, dirty);
    }
}

fn cut_and_grown(held: &mut Held, dirty: &[u8]) {
    let mut rng = held.kind("files, cut and grown at each position");
    let mut files = vec![samples::rich(), samples::longest()];
    files.extend((0..held.rounds(30)).map(|_| file::write(&samples::random_file(&mut rng))));
    for bytes in &files {
        for position in 0..=bytes.len() {
            held.load(&bytes[..position], dirty);
            held.statement(&bytes[..position], rng.below(4));
            for value in [0, 128, rng.value() as u8] {
                let mut grown = bytes.clone();
                grown.insert(position, value);
                held.load(&grown, dirty);
            }
        }
    }
}
