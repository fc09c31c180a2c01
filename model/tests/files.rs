//! Reading and writing files: every refusal with its position, every damage of a file, and the parts of a file that are its statements.

use model::refusal::*;
use model::rng::Rng;
use model::run::RUN_LENGTH;
use model::{file, load, numbers, samples, statement, write, Fault};

fn refused(bytes: &[u8]) -> (usize, usize) {
    match file::read(bytes) {
        Ok(_) => (0, 0),
        Err(Fault { number, position }) => (number, position),
    }
}

#[test]
fn every_refusal_and_its_position() {
    for (bytes, number, position) in [
        (&[][..], 1, 0),
        (&[1], 1, 1),
        (&[1, 0x80], 1, 1),
        (&[1, 2, 1, 0xFF, 0xFF, 0xFF, 0xFF], 1, 3),
        (&[0x81, 0], 2, 0),
        (&[1, 2, 1, 0x80, 0x80, 0x80, 0x80, 0x00], 2, 3),
        (&[1, 2, 1, 0xFF, 0xFF, 0xFF, 0xFF, 0x10], 2, 3),
        (&[0], 3, 0),
        (&[9], 3, 0),
        (&[0x80, 0x01], 3, 0),
        (&[8, 33], 4, 1),
        (&[8, 32, 65], 5, 2),
        (&[1, 1, 1, 7, 5], 6, 4),
        (&[1, 1, 1, 0x80, 1, 1, 1], 7, 6),
        (&[1, 0, 1, 7, 1, 0], 7, 5),
        (&[1, 1, 0, 65], 8, 3),
        (&[2, 1, 0, 1, 2], 9, 4),
        (&[2, 1, 1, 7, 0, 1, 1, 2], 10, 7),
        (&[2, 1, 1, 7, 0, 1, 1, 1, 2], 10, 8),
        (&[1, 0, 0, 0, 0], 11, 4),
        (&[1, 0, 0, 0, 0x80, 0x80], 11, 4),
        // The range of a number is tested before the next number is read.
        (&[9, 0x80], 3, 0),
        (&[1, 33, 65], 4, 1),
    ] {
        assert_eq!(refused(bytes), (number, position), "{bytes:?}");
        let mut run = vec![170; RUN_LENGTH];
        assert_eq!(load(bytes, &mut run), (number, position));
        assert!(run.iter().all(|&byte| byte == 170));
        assert_eq!(statement(bytes, 0), (0, 0));
    }
}

#[test]
fn numbers_of_every_length() {
    let mut rng = Rng::new(1);
    let edges = (0..32).flat_map(|bit| [(1u32 << bit) - 1, 1 << bit, (1 << bit) + 1]);
    let random: Vec<u32> = (0..1000).map(|n| rng.value() as u32 >> (n % 32)).collect();
    for value in edges.chain(random) {
        let mut bytes = vec![0xFF];
        numbers::write(value, &mut bytes);
        let length = bytes.len();
        assert_eq!(numbers::read(&bytes, 1), Ok((value, length)));
        for cut in 1..length {
            assert_eq!(numbers::read(&bytes[..cut], 1), Err(FILE_ENDS));
        }
        assert_eq!(numbers::read(&bytes, length), Err(FILE_ENDS));
        assert_eq!(numbers::read(&bytes, usize::MAX), Err(FILE_ENDS));
    }
}

/// Whatever is read is the only form of what it says: no two files say the same.
#[test]
fn an_accepted_file_is_what_the_writer_writes() {
    let rich = samples::rich();
    let check = |bytes: &[u8]| {
        if let Ok(said) = file::read(bytes) {
            assert_eq!(file::write(&said), bytes);
            let mut run = vec![170; RUN_LENGTH];
            assert_eq!(load(bytes, &mut run), (DONE, 0));
            let mut back = [170; 836];
            assert_eq!(write(&run, &mut back), (DONE, bytes.len()));
            assert_eq!(back[..bytes.len()], *bytes);
            assert!(back[bytes.len()..].iter().all(|&byte| byte == 0));
        }
    };
    check(&rich);
    for position in 0..rich.len() {
        check(&rich[..position]);
        for value in 0..=255 {
            let mut damaged = rich.clone();
            damaged[position] = value;
            check(&damaged);
            damaged.insert(position, value);
            check(&damaged);
        }
    }
    let mut rng = Rng::new(2);
    for _ in 0..20_000 {
        let random: Vec<u8> = (0..rng.below(20)).map(|_| rng.value() as u8 >> rng.below(8)).collect();
        check(&random);
    }
    for _ in 0..300 {
        check(&file::write(&samples::random_file(&mut rng)));
    }
}

#[test]
fn a_fault_lies_at_the_damaged_number_or_after() {
    let rich = samples::rich();
    for position in 0..rich.len() {
        for value in 0..=255 {
            let mut damaged = rich.clone();
            damaged[position] = value;
            if let Err(fault) = file::read(&damaged) {
                assert!(fault.position <= damaged.len());
                assert!((1..=11).contains(&fault.number));
                // The damaged number starts at most four bytes before its last byte.
                assert!(fault.position + 4 >= position, "{position} {value}");
            }
        }
    }
}

#[test]
fn the_longest_file() {
    let longest = samples::longest();
    assert_eq!(longest.len(), 836);
    assert_eq!(refused(&longest), (0, 0));
    let mut longer = longest.clone();
    longer.push(0);
    assert_eq!(refused(&longer), (11, 836));
    assert_eq!(refused(&longest[..835]), (1, 835));
}

#[test]
fn statements_are_parts_of_their_file() {
    let mut rng = Rng::new(3);
    for _ in 0..300 {
        let said = samples::random_file(&mut rng);
        let bytes = file::write(&said);
        for (n, expected) in said.statements.iter().enumerate() {
            let (start, length) = statement(&bytes, n);
            assert_eq!(bytes[start..start + length], [expected.cabinet, expected.left, expected.right]);
            assert_eq!(bytes.len() - start, 3 * (said.statements.len() - n));
        }
        assert_eq!(statement(&bytes, said.statements.len()), (0, 0));
        assert_eq!(statement(&bytes, usize::MAX), (0, 0));
    }
}
