//! The union-find of the statements held against the definition of alike, and its map against runs taken to their ends.

use model::alike::Alike;
use model::map::{from_statements, of_run};
use model::rng::Rng;
use model::{file, program, samples, File, Record, Run, Statement};

/// Alike by its definition, as a table of all pairs: reflexive, then each statement, then symmetry, transitivity and the
/// parts of alike records of one symbol and part count, over and over until nothing is new.
fn by_definition(file: &File) -> Vec<Vec<bool>> {
    let v = usize::from(file.v);
    let n = v + file.records.len();
    let mut alike: Vec<Vec<bool>> = (0..n).map(|one| (0..n).map(|other| one == other).collect()).collect();
    for said in &file.statements {
        alike[usize::from(said.left)][usize::from(said.right)] = true;
    }
    let mut grown = true;
    while grown {
        let before = alike.clone();
        for one in 0..n {
            for other in 0..n {
                if before[one][other] {
                    alike[other][one] = true;
                    for (third, _) in before[other].iter().enumerate().filter(|(_, &alike)| alike) {
                        alike[one][third] = true;
                    }
                    equate_parts(file, &mut alike, one, other);
                }
            }
        }
        grown = alike != before;
    }
    alike
}

fn equate_parts(file: &File, alike: &mut [Vec<bool>], one: usize, other: usize) {
    let v = usize::from(file.v);
    if one < v || other < v || !same_shape(&file.records[one - v], &file.records[other - v]) {
        return;
    }
    for (&part, &its) in file.records[one - v].parts.iter().zip(&file.records[other - v].parts) {
        alike[usize::from(part)][usize::from(its)] = true;
    }
}

fn same_shape(one: &Record, other: &Record) -> bool {
    one.symbol == other.symbol && one.parts.len() == other.parts.len()
}

#[test]
fn the_classes_are_those_of_the_definition() {
    let mut rng = Rng::new(20);
    let (mut clashes, mut joined) = (0, 0);
    for _ in 0..1500 {
        let said = samples::random_file(&mut rng);
        let v = usize::from(said.v);
        let expected = by_definition(&said);
        let shapes = said.records.iter().enumerate();
        let clash = shapes
            .clone()
            .any(|(i, one)| shapes.clone().any(|(j, other)| expected[v + i][v + j] && !same_shape(one, other)));
        let Some(alike) = Alike::of(&said) else {
            assert!(clash);
            clashes += 1;
            continue;
        };
        assert!(!clash);
        for (one, row) in expected.iter().enumerate() {
            for (other, &answer) in row.iter().enumerate() {
                assert_eq!(alike.root(one) == alike.root(other), answer);
                joined += usize::from(answer && one != other);
            }
        }
        for (x, row) in expected.iter().enumerate().take(v) {
            match alike.record(x) {
                Some(record) => assert!(row[v + record]),
                None => assert!(row[v..].iter().all(|&record| !record)),
            }
        }
    }
    assert!(clashes > 100 && joined > 1000, "{clashes} {joined}");
}

/// The same statements at other cabinets, in another order and some of them twice: one class each, and one map.
#[test]
fn the_map_of_the_classes_is_that_of_a_run_at_its_end() {
    let mut rng = Rng::new(21);
    let (mut clashes, mut maps) = (0, 0);
    for _ in 0..1500 {
        let said = samples::random_file(&mut rng);
        let bytes = file::write(&said);
        let expected = from_statements(&bytes).unwrap();
        let retold = file::write(&samples::retold(&mut rng, &said));
        assert_eq!(from_statements(&retold).unwrap(), expected);
        for told in [bytes, retold] {
            let mut run = Run::load(&told).unwrap();
            program::run_to_end(&mut run);
            match expected {
                Some(map) => assert_eq!(of_run(&run), Ok(map)),
                None => assert!(run.clash().is_some()),
            }
        }
        clashes += usize::from(expected.is_none());
        maps += usize::from(expected.is_some());
    }
    assert!(clashes > 100 && maps > 300, "{clashes} {maps}");
}

/// Document 01's wrong road: the ring's two unknowns are the same item, though not alike.
#[test]
fn same_item_is_not_alike() {
    let ring = file::read(samples::RING).unwrap();
    let alike = Alike::of(&ring).unwrap();
    assert_ne!(alike.root(0), alike.root(1));
    let map = from_statements(samples::RING).unwrap().unwrap();
    assert_eq!((map[0], map[11]), (0, 0));
}

/// A clash that only parts of parts bring about, and the same file without its last statement.
#[test]
fn a_clash_below_the_parts() {
    let record = |symbol, parts: &[u8]| Record { symbol, parts: parts.to_vec() };
    let statement = |left, right| Statement { cabinet: 0, left, right };
    let records =
        vec![record(1, &[0]), record(1, &[1]), record(2, &[2]), record(2, &[3]), record(3, &[]), record(4, &[])];
    let mut said = File { s: 1, v: 4, records, statements: vec![] };
    for (left, right) in [(0, 6), (1, 7), (2, 8), (3, 9), (4, 5)] {
        assert!(Alike::of(&said).is_some());
        said.statements.push(statement(left, right));
    }
    assert!(Alike::of(&said).is_none());
}
