//! Random files run to the end under random schedules: the map of the statements alone, the bounds and the invariants of document 01.

use model::map::{from_statements, of_run, Map};
use model::program::first_ready;
use model::refusal::*;
use model::rng::Rng;
use model::{file, load, map, program, samples, sound, step, steps, write, File, Item, Mark, Rule, Run};

/// The most steps and the most statements of a run from this file.
fn bounds(file: &File) -> (usize, usize) {
    let (s, v, e) = (usize::from(file.s), usize::from(file.v), file.statements.len());
    let p = v * v.saturating_sub(1) / 2;
    ((5 * e + 4 * s * p) * (4 * v + 2) + 3 * v * s, 4 * e + 3 * s * p)
}

/// Ways of choosing the next place.
#[derive(Clone, Copy)]
enum Schedule {
    Random,
    First,
    Last,
    /// Puts off what only shortens the list, so that it grows long.
    Growing,
}

const SCHEDULES: [Schedule; 4] = [Schedule::Random, Schedule::First, Schedule::Last, Schedule::Growing];

fn next_place(run: &Run, schedule: Schedule, rng: &mut Rng) -> usize {
    let count = run.items().len();
    let drawn = first_ready(run, rng.below(count));
    match schedule {
        Schedule::Random => drawn,
        Schedule::First => first_ready(run, 0),
        Schedule::Last => (0..count).rfind(|&place| !run.waits(place)).unwrap_or(count),
        Schedule::Growing => {
            let grows = |place: &usize| matches!(run.effect(*place), Ok(effect) if !effect.products.is_empty());
            (0..count.min(50)).map(|_| rng.below(count)).find(grows).unwrap_or(drawn)
        }
    }
}

/// Runs to the end, checking after every step what `check` asks, and gives the number of steps.
fn run_to_end(run: &mut Run, schedule: Schedule, rng: &mut Rng, mut check: impl FnMut(&Run)) -> usize {
    let mut taken = 0;
    check(run);
    while run.clash().is_none() && !run.items().is_empty() {
        let place = next_place(run, schedule, rng);
        assert!(place < run.items().len(), "an unclashed run with items pending has one that does not wait");
        run.step(place).expect("a ready place of a run from a file is never refused");
        taken += 1;
        check(run);
    }
    taken
}

/// The map of a run that has come to its end, or nothing when it clashed.
fn outcome(run: &Run) -> Option<Map> {
    match run.clash() {
        Some(_) => None,
        None => Some(of_run(run).expect("the run is finished")),
    }
}

/// For each unknown with an owner mark, pending news plus cabinets holding that entry come to S; one without has no
/// news and no cabinet holding an entry.
fn news_and_holders(run: &Run) {
    let v = usize::from(run.unknowns());
    let mut news = vec![0; v];
    for item in run.items() {
        if let Item::News { left, right, .. } = *item {
            news[usize::from(left)] += 1;
            assert_eq!(run.owners()[usize::from(left)], Some(right));
        }
    }
    for (x, (owner, news)) in run.owners().iter().zip(news).enumerate() {
        let marks = run.stores().iter().map(|store| store[x]);
        match *owner {
            Some(entry) => {
                let holders = marks.filter(|&mark| mark == Mark::Entry(entry)).count();
                assert_eq!(news + holders, usize::from(run.cabinets()));
            }
            None => {
                assert_eq!(news, 0);
                assert!(marks.into_iter().all(|mark| !matches!(mark, Mark::Entry(_))));
            }
        }
    }
}

#[test]
fn the_map_is_that_of_the_statements_alone() {
    let mut rng = Rng::new(10);
    let (mut clashes, mut maps, mut shared, mut longest) = (0, 0, 0, 0);
    for _ in 0..6000 {
        let said = samples::random_file(&mut rng);
        let bytes = file::write(&said);
        let expected = from_statements(&bytes).unwrap();
        let (most_steps, most_statements) = bounds(&said);
        for schedule in SCHEDULES {
            let mut run = Run::load(&bytes).unwrap();
            let taken = run_to_end(&mut run, schedule, &mut rng, |run| {
                let statements = run.items().iter().filter(|item| matches!(item, Item::Statement { .. })).count();
                assert!(statements <= most_statements);
                news_and_holders(run);
            });
            assert!(taken <= most_steps);
            assert_eq!(outcome(&run), expected);
            longest = longest.max(taken);
        }
        match expected {
            None => clashes += 1,
            Some(made) => {
                maps += 1;
                shared += usize::from((0..usize::from(said.v)).any(|x| usize::from(made[11 * x]) != x));
            }
        }
    }
    // The samples are worth something only if they hold enough of each.
    assert!(clashes > 300 && maps > 300 && shared > 300 && longest > 200, "{clashes} {maps} {shared} {longest}");
}

#[test]
fn bytes_and_structure_step_alike() {
    let mut rng = Rng::new(11);
    for n in 0..60 {
        let bytes = file::write(&samples::random_file(&mut rng));
        let mut run = Run::load(&bytes).unwrap();
        let mut lent = vec![170; model::run::RUN_LENGTH];
        assert_eq!(load(&bytes, &mut lent), (DONE, 0));
        let loaded = lent.clone();
        let mut places = Vec::new();
        while run.clash().is_none() && !run.items().is_empty() && places.len() < 300 {
            let place = next_place(&run, SCHEDULES[n % 4], &mut rng);
            let rule = run.step(place).unwrap();
            assert_eq!(step(&mut lent, place), (DONE, rule as usize));
            assert_eq!(run.to_bytes(), lent);
            assert_eq!(Run::from_bytes(&lent), Some(run.clone()));
            places.push(place as u32);
        }
        let mut at_once = loaded;
        assert_eq!(steps(&mut at_once, &places), (DONE, places.len()));
        assert_eq!(at_once, lent);
        let mut made = [170; 352];
        let expected = of_run(&run);
        assert_eq!(map(&lent, &mut made), expected.err().unwrap_or(DONE));
        assert_eq!(made, expected.unwrap_or([170; 352]));
    }
}

/// Demand 3: what is said, not how, where or how often, decides the map; a clash is a clash for all.
#[test]
fn retold_statements_give_the_same_map() {
    let mut rng = Rng::new(12);
    for n in 0..600 {
        let said = samples::random_file(&mut rng);
        let mut run = Run::load(&file::write(&said)).unwrap();
        run_to_end(&mut run, SCHEDULES[n % 4], &mut rng, |_| {});
        for _ in 0..3 {
            let retold = file::write(&samples::retold(&mut rng, &said));
            let mut other = Run::load(&retold).unwrap();
            run_to_end(&mut other, SCHEDULES[rng.below(4)], &mut rng, |_| {});
            assert_eq!(outcome(&other), outcome(&run));
            assert_eq!(program::output(&retold), program::output(&file::write(&said)));
        }
    }
}

/// A run is written exactly as long as it is as some file leaves it, and loading what was written gives it back.
#[test]
fn a_written_run_is_loaded_again() {
    let mut rng = Rng::new(13);
    let (mut written, mut refused) = (0, 0);
    for _ in 0..150 {
        let bytes = file::write(&samples::random_file(&mut rng));
        let mut run = Run::load(&bytes).unwrap();
        for _ in 0..8 {
            let lent = run.to_bytes();
            let mut said = [170; 836];
            match write(&lent, &mut said) {
                (DONE, length) => {
                    let mut again = vec![170; lent.len()];
                    assert_eq!(load(&said[..length], &mut again), (DONE, 0));
                    assert_eq!(again, lent);
                    assert!(said[length..].iter().all(|&byte| byte == 0));
                    written += 1;
                }
                reply => {
                    assert_eq!(reply, (NOT_AS_LOADED, 0));
                    assert_eq!(said, [170; 836]);
                    refused += 1;
                }
            }
            if run.clash().is_some() || run.items().is_empty() {
                break;
            }
            let place = next_place(&run, Schedule::Random, &mut rng);
            run.step(place).unwrap();
        }
    }
    assert!(written > 150 && refused > 150);
}

/// A statement's step depends on the table, its cabinet's store and memo and the item alone: two runs from retellings
/// of one file, wherever they agree on these, do the same.
#[test]
fn a_step_is_local_to_its_cabinet() {
    let mut rng = Rng::new(14);
    let mut compared = 0;
    for _ in 0..400 {
        let said = samples::random_file(&mut rng);
        let mut retold = samples::retold(&mut rng, &said);
        retold.s = retold.s.max(said.s);
        let mut runs = [Run::load(&file::write(&said)).unwrap(), Run::load(&file::write(&retold)).unwrap()];
        for _ in 0..30 {
            for run in &mut runs {
                if run.clash().is_none() && !run.items().is_empty() {
                    let place = next_place(run, Schedule::Random, &mut rng);
                    run.step(place).unwrap();
                }
            }
            compared += compare_common_items(&runs);
        }
    }
    assert!(compared > 1000, "{compared}");
}

fn compare_common_items([one, other]: &[Run; 2]) -> usize {
    let mut compared = 0;
    if one.clash().is_some() || other.clash().is_some() {
        return 0;
    }
    for (here, item) in one.items().iter().enumerate() {
        let Item::Statement { cabinet, .. } = *item else {
            continue;
        };
        let Some(there) = other.items().iter().position(|candidate| candidate == item) else {
            continue;
        };
        let cabinet = usize::from(cabinet);
        if one.stores()[cabinet] == other.stores()[cabinet] && one.memos()[cabinet] == other.memos()[cabinet] {
            assert_eq!(one.effect(here), other.effect(there));
            compared += 1;
        }
    }
    compared
}

/// The longest file under every schedule: tens of thousands of steps, always one map.
#[test]
fn the_longest_file_runs_to_the_end() {
    let mut rng = Rng::new(15);
    let bytes = samples::longest();
    let expected = from_statements(&bytes).unwrap();
    for schedule in [Schedule::Random, Schedule::First, Schedule::Growing] {
        let mut run = Run::load(&bytes).unwrap();
        let mut rules = [0; 11];
        let mut taken = 0;
        while !run.items().is_empty() {
            let place = next_place(&run, schedule, &mut rng);
            let rule = run.step(place).unwrap();
            rules[rule as usize] += 1;
            taken += 1;
            if taken % 5000 == 0 {
                assert!(sound(&run.to_bytes()));
                news_and_holders(&run);
            }
        }
        assert!(taken > 10_000 && taken <= 2_105_728, "{taken}");
        assert_eq!(rules[Rule::Win as usize], 32);
        assert_eq!(rules[Rule::Arrive as usize], 32 * 8);
        assert_eq!(outcome(&run), expected);
    }
}

#[test]
fn the_bounds_at_the_largest_limits() {
    assert_eq!(bounds(&file::read(&samples::longest()).unwrap()), (2_105_728, 12_160));
}
