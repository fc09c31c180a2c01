//! The stored inputs and outputs of the program crates: what `crates/NAME/stdin` and `crates/NAME/stdout` hold.

use crate::file::{self, File, Record};
use crate::map::MAP_LENGTH;
use crate::rng::Rng;
use crate::run::{Run, MOST_ITEMS, RUN_LENGTH};
use crate::samples::{self, CLASH, CLASH_PLACES, RECORD_TWICE, RECORD_TWICE_PLACES, RING, TWO_MEMOS, TWO_MEMOS_PLACES};
use crate::sheets::Sheet;
use crate::{numbers, program};

/// A program crate's name, its standard input and what it has to print.
pub struct Stored {
    pub name: &'static str,
    pub stdin: Vec<u8>,
    pub stdout: String,
}

/// All that is stored.
pub fn all() -> Vec<Stored> {
    vec![
        sheet("bench_sheet", bench_sheet),
        sheet("vectors", vectors),
        input("mapper", RING.to_vec()),
        input("mapper_overlong", overlong()),
    ]
}

fn sheet(name: &'static str, fill: fn(&mut Sheet)) -> Stored {
    let mut sheet = Sheet::default();
    fill(&mut sheet);
    Stored { name, stdin: sheet.calls, stdout: sheet.lines }
}

/// An input of the map program.
fn input(name: &'static str, stdin: Vec<u8>) -> Stored {
    Stored { name, stdout: program::output(&stdin), stdin }
}

/// The longest file less its last byte, then a number of five groups that is too long: 2 at 835.
fn longest_overrun() -> Vec<u8> {
    let mut bytes = samples::longest();
    bytes.truncate(835);
    bytes.extend([0x80, 0x80, 0x80, 0x80, 0x00]);
    bytes
}

/// More than the map program has to read: 2 at 835 all the same.
fn overlong() -> Vec<u8> {
    [longest_overrun(), vec![0; 1000]].concat()
}

/// Document 01's bench sheet, line by line.
fn bench_sheet(sheet: &mut Sheet) {
    // Numbers as symbols: written and read back, then refused.
    for number in [&[0x00][..], &[0x7F], &[0x80, 0x01], &[0xFF, 0xFF, 0xFF, 0xFF, 0x0F]] {
        sheet.load(&[&[1, 0, 1], number, &[0, 0]].concat());
        sheet.write();
    }
    for number in [&[0x80, 0x00][..], &[0x80], &[0xFF, 0xFF, 0xFF, 0xFF, 0x10]] {
        sheet.load(&[&[1, 0, 1], number].concat());
    }
    for file in [&[][..], &[0x00], &[0x01, 0x20, 0x00, 0x00], &[0x01, 0x21, 0x00, 0x00]] {
        sheet.load(file);
    }
    sheet.load(&[1, 0, 0, 0]);
    sheet.map();
    sheet.print(&[1, 0, 0, 0]);
    sheet.load(CLASH);
    for &place in CLASH_PLACES {
        sheet.step(place as usize);
    }
    sheet.step(0);
    sheet.print(CLASH);
    sheet.load(CLASH);
    sheet.steps(&[0, 0]);
    sheet.step(1);
    sheet.step(4);
    sheet.map();
    sheet.load(RING);
    sheet.steps(&program::places(RING).unwrap_or_default());
    sheet.map();
    sheet.print(RING);
}

/// All else, part by part.
fn vectors(sheet: &mut Sheet) {
    files(sheet);
    runs(sheet);
    maps(sheet);
    prints(sheet);
}

/// Files with one fault each, and the smallest files.
const FAULTS: [&[u8]; 34] = [
    &[],
    &[0x00],
    &[0x01, 0x20, 0x00, 0x00],
    &[0x01, 0x21, 0x00, 0x00],
    &[1, 0, 0, 0],
    &[8, 32, 0, 0],
    &[1],
    &[1, 2],
    &[1, 2, 0],
    &[1, 0x80],
    &[1, 2, 1, 0xFF, 0xFF, 0xFF, 0xFF],
    &[0x81, 0],
    &[1, 2, 1, 0x80, 0x80, 0x80, 0x80, 0x00],
    &[1, 2, 1, 0xFF, 0xFF, 0xFF, 0xFF, 0x10],
    &[9],
    &[9, 0x80],
    &[0x80, 0x01],
    &[8, 33],
    &[8, 32, 65],
    &[1, 33, 65],
    &[1, 1, 1, 7, 5],
    &[1, 1, 1, 7, 0x80, 0x80, 1],
    &[1, 1, 1, 0x80, 1, 1, 1],
    &[1, 0, 1, 7, 1, 0],
    &[1, 2, 1, 7, 4, 0, 1, 0, 2],
    &[1, 1, 0, 65],
    &[1, 0, 0, 64],
    &[2, 1, 0, 1, 2],
    &[2, 1, 0, 1, 0x80, 2, 0, 0],
    &[1, 0, 0, 1, 0, 0, 0],
    &[2, 1, 1, 7, 0, 1, 1, 2],
    &[2, 1, 1, 7, 0, 1, 1, 1, 2],
    &[1, 0, 0, 0, 0],
    &[1, 0, 0, 0, 0x80, 0x80],
];

/// Files: loaded, refused, their statements, written.
fn files(sheet: &mut Sheet) {
    number_files(sheet);
    // Refusals leave a run that holds something; accepted files leave nothing of it.
    sheet.fill(170);
    for file in FAULTS {
        sheet.load(file);
    }
    let (rich, longest) = (samples::rich(), samples::longest());
    for file in [RING, CLASH, &rich, &longest] {
        sheet.fill(85);
        sheet.load(file);
        sheet.write();
        for n in [0, 1, 2, 5, 6, 63, 64, 65_535] {
            sheet.statement(n, file);
        }
    }
    let longer = [&longest[..], &[0]].concat();
    for file in [&longest[..835], &longer, &longest_overrun()] {
        sheet.load(file);
        sheet.statement(0, file);
    }
    // Two equal statements are two parts.
    for n in 0..3 {
        sheet.statement(n, &[1, 1, 0, 2, 0, 0, 0, 0, 0, 0]);
    }
    // The rich file cut short, grown, and damaged in every one of its bytes.
    for position in 0..=rich.len() {
        sheet.load(&rich[..position]);
        for value in [0, 0x80] {
            let mut grown = rich.clone();
            grown.insert(position, value);
            sheet.load(&grown);
        }
    }
    for position in 0..rich.len() {
        sheet.damage(position, &rich);
    }
    let mut rng = Rng::new(100);
    for _ in 0..60 {
        sheet.load(&file::write(&samples::random_file(&mut rng)));
        sheet.write();
    }
    written_runs(sheet);
    lengths(sheet);
}

/// Numbers of every length, in every form, as the symbol of a record.
fn number_files(sheet: &mut Sheet) {
    let powers = (0..32).map(|bit| 1u32 << bit);
    let mut values: Vec<u32> = powers.flat_map(|power| [power - 1, power]).chain([u32::MAX]).collect();
    values.sort_unstable();
    values.dedup();
    for value in values {
        let mut file = vec![1, 0, 1];
        numbers::write(value, &mut file);
        sheet.load(&file);
        file.extend([0, 0]);
        sheet.load(&file);
        sheet.write();
    }
    for groups in 0..6 {
        for last in [0, 1, 15, 16, 127, 128, 255] {
            for body in [0x80, 0xFF] {
                sheet.load(&[&[1, 0, 1], &vec![body; groups][..], &[last, 0, 0]].concat());
            }
        }
    }
}

/// Runs to be written: as loaded, led back there by steps, sound but not as loaded in each way, and unsound.
fn written_runs(sheet: &mut Sheet) {
    for (file, places) in [
        (RING, &[0][..]),
        (&samples::rich(), &[0]),
        // Interchange, and Decompose of one part, lead to what some file leaves; Identify does not.
        (&[1, 2, 0, 1, 0, 0, 1], &[0]),
        (&[1, 2, 2, 7, 1, 0, 7, 1, 1, 1, 0, 2, 3], &[0]),
        (&[1, 1, 0, 1, 0, 0, 0], &[0]),
    ] {
        sheet.load(file);
        sheet.steps(places);
        sheet.write();
    }
    let loaded = [2, 3, 1, 7, 0, 1, 0, 2, 1];
    let not_as_loaded = [(0, 1), (5, 0), (5, 2), (584, 3), (616, 254), (650, 0), (872 + 32, 1), (9064, 2), (9064, 3)];
    let not_sound = [(0, 2), (1, 1), (5, 65), (6, 0), (584, 254), (872, 1), (9064, 0), (9068, 1)];
    for (offset, value) in not_as_loaded.into_iter().chain(not_sound) {
        sheet.load(&loaded);
        sheet.poke(offset, &[value]);
        sheet.write();
    }
}

/// Every call with buffers of other lengths.
fn lengths(sheet: &mut Sheet) {
    sheet.load(CLASH);
    for lent in [0, 1, RUN_LENGTH - 1, RUN_LENGTH + 1] {
        sheet.load_lent(lent, RING);
        sheet.load_lent(lent, &[]);
        sheet.step_lent(lent, 0);
        sheet.steps_lent(lent, &[0]);
        sheet.steps_lent(lent, &[]);
        sheet.map_lent(lent, MAP_LENGTH);
        sheet.write_lent(lent, file::LONGEST_FILE);
    }
    for lent in [0, MAP_LENGTH - 1, MAP_LENGTH + 1] {
        sheet.map_lent(RUN_LENGTH, lent);
    }
    for lent in [0, file::LONGEST_FILE - 1, file::LONGEST_FILE + 1] {
        sheet.write_lent(RUN_LENGTH, lent);
    }
}

/// Ready places of a random schedule, up to the end or to this many.
fn random_places(rng: &mut Rng, bytes: &[u8], most: usize) -> Vec<u32> {
    let mut places = Vec::new();
    if let Ok(mut run) = Run::load(bytes) {
        while !run.items().is_empty() && places.len() < most {
            let place = program::first_ready(&run, rng.below(run.items().len()));
            if run.step(place).is_err() {
                break;
            }
            places.push(place as u32);
        }
    }
    places
}

/// Makes the sheet's run this one: the smallest file, and pokes where the run differs from it. A poke goes on over bytes that do
/// not differ where another poke would take more.
fn lay(sheet: &mut Sheet, run: &[u8]) {
    const POKE: usize = 7;
    sheet.load(&[1, 0, 0, 0]);
    let base = sheet.run().to_vec();
    let differing: Vec<usize> = (0..run.len()).filter(|&at| run[at] != base[at]).collect();
    for near in differing.chunk_by(|one, next| next - one <= POKE) {
        sheet.poke(near[0], &run[near[0]..=near[near.len() - 1]]);
    }
}

/// A file loaded, with this many pending items, all alike but for the first.
fn with_items(sheet: &mut Sheet, file: &[u8], first: [u8; 4], others: [u8; 4], count: usize) {
    sheet.load(file);
    sheet.poke(6, &(count as u16).to_le_bytes());
    sheet.poke_times(9064, &others, count);
    sheet.poke(9064, &first);
}

/// Runs: steps and lists.
fn runs(sheet: &mut Sheet) {
    // Lists: all done, stopped by 14, by 13 and by 15, and empty.
    let beyond = [CLASH_PLACES, &[0, 0]].concat();
    for places in [&[0, 0][..], &[0, 0, 1, 0], &[0, 0, 4], &[2], &[65_535], &[0, 65_535], &beyond, &[]] {
        sheet.load(CLASH);
        sheet.steps(places);
    }
    for (file, places) in [(TWO_MEMOS, TWO_MEMOS_PLACES), (RECORD_TWICE, RECORD_TWICE_PLACES)] {
        sheet.load(file);
        for &place in places {
            sheet.step(place as usize);
        }
    }
    // At V = 32 a record's number is that of a byte of the next row: the memo is not looked at.
    sheet.load(&[1, 32, 32, 7, 0].iter().copied().chain([7, 0].repeat(31)).chain([1, 0, 0, 32]).collect::<Vec<_>>());
    sheet.poke(584, &[32]);
    sheet.poke(616, &[32]);
    sheet.poke(872 + 32, &[1]);
    sheet.step(0);
    // One record with itself, and records without parts.
    sheet.load(&[1, 2, 1, 7, 2, 1, 0, 1, 0, 2, 2]);
    sheet.step(0);
    sheet.load(&[1, 0, 2, 7, 0, 7, 0, 1, 0, 0, 1]);
    sheet.step(0);
    drawn_runs(sheet);
    unsound_runs(sheet);
    full_lists(sheet);
    runs_by_hand(sheet);
}

/// Runs drawn by the map program's generator or at random, and the longest file with 12,000 items pending.
fn drawn_runs(sheet: &mut Sheet) {
    for file in [RING, CLASH, TWO_MEMOS, RECORD_TWICE, &samples::rich()] {
        sheet.load(file);
        sheet.steps(&program::places(file).unwrap_or_default());
    }
    let mut rng = Rng::new(101);
    for _ in 0..40 {
        let bytes = file::write(&samples::random_file(&mut rng));
        sheet.load(&bytes);
        sheet.steps(&random_places(&mut rng, &bytes, 100));
    }
    let longest = samples::longest();
    sheet.load(&longest);
    sheet.steps(&samples::growing_places(&longest)[..12_000]);
}

/// Sound runs with each value of one byte, in every region; and what comes first of two faults.
fn unsound_runs(sheet: &mut Sheet) {
    // S 2, V 3, R 2, a record of two parts and one of none, and two statements, one of them initiated.
    sheet.load(&[2, 3, 2, 7, 2, 0, 2, 9, 0, 2, 0, 2, 3, 1, 1, 0]);
    sheet.steps(&[0]);
    let header = 0..8;
    let records = 8..28;
    let owners = [583, 584, 585, 586, 587, 615];
    let stores = [616, 617, 618, 619, 647, 648, 650, 651, 679, 680, 871];
    let memo = [0, 1, 31, 32, 33, 34, 63, 64, 65, 66, 95, 96, 97, 1023];
    let memos = [0, 1, 2, 7].into_iter().flat_map(|cabinet| memo.map(|place| 872 + 1024 * cabinet + place));
    let items = (9064..9064 + 17).chain([RUN_LENGTH - 4, RUN_LENGTH - 1]);
    for offset in header.chain(records).chain(owners).chain(stores).chain(memos).chain(items) {
        sheet.sweep(offset);
    }
    // A refused call leaves every byte of an unsound run.
    for offset in [0, 9, 584, 617, 873, RUN_LENGTH - 1] {
        sheet.load(CLASH);
        sheet.poke(offset, &[254]);
        sheet.step(0);
        sheet.steps(&[0]);
        sheet.map();
    }
    // Unsound before clashed, clashed before a place that is not there.
    sheet.load(CLASH);
    sheet.steps(CLASH_PLACES);
    sheet.step(9);
    sheet.poke(1, &[2]);
    sheet.step(9);
}

/// Lists that are just full, and lists that would hold too much: Win, Decompose, Initiate, Interchange, Identify.
fn full_lists(sheet: &mut Sheet) {
    let wide = [8, 2, 1, 7, 4, 0, 1, 0, 1, 0];
    for (first, products) in
        [([2, 0, 1, 0], 8), ([1, 0, 2, 2], 4), ([1, 0, 1, 0], 2), ([1, 0, 0, 1], 1), ([1, 0, 0, 0], 0)]
    {
        let most = (MOST_ITEMS + 1 - products).min(MOST_ITEMS);
        for count in most..=(most + 1).min(MOST_ITEMS) {
            with_items(sheet, &wide, first, [1, 0, 1, 1], count);
            sheet.step(0);
            sheet.steps(&[0, 0]);
        }
    }
    // Everything waits; waiting is told before a full list, and a clash before a place that is not there.
    with_items(sheet, &wide, [1, 0, 1, 0], [1, 0, 1, 0], MOST_ITEMS);
    sheet.step(MOST_ITEMS);
    sheet.poke(617, &[254]);
    for place in [0, 1, MOST_ITEMS - 1, MOST_ITEMS] {
        sheet.step(place);
    }
    sheet.steps(&[3]);
    sheet.poke(0, &[1]);
    sheet.step(65_535);
}

/// Random runs that no file need lead to, at random places.
fn runs_by_hand(sheet: &mut Sheet) {
    let mut rng = Rng::new(105);
    let mut made = 0;
    while made < 60 {
        let run = samples::hand_made(&mut rng);
        let count = run.items().len();
        if count == 0 || count > 100 || run.unknowns() > 6 {
            continue;
        }
        lay(sheet, &run.to_bytes());
        for _ in 0..8 {
            sheet.step(rng.below(count + 1));
        }
        made += 1;
    }
}

/// Maps: of files at their end, and of runs made by hand.
fn maps(sheet: &mut Sheet) {
    sheet.fill(170);
    let deep: Vec<Vec<u8>> = [0, 30, 31].map(samples::deep).to_vec();
    let rich = samples::rich();
    let files = [&[1, 0, 0, 0][..], &[1, 32, 0, 0], RING, TWO_MEMOS, RECORD_TWICE, CLASH, &rich];
    for file in files.into_iter().chain(deep.iter().map(Vec::as_slice)) {
        sheet.load(file);
        sheet.map();
        sheet.steps(&program::places(file).unwrap_or_default());
        sheet.map();
    }
    // Clashed before pending, unsound before clashed.
    sheet.load(CLASH);
    sheet.steps(CLASH_PLACES);
    sheet.map();
    sheet.poke(1, &[2]);
    sheet.map();
    // Every unknown led by owner marks made by hand to one record whose parts are itself and the next.
    let mut chain = File { s: 1, v: 32, records: vec![], statements: vec![] };
    chain.records.extend((0..32).map(|i| Record { symbol: 1, parts: vec![i, (i + 1) % 32] }));
    let owners: Vec<u8> = (0..32).map(|x| if x % 4 == 0 { 32 + x } else { x - 1 }).collect();
    sheet.load(&file::write(&chain));
    sheet.poke(584, &owners);
    sheet.map();
    let mut rng = Rng::new(102);
    let mut mapped = 0;
    while mapped < 80 {
        let bytes = file::write(&samples::random_file(&mut rng));
        let places = random_places(&mut rng, &bytes, 301);
        if places.len() <= 300 {
            sheet.load(&bytes);
            sheet.steps(&places);
            sheet.map();
            mapped += 1;
        }
    }
    let mut made = 0;
    while made < 40 {
        let run = samples::hand_made(&mut rng);
        if run.items().is_empty() {
            lay(sheet, &run.to_bytes());
            sheet.map();
            made += 1;
        }
    }
}

/// What the map program prints: of refused files, of those of document 01, at the limits and at random.
fn prints(sheet: &mut Sheet) {
    let (rich, longest) = (samples::rich(), samples::longest());
    let deep = samples::deep(31);
    for file in FAULTS.into_iter().chain([RING, CLASH, TWO_MEMOS, RECORD_TWICE, &rich, &deep, &longest]) {
        sheet.print(file);
    }
    for file in [&longest[..835], &longest_overrun(), &[1, 1, 1, 0xFF, 0xFF, 0xFF, 0xFF, 0x0F, 1, 0, 1, 0, 0, 1]] {
        sheet.print(file);
    }
    let mut rng = Rng::new(104);
    for _ in 0..80 {
        sheet.print(&file::write(&samples::random_file(&mut rng)));
    }
}
