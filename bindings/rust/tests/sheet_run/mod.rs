//! The run of a sheet under one allowance, tried by its words over the single calls, against the reference and by hand.

use super::sheets::{assert_untouched, few_named, most_glyphs, most_points_apart, near, rows_of_glyphs, GLYPHS, PLACE};
use super::{number, ours};
use reference::description::describe;
use reference::inputs::RunCase;
use reference::random::Random;
use reference::{damage, edges, letters, lists, run, sheet};
use volkhidar::{load, record_of, run_sheet, smallest_disk};
use volkhidar::{LIST_LENGTH, MOST_ALLOWANCE, MOST_BYTES, MOST_GLYPHS, MOST_POINTS, RECORD_LENGTH};

/// What stands in a buffer before the run.
const BYTE: u8 = 0xEE;

/// The lengths of the buffer and of the list that a run is lent.
#[derive(Clone, Copy, Debug)]
pub struct Room {
    pub bytes: usize,
    pub places: usize,
}

/// The least room for so many glyphs.
pub fn room_for(glyphs: usize) -> Room {
    Room { bytes: RECORD_LENGTH * glyphs, places: glyphs }
}

/// How many were worked and what is left, or the refusal's number; and the buffer and the list afterwards.
pub struct Ran {
    pub answer: Result<(usize, u64), u8>,
    pub buffer: Vec<u8>,
    pub numbers: Vec<u16>,
}

fn lend(room: Room, call: impl Fn(&mut [u8], &mut [u16]) -> Result<(usize, u64), u8>) -> Ran {
    let (mut buffer, mut numbers) = (vec![BYTE; room.bytes], vec![PLACE; room.places]);
    let answer = call(&mut buffer, &mut numbers);
    Ran { answer, buffer, numbers }
}

pub fn run_in(room: Room, bytes: &[u8], allowance: u64) -> Ran {
    lend(room, |buffer, numbers| ours(run_sheet(bytes, allowance, buffer, numbers)).map(|run| (run.worked, run.left)))
}

/// The run beside the reference's.
fn compare_run(room: Room, bytes: &[u8], allowance: u64, name: &str) -> Ran {
    let ran = run_in(room, bytes, allowance);
    let expected =
        lend(room, |buffer, numbers| number(run::run_sheet(bytes, allowance, buffer, numbers)).map(|run| (run.worked, run.left)));
    assert_eq!(ran.answer, expected.answer, "{allowance} tests, {room:?}: {name}");
    assert_eq!(ran.numbers, expected.numbers, "{allowance} tests, {room:?}: {name}");
    assert!(ran.buffer == expected.buffer, "another buffer, {allowance} tests, {room:?}: {name}");
    ran
}

fn compare_case(case: &RunCase, name: &str) -> Ran {
    compare_run(Room { bytes: case.buffer, places: case.numbers }, &case.sheet, case.allowance, name)
}

/// What the single calls give for a description: the count of its tests and its record, or the refusal's number.
type Single = Result<(u64, [u8; RECORD_LENGTH]), u8>;

fn single(text: &[u8]) -> Single {
    let mut list = [0; LIST_LENGTH];
    let count = ours(load(text, &mut list))?;
    let found = ours(smallest_disk(&mut list[..2 * count]))?;
    let mut record = [0; RECORD_LENGTH];
    ours(record_of(text, &mut record))?;
    Ok((found.tests, record))
}

/// The records, the numbers and what is left, of a run of so many glyphs that was not refused; nothing is written behind them.
pub fn written<'a>(ran: &'a Ran, glyphs: usize, name: &str) -> (&'a [u8], &'a [u16], u64) {
    let (worked, left) = ran.answer.unwrap_or_else(|refusal| panic!("refused with {refusal}: {name}"));
    let (records, bytes_behind) = ran.buffer.split_at(RECORD_LENGTH * worked);
    let (numbers, places_behind) = ran.numbers.split_at(glyphs);
    assert!(bytes_behind.iter().all(|&byte| byte == BYTE), "bytes behind the last record: {name}");
    assert_untouched(places_behind, name);
    (records, numbers, left)
}

/// That a run that was not refused has done what it says, and nothing else, glyph by glyph: no other outcome passes.
fn assert_is_run(ran: &Ran, singles: &[Single], allowance: u64, name: &str) {
    let (records, numbers, left) = written(ran, singles.len(), name);
    let mut records = records.chunks_exact(RECORD_LENGTH);
    let (mut spent, mut is_over) = (0, false);
    for (k, (single, &number)) in singles.iter().zip(numbers).enumerate() {
        match single {
            Err(refusal) => assert_eq!(number, u16::from(*refusal), "faulty glyph {k}: {name}"),
            Ok((tests, record)) if number == 0 => {
                assert!(!is_over, "glyph {k} is worked behind one that needed more: {name}");
                assert!(records.next() == Some(record), "the record of glyph {k}: {name}");
                spent += tests;
            }
            Ok((tests, _)) => {
                assert_eq!(number, 16, "glyph {k}: {name}");
                assert!(is_over || *tests > left, "glyph {k} needs {tests} of {left}: {name}");
                is_over = true;
            }
        }
    }
    assert_eq!(records.next(), None, "a record too many: {name}");
    assert_eq!(spent + left, allowance, "{name}");
}

fn assert_refused(ran: &Ran, refusal: u8, name: &str) {
    assert_eq!(ran.answer, Err(refusal), "{name}");
    assert!(ran.buffer.iter().all(|&byte| byte == BYTE), "the buffer: {name}");
    assert_untouched(&ran.numbers, name);
}

/// That a larger allowance changed no glyph that had its record: of the numbers, only a 16 may have become a 0.
fn assert_keeps(more: &Ran, less: &Ran, name: &str) {
    let records = RECORD_LENGTH * less.answer.map_or(0, |(worked, _)| worked);
    assert!(more.buffer[..records] == less.buffer[..records], "records that were there: {name}");
    let is_kept = |(&less, &more): (&u16, &u16)| less == more || (less, more) == (16, 0);
    assert!(less.numbers.iter().zip(&more.numbers).all(is_kept), "{:?}, then {:?}: {name}", less.numbers, more.numbers);
}

/// Rising: none, what the glyphs up to each take in all, one less and one more, and the most.
fn allowances(singles: &[Single]) -> Vec<u64> {
    let mut total = 0;
    let mut all = vec![0, MOST_ALLOWANCE];
    for (tests, _) in singles.iter().flatten() {
        total += tests;
        all.extend([total - 1, total, total + 1]);
    }
    all.sort_unstable();
    all.dedup();
    all
}

/// Runs of a sheet that is not refused, with all these allowances, each beside the single calls. Answers the numbers of all of them.
fn try_allowances(bytes: &[u8], name: &str) -> Vec<u16> {
    let parts = sheet::parts(bytes).unwrap();
    let room = Room { bytes: RECORD_LENGTH * parts.len() + 1, places: parts.len() + 1 };
    let singles: Vec<Single> = parts.iter().map(|part| single(&bytes[part.clone()])).collect();
    let all = allowances(&singles);
    let runs: Vec<Ran> = all.iter().map(|&allowance| run_in(room, bytes, allowance)).collect();
    for (ran, allowance) in runs.iter().zip(all) {
        assert_is_run(ran, &singles, allowance, &format!("{allowance} tests, {name}"));
    }
    for pair in runs.windows(2) {
        assert_keeps(&pair[1], &pair[0], name);
    }
    runs.iter().flat_map(|ran| ran.numbers[..parts.len()].to_vec()).collect()
}

/// Each against the reference, and those that are not refused with every allowance that makes a difference.
#[test]
fn drawn_sheets_run() {
    let (mut answers, mut numbers) = ([0; 18], [0; 18]);
    for seed in 0..20_000 {
        let case = run::draw(8, &mut Random::new(seed));
        let name = format!("seed {seed}");
        let ran = compare_case(&case, &name);
        answers[usize::from(ran.answer.err().unwrap_or(0))] += 1;
        match ran.answer {
            Err(refusal) => assert_refused(&ran, refusal, &name),
            Ok(_) => try_allowances(&case.sheet, &name).iter().for_each(|&number| numbers[usize::from(number)] += 1),
        }
    }
    assert!([0, 6, 8, 17].iter().all(|&number| answers[number] > 300), "{answers:?}");
    assert!([0, 2, 3, 5, 16].iter().all(|&number| numbers[number] > 3_000), "{numbers:?}");
}

/// With up to 1,200 glyphs, against the reference alone.
#[test]
fn larger_drawn_sheets_run() {
    for seed in 0..200 {
        compare_case(&run::draw(1_200, &mut Random::new(seed)), &format!("seed {seed}"));
    }
}

#[test]
fn edges_run() {
    for edge in edges::runs() {
        compare_case(&edge.given, edge.says);
    }
}

/// With each allowance up to one more than they take: the point takes 1 test and letter F 7.
#[test]
fn glyphs_in_every_order_run() {
    for row in rows_of_glyphs() {
        let parts: Vec<Vec<u8>> = row.iter().map(|&glyph| GLYPHS[glyph].to_vec()).collect();
        let singles: Vec<Single> = parts.iter().map(|part| single(part)).collect();
        let bytes = sheet::packed(parts);
        let total: u64 = row.iter().map(|&glyph| [1, 7, 0, 0, 0][glyph]).sum();
        for allowance in 0..=total + 1 {
            let name = format!("glyphs {row:?}, {allowance} tests");
            let ran = compare_run(room_for(row.len()), &bytes, allowance, &name);
            assert_is_run(&ran, &singles, allowance, &name);
        }
    }
}

/// Letters A to K take 55 tests in all; with fewer, the first so many are worked.
#[test]
fn letters_of_the_papers_run() {
    let bytes = sheet::packed(letters::LETTERS.iter().map(|letter| describe(&letters::points(letter.list))));
    let mut before = 0;
    for (k, letter) in letters::LETTERS.iter().enumerate() {
        for left in 0..letter.tests {
            let ran = compare_run(room_for(11), &bytes, before + left, letter.name);
            assert_eq!(ran.answer, Ok((k, left)), "{}", letter.name);
            assert_eq!(ran.numbers, [vec![0; k], vec![16; 11 - k]].concat(), "{}", letter.name);
        }
        before += letter.tests;
    }
    assert_eq!(compare_run(room_for(11), &bytes, 55, "all").answer, Ok((11, 0)));
    assert_eq!(compare_run(room_for(11), &bytes, MOST_ALLOWANCE, "all").answer, Ok((11, MOST_ALLOWANCE - 55)));
}

/// That a run with each of the allowances works so many glyphs, leaves so much, and gives these numbers.
fn assert_runs<const N: usize>(bytes: &[u8], cases: &[(u64, usize, u64, [u16; N])]) {
    for &(allowance, worked, left, numbers) in cases {
        let ran = compare_run(room_for(N), bytes, allowance, "by hand");
        assert_eq!((ran.answer, &ran.numbers[..]), (Ok((worked, left)), &numbers[..]), "{allowance} tests");
    }
}

/// No point, letter F, a fault, a point, one outside the em box, letter C: 7, 1 and 3 tests.
#[test]
fn numbers_by_hand() {
    let text: [&[u8]; 6] = [b"", b"0 0\n4 0\n2 3", b"1 2 3", b"7 7", b"0 1537", b"0 0\n4 0"];
    let cases = [
        (0, 0, 0, [5, 16, 2, 16, 3, 16]),
        (6, 0, 6, [5, 16, 2, 16, 3, 16]),
        (7, 1, 0, [5, 0, 2, 16, 3, 16]),
        (8, 2, 0, [5, 0, 2, 0, 3, 16]),
        (10, 2, 2, [5, 0, 2, 0, 3, 16]),
        (11, 3, 0, [5, 0, 2, 0, 3, 0]),
        (MOST_ALLOWANCE, 3, MOST_ALLOWANCE - 11, [5, 0, 2, 0, 3, 0]),
    ];
    assert_runs(&sheet::packed(text.map(<[u8]>::to_vec)), &cases);
}

/// 1 before 6, 6 before 8, 8 before 17. Room is asked for faulty glyphs too, and none for a sheet without glyphs.
#[test]
fn refusals_by_hand() {
    let two = sheet::packed([b"0 0".to_vec(), b"x".to_vec()]);
    let (short, long) = (&two[..two.len() - 1], &[&two[..], &[0; MOST_BYTES]].concat()[..]);
    let room = |bytes, places| Room { bytes, places };
    let cases = [
        (&long[..MOST_BYTES], 1, room(106, 2), Ok((1, 0))),
        (&long[..MOST_BYTES + 1], 1, room(106, 2), Err(1)),
        (&[0xFF; MOST_BYTES + 1], 1 << 60, room(0, 0), Err(1)),
        (short, 1, room(106, 2), Err(6)),
        (short, 1 << 60, room(0, 0), Err(6)),
        (&two, 1, room(105, 2), Err(8)),
        (&two, 1, room(106, 1), Err(8)),
        (&two, 1, room(53, 2), Err(8)),
        (&two, 1 << 60, room(105, 2), Err(8)),
        (&two, u64::MAX, room(106, 1), Err(8)),
        (&two, 1 << 60, room(106, 2), Err(17)),
        (&two, u64::MAX, room(106, 2), Err(17)),
        (&two, 1, room(106, 2), Ok((1, 0))),
        (&[0, 0], 9, room(0, 0), Ok((0, 9))),
        (&[0, 0], 1 << 60, room(0, 0), Err(17)),
        (&[0], 9, room(0, 0), Err(6)),
    ];
    for (place, (bytes, allowance, room, answer)) in cases.into_iter().enumerate() {
        let ran = compare_run(room, bytes, allowance, &format!("case {place}"));
        match answer {
            Err(refusal) => assert_refused(&ran, refusal, &format!("case {place}")),
            Ok(_) => assert_eq!(ran.answer, answer, "case {place}"),
        }
    }
}

/// Directories of every fault, and any allowance and room.
#[test]
fn damaged_sheets_run() {
    let mut times = [0; 18];
    for seed in 0..50_000 {
        let mut random = Random::new(seed);
        let case = damage::sheet(&mut random);
        times[usize::from(compare_any_run(&case.bytes, &mut random, &format!("seed {seed}")))] += 1;
    }
    assert!([0, 6, 8, 17].iter().all(|&number| times[number] > 1_000), "{times:?}");
}

/// With any allowance, and room for as many glyphs as the first bytes name, up to 40, or nearly. Answers the number of the refusal, or 0.
pub fn compare_any_run(bytes: &[u8], random: &mut Random, name: &str) -> u8 {
    let least = room_for(few_named(bytes));
    let room = Room { bytes: near(least.bytes, random), places: near(least.places, random) };
    let any = random.word() >> random.below(64);
    let allowance = random.pick(&[0, 1, 5, 20, MOST_ALLOWANCE, MOST_ALLOWANCE + 1, any]);
    compare_run(room, bytes, allowance, name).answer.err().unwrap_or(0)
}

/// As many glyphs as a sheet can have: they have no bytes, so each is refused with 5 and costs nothing.
#[test]
fn the_most_glyphs_run() {
    let bytes = sheet::packed(most_glyphs());
    assert_eq!(bytes.len(), 65_534);
    let room = room_for(MOST_GLYPHS);
    assert_eq!(room.bytes, 868_299);
    for allowance in [0, MOST_ALLOWANCE] {
        let ran = compare_run(room, &bytes, allowance, "16,383 empty glyphs");
        assert_eq!(ran.answer, Ok((0, allowance)));
        assert_is_run(&ran, &vec![Err(5); MOST_GLYPHS], allowance, "16,383 empty glyphs");
    }
    for short in [Room { bytes: room.bytes - 1, ..room }, Room { places: room.places - 1, ..room }] {
        assert_refused(&run_in(short, &bytes, 0), 8, "16,383 empty glyphs");
    }
}

#[test]
fn the_most_points_apart_run() {
    let point = single(b"9 7");
    for parts in most_points_apart() {
        let singles: Vec<Single> = parts.iter().map(|part| if part.is_empty() { Err(5) } else { point }).collect();
        let acceptable = singles.iter().flatten().count();
        let bytes = sheet::packed(parts);
        let room = Room { bytes: 868_299, places: MOST_GLYPHS };
        for tests in [0, 1, acceptable / 2, acceptable - 1, acceptable, acceptable + 1] {
            let ran = compare_run(room, &bytes, tests as u64, "points");
            assert_eq!(ran.answer.map(|(worked, _)| worked), Ok(tests.min(acceptable)));
            assert_is_run(&ran, &singles, tests as u64, &format!("{acceptable} points, {tests} tests"));
        }
    }
}

/// Two glyphs of the most points and one of a point more: the same point takes one test each time.
#[test]
fn the_most_points_of_a_glyph_run() {
    let [most, more] = [MOST_POINTS, MOST_POINTS + 1].map(|points| b"8 8\n".repeat(points));
    let cases = [
        (4_095, 0, 4_095, [16, 4, 16, 16]),
        (4_096, 1, 0, [0, 4, 16, 16]),
        (8_191, 1, 4_095, [0, 4, 16, 16]),
        (8_192, 2, 0, [0, 4, 0, 16]),
        (8_193, 3, 0, [0, 4, 0, 0]),
    ];
    assert_runs(&sheet::packed([most.clone(), more, most, b"9 9".to_vec()]), &cases);
}

/// One long glyph of each kind between two short ones.
#[test]
fn long_glyphs_run() {
    for case in lists::long() {
        let parts = [b"0 0\n4 0".to_vec(), describe(&case.points), b"5 5".to_vec()];
        try_allowances(&sheet::packed(parts), &case.name);
    }
}
