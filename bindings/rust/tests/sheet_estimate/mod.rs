//! What a sheet will take, tried by the loader on each glyph, against the reference, by a run with it and by hand.

use super::sheet_run::{room_for, run_in, written, Room};
use super::sheets::{assert_untouched, few_named, most_glyphs, most_points_apart, near, rows_of_glyphs, GLYPHS, PLACE};
use super::{number, ours};
use reference::description::describe;
use reference::inputs::EstimateCase;
use reference::random::Random;
use reference::{damage, edges, estimate, letters, lists, sheet};
use volkhidar::{estimate_sheet, glyph, load, read_record};
use volkhidar::{LIST_LENGTH, MOST_BYTES, MOST_GLYPHS, MOST_POINTS, RECORD_LENGTH};

/// How many places the list of points and that of refusals have.
type Places = (usize, usize);

/// The bytes of all records and the sum of tests, or the refusal's number; and both lists afterwards.
#[derive(PartialEq, Debug)]
struct Estimated {
    answer: Result<(usize, u64), u8>,
    points: Vec<u16>,
    refusals: Vec<u16>,
}

fn lend(places: Places, call: impl Fn(&mut [u16], &mut [u16]) -> Result<(usize, u64), u8>) -> Estimated {
    let (mut points, mut refusals) = (vec![PLACE; places.0], vec![PLACE; places.1]);
    let answer = call(&mut points, &mut refusals);
    Estimated { answer, points, refusals }
}

/// The estimate beside the reference's.
fn compare_estimate(places: Places, bytes: &[u8], name: &str) -> Estimated {
    let found = lend(places, |points, refusals| ours(estimate_sheet(bytes, points, refusals)).map(|all| (all.bytes, all.tests)));
    let expected = lend(places, |points, refusals| {
        number(estimate::estimate_sheet(bytes, points, refusals)).map(|all| (all.bytes as usize, all.tests))
    });
    assert_eq!(found, expected, "{places:?} places: {name}");
    found
}

/// That both lists are as before from this place on.
fn assert_stay(found: &Estimated, place: usize, name: &str) {
    assert_untouched(&found.points[place..], name);
    assert_untouched(&found.refusals[place..], name);
}

fn most_tests(n: usize) -> u64 {
    let n = n as u64;
    (n * n * n + 5 * n) / 6
}

/// That an estimate that was not refused says of each glyph what the loader says of its part, and nothing else.
fn assert_is_estimate(found: &Estimated, all: (usize, u64), bytes: &[u8], name: &str) {
    let glyphs = usize::from(u16::from_be_bytes([bytes[0], bytes[1]]));
    let mut list = [0; LIST_LENGTH];
    let loaded: Vec<Result<usize, u8>> = (0..glyphs).map(|k| ours(load(&bytes[glyph(bytes, k).unwrap()], &mut list))).collect();
    for (k, glyph) in loaded.iter().enumerate() {
        let expected = glyph.map_or_else(|refusal| (0, refusal.into()), |count| (count, 0));
        assert_eq!((usize::from(found.points[k]), found.refusals[k]), expected, "glyph {k}: {name}");
    }
    assert_stay(found, glyphs, name);
    let counts: Vec<usize> = loaded.into_iter().flatten().collect();
    assert_eq!(all, (RECORD_LENGTH * counts.len(), counts.iter().map(|&n| most_tests(n)).sum()), "{name}");
    assert_serves_run(all, &found.refusals[..glyphs], bytes, name);
}

/// That a run with so many tests writes so many bytes, all of them records, and that its numbers are the refusals, none of them 16.
fn assert_serves_run((record_bytes, tests): (usize, u64), refusals: &[u16], bytes: &[u8], name: &str) {
    let room = room_for(refusals.len());
    let ran = run_in(Room { bytes: room.bytes + 1, places: room.places + 1 }, bytes, tests);
    let (records, numbers, _) = written(&ran, refusals.len(), name);
    assert_eq!((records.len(), numbers), (record_bytes, refusals), "{name}");
    assert!(records.chunks_exact(RECORD_LENGTH).all(|record| read_record(record).is_ok()), "{name}");
    assert!(!numbers.contains(&16), "{name}");
}

/// The estimate beside the reference's. If it is not refused, it is tried by the loader and by a run; if it is, both lists are as before.
fn try_estimate(places: Places, bytes: &[u8], name: &str) -> Estimated {
    let found = compare_estimate(places, bytes, name);
    match found.answer {
        Ok(all) => assert_is_estimate(&found, all, bytes, name),
        Err(_) => assert_stay(&found, 0, name),
    }
    found
}

/// With lists that have just a place for each of the glyphs.
fn try_parts(parts: &[Vec<u8>], name: &str) -> Estimated {
    try_estimate((parts.len(), parts.len()), &sheet::packed(parts.to_vec()), name)
}

fn try_case(case: &EstimateCase, name: &str) -> Estimated {
    try_estimate((case.points, case.refusals), &case.sheet, name)
}

/// That the sheet of these glyphs has so many bytes and tests, points and refusals.
fn assert_estimated<const N: usize>(parts: [&[u8]; N], all: (usize, u64), points: [u16; N], refusals: [u16; N]) {
    let expected = Estimated { answer: Ok(all), points: points.to_vec(), refusals: refusals.to_vec() };
    assert_eq!(try_parts(&parts.map(<[u8]>::to_vec), "by hand"), expected);
}

#[test]
fn drawn_sheets_estimated() {
    let (mut answers, mut numbers) = ([0; 9], [0; 6]);
    for seed in 0..12_000 {
        let found = try_case(&estimate::draw(8, &mut Random::new(seed)), &format!("seed {seed}"));
        answers[usize::from(found.answer.err().unwrap_or(0))] += 1;
        found.refusals.iter().filter(|&&place| place != PLACE).for_each(|&number| numbers[usize::from(number)] += 1);
    }
    assert!([0, 6, 8].iter().all(|&number| answers[number] > 300), "{answers:?}");
    assert!([0, 2, 3, 5].iter().all(|&number| numbers[number] > 500), "{numbers:?}");
}

/// With up to 1,200 glyphs.
#[test]
fn larger_drawn_sheets_estimated() {
    for seed in 0..50 {
        try_case(&estimate::draw(1_200, &mut Random::new(seed)), &format!("seed {seed}"));
    }
}

#[test]
fn edges_estimated() {
    for edge in edges::estimates() {
        try_case(&edge.given, edge.says);
    }
}

/// The point has 1 test, letter F with its three points 7.
#[test]
fn glyphs_in_every_order_estimated() {
    for row in rows_of_glyphs() {
        let parts: Vec<Vec<u8>> = row.iter().map(|&glyph| GLYPHS[glyph].to_vec()).collect();
        let each = |numbers: [u16; 5]| row.iter().map(|&glyph| numbers[glyph]).collect::<Vec<u16>>();
        let sum = |numbers| each(numbers).into_iter().sum::<u16>();
        let answer = Ok((sum([53, 53, 0, 0, 0]).into(), sum([1, 7, 0, 0, 0]).into()));
        let expected = Estimated { answer, points: each([1, 3, 0, 0, 0]), refusals: each([0, 0, 2, 3, 5]) };
        assert_eq!(try_parts(&parts, &format!("glyphs {row:?}")), expected);
    }
}

/// Letters A to K, which take 55 tests when they are run.
#[test]
fn letters_of_the_papers_estimated() {
    let parts: Vec<Vec<u8>> = letters::LETTERS.iter().map(|letter| describe(&letters::points(letter.list))).collect();
    let found = try_parts(&parts, "letters");
    assert_eq!((found.answer, &found.points[..]), (Ok((583, 77)), &[1, 2, 2, 4, 3, 3, 3, 3, 3, 3, 4][..]));
}

/// No point, letter F, a fault, a point, one outside the em box, letter C: 7, 1 and 3 tests.
#[test]
fn estimates_by_hand() {
    let parts: [&[u8]; 6] = [b"", b"0 0\n4 0\n2 3", b"1 2 3", b"7 7", b"0 1537", b"0 0\n4 0"];
    assert_estimated(parts, (159, 11), [0, 3, 0, 1, 0, 2], [5, 0, 2, 0, 3, 0]);
    assert_estimated([b"", b"x"], (0, 0), [0, 0], [5, 2]);
    assert_estimated([], (0, 0), [], []);
}

/// Letters that take as many tests as their points can: with one less than the sum the last of them is not worked.
#[test]
fn a_sum_that_is_all_needed() {
    let parts = [&b"0 0"[..], b"0 0\n4 0\n2 3", b"0 0\n3 0", b"x", b"0 0\n1 1\n2 2", b""];
    assert_estimated(parts, (212, 18), [1, 3, 2, 0, 3, 0], [0, 0, 0, 2, 0, 5]);
    let bytes = sheet::packed(parts.map(<[u8]>::to_vec));
    for (tests, answer, numbers) in [(18, Ok((4, 0)), [0, 0, 0, 2, 0, 5]), (17, Ok((3, 6)), [0, 0, 0, 2, 16, 5])] {
        let ran = run_in(room_for(parts.len()), &bytes, tests);
        assert_eq!((ran.answer, &ran.numbers[..]), (answer, &numbers[..]));
    }
}

/// 1 before 6, 6 before 8. A place is asked for faulty glyphs too, and none for a sheet without glyphs.
#[test]
fn refused_estimates_by_hand() {
    let two = sheet::packed([b"0 0".to_vec(), b"x".to_vec()]);
    let (short, long) = (&two[..two.len() - 1], &[&two[..], &[0; MOST_BYTES]].concat()[..]);
    let cases = [
        (&long[..MOST_BYTES], (2, 2), Ok((53, 1))),
        (&long[..MOST_BYTES + 1], (2, 2), Err(1)),
        (&[0xFF; MOST_BYTES + 1], (0, 0), Err(1)),
        (short, (2, 2), Err(6)),
        (short, (0, 0), Err(6)),
        (&two, (0, 0), Err(8)),
        (&two, (1, 1), Err(8)),
        (&two, (1, 2), Err(8)),
        (&two, (2, 1), Err(8)),
        (&two, (0, 70), Err(8)),
        (&two, (70, 0), Err(8)),
        (&two, (2, 2), Ok((53, 1))),
        (&two, (3, 2), Ok((53, 1))),
        (&two, (2, 70), Ok((53, 1))),
        (&[0, 0], (0, 0), Ok((0, 0))),
        (&[0, 0], (2, 1), Ok((0, 0))),
        (&[0], (0, 0), Err(6)),
        (&[], (2, 2), Err(6)),
    ];
    for (place, (bytes, places, answer)) in cases.into_iter().enumerate() {
        assert_eq!(try_estimate(places, bytes, &format!("case {place}")).answer, answer, "case {place}");
    }
}

/// Directories of every fault, and lists of any length.
#[test]
fn damaged_sheets_estimated() {
    let mut times = [0; 9];
    for seed in 0..50_000 {
        let mut random = Random::new(seed);
        let case = damage::sheet(&mut random);
        times[usize::from(try_any_estimate(&case.bytes, &mut random, &format!("seed {seed}")))] += 1;
    }
    assert!([0, 6, 8].iter().all(|&number| times[number] > 1_000), "{times:?}");
}

/// With lists for as many glyphs as the first bytes name, up to 40, or nearly. Answers the number of the refusal, or 0.
pub fn try_any_estimate(bytes: &[u8], random: &mut Random, name: &str) -> u8 {
    let glyphs = few_named(bytes);
    let places = (near(glyphs, random), near(glyphs, random));
    try_estimate(places, bytes, name).answer.err().unwrap_or(0)
}

/// As many glyphs as a sheet can have: they have no bytes, so each is refused with 5.
#[test]
fn the_most_glyphs_estimated() {
    let found = try_parts(&most_glyphs(), "empty glyphs");
    assert_eq!(found, Estimated { answer: Ok((0, 0)), points: vec![0; MOST_GLYPHS], refusals: vec![5; MOST_GLYPHS] });
    for places in [(MOST_GLYPHS, MOST_GLYPHS - 1), (MOST_GLYPHS - 1, MOST_GLYPHS)] {
        assert_eq!(try_estimate(places, &sheet::packed(most_glyphs()), "empty glyphs").answer, Err(8));
    }
}

#[test]
fn the_most_points_apart_estimated() {
    for parts in most_points_apart() {
        let acceptable = parts.iter().filter(|part| !part.is_empty()).count();
        assert_eq!(try_parts(&parts, "points").answer, Ok((RECORD_LENGTH * acceptable, acceptable as u64)));
    }
}

/// The same point again and again, and then spaces to the last byte that a sheet can have.
#[test]
fn a_glyph_that_fills_the_sheet_estimated() {
    let cases = [
        (0, Ok((0, 0)), 0, 5),
        (1, Ok((53, 1)), 1, 0),
        (4_095, Ok((53, 11_444_862_975)), 4_095, 0),
        (4_096, Ok((53, 11_453_249_536)), 4_096, 0),
        (4_097, Ok((0, 0)), 0, 4),
    ];
    for (lines, answer, points, refusal) in cases {
        let mut text = b"8 8\n".repeat(lines);
        text.resize(MOST_BYTES - 6, b' ');
        let expected = Estimated { answer, points: vec![points], refusals: vec![refusal] };
        assert_eq!(try_parts(&[text], &format!("{lines} lines")), expected);
    }
}

/// The greatest sum of any sheet: three glyphs of the most points, and a fourth for which 16,368 bytes are left.
#[test]
fn the_greatest_sum_estimated() {
    let mut most = b"8 8\n".repeat(MOST_POINTS);
    most.pop();
    let parts = [&most[..], &most, &b"8 8\n".repeat(4_092), &most];
    assert_eq!(sheet::packed(parts.map(<[u8]>::to_vec)).len(), MOST_BYTES);
    assert_estimated(parts, (212, 45_779_476_466), [4_096, 4_096, 4_092, 4_096], [0; 4]);
}

/// One long glyph of each kind between two short ones.
#[test]
fn long_glyphs_estimated() {
    for case in lists::long() {
        try_parts(&[b"0 0\n4 0".to_vec(), describe(&case.points), b"5 5".to_vec()], &case.name);
    }
}
