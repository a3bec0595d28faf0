//! What a sheet will take (02, item 13): the points of each description, the refusals of the faulty ones, record bytes and tests, and the checks.
//!
//! A sheet is written as a row of names, one for each glyph (`edges/glyphs.rs`). The letters have A 1 point, B and C 2, D and K 4, the others 3;
//! (n³ + 5n) / 6 is 1 for one point, 3 for two, 7 for three, 14 for four and 166,750 for a hundred.

use super::glyphs::{again, glyphs_of, sheet_of};
use super::{descriptions, Answer, Edge};
use crate::inputs::EstimateCase;
use crate::sheet::packed;

mod checks;

/// What the two lists hold at their front after the call, the record bytes and the tests.
#[derive(Clone)]
pub struct Taken {
    pub points: Vec<u16>,
    pub refusals: Vec<u16>,
    pub bytes: u64,
    pub tests: u64,
}

type Estimating = Edge<EstimateCase, Answer<Taken>>;

pub fn estimates() -> Vec<Estimating> {
    let rows = [&CORNERS[..], &PARTS, &FAULTY].concat().into_iter();
    let short = rows.flat_map(|(says, rows)| rows.iter().flat_map(move |(names, takes)| with_both_rooms(says, names, takes)));
    short.chain(counts()).chain(of_the_loader()).chain(checks::checks()).collect()
}

/// The points and the refusals of the glyphs, the record bytes and the tests.
type Takes<'a> = (&'a [u16], &'a [u16], u64, u64);

/// The glyphs by their names, and what they take.
type Row = (&'static str, Takes<'static>);

/// The estimate with lists that are longer than they have to be, and of a short sheet with such that have just room.
fn with_both_rooms(says: &'static str, names: &str, takes: &Takes) -> Vec<Estimating> {
    let (sheet, count) = (sheet_of(names), glyphs_of(names).count());
    let longer = with_rooms(says, sheet.clone(), takes, [count + 5, count + 3]);
    if sheet.len() > 1_000 {
        return vec![longer];
    }
    vec![with_rooms(says, sheet, takes, [count, count]), longer]
}

fn with_rooms(says: &'static str, sheet: Vec<u8>, takes: &Takes, [points, refusals]: [usize; 2]) -> Estimating {
    let taken = Taken { points: takes.0.to_vec(), refusals: takes.1.to_vec(), bytes: takes.2, tests: takes.3 };
    Edge { says, given: EstimateCase { points, refusals, sheet }, gives: Ok(taken) }
}

#[rustfmt::skip]
const CORNERS: [(&str, &[Row]); 3] = [
    ("how many corners each description has, how many record bytes all of them make, and the sum of (n³ + 5n) / 6: the letters to try", &[
        ("A", (&[1], &[0], 53, 1)),
        ("B", (&[2], &[0], 53, 3)),
        ("C", (&[2], &[0], 53, 3)),
        ("D", (&[4], &[0], 53, 14)),
        ("E", (&[3], &[0], 53, 7)),
        ("F", (&[3], &[0], 53, 7)),
        ("G", (&[3], &[0], 53, 7)),
        ("H", (&[3], &[0], 53, 7)),
        ("I", (&[3], &[0], 53, 7)),
        ("J", (&[3], &[0], 53, 7)),
        ("K", (&[4], &[0], 53, 14)),
        ("ABCDEFGHIJK", (&[1, 2, 2, 4, 3, 3, 3, 3, 3, 3, 4], &[0; 11], 583, 77)),
        ("KJIHGFEDCBA", (&[4, 3, 3, 3, 3, 3, 3, 4, 2, 2, 1], &[0; 11], 583, 77)),
    ]),
    ("how many record bytes all of them make, and the sum: of several glyphs", &[
        ("AA", (&[1, 1], &[0, 0], 106, 2)),
        ("AB", (&[1, 2], &[0, 0], 106, 4)),
        ("BA", (&[2, 1], &[0, 0], 106, 4)),
        ("BC", (&[2, 2], &[0, 0], 106, 6)),
        ("DK", (&[4, 4], &[0, 0], 106, 28)),
        ("FAF", (&[3, 1, 3], &[0, 0, 0], 159, 15)),
        ("AAAA", (&[1, 1, 1, 1], &[0, 0, 0, 0], 212, 4)),
        ("GEBFA", (&[3, 3, 2, 3, 1], &[0; 5], 265, 25)),
        ("DDDDD", (&[4; 5], &[0; 5], 265, 70)),
    ]),
    ("how many corners each description has: one that is named again counts again", &[
        ("HA", (&[3, 1], &[0, 0], 106, 8)),
        ("AHA", (&[1, 3, 1], &[0, 0, 0], 159, 9)),
        ("HHHHH", (&[3; 5], &[0; 5], 265, 35)),
        ("h", (&[100], &[0], 53, 166_750)),
        ("hh", (&[100, 100], &[0, 0], 106, 333_500)),
        ("Ah", (&[1, 100], &[0, 0], 106, 166_751)),
        ("hA", (&[100, 1], &[0, 0], 106, 166_751)),
    ]),
];

#[rustfmt::skip]
const PARTS: [(&str, &[Row]); 2] = [
    ("each description is its part of the sheet: no line feed at its end, gaps", &[
        ("a", (&[1], &[0], 53, 1)),
        ("aa", (&[1, 1], &[0, 0], 106, 2)),
        ("aFa", (&[1, 3, 1], &[0, 0, 0], 159, 9)),
        (".a", (&[1], &[0], 53, 1)),
        ("a.", (&[1], &[0], 53, 1)),
        ("a.a", (&[1, 1], &[0, 0], 106, 2)),
        ("...F..a.F.", (&[3, 1, 3], &[0, 0, 0], 159, 15)),
        ("_a_", (&[0, 1, 0], &[5, 0, 5], 53, 1)),
        ("._._a_.", (&[0, 0, 1, 0], &[5, 5, 0, 5], 53, 1)),
        (".2.a.3", (&[0, 1, 0], &[2, 0, 3], 53, 1)),
        ("_...........h", (&[0, 100], &[5, 0], 53, 166_750)),
    ]),
    ("A sheet of no glyphs takes nothing", &[
        ("", (&[], &[], 0, 0)),
        (".", (&[], &[], 0, 0)),
        ("....", (&[], &[], 0, 0)),
    ]),
];

#[rustfmt::skip]
const FAULTY: [(&str, &[Row]); 4] = [
    ("for each glyph, its corners (0 if faulty) and the loader's refusal or 0: faulty ones alone", &[
        ("2", (&[0], &[2], 0, 0)),
        ("3", (&[0], &[3], 0, 0)),
        ("5", (&[0], &[5], 0, 0)),
        ("_", (&[0], &[5], 0, 0)),
        ("22", (&[0, 0], &[2, 2], 0, 0)),
        ("__", (&[0, 0], &[5, 5], 0, 0)),
        ("2345_", (&[0; 5], &[2, 3, 4, 5, 5], 0, 0)),
        ("_5_32", (&[0; 5], &[5, 5, 5, 3, 2], 0, 0)),
    ]),
    ("the sum .. over the acceptable ones: a faulty one first", &[
        ("2A", (&[0, 1], &[2, 0], 53, 1)),
        ("3B", (&[0, 2], &[3, 0], 53, 3)),
        ("4D", (&[0, 4], &[4, 0], 53, 14)),
        ("5E", (&[0, 3], &[5, 0], 53, 7)),
        ("_K", (&[0, 4], &[5, 0], 53, 14)),
        ("23_AB", (&[0, 0, 0, 1, 2], &[2, 3, 5, 0, 0], 106, 4)),
    ]),
    ("the sum .. over the acceptable ones: a faulty one last", &[
        ("A2", (&[1, 0], &[0, 2], 53, 1)),
        ("B3", (&[2, 0], &[0, 3], 53, 3)),
        ("D4", (&[4, 0], &[0, 4], 53, 14)),
        ("E5", (&[3, 0], &[0, 5], 53, 7)),
        ("K_", (&[4, 0], &[0, 5], 53, 14)),
        ("BA_32", (&[2, 1, 0, 0, 0], &[0, 0, 5, 3, 2], 106, 4)),
    ]),
    ("the sum .. over the acceptable ones: faulty ones between", &[
        ("A2B", (&[1, 0, 2], &[0, 2, 0], 106, 4)),
        ("B3A", (&[2, 0, 1], &[0, 3, 0], 106, 4)),
        ("A4D", (&[1, 0, 4], &[0, 4, 0], 106, 15)),
        ("F5F", (&[3, 0, 3], &[0, 5, 0], 106, 14)),
        ("K_A", (&[4, 0, 1], &[0, 5, 0], 106, 15)),
        ("h2h", (&[100, 0, 100], &[0, 2, 0], 106, 333_500)),
        ("F2_53F", (&[3, 0, 0, 0, 0, 3], &[0, 2, 5, 5, 3, 0], 106, 14)),
        ("K222222A", (&[4, 0, 0, 0, 0, 0, 0, 1], &[0, 2, 2, 2, 2, 2, 2, 0], 106, 15)),
        ("2F3A5B_", (&[0, 3, 0, 1, 0, 2, 0], &[2, 0, 3, 0, 5, 0, 5], 159, 11)),
        ("ABCDEFGHIJK2_A", (&[1, 2, 2, 4, 3, 3, 3, 3, 3, 3, 4, 0, 0, 1], &[0, 0, 0, 0, 0, 0, 0, 0, 0, 0, 0, 2, 5, 0], 636, 78)),
    ]),
];

/// Glyphs of one point again and again: how often in each, and the tests. n³ reaches 2¹⁶ with 41 points and 2³² with 1,626, the tests reach them
/// with 74 and with 2,954.
fn counts() -> impl Iterator<Item = Estimating> {
    #[rustfmt::skip]
    let rows: [(&[u16], u64); 22] = [
        (&[5], 25), (&[6], 41), (&[7], 63), (&[8], 92), (&[9], 129), (&[10], 175), (&[11], 231), (&[12], 298), (&[40], 10_700), (&[41], 11_521),
        (&[73], 64_897), (&[74], 67_599), (&[255], 2_763_775), (&[256], 2_796_416), (&[257], 2_829_313), (&[1_625], 715_170_625),
        (&[1_626], 716_491_751), (&[2_953], 4_291_798_657), (&[2_954], 4_296_160_239), (&[4_096], 11_453_249_536),
        (&[1, 2, 3, 4, 5, 6, 7, 8, 9, 10], 550), (&[300, 7, 1, 300], 9_000_564),
    ];
    rows.into_iter().map(|(counts, tests)| {
        let sheet = packed(counts.iter().map(|&n| again(n.into())));
        let takes = (counts, &vec![0; counts.len()][..], 53 * counts.len() as u64, tests);
        with_rooms("the sum of (n³ + 5n) / 6: n is no more than 4,096", sheet, &takes, [counts.len() + 1, counts.len() + 2])
    })
}

/// The short descriptions at the loader's edges as the glyphs of one sheet, and from the last to the first.
fn of_the_loader() -> [Estimating; 2] {
    let edges = descriptions().into_iter().filter(|edge| edge.given.room > 8_192 && edge.given.text.len() < 100);
    let glyphs: Vec<_> = edges.map(|edge| (edge.given.text, edge.gives.map(|points| points.len() as u16))).collect();
    let backwards = glyphs.iter().rev().cloned().collect();
    [glyphs, backwards].map(of_outcomes)
}

/// A sheet of these descriptions, each with how many points it has or its refusal.
fn of_outcomes(glyphs: Vec<(Vec<u8>, Answer<u16>)>) -> Estimating {
    let (texts, outcomes): (Vec<_>, Vec<_>) = glyphs.into_iter().unzip();
    let points: Vec<u16> = outcomes.iter().map(|outcome| outcome.unwrap_or(0)).collect();
    let refusals: Vec<u16> = outcomes.iter().map(|outcome| outcome.map_or_else(u16::from, |_| 0)).collect();
    let counts: Vec<u64> = outcomes.into_iter().flatten().map(u64::from).collect();
    let tests = counts.iter().map(|n| (n * n * n + 5 * n) / 6).sum();
    let takes = (&points[..], &refusals[..], 53 * counts.len() as u64, tests);
    let says = "its corners (0 if faulty) and the loader's refusal or 0: the loader's edges";
    with_rooms(says, packed(texts), &takes, [points.len(); 2])
}
