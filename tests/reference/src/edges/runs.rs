//! Sheets run under one allowance of tests (02, item 12): which glyphs are worked, the numbers of the others, what is left, and the checks.
//!
//! A sheet is written as a row of names, one for each glyph (`edges/glyphs.rs`). The counts of the letters are A 1, B 3, C 3, D 7, E 6, F 7, G 4,
//! H 3, I 7, J 7, K 7.

use super::glyphs::{glyphs_of, place_of, sheet_of};
use super::{Answer, Edge};
use crate::geometry::Disk;
use crate::inputs::RunCase;
use crate::letters::{points, LETTERS};
use crate::record::{bytes_of, LONG};

mod checks;

/// What the list and the buffer hold at their front after a run, how many glyphs were worked, and what is left.
#[derive(Clone)]
pub struct Ran {
    pub numbers: Vec<u16>,
    pub records: Vec<u8>,
    pub worked: usize,
    pub left: u64,
}

type Running = Edge<RunCase, Answer<Ran>>;

pub fn runs() -> Vec<Running> {
    let rows = [&COUNTS[..], &STOPPED, &FAULTY, &AMOUNTS].concat().into_iter();
    let short = rows.flat_map(|(says, rows)| rows.iter().flat_map(move |row| with_both_rooms(says, row)));
    short.chain(letters_alone()).chain(letters_in_a_row()).chain(checks::checks()).collect()
}

fn record(name: char) -> Vec<u8> {
    let (x, y, e, s) = LETTERS[place_of(name)].disk;
    bytes_of(&LONG, &Disk { x, y, e, s }, &points(LETTERS[place_of(name)].support))
}

/// The glyphs, T, the numbers, how many are worked, and what is left.
type Row<'a> = (&'a str, u64, &'a [u16], usize, u64);

fn ran(&(names, _, numbers, worked, left): &Row) -> Ran {
    let records = glyphs_of(names).zip(numbers).filter(|(_, number)| **number == 0).flat_map(|(name, _)| record(name)).collect();
    Ran { numbers: numbers.to_vec(), records, worked, left }
}

/// The run with a buffer and a list that are longer than they have to be, and of a short sheet with such that have just room.
fn with_both_rooms(says: &'static str, row: &Row) -> Vec<Running> {
    let count = glyphs_of(row.0).count();
    let longer = with_rooms(says, row, 53 * count + 70, count + 4);
    if longer.given.sheet.len() > 1_000 {
        return vec![longer];
    }
    vec![with_rooms(says, row, 53 * count, count), longer]
}

fn with_rooms(says: &'static str, row: &Row, buffer: usize, numbers: usize) -> Running {
    Edge { says, given: RunCase { allowance: row.1, buffer, numbers, sheet: sheet_of(row.0) }, gives: Ok(ran(row)) }
}

#[rustfmt::skip]
const COUNTS: [(&str, &[Row]); 4] = [
    ("A glyph is worked if its count is no more than what is left", &[
        ("a", 0, &[16], 0, 0),
        ("a", 1, &[0], 1, 0),
        ("a", 2, &[0], 1, 1),
        ("m", 4_095, &[16], 0, 4_095),
        ("m", 4_096, &[0], 1, 0),
        ("m", 4_097, &[0], 1, 1),
    ]),
    ("no more than what is left, which then falls by it", &[
        ("AB", 0, &[16, 16], 0, 0),
        ("AB", 1, &[0, 16], 1, 0),
        ("AB", 2, &[0, 16], 1, 1),
        ("AB", 3, &[0, 16], 1, 2),
        ("AB", 4, &[0, 0], 2, 0),
        ("AB", 5, &[0, 0], 2, 1),
        ("FF", 7, &[0, 16], 1, 0),
        ("FF", 13, &[0, 16], 1, 6),
        ("FF", 14, &[0, 0], 2, 0),
        ("FF", 15, &[0, 0], 2, 1),
        ("AAAA", 3, &[0, 0, 0, 16], 3, 0),
        ("AAAA", 4, &[0, 0, 0, 0], 4, 0),
        ("EGEG", 16, &[0, 0, 0, 16], 3, 0),
        ("EGEG", 19, &[0, 0, 0, 16], 3, 3),
        ("EGEG", 20, &[0, 0, 0, 0], 4, 0),
        ("HHHHH", 14, &[0, 0, 0, 0, 16], 4, 2),
        ("HHHHH", 15, &[0, 0, 0, 0, 0], 5, 0),
    ]),
    ("each description is its part of the sheet: no line feed at its end, gaps", &[
        ("aa", 2, &[0, 0], 2, 0),
        ("aFa", 9, &[0, 0, 0], 3, 0),
        (".a", 1, &[0], 1, 0),
        ("a.", 1, &[0], 1, 0),
        ("a.a", 1, &[0, 16], 1, 0),
        ("...F..a.F.", 7, &[0, 16, 16], 1, 0),
        ("...F..a.F.", 15, &[0, 0, 0], 3, 0),
        ("_a_", 1, &[5, 0, 5], 1, 0),
        ("._._a_.", 0, &[5, 5, 16, 5], 0, 0),
        (".2.a.3", 1, &[2, 0, 3], 1, 0),
    ]),
    ("A sheet of no glyphs: none is worked, and all of T is left", &[
        ("", 0, &[], 0, 0),
        ("", 1, &[], 0, 1),
        ("", 1_152_921_504_606_846_975, &[], 0, 1_152_921_504_606_846_975),
        ("...", 7, &[], 0, 7),
    ]),
];

#[rustfmt::skip]
const STOPPED: [(&str, &[Row]); 3] = [
    ("From the first glyph that needs more, every glyph with an acceptable description gets 16, even a cheap one", &[
        ("BA", 0, &[16, 16], 0, 0),
        ("BA", 1, &[16, 16], 0, 1),
        ("BA", 2, &[16, 16], 0, 2),
        ("BA", 3, &[0, 16], 1, 0),
        ("BA", 4, &[0, 0], 2, 0),
        ("FA", 6, &[16, 16], 0, 6),
        ("FAAAAAA", 6, &[16, 16, 16, 16, 16, 16, 16], 0, 6),
        ("Fa", 6, &[16, 16], 0, 6),
        ("FH", 6, &[16, 16], 0, 6),
        ("AFA", 7, &[0, 16, 16], 1, 6),
        ("AFA", 8, &[0, 0, 16], 2, 0),
        ("AFA", 9, &[0, 0, 0], 3, 0),
        ("DAHAE", 6, &[16, 16, 16, 16, 16], 0, 6),
        ("mA", 4_095, &[16, 16], 0, 4_095),
        ("Ama", 4_096, &[0, 16, 16], 1, 4_095),
        ("Ama", 4_097, &[0, 0, 16], 2, 0),
    ]),
    ("From the first glyph that needs more: later ones that need no more than was left, and more than one that needs more", &[
        ("CFBAHG", 9, &[0, 16, 16, 16, 16, 16], 1, 6),
        ("CFBAHG", 10, &[0, 0, 16, 16, 16, 16], 2, 0),
        ("CFBAHG", 12, &[0, 0, 16, 16, 16, 16], 2, 2),
        ("CFBAHG", 13, &[0, 0, 0, 16, 16, 16], 3, 0),
        ("CFBAHG", 16, &[0, 0, 0, 0, 16, 16], 4, 2),
        ("CFBAHG", 20, &[0, 0, 0, 0, 0, 16], 5, 3),
        ("CFBAHG", 21, &[0, 0, 0, 0, 0, 0], 6, 0),
        ("KAKA", 6, &[16, 16, 16, 16], 0, 6),
        ("KAKA", 7, &[0, 16, 16, 16], 1, 0),
        ("KAKA", 8, &[0, 0, 16, 16], 2, 0),
        ("KAKA", 14, &[0, 0, 16, 16], 2, 6),
        ("KAKA", 15, &[0, 0, 0, 16], 3, 0),
        ("KAKA", 16, &[0, 0, 0, 0], 4, 0),
    ]),
    ("A larger T never changes a glyph that had its record", &[
        ("GEBFA", 9, &[0, 16, 16, 16, 16], 1, 5),
        ("GEBFA", 10, &[0, 0, 16, 16, 16], 2, 0),
        ("GEBFA", 12, &[0, 0, 16, 16, 16], 2, 2),
        ("GEBFA", 13, &[0, 0, 0, 16, 16], 3, 0),
        ("GEBFA", 19, &[0, 0, 0, 16, 16], 3, 6),
        ("GEBFA", 20, &[0, 0, 0, 0, 16], 4, 0),
        ("GEBFA", 21, &[0, 0, 0, 0, 0], 5, 0),
        ("GEBFA", 1_000_000_000_000, &[0, 0, 0, 0, 0], 5, 999_999_999_979),
    ]),
];

#[rustfmt::skip]
const FAULTY: [(&str, &[Row]); 4] = [
    ("A faulty description keeps its own refusal anywhere and costs nothing: alone", &[
        ("2", 0, &[2], 0, 0),
        ("3", 0, &[3], 0, 0),
        ("4", 0, &[4], 0, 0),
        ("5", 0, &[5], 0, 0),
        ("_", 0, &[5], 0, 0),
        ("2", 9, &[2], 0, 9),
        ("_", 1_152_921_504_606_846_975, &[5], 0, 1_152_921_504_606_846_975),
        ("2345_", 0, &[2, 3, 4, 5, 5], 0, 0),
        ("_5_32", 8, &[5, 5, 5, 3, 2], 0, 8),
    ]),
    ("A faulty description keeps its own refusal anywhere and costs nothing: first, last and between the worked", &[
        ("2A", 0, &[2, 16], 0, 0),
        ("2A", 1, &[2, 0], 1, 0),
        ("A2", 1, &[0, 2], 1, 0),
        ("_A", 1, &[5, 0], 1, 0),
        ("A_", 2, &[0, 5], 1, 1),
        ("A3B", 4, &[0, 3, 0], 2, 0),
        ("A3B", 3, &[0, 3, 16], 1, 2),
        ("4A", 1, &[4, 0], 1, 0),
        ("F2_53F", 14, &[0, 2, 5, 5, 3, 0], 2, 0),
        ("2F3A5B_", 11, &[2, 0, 3, 0, 5, 0, 5], 3, 0),
        ("2F3A5B_", 10, &[2, 0, 3, 0, 5, 16, 5], 2, 2),
    ]),
    ("A faulty description keeps its own refusal anywhere: at the glyph that is stopped, and behind it", &[
        ("F2", 6, &[16, 2], 0, 6),
        ("2F", 6, &[2, 16], 0, 6),
        ("F2A3", 6, &[16, 2, 16, 3], 0, 6),
        ("2F3A", 6, &[2, 16, 3, 16], 0, 6),
        ("AF_A5A3A", 5, &[0, 16, 5, 16, 5, 16, 3, 16], 1, 4),
        ("AF_A5A3A", 8, &[0, 0, 5, 16, 5, 16, 3, 16], 2, 0),
        ("AF_A5A3A", 10, &[0, 0, 5, 0, 5, 0, 3, 16], 4, 0),
        ("F____A", 6, &[16, 5, 5, 5, 5, 16], 0, 6),
        ("F4A", 6, &[16, 4, 16], 0, 6),
    ]),
    ("The worked glyphs' records go one behind another: those of others leave no room between them", &[
        ("2F", 7, &[2, 0], 1, 0),
        ("_2_5K", 7, &[5, 2, 5, 5, 0], 1, 0),
        ("B2C3E", 12, &[0, 2, 0, 3, 0], 3, 0),
        ("B2C3E", 11, &[0, 2, 0, 3, 16], 2, 5),
        ("K222222A", 8, &[0, 2, 2, 2, 2, 2, 2, 0], 2, 0),
    ]),
];

#[rustfmt::skip]
const AMOUNTS: [(&str, &[Row]); 2] = [
    ("T below 2⁶⁰: the greatest that is", &[
        ("A", 1_152_921_504_606_846_975, &[0], 1, 1_152_921_504_606_846_974),
        ("F2A", 1_152_921_504_606_846_975, &[0, 2, 0], 2, 1_152_921_504_606_846_967),
        ("A", 1_152_921_504_606_846_974, &[0], 1, 1_152_921_504_606_846_973),
    ]),
    ("T below 2⁶⁰: 2⁸, 2¹⁶, 2³¹, 2³², 2⁵³ and 2⁵⁹ with too little behind them", &[
        ("FA", 256, &[0, 0], 2, 248),
        ("FA", 65_536, &[0, 0], 2, 65_528),
        ("FA", 65_542, &[0, 0], 2, 65_534),
        ("FA", 2_147_483_648, &[0, 0], 2, 2_147_483_640),
        ("FA", 4_294_967_295, &[0, 0], 2, 4_294_967_287),
        ("FA", 4_294_967_296, &[0, 0], 2, 4_294_967_288),
        ("FA", 4_294_967_302, &[0, 0], 2, 4_294_967_294),
        ("FA", 9_007_199_254_740_993, &[0, 0], 2, 9_007_199_254_740_985),
        ("FA", 576_460_752_303_423_488, &[0, 0], 2, 576_460_752_303_423_480),
    ]),
];

/// Each letter with one test too few for it, with just enough, and with one to spare.
fn letters_alone() -> impl Iterator<Item = Running> {
    let counts = [("A", 1), ("B", 3), ("C", 3), ("D", 7), ("E", 6), ("F", 7), ("G", 4), ("H", 3), ("I", 7), ("J", 7), ("K", 7)];
    counts.into_iter().flat_map(|(name, count)| {
        let rows: [Row; 3] = [(name, count - 1, &[16], 0, count - 1), (name, count, &[0], 1, 0), (name, count + 1, &[0], 1, 1)];
        rows.map(|row| with_rooms("A glyph is worked if its count is no more than what is left", &row, 53, 1))
    })
}

/// The letters A to K in a row, and from the last to the first: T, how many are worked, and what is left.
fn letters_in_a_row() -> Vec<Running> {
    #[rustfmt::skip]
    let rising: &[(u64, usize, u64)] = &[
        (0, 0, 0), (1, 1, 0), (2, 1, 1), (3, 1, 2), (4, 2, 0), (5, 2, 1), (6, 2, 2), (7, 3, 0), (8, 3, 1), (13, 3, 6), (14, 4, 0), (15, 4, 1),
        (19, 4, 5), (20, 5, 0), (21, 5, 1), (26, 5, 6), (27, 6, 0), (28, 6, 1), (30, 6, 3), (31, 7, 0), (32, 7, 1), (33, 7, 2), (34, 8, 0),
        (35, 8, 1), (40, 8, 6), (41, 9, 0), (42, 9, 1), (47, 9, 6), (48, 10, 0), (49, 10, 1), (54, 10, 6), (55, 11, 0), (56, 11, 1), (99, 11, 44),
    ];
    #[rustfmt::skip]
    let falling: &[(u64, usize, u64)] = &[
        (0, 0, 0), (6, 0, 6), (7, 1, 0), (8, 1, 1), (13, 1, 6), (14, 2, 0), (20, 2, 6), (21, 3, 0), (23, 3, 2), (24, 4, 0), (27, 4, 3), (28, 5, 0),
        (34, 5, 6), (35, 6, 0), (40, 6, 5), (41, 7, 0), (47, 7, 6), (48, 8, 0), (50, 8, 2), (51, 9, 0), (53, 9, 2), (54, 10, 0), (55, 11, 0), (56, 11, 1),
    ];
    let says = "Work a whole sheet from its first glyph on: the letters to try, in a row and backwards";
    let of_row = |names: &'static str, &(allowance, worked, left): &(u64, usize, u64)| {
        let numbers: Vec<u16> = (0..11).map(|k| if k < worked { 0 } else { 16 }).collect();
        with_rooms(says, &(names, allowance, &numbers, worked, left), 583, 11)
    };
    let rising = rising.iter().map(|row| of_row("ABCDEFGHIJK", row));
    rising.chain(falling.iter().map(|row| of_row("KJIHGFEDCBA", row))).collect()
}
