//! The room that an estimate needs, its checks, and the longest sheets.

use super::{with_rooms, Estimating, Takes};
use crate::edges::glyphs::{again, sheet_of};
use crate::edges::sheets::short_bad_sheets;
use crate::edges::{Answer, Edge};
use crate::inputs::EstimateCase;
use crate::sheet::packed;

pub fn checks() -> impl Iterator<Item = Estimating> {
    rooms().chain(many()).chain(bad_sheets()).chain(long())
}

/// The lengths of both lists, and the number that the call is refused with.
fn refused(says: &'static str, sheet: Vec<u8>, [points, refusals]: [usize; 2], number: u8) -> Estimating {
    Edge { says, given: EstimateCase { points, refusals, sheet }, gives: Err(number) }
}

/// The glyphs by their names, what they take, lengths of both lists that have room, and such that have not.
type RoomRow = (&'static str, Takes<'static>, &'static [[usize; 2]], &'static [[usize; 2]]);

#[rustfmt::skip]
const ROOMS: [(&str, &[RoomRow]); 3] = [
    ("8 for a list that is too short: one place too few in either, and in both", &[
        ("A", (&[1], &[0], 53, 1), &[[2, 1], [1, 2], [1_300, 1], [1, 1_300], [1_300, 1_300]], &[[0, 1], [1, 0], [0, 0], [0, 9], [9, 0]]),
        ("AB", (&[1, 2], &[0, 0], 106, 4), &[[3, 2], [2, 3], [53, 2]], &[[1, 2], [2, 1], [1, 1], [0, 2], [2, 0], [1, 3], [3, 1], [0, 0]]),
        ("ABCDEFGHIJK", (&[1, 2, 2, 4, 3, 3, 3, 3, 3, 3, 4], &[0; 11], 583, 77), &[[12, 11], [11, 12], [1_300, 1_300]],
            &[[10, 11], [11, 10], [10, 10], [10, 1_300], [1_300, 10], [0, 1_300], [1_300, 0]]),
    ]),
    ("Two lent lists get, for each glyph, ..: a place for a faulty one too", &[
        ("2", (&[0], &[2], 0, 0), &[[2, 1], [1, 2]], &[[0, 1], [1, 0], [0, 0]]),
        ("_", (&[0], &[5], 0, 0), &[[2, 1], [1, 2]], &[[0, 1], [1, 0], [0, 0]]),
        ("A2", (&[1, 0], &[0, 2], 53, 1), &[[3, 2], [2, 3]], &[[1, 2], [2, 1], [1, 1]]),
        ("2A", (&[0, 1], &[2, 0], 53, 1), &[[3, 2], [2, 3]], &[[1, 2], [2, 1], [1, 1]]),
        ("_._", (&[0, 0], &[5, 5], 0, 0), &[[3, 2], [2, 3]], &[[1, 2], [2, 1], [0, 0]]),
        ("23A5B_", (&[0, 0, 1, 0, 2, 0], &[2, 3, 0, 5, 0, 5], 106, 4), &[[7, 6], [6, 7]], &[[2, 2], [2, 6], [6, 2], [6, 4], [4, 6]]),
    ]),
    ("Two lent lists get, for each glyph, ..: no place for a sheet of no glyphs", &[
        ("", (&[], &[], 0, 0), &[[0, 3], [3, 0], [1_300, 1_300]], &[]),
        ("..", (&[], &[], 0, 0), &[[1, 1]], &[]),
    ]),
];

fn rooms() -> impl Iterator<Item = Estimating> {
    let edges = |says: &'static str, (names, takes, enough, short): &RoomRow| {
        let sheet = sheet_of(names);
        let taken = enough.iter().map(|&rooms| with_rooms(says, sheet.clone(), takes, rooms));
        taken.chain(short.iter().map(|&rooms| refused(says, sheet.clone(), rooms, 8))).collect::<Vec<_>>()
    };
    ROOMS.into_iter().flat_map(move |(says, rows)| rows.iter().flat_map(move |row| edges(says, row)))
}

/// A glyph, how many of it, the lengths of both lists, and what each of them takes, or a refusal.
type ManyRow = (&'static str, usize, [usize; 2], Answer<(u16, u16, u64, u64)>);

/// Sheets of many glyphs, all of them the same.
fn many() -> impl Iterator<Item = Estimating> {
    let (one, none) = ((1, 0, 53, 1), (0, 5, 0, 0));
    let rows: [ManyRow; 14] = [
        ("a", 255, [255, 255], Ok(one)),
        ("a", 256, [256, 256], Ok(one)),
        ("a", 257, [257, 257], Ok(one)),
        ("a", 257, [256, 257], Err(8)),
        ("a", 257, [257, 256], Err(8)),
        ("a", 257, [1, 257], Err(8)),
        ("a", 257, [257, 1], Err(8)),
        ("a", 1_300, [1_300, 1_300], Ok(one)),
        ("a", 1_301, [1_300, 1_300], Err(8)),
        ("_", 1_300, [1_300, 1_300], Ok(none)),
        ("a", 9_361, [9_361, 9_361], Ok(one)),
        ("_", 16_383, [16_383, 16_383], Ok(none)),
        ("_", 16_383, [16_382, 16_383], Err(8)),
        ("_", 16_383, [16_383, 16_382], Err(8)),
    ];
    let says = "8 for a list that is too short: many glyphs";
    rows.into_iter().map(move |(name, count, rooms, gives)| {
        let sheet = sheet_of(&name.repeat(count));
        match gives {
            Ok((points, refusal, bytes, tests)) => {
                let times = count as u64;
                let takes = (&vec![points; count][..], &vec![refusal; count][..], times * bytes, times * tests);
                with_rooms(says, sheet, &takes, rooms)
            }
            Err(number) => refused(says, sheet, rooms, number),
        }
    })
}

/// The short sheets that the opener refuses with 6, also with no room (8) in one list or in both.
fn bad_sheets() -> impl Iterator<Item = Estimating> {
    let edges = |sheet: Vec<u8>| {
        let rooms = [[13, 13], [0, 0], [0, 13], [13, 0]];
        rooms.map(|rooms| refused("Refusals are 1, 6, then 8", sheet.clone(), rooms, 6))
    };
    short_bad_sheets().into_iter().flat_map(edges)
}

/// A sheet of 65,535 bytes with as many points as fit into it, three times 4,096 and once 4,092; and one that has a byte more, a part in its
/// directory (6) and no room (8).
fn long() -> [Estimating; 2] {
    let full = [packed([4_096, 4_096, 4_096, 4_092].map(again)), b"9".to_vec()].concat();
    let takes: Takes = (&[4_096, 4_096, 4_096, 4_092], &[0; 4], 212, 45_779_476_466);
    let wrong = [&[0, 1][..], &[0; 65_534]].concat();
    [
        with_rooms("A sheet has at most 65,535 bytes", full, &takes, [4, 5]),
        refused("Refusals are 1, 6, then 8 for a list that is too short", wrong, [0, 0], 1),
    ]
}
