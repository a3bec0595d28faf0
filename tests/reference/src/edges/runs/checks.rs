//! The room that a run needs, its checks, and the longest sheets.

use super::{with_rooms, Running};
use crate::edges::glyphs::sheet_of;
use crate::edges::sheets::short_bad_sheets;
use crate::edges::{Answer, Edge};
use crate::inputs::RunCase;

pub fn checks() -> impl Iterator<Item = Running> {
    rooms().chain(many()).chain(too_much()).chain(bad_sheets()).chain(long())
}

/// T and the lengths of buffer and list, a sheet, and the number that the run is refused with.
fn refused(says: &'static str, (allowance, buffer, numbers): (u64, usize, usize), sheet: Vec<u8>, number: u8) -> Running {
    Edge { says, given: RunCase { allowance, buffer, numbers, sheet }, gives: Err(number) }
}

/// The glyphs, T, the lengths of buffer and list, and the numbers with what is left, or a refusal.
type RoomRow = (&'static str, u64, usize, usize, Answer<(&'static [u16], u64)>);

#[rustfmt::skip]
const ROOMS: [(&str, &[RoomRow]); 4] = [
    ("8 if the buffer lacks 53 bytes for each glyph or the list a place", &[
        ("A", 1, 53, 1, Ok((&[0], 0))),
        ("A", 1, 54, 1, Ok((&[0], 0))),
        ("A", 1, 53, 2, Ok((&[0], 0))),
        ("A", 1, 52, 1, Err(8)),
        ("A", 1, 45, 1, Err(8)),
        ("A", 1, 0, 1, Err(8)),
        ("A", 1, 53, 0, Err(8)),
        ("A", 1, 200, 0, Err(8)),
        ("A", 1, 0, 9, Err(8)),
        ("A", 1, 0, 0, Err(8)),
        ("AB", 4, 106, 2, Ok((&[0, 0], 0))),
        ("AB", 4, 107, 3, Ok((&[0, 0], 0))),
        ("AB", 4, 105, 2, Err(8)),
        ("AB", 4, 53, 2, Err(8)),
        ("AB", 4, 106, 1, Err(8)),
        ("AB", 4, 105, 1, Err(8)),
        ("ABCDEFGHIJK", 55, 582, 11, Err(8)),
        ("ABCDEFGHIJK", 55, 583, 10, Err(8)),
        ("ABCDEFGHIJK", 55, 65_535, 1_300, Ok((&[0; 11], 0))),
    ]),
    ("53 bytes for each glyph or .. a place: for a faulty one too", &[
        ("2", 0, 53, 1, Ok((&[2], 0))),
        ("2", 0, 52, 1, Err(8)),
        ("2", 0, 0, 1, Err(8)),
        ("_", 0, 0, 1, Err(8)),
        ("_", 0, 53, 0, Err(8)),
        ("A2", 1, 106, 2, Ok((&[0, 2], 0))),
        ("A2", 1, 105, 2, Err(8)),
        ("A2", 1, 53, 2, Err(8)),
        ("A2", 1, 106, 1, Err(8)),
        ("2A", 1, 53, 2, Err(8)),
        ("2A", 1, 106, 1, Err(8)),
        ("_._", 1, 105, 2, Err(8)),
    ]),
    ("53 bytes for each glyph or .. a place: for one that T does not reach too", &[
        ("F", 0, 53, 1, Ok((&[16], 0))),
        ("F", 0, 52, 1, Err(8)),
        ("F", 0, 53, 0, Err(8)),
        ("FA", 7, 106, 2, Ok((&[0, 16], 0))),
        ("FA", 7, 105, 2, Err(8)),
        ("FA", 7, 53, 2, Err(8)),
        ("FA", 7, 106, 1, Err(8)),
    ]),
    ("53 bytes for each glyph or .. a place: none for a sheet of no glyphs", &[
        ("", 5, 0, 3, Ok((&[], 5))),
        ("", 5, 60, 0, Ok((&[], 5))),
        ("..", 5, 1, 1, Ok((&[], 5))),
    ]),
];

fn rooms() -> impl Iterator<Item = Running> {
    let edge = |says, &(names, allowance, buffer, numbers, gives): &RoomRow| match gives {
        Ok((list, left)) => {
            let worked = list.iter().filter(|number| **number == 0).count();
            with_rooms(says, &(names, allowance, list, worked, left), buffer, numbers)
        }
        Err(number) => refused(says, (allowance, buffer, numbers), sheet_of(names), number),
    };
    ROOMS.into_iter().flat_map(move |(says, rows)| rows.iter().map(move |row| edge(says, row)))
}

/// A glyph, how many of it, T, the lengths of buffer and list, and how many are worked, or a refusal.
type ManyRow = (&'static str, usize, u64, usize, usize, Answer<usize>);

/// Sheets of many glyphs, all of them the same.
fn many() -> impl Iterator<Item = Running> {
    let rows: [ManyRow; 13] = [
        ("a", 256, 255, 13_568, 256, Ok(255)),
        ("a", 257, 256, 13_621, 257, Ok(256)),
        ("a", 257, 256, 53, 257, Err(8)),
        ("a", 257, 256, 13_621, 1, Err(8)),
        ("a", 1_236, 1_235, 65_508, 1_236, Ok(1_235)),
        ("a", 1_236, 1_236, 65_535, 1_300, Ok(1_236)),
        ("a", 1_236, 1_236, 65_507, 1_236, Err(8)),
        ("a", 1_236, 1_236, 65_508, 1_235, Err(8)),
        ("a", 1_237, 1_237, 65_535, 1_237, Err(8)),
        ("a", 1_237, 1_237, 65_561, 1_237, Ok(1_237)),
        ("_", 16_383, 0, 868_299, 16_383, Ok(0)),
        ("_", 16_383, 0, 868_298, 16_383, Err(8)),
        ("_", 16_383, 0, 868_299, 16_382, Err(8)),
    ];
    let says = "a number for each glyph .. 8 if the buffer lacks 53 bytes for each glyph or the list a place: many glyphs";
    rows.into_iter().map(move |(name, count, allowance, buffer, numbers, gives)| {
        let names = name.repeat(count);
        let other = if name == "_" { 5 } else { 16 };
        match gives {
            Ok(worked) => {
                let list: Vec<u16> = (0..count).map(|k| if k < worked { 0 } else { other }).collect();
                with_rooms(says, &(&names, allowance, &list, worked, allowance - worked as u64), buffer, numbers)
            }
            Err(number) => refused(says, (allowance, buffer, numbers), sheet_of(&names), number),
        }
    })
}

const TOO_MUCH: u64 = 1_152_921_504_606_846_976;

/// 17, and 8 before it.
fn too_much() -> impl Iterator<Item = Running> {
    let says = "then 8 .. then 17 for T of 2⁶⁰ or more";
    let rows = [
        ("A", TOO_MUCH, 53, 1, 17),
        ("A", TOO_MUCH, 65_535, 1_300, 17),
        ("A", TOO_MUCH + 1, 53, 1, 17),
        ("A", 2 * TOO_MUCH, 53, 1, 17),
        ("A", 9_223_372_036_854_775_808, 53, 1, 17),
        ("A", 18_446_744_073_709_551_615, 53, 1, 17),
        ("", TOO_MUCH, 0, 0, 17),
        ("", 18_446_744_073_709_551_615, 9, 9, 17),
        ("2", TOO_MUCH, 53, 1, 17),
        ("_5_", TOO_MUCH + 3, 159, 3, 17),
        ("A2F", TOO_MUCH + 8, 159, 3, 17),
        ("A", TOO_MUCH, 52, 1, 8),
        ("A", TOO_MUCH, 53, 0, 8),
        ("A", TOO_MUCH, 0, 0, 8),
        ("A2F", TOO_MUCH, 158, 3, 8),
        ("A2F", TOO_MUCH, 159, 2, 8),
        ("_", 18_446_744_073_709_551_615, 0, 1, 8),
    ];
    rows.into_iter().map(move |(names, allowance, buffer, numbers, number)| {
        refused(says, (allowance, buffer, numbers), sheet_of(names), number)
    })
}

/// The short sheets that the opener refuses with 6, also with no room (8), with too great a T (17), and with both.
fn bad_sheets() -> Vec<Running> {
    let others = [(9, 700, 13), (9, 0, 0), (TOO_MUCH, 700, 13), (TOO_MUCH, 0, 0)];
    let edge = |sheet: Vec<u8>| others.map(|lent| refused("Checks: 1, 6, then 8 .. then 17", lent, sheet.clone(), 6));
    short_bad_sheets().into_iter().flat_map(edge).collect()
}

/// Sheets of about 65,535 bytes: one without glyphs and one with a part that starts in the directory, 0 behind what is said; one with a part
/// to its end, and that with a byte too many; and one with three parts of 4,096 points.
fn long() -> Vec<Running> {
    let says = "Checks: 1, 6, then 8 .. then 17";
    let (empty, wrong): (&[u8], &[u8]) = (&[0, 0], &[0, 1]);
    let rows = [
        (empty, 65_536, TOO_MUCH, 0, 0, 1),
        (wrong, 65_536, 1, 53, 1, 1),
        (wrong, 65_536, TOO_MUCH, 0, 0, 1),
        (wrong, 65_535, TOO_MUCH, 0, 0, 6),
    ];
    let bad = rows.map(|(start, length, allowance, buffer, numbers, number)| {
        let mut sheet = start.to_vec();
        sheet.resize(length, 0);
        refused(says, (allowance, buffer, numbers), sheet, number)
    });
    let too_long = [53, 52].map(|buffer| refused(says, (1, buffer, 1), sheet_of("s."), 1));
    let of_longest = "A sheet has at most 65,535 bytes";
    let three = "mmm".to_string() + &".".repeat(16_369);
    let worked = [
        with_rooms(of_longest, &("s", 1, &[0], 1, 0), 53, 1),
        with_rooms(of_longest, &(&three, 12_287, &[0, 0, 16], 2, 4_095), 159, 3),
    ];
    [&bad[..], &too_long, &worked].concat()
}
