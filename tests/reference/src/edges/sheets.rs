//! Sheets with the glyph asked for, and parts of a sheet.

use super::{Answer, Edge};
use crate::inputs::{PartCase, SheetCase};

/// Where the part starts, and its bytes.
type Opening = Edge<SheetCase, Answer<(usize, Vec<u8>)>>;

type Row = (&'static [u8], u16, Answer<(usize, &'static [u8])>);

pub fn sheets() -> Vec<Opening> {
    let opening = |says, &(bytes, k, gives): &Row| Edge {
        says,
        given: SheetCase { k, bytes: bytes.to_vec() },
        gives: gives.map(|(start, part)| (start, part.to_vec())),
    };
    let short = SHEETS.iter().flat_map(|(says, rows)| rows.iter().map(|row| opening(says, row)));
    short.chain(longest()).collect()
}

#[rustfmt::skip]
const SHEETS: [(&str, &[Row]); 5] = [
    ("Glyph k, from 0, is returned as its part of the sheet. 10: glyph k not below the count", &[
        (b"\x00\x01\x00\x06\x00\x03abc", 0, Ok((6, b"abc"))),
        (b"\x00\x01\x00\x06\x00\x03abc", 1, Err(10)),
        (b"\x00\x00", 0, Err(10)),
        (b"\x00\x00abc", 5, Err(10)),
        (b"\x00\x00\x00", 0, Err(10)),
    ]),
    ("Gaps and parts of length 0 are allowed", &[
        (b"\x00\x02\x00\x0b\x00\x02\x00\x0f\x00\x01.ab..c.", 0, Ok((11, b"ab"))),
        (b"\x00\x02\x00\x0b\x00\x02\x00\x0f\x00\x01.ab..c.", 1, Ok((15, b"c"))),
        (b"\x00\x02\x00\x0b\x00\x02\x00\x0f\x00\x01.ab..c.", 2, Err(10)),
        (b"\x00\x03\x00\x0e\x00\x00\x00\x0e\x00\x02\x00\x10\x00\x00de", 0, Ok((14, b""))),
        (b"\x00\x03\x00\x0e\x00\x00\x00\x0e\x00\x02\x00\x10\x00\x00de", 1, Ok((14, b"de"))),
        (b"\x00\x03\x00\x0e\x00\x00\x00\x0e\x00\x02\x00\x10\x00\x00de", 2, Ok((16, b""))),
    ]),
    ("6: sheet shorter than its directory (the count and the pairs). Sheet: 1, 6, 10", &[
        (b"", 0, Err(6)),
        (b"\x00", 0, Err(6)),
        (b"\x00\x02\x00\x0a\x00\x00", 0, Err(6)),
        (b"\x00\x02\x00\x0a\x00\x00", 9, Err(6)),
        (b"\xff\xff", 0, Err(6)),
    ]),
    ("The first part starts at or after the directory, each next at or after the end of the one before, all within the sheet", &[
        (b"\x00\x01\x00\x06\x00\x04abc", 0, Err(6)),
        (b"\x00\x01\x00\x07\x00\x00", 0, Err(6)),
        (b"\x00\x01\x00\x05\x00\x01abc", 0, Err(6)),
        (b"\x00\x02\x00\x0a\x00\x03\x00\x0c\x00\x01abc", 0, Err(6)),
        (b"\x00\x02\x00\x0a\x00\x03\x00\x0c\x00\x01abc", 1, Err(6)),
        (b"\x00\x02\x00\x0a\x00\x03\x00\x0c\x00\x01abc", 7, Err(6)),
    ]),
    ("sorted by offset", &[
        (b"\x00\x02\x00\x0c\x00\x01\x00\x0a\x00\x02abc", 0, Err(6)),
        (b"\x00\x02\x00\x0c\x00\x00\x00\x0a\x00\x00abc", 0, Err(6)),
    ]),
];

/// Sheets of about 65,535 bytes, 0 wherever nothing is said.
fn longest() -> impl Iterator<Item = Opening> {
    let says = "A sheet has at most 65,535 bytes .. high byte first. Sheet: 1, 6, 10";
    let one_part: Bytes = &[(0, b"\x00\x01")];
    let at_256: Bytes = &[(0, b"\x00\x01\x01\x00\x00\x02"), (256, b"hi")];
    let to_the_end: Bytes = &[(0, b"\x00\x01\x00\x06\xff\xf9"), (256, b"hi")];
    let rows = [
        (&[][..], 65_535, 0, Err(10)),
        (&[][..], 65_536, 0, Err(1)),
        (one_part, 65_535, 0, Err(6)),
        (one_part, 65_536, 3, Err(1)),
        (at_256, 65_535, 0, Ok((256, b"hi".to_vec()))),
        (to_the_end, 65_535, 0, Ok((6, long_sheet(to_the_end, 65_535).split_off(6)))),
        (to_the_end, 65_534, 0, Err(6)),
        (to_the_end, 65_536, 0, Err(1)),
    ];
    rows.into_iter().map(move |(bytes, length, k, gives)| Edge {
        says,
        given: SheetCase { k, bytes: long_sheet(bytes, length) },
        gives,
    })
}

/// The short sheets that are refused with 6, whatever glyph is asked for.
pub fn short_bad_sheets() -> Vec<Vec<u8>> {
    let refused = sheets().into_iter().filter(|edge| edge.gives == Err(6)).map(|edge| edge.given.bytes);
    let mut bad: Vec<Vec<u8>> = refused.filter(|sheet| sheet.len() < 100).collect();
    bad.dedup();
    bad
}

/// Bytes from a place on.
type Bytes = &'static [(usize, &'static [u8])];

fn long_sheet(bytes: Bytes, length: usize) -> Vec<u8> {
    let mut sheet = vec![0; length];
    for (place, bytes) in bytes {
        sheet[*place..place + bytes.len()].copy_from_slice(bytes);
    }
    sheet
}

/// Parts of `abc`, by start and length.
pub fn parts() -> Vec<Edge<PartCase, Vec<u8>>> {
    let says = "empty where the bytes do not all lie in the sheet (docs/DECISIONS.md)";
    let rows: [(usize, usize, &[u8]); 6] =
        [(0, 3, b"abc"), (1, 1, b"b"), (3, 0, b""), (4, 0, b""), (1, 3, b""), (1, usize::MAX, b"")];
    let part = |(start, length, gives): (usize, usize, &[u8])| Edge {
        says,
        given: PartCase { start, length, bytes: b"abc".to_vec() },
        gives: gives.to_vec(),
    };
    rows.map(part).into()
}
