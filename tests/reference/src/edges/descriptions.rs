//! Descriptions, and the length of the list that the loader is lent.

use super::{Answer, Edge};
use crate::geometry::Point;
use crate::inputs::LoaderCase;
use crate::letters::points;

/// The points of a description, or the number of the refusal.
type Loading = Edge<LoaderCase, Answer<Vec<Point>>>;

type Row = (&'static str, Answer<&'static [(i16, i16)]>);

/// More numbers than a list has to have.
const AMPLE: usize = 8_200;

pub fn descriptions() -> Vec<Loading> {
    let short =
        TEXTS.iter().flat_map(|(says, rows)| rows.iter().map(|(text, gives)| loading(says, AMPLE, text, gives.map(points))));
    short.chain(most_points()).chain(longest()).chain(rooms()).collect()
}

fn loading(says: &'static str, room: usize, text: impl AsRef<[u8]>, gives: Answer<Vec<Point>>) -> Loading {
    Edge { says, given: LoaderCase { room, text: text.as_ref().to_vec() }, gives }
}

#[rustfmt::skip]
const TEXTS: [(&str, &[Row]); 8] = [
    ("The em box becomes x 0 to 2048 and y −512 to 1536 (02, item 10). 3: a corner outside the em box", &[
        ("2048 0\n", Ok(&[(2048, 0)])),
        ("2048 0", Ok(&[(2048, 0)])),
        ("2049 0\n", Err(3)),
        ("2049 0", Err(3)),
        ("0 0\n", Ok(&[(0, 0)])),
        ("-1 0\n", Err(3)),
        ("0 0\n-1 0", Err(3)),
        ("0 -512\n", Ok(&[(0, -512)])),
        ("0 -512", Ok(&[(0, -512)])),
        ("0 -513\n", Err(3)),
        ("0 -513", Err(3)),
        ("0 1536\n", Ok(&[(0, 1536)])),
        ("0 1536", Ok(&[(0, 1536)])),
        ("0 1537\n", Err(3)),
        ("0 1537", Err(3)),
        ("1000 750\n1001 0\n0 -251\n0 751", Ok(&[(1000, 750), (1001, 0), (0, -251), (0, 751)])),
        ("2048 1536\n2048 -512\n0 1536\n0 -512\n", Ok(&[(2048, 1536), (2048, -512), (0, 1536), (0, -512)])),
    ]),
    ("A number is an optional minus and 1 to 4 decimal digits; leading zeros and −0 are allowed", &[
        ("0012 0003\n", Ok(&[(12, 3)])),
        ("-0 -0000\n", Ok(&[(0, 0)])),
        ("-0 -0", Ok(&[(0, 0)])),
        ("5 -0512\n", Ok(&[(5, -512)])),
        ("12345 0\n", Err(2)),
        ("12345 0", Err(2)),
        ("02048 0\n", Err(2)),
        ("02048 0", Err(2)),
        ("0 -00512\n", Err(2)),
        ("99999 0\n", Err(2)),
        ("-\n", Err(2)),
        ("- 1 2\n", Err(2)),
        ("1 -\n", Err(2)),
        ("--1 2\n", Err(2)),
        ("5-3\n", Err(2)),
        ("5-3", Err(2)),
        ("1a 2\n", Err(2)),
        ("1.5 2,5\n", Err(2)),
    ]),
    ("A number .. may begin with one plus or one minus, then 1 to 4 digits as before. \"+0\" is 0; \"+-1\" and \"++1\" are refused as 2 (02, item 1)", &[
        ("+12 -7\n", Ok(&[(12, -7)])),
        ("+12 -7", Ok(&[(12, -7)])),
        ("+0 -0\n", Ok(&[(0, 0)])),
        ("-0 +0000", Ok(&[(0, 0)])),
        ("+2048 +1536\n", Ok(&[(2048, 1536)])),
        ("  +0012   +0003  \n 4 -5", Ok(&[(12, 3), (4, -5)])),
        ("1 2\n+3 +4\n5 6\n", Ok(&[(1, 2), (3, 4), (5, 6)])),
        ("+\n", Err(2)),
        ("+", Err(2)),
        ("1 +\n", Err(2)),
        ("+ 1\n", Err(2)),
        ("+ 1 2\n", Err(2)),
        ("+-1 2\n", Err(2)),
        ("++1 2\n", Err(2)),
        ("-+1 2\n", Err(2)),
        ("1 +-2\n", Err(2)),
        ("1 ++2", Err(2)),
        ("1 -+2\n", Err(2)),
        ("1+ 2\n", Err(2)),
        ("1 2+\n", Err(2)),
        ("1+2\n", Err(2)),
        ("+12345 0\n", Err(2)),
        ("0 +00512\n", Err(2)),
        ("3 4\n+\n", Err(2)),
        ("3 4\n+ 1 2\n", Err(2)),
        ("3 4\n+-1 2\n", Err(2)),
        ("3 4\n++1 2\n", Err(2)),
        ("3 4\n-+1 2\n", Err(2)),
        ("3 4\n1+ 2\n", Err(2)),
        ("3 4\n+12345 0", Err(2)),
        ("+2049 0\n", Err(3)),
        ("0 +1537\n", Err(3)),
        ("+2049 ++1\n", Err(2)),
        ("+-1 +1537\n", Err(2)),
        ("3 4\n+9999 1+\n", Err(2)),
        ("+2049 0\n++1 0\n", Err(3)),
        ("++1 0\n+2049 0\n", Err(2)),
    ]),
    ("Lines end with byte 10 or at the end of the bytes", &[
        ("1 2\n3 4", Ok(&[(1, 2), (3, 4)])),
        ("1 2\n3 4\n", Ok(&[(1, 2), (3, 4)])),
        ("1 2\r\n", Err(2)),
    ]),
    ("A line of no bytes or only spaces (32) is blank and allowed anywhere. Any other line is: spaces or none, x, one or more spaces, y, spaces or none", &[
        ("   1   2   \n3 4", Ok(&[(1, 2), (3, 4)])),
        ("\n  \n\n1 2\n \n\n3 4\n\n   ", Ok(&[(1, 2), (3, 4)])),
        ("1\n2\n", Err(2)),
        ("1 2 3\n", Err(2)),
        ("1\t2\n", Err(2)),
        ("1\t2", Err(2)),
        ("\t\n", Err(2)),
        ("1 2\0\n", Err(2)),
    ]),
    ("in file order, repeats kept, they are its list", &[
        ("7 7\n7 7\n7 7\n", Ok(&[(7, 7), (7, 7), (7, 7)])),
    ]),
    ("5: no corner", &[
        ("", Err(5)),
        ("\n", Err(5)),
        ("   ", Err(5)),
        ("  \n\n   ", Err(5)),
    ]),
    ("the first faulty line decides, in it 2, then 3, then 4; at the end 5", &[
        ("2049 x\n", Err(2)),
        ("2049 0\nx\n", Err(3)),
        ("x\n2049 0\n", Err(2)),
        ("1 2\n3 4\nx\n", Err(2)),
        ("\n\nx\n", Err(2)),
    ]),
];

/// 4,096 points, then more, then spaces.
fn most_points() -> impl Iterator<Item = Loading> {
    let says = "4,096 corners pass, 4,097 give 4 .. in it 2, then 3, then 4";
    let most = points(&[(0, 0); 4_096]);
    let rows = [
        ("", Ok(most.clone())),
        ("\n  \n\n", Ok(most)),
        ("0 0\n", Err(4)),
        ("0 x\n", Err(2)),
        ("2049 0\n", Err(3)),
        ("0 0\nx\n", Err(4)),
        ("+0 +0\n", Err(4)),
        ("+2049 0\n", Err(3)),
        ("++1 0\n", Err(2)),
        ("+2049 +-1\n", Err(2)),
    ];
    rows.into_iter().map(move |(more, gives)| loading(says, AMPLE, padded(&("0 0\n".repeat(4_096) + more), 16_448), gives))
}

/// At most 65,535 bytes, and one more.
fn longest() -> impl Iterator<Item = Loading> {
    let says = "1: description or sheet over 65,535 bytes. Loader: 8, 1, then by line";
    let rows = [
        ("1 2\n", 65_535, AMPLE, Ok(points(&[(1, 2)]))),
        ("", 65_535, AMPLE, Err(5)),
        ("1 2\n", 65_536, AMPLE, Err(1)),
        ("1 2\n", 65_536, 8_191, Err(8)),
        ("1 2\n", 65_536, 8_192, Err(1)),
        ("x\n", 65_536, AMPLE, Err(1)),
        ("x\n", 65_536, 8_191, Err(8)),
        ("x\n", 65_536, 8_192, Err(1)),
    ];
    rows.into_iter().map(move |(start, length, room, gives)| loading(says, room, padded(start, length), gives))
}

fn rooms() -> impl Iterator<Item = Loading> {
    let says = "8: a loader's list under 8,192 numbers";
    let rows =
        [("1 2\n", 8_191, Err(8)), ("1 2\n", 8_192, Ok(points(&[(1, 2)]))), ("x\n", 8_191, Err(8)), ("x\n", 8_192, Err(2))];
    rows.into_iter().map(move |(text, room, gives)| loading(says, room, text, gives))
}

/// The text, and spaces up to the length.
fn padded(text: &str, length: usize) -> Vec<u8> {
    let mut bytes = text.as_bytes().to_vec();
    bytes.resize(length, b' ');
    bytes
}
