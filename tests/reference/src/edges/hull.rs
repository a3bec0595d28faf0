//! Lists reduced to the corners of their hulls (02, item 8): the points kept in their order, the zeros behind them, and the checks.

use super::{Answer, Edge};
use crate::engine::flat;
use crate::letters::{points, LETTERS};
use crate::lists::orders;

/// The points kept, behind which all is 0, or the number of the refusal.
type Reduction = Edge<Vec<i16>, Answer<Vec<Pair>>>;

type Pair = (i16, i16);

pub fn reductions() -> Vec<Reduction> {
    let of_lists = [&ROWS[..], &CORNERS, &PLACES, &CHECKS].concat().into_iter().flat_map(|(says, rows)| {
        let edge = move |&(list, gives): &Row| reduction(says, flat(&points(list)), gives);
        rows.iter().map(edge)
    });
    of_lists.chain(in_every_order()).chain(letters()).chain(lengths()).chain(long()).chain(around_the_box()).collect()
}

fn reduction(says: &'static str, given: Vec<i16>, gives: Answer<&[Pair]>) -> Reduction {
    Edge { says, given, gives: gives.map(<[Pair]>::to_vec) }
}

/// The list, and what is given.
type Row = (&'static [Pair], Answer<&'static [Pair]>);

#[rustfmt::skip]
const ROWS: [(&str, &[Row]); 5] = [
    ("a lone corner itself", &[
        (&[(7, 7)], Ok(&[(7, 7)])),
        (&[(0, 0)], Ok(&[(0, 0)])),
        (&[(0, -512)], Ok(&[(0, -512)])),
        (&[(2048, 1536)], Ok(&[(2048, 1536)])),
        (&[(0, 0), (0, 0)], Ok(&[(0, 0)])),
        (&[(3, -4), (3, -4), (3, -4), (3, -4), (3, -4)], Ok(&[(3, -4)])),
    ]),
    ("A row keeps its two ends .. from the least corner by x then y: two corners, either way round", &[
        (&[(0, 0), (3, 0)], Ok(&[(0, 0), (3, 0)])),
        (&[(3, 0), (0, 0)], Ok(&[(0, 0), (3, 0)])),
        (&[(5, -1), (5, 1)], Ok(&[(5, -1), (5, 1)])),
        (&[(5, 1), (5, -1)], Ok(&[(5, -1), (5, 1)])),
        (&[(0, 1536), (2048, -512)], Ok(&[(0, 1536), (2048, -512)])),
        (&[(2048, -512), (0, 1536)], Ok(&[(0, 1536), (2048, -512)])),
        (&[(1024, 512), (1025, 512)], Ok(&[(1024, 512), (1025, 512)])),
        (&[(1025, 512), (1024, 513)], Ok(&[(1024, 513), (1025, 512)])),
        (&[(3, 0), (0, 0), (3, 0), (3, 0), (0, 0)], Ok(&[(0, 0), (3, 0)])),
        (&[(4, 9), (4, 9), (4, 8)], Ok(&[(4, 8), (4, 9)])),
    ]),
    ("A row keeps its two ends: all in one column", &[
        (&[(0, 1536), (0, -512), (0, 0)], Ok(&[(0, -512), (0, 1536)])),
        (&[(9, 3), (9, 4), (9, 1), (9, 5), (9, 2)], Ok(&[(9, 1), (9, 5)])),
        (&[(2048, 7), (2048, -7), (2048, 7), (2048, -7), (2048, 0)], Ok(&[(2048, -7), (2048, 7)])),
        (&[(9, 3), (9, 3), (9, 3), (9, 2)], Ok(&[(9, 2), (9, 3)])),
    ]),
    ("A row keeps its two ends: all at one height", &[
        (&[(1024, -512), (2048, -512), (0, -512)], Ok(&[(0, -512), (2048, -512)])),
        (&[(3, 9), (4, 9), (1, 9), (5, 9), (2, 9)], Ok(&[(1, 9), (5, 9)])),
        (&[(7, 1536), (6, 1536), (7, 1536), (7, 1536)], Ok(&[(6, 1536), (7, 1536)])),
    ]),
    ("A row keeps its two ends: with repeats, in any direction", &[
        (&[(6, 6), (2, 2), (6, 6), (4, 4), (2, 2), (3, 3)], Ok(&[(2, 2), (6, 6)])),
        (&[(6, 2), (2, 6), (2, 6), (4, 4), (6, 2), (5, 3)], Ok(&[(2, 6), (6, 2)])),
        (&[(1, 768), (0, 0), (2, 1536), (1, 768), (0, 0)], Ok(&[(0, 0), (2, 1536)])),
        (&[(1024, 1), (2048, 2), (0, 0), (2048, 2)], Ok(&[(0, 0), (2048, 2)])),
        (&[(0, -512), (512, 0), (2048, 1536), (2047, 1535), (1, -511)], Ok(&[(0, -512), (2048, 1536)])),
    ]),
];

/// The twelve points at distance 5 from (10, 10), counterclockwise from the least.
#[rustfmt::skip]
const CIRCLE: &[Pair] = &[
    (5, 10), (6, 7), (7, 6), (10, 5), (13, 6), (14, 7), (15, 10), (14, 13), (13, 14), (10, 15), (7, 14), (6, 13),
];
const SQUARE: &[Pair] = &[(0, 0), (10, 0), (10, 10), (0, 10)];
const TRIANGLE: &[Pair] = &[(2, 1), (8, 3), (4, 7)];

#[rustfmt::skip]
const CORNERS: [(&str, &[Row]); 6] = [
    ("no three in a row: a corner within a side goes", &[
        (&[(2, 1), (5, 2), (8, 3), (4, 7)], Ok(TRIANGLE)),
        (&[(2, 1), (8, 3), (6, 5), (4, 7)], Ok(TRIANGLE)),
        (&[(2, 1), (8, 3), (4, 7), (3, 4)], Ok(TRIANGLE)),
        (&[(5, 2), (6, 5), (3, 4), (4, 7), (8, 3), (2, 1)], Ok(TRIANGLE)),
        (&[(7, 4), (5, 6), (8, 3), (6, 5), (4, 7), (2, 1)], Ok(TRIANGLE)),
        (&[(5, 2), (2, 1), (5, 2), (4, 7), (8, 3), (4, 7), (2, 1), (5, 2)], Ok(TRIANGLE)),
    ]),
    ("the corners of its convex hull: one inside goes", &[
        (&[(2, 1), (4, 4), (8, 3), (4, 7)], Ok(TRIANGLE)),
        (&[(5, 3), (4, 7), (5, 4), (8, 3), (4, 4), (2, 1), (5, 3)], Ok(TRIANGLE)),
        (&[(0, 0), (10, 0), (5, 1), (10, 10), (0, 10), (9, 9), (1, 9), (9, 1)], Ok(SQUARE)),
    ]),
    ("no three in a row: a square with the middles of its sides", &[
        (&[(0, 0), (5, 0), (10, 0), (10, 5), (10, 10), (5, 10), (0, 10), (0, 5)], Ok(SQUARE)),
        (&[(5, 10), (5, 0), (0, 5), (10, 5), (10, 10), (0, 0), (0, 10), (10, 0), (5, 5)], Ok(SQUARE)),
        (&[(5, 10), (5, 0), (0, 5), (10, 5), (5, 5)], Ok(&[(0, 5), (5, 0), (10, 5), (5, 10)])),
    ]),
    ("counterclockwise from the least corner by x then y: all stay, in another order", &[
        (&[(0, 0), (0, 10), (10, 10), (10, 0)], Ok(SQUARE)),
        (&[(10, 10), (0, 0), (10, 0), (0, 10)], Ok(SQUARE)),
        (&[(15, 10), (13, 14), (10, 15), (7, 14), (6, 13), (5, 10), (14, 13), (6, 7), (7, 6), (10, 5), (13, 6), (14, 7)], Ok(CIRCLE)),
        (&[(6, 13), (7, 14), (10, 15), (13, 14), (14, 13), (15, 10), (14, 7), (13, 6), (10, 5), (7, 6), (6, 7), (5, 10)], Ok(CIRCLE)),
    ]),
    ("counterclockwise from the least corner: a list that is so already, and then nothing becomes zero", &[
        (SQUARE, Ok(SQUARE)),
        (TRIANGLE, Ok(TRIANGLE)),
        (CIRCLE, Ok(CIRCLE)),
        (&[(1, 2), (3, 4)], Ok(&[(1, 2), (3, 4)])),
        (&[(0, -512), (2048, -512), (2048, 1536), (0, 1536)], Ok(&[(0, -512), (2048, -512), (2048, 1536), (0, 1536)])),
    ]),
    ("the rest of the list becomes zeros, whatever stood there", &[
        (&[(9, 9), (9, 9)], Ok(&[(9, 9)])),
        (&[(9, -9), (5, -5), (7, -7), (9, -9)], Ok(&[(5, -5), (9, -9)])),
        (&[(1024, 512), (1023, 513), (1022, 511), (1024, 510), (1023, 512), (1023, 511)], Ok(&[(1022, 511), (1024, 510), (1024, 512), (1023, 513)])),
        (&[(2048, 1536), (2048, 1535), (2047, 1536), (2047, 1535), (2048, 1534)], Ok(&[(2047, 1535), (2048, 1534), (2048, 1536), (2047, 1536)])),
    ]),
];

/// The em box's corners, counterclockwise from the least.
const BOX: &[Pair] = &[(0, -512), (2048, -512), (2048, 1536), (0, 1536)];
const HALF: &[Pair] = &[(0, -512), (2048, -512), (2048, 1536)];

#[rustfmt::skip]
const PLACES: [(&str, &[Row]); 5] = [
    ("the corners of its convex hull: the em box, with a corner on an edge or just inside", &[
        (&[(0, 1536), (2048, 1536), (0, -512), (2048, -512)], Ok(BOX)),
        (&[(1024, -512), (0, 1536), (2048, 1536), (0, -512), (2048, -512)], Ok(BOX)),
        (&[(0, 1536), (2048, 1536), (0, -512), (2048, -512), (1024, -511)], Ok(BOX)),
        (&[(0, 1535), (0, 1536), (1, 1536), (2048, 1536), (0, -511), (0, -512), (2047, -512), (2048, -512)], Ok(BOX)),
    ]),
    ("the corners of its convex hull: beside the em box's diagonal, on it and beyond it by one unit", &[
        (&[(2048, 1536), (1025, 512), (2048, -512), (0, -512)], Ok(HALF)),
        (&[(2048, 1536), (1024, 512), (2048, -512), (0, -512)], Ok(HALF)),
        (&[(2048, 1536), (1023, 512), (2048, -512), (0, -512)], Ok(&[(0, -512), (2048, -512), (2048, 1536), (1023, 512)])),
        (&[(2048, 1536), (1024, 513), (2048, -512), (0, -512)], Ok(&[(0, -512), (2048, -512), (2048, 1536), (1024, 513)])),
    ]),
    ("no three in a row: one unit beside a long row is none", &[
        (&[(0, 0), (1024, 1), (2048, 0)], Ok(&[(0, 0), (2048, 0), (1024, 1)])),
        (&[(0, 0), (1024, -1), (2048, 0)], Ok(&[(0, 0), (1024, -1), (2048, 0)])),
        (&[(7, -512), (8, 512), (7, 1536)], Ok(&[(7, -512), (8, 512), (7, 1536)])),
        (&[(7, -512), (6, 512), (7, 1536)], Ok(&[(6, 512), (7, -512), (7, 1536)])),
        (&[(2047, 1533), (1023, 510), (0, -512)], Ok(&[(0, -512), (1023, 510), (2047, 1533)])),
        (&[(2047, 1533), (1024, 511), (0, -512)], Ok(&[(0, -512), (2047, 1533), (1024, 511)])),
        (&[(0, 0), (1, 0), (2, 0), (3, 1), (4, 0), (5, 0)], Ok(&[(0, 0), (5, 0), (3, 1)])),
        (&[(0, 0), (1, 0), (2, 0), (3, 0), (4, 0), (5, 1)], Ok(&[(0, 0), (4, 0), (5, 1)])),
        (&[(0, 1), (1, 0), (2, 0), (3, 0), (4, 0), (5, 0)], Ok(&[(0, 1), (1, 0), (5, 0)])),
    ]),
    ("from the least corner by x then y: several in the first column and in the last", &[
        (&[(2, 5), (2, 9), (2, 1), (2, 7), (6, 4)], Ok(&[(2, 1), (6, 4), (2, 9)])),
        (&[(6, 5), (6, 9), (6, 1), (6, 7), (2, 4)], Ok(&[(2, 4), (6, 1), (6, 9)])),
        (&[(6, 5), (2, 9), (6, 1), (2, 1), (2, 5), (6, 9), (4, 5)], Ok(&[(2, 1), (6, 1), (6, 9), (2, 9)])),
        (&[(2, 4), (6, 8), (2, 2), (6, 2), (6, 4), (2, 3), (4, 0), (4, 9), (6, 8)], Ok(&[(2, 2), (4, 0), (6, 2), (6, 8), (4, 9), (2, 4)])),
        (&[(3, 1), (2, 1), (3, 0), (2, 0)], Ok(&[(2, 0), (3, 0), (3, 1), (2, 1)])),
        (&[(3, 1), (3, 0), (2, 0)], Ok(&[(2, 0), (3, 0), (3, 1)])),
        (&[(2, 1), (3, 0), (2, 0)], Ok(&[(2, 0), (3, 0), (2, 1)])),
    ]),
    ("the corners of its convex hull: a later corner undoes those before it", &[
        (&[(0, 0), (1, -3), (2, -5), (3, -6), (5, -7), (6, -512)], Ok(&[(0, 0), (6, -512), (5, -7)])),
        (&[(0, 10), (1, 6), (2, 3), (3, 1), (4, 0), (4, -512)], Ok(&[(0, 10), (4, -512), (4, 0)])),
        (&[(4, 1536), (0, 10), (1, 14), (2, 17), (3, 19), (4, 20)], Ok(&[(0, 10), (4, 20), (4, 1536)])),
    ]),
];

#[rustfmt::skip]
const CHECKS: [(&str, &[Row]); 2] = [
    ("Refusals are the engine's: 3, a corner outside the em box", &[
        (&[(-1, 0)], Err(3)),
        (&[(2049, 0)], Err(3)),
        (&[(0, -513)], Err(3)),
        (&[(0, 1537)], Err(3)),
        (&[(0, 0), (10, 0), (10, 10), (-1, 5)], Err(3)),
        (&[(2049, 5), (0, 0), (10, 0), (10, 10)], Err(3)),
        (&[(0, 0), (10, 0), (5, 1537), (10, 10)], Err(3)),
        (&[(0, 0), (10, 0), (5, -513), (10, 10)], Err(3)),
        (&[(-32_768, 32_767)], Err(3)),
        (&[(7, 7), (32_767, -32_768), (7, 7)], Err(3)),
        (&[(2049, 512), (2049, 0), (2049, 1024)], Err(3)),
        (&[(-1, 0), (-1, 0), (-1, 0)], Err(3)),
        (&[(1001, 751), (1001, -251)], Ok(&[(1001, -251), (1001, 751)])),
        (&[(0, -512), (2048, -512), (2048, 1536), (0, 1536), (1024, 1537)], Err(3)),
        (&[(0, -512), (2048, -512), (2048, 1536), (0, 1536), (2049, 512)], Err(3)),
    ]),
    ("Refusals are the engine's: 5, no corner", &[
        (&[], Err(5)),
    ]),
];

/// Three points in a row in every direction, and triangles, in every order.
fn in_every_order() -> Vec<Reduction> {
    let rows: [[Pair; 3]; 9] = [
        [(0, 0), (2, 0), (4, 0)],
        [(3, -2), (3, 0), (3, 1)],
        [(0, 0), (1, 1), (2, 2)],
        [(0, 2), (1, 1), (2, 0)],
        [(0, -512), (1, 0), (3, 1024)],
        [(0, 7), (2, 1), (3, -2)],
        [(0, 5), (9, 6), (27, 8)],
        [(100, 5), (1024, 4), (1948, 3)],
        [(0, -512), (400, -112), (2048, 1536)],
    ];
    let triangles: [[Pair; 3]; 5] = [
        [(0, 0), (4, 0), (2, 3)],
        [(0, 0), (3, 2), (0, 4)],
        [(0, 2), (3, 0), (3, 4)],
        [(0, 4), (2, 1), (5, 4)],
        [(0, -512), (2048, -509), (1, 1536)],
    ];
    let all_ways = |says: &'static str, three: &[Pair; 3], gives: &[Pair]| -> Vec<Reduction> {
        orders(&points(three)).iter().map(|list| reduction(says, flat(list), Ok(gives))).collect()
    };
    let of_row = |three: &[Pair; 3]| all_ways("A row keeps its two ends, the least first", three, &[three[0], three[2]]);
    let of_triangle = |three: &[Pair; 3]| all_ways("counterclockwise from the least corner by x then y", three, three);
    rows.iter().flat_map(of_row).chain(triangles.iter().flat_map(of_triangle)).collect()
}

/// The letters of document 01, A to K.
fn letters() -> impl Iterator<Item = Reduction> {
    let kept: [&[Pair]; 11] = [
        &[(0, 0)],
        &[(0, 0), (3, 0)],
        &[(0, 0), (4, 0)],
        SQUARE,
        &[(0, 0), (6, 0), (0, 8)],
        &[(0, 0), (4, 0), (2, 3)],
        &[(0, 0), (10, 0), (5, 1)],
        &[(7, 7)],
        &[(0, 0), (2, 2)],
        &[(0, 0), (4, 0)],
        &[(0, -250), (1000, -250), (1000, 750), (0, 750)],
    ];
    let says = "Reduce a corner list to the corners of its convex hull: the letters to try";
    LETTERS.iter().zip(kept).map(move |(letter, kept)| reduction(says, flat(&points(letter.list)), Ok(kept)))
}

/// Short lists of an odd length, whatever their numbers are.
fn lengths() -> impl Iterator<Item = Reduction> {
    let lists: [&[i16]; 7] =
        [&[5], &[2049], &[0, 0, 5], &[0, 0, 2049], &[-1, 0, 0], &[0, 0, 10, 0, 10, 10, 5], &[0, 0, 10, 0, 2049, 10, 5]];
    let says = "Refusals are the engine's: 9, a corner list of odd length, first";
    lists.into_iter().map(move |list| reduction(says, list.to_vec(), Err(9)))
}

/// The places by turns, up to so many numbers.
pub fn by_turns(places: &[Pair], numbers: usize) -> Vec<i16> {
    flat(&points(places)).into_iter().cycle().take(numbers).collect()
}

/// Lists of about 4,096 points on one to four places, at times with another number behind or a point outside the em box.
fn long() -> Vec<Reduction> {
    let many = "They go to the front of the list, the rest of the list becomes zeros: 4,096 corners on few places";
    let checks = "Refusals are the engine's: 9, 5, 4, 3";
    let row: &[Pair] = &[(900, 90), (100, 10), (500, 50)];
    vec![
        reduction(many, by_turns(&[(3, -4)], 8_192), Ok(&[(3, -4)])),
        reduction(many, by_turns(&[(2048, 1536), (0, -512)], 8_192), Ok(&[(0, -512), (2048, 1536)])),
        reduction(many, by_turns(row, 8_192), Ok(&[(100, 10), (900, 90)])),
        reduction(many, by_turns(&[(4, 7), (8, 3), (2, 1)], 8_192), Ok(TRIANGLE)),
        reduction(many, by_turns(&[(10, 10), (0, 0), (10, 0), (0, 10)], 8_192), Ok(SQUARE)),
        reduction(many, [by_turns(&[(5, 5)], 8_190), vec![4, 6]].concat(), Ok(&[(4, 6), (5, 5)])),
        reduction(checks, by_turns(SQUARE, 8_193), Err(9)),
        reduction(checks, by_turns(SQUARE, 8_194), Err(4)),
        reduction(checks, vec![-1; 8_194], Err(4)),
        reduction(checks, vec![-1; 8_195], Err(9)),
        reduction(checks, [by_turns(SQUARE, 8_192), vec![2049, 0]].concat(), Err(4)),
        reduction(checks, [by_turns(SQUARE, 8_190), vec![2049, 0]].concat(), Err(3)),
        reduction(checks, by_turns(SQUARE, 8_200), Err(4)),
    ]
}

/// 4,096 points all along the em box's edges: with its corners, and without them, where each edge keeps its two ends.
fn around_the_box() -> [Reduction; 2] {
    let says = "no three in a row: corners all along the em box's edges";
    let cut: &[Pair] = &[(0, -511), (1, -512), (2047, -512), (2048, -511), (2048, 1535), (2047, 1536), (1, 1536), (0, 1535)];
    [(0, BOX), (1, cut)].map(|(from, kept)| reduction(says, by_turns(&along_the_box(from), 8_192), Ok(kept)))
}

/// The places all along the em box's edges, two units apart, counterclockwise from so far behind its least corner.
pub fn along_the_box(from: i16) -> Vec<Pair> {
    let steps = (from..2048).step_by(2);
    let below = steps.clone().map(|t| (t, -512)).chain(steps.clone().map(|t| (2048, t - 512)));
    let above = steps.clone().map(|t| (2048 - t, 1536)).chain(steps.map(|t| (0, 1536 - t)));
    below.chain(above).collect()
}
