//! Traced points (02, item 7): the disk of their squares, and the checks in their order.

use super::{Answer, Edge};
use crate::letters::LETTERS;

/// X Y E S, or the number of the refusal.
type Tracing = Edge<Vec<i16>, Answer<[i128; 4]>>;

/// x, y, t.
type Triple = (i16, i16, i16);

pub fn tracings() -> Vec<Tracing> {
    let rows = [&DISKS[..], &SQUARES, &CHECKS].concat();
    let rows = rows.into_iter().flat_map(|(says, rows)| rows.iter().map(move |row| (says, row)));
    let of_triples = rows.map(|(says, (list, gives))| Edge { says, given: numbers_of(list), gives: *gives });
    of_triples.chain(letters()).chain(lengths()).chain(long()).collect()
}

fn numbers_of(list: &[Triple]) -> Vec<i16> {
    list.iter().flat_map(|&(x, y, t)| [x, y, t]).collect()
}

/// The list, and what is given.
type Row = (&'static [Triple], Answer<[i128; 4]>);

/// The square from (0, 0) to (100, 100): the squared radius of its disk is 5,000, which is 50² + 50² and 10² + 70².
const BIG: Triple = (50, 50, 50);

#[rustfmt::skip]
const DISKS: [(&str, &[Row]); 6] = [
    ("the smallest disk that holds every corner wherever it may really be within its square: one", &[
        (&[(7, 7, 0)], Ok([7, 7, 1, 0])),
        (&[(1, 1, 1)], Ok([1, 1, 1, 2])),
        (&[(500, 250, 10)], Ok([500, 250, 1, 200])),
        (&[(1998, 1486, 50)], Ok([1998, 1486, 1, 5_000])),
        (&[(50, -462, 50)], Ok([50, -462, 1, 5_000])),
    ]),
    ("the smallest disk that holds every corner wherever it may really be within its square: two or three", &[
        (&[(10, 0, 3), (20, 0, 3)], Ok([15, 0, 1, 73])),
        (&[(0, 0, 0), (10, 0, 2)], Ok([37, 0, 6, 1_369])),
        (&[(5, 5, 5), (15, 15, 5)], Ok([10, 10, 1, 200])),
        (&[(5, 15, 5), (15, 5, 5)], Ok([10, 10, 1, 200])),
        (&[(10, 10, 1), (14, 10, 1), (12, 13, 1)], Ok([120, 107, 10, 1_189])),
        (&[(500, 250, 0), (500, 250, 50), (500, 250, 20)], Ok([500, 250, 1, 5_000])),
    ]),
    ("with a t of its own", &[
        (&[(10, 0, 1), (20, 0, 2)], Ok([203, 0, 13, 7_565])),
        (&[(10, 0, 2), (20, 0, 1)], Ok([187, 0, 13, 7_565])),
        (&[(20, 0, 1), (10, 0, 2)], Ok([187, 0, 13, 7_565])),
        (&[(10, 10, 1), (10, 20, 2)], Ok([130, 203, 13, 7_565])),
        (&[(10, -20, 1), (10, -10, 2)], Ok([130, -187, 13, 7_565])),
    ]),
    ("within t units .. in x and in y: with t for a radius, 25, 64 and 31 0 2 169 would be given", &[
        (&[(10, 10, 5)], Ok([10, 10, 1, 50])),
        (&[(20, 0, 3), (10, 0, 3)], Ok([15, 0, 1, 73])),
        (&[(20, 0, 2), (10, 0, 1)], Ok([203, 0, 13, 7_565])),
    ]),
    ("It holds every possible tracing, and no smaller disk does: the whole em box", &[
        (&[(1024, 512, 0), (50, -462, 50), (1998, -462, 50), (50, 1486, 50), (1998, 1486, 50)], Ok([1024, 512, 1, 2_097_152])),
        (&[(1998, 1486, 50), (50, -462, 50)], Ok([1024, 512, 1, 2_097_152])),
        (&[(1, 1535, 1), (2048, -512, 0)], Ok([1024, 512, 1, 2_097_152])),
    ]),
    ("It holds every possible tracing, and no smaller disk does: E goes to 8,388,608, and S is above 2⁶⁴", &[
        (&[(0, -512, 0), (2048, -509, 0), (1, 1536, 0)], Ok([8_577_370_109, 4_290_778_103, 8_388_602, 147_286_249_292_406_046_810])),
        (&[(2, -510, 2), (2046, -507, 2), (3, 1534, 2)], Ok([8_577_370_109, 4_290_778_103, 8_388_602, 147_286_249_292_406_046_810])),
    ]),
];

#[rustfmt::skip]
const SQUARES: [(&str, &[Row]); 3] = [
    ("no smaller disk does: a big square decides alone, with others inside it", &[
        (&[BIG], Ok([50, 50, 1, 5_000])),
        (&[(60, 40, 3), BIG, (20, 80, 0)], Ok([50, 50, 1, 5_000])),
        (&[(1, 1, 1), (99, 99, 1), (50, 50, 49), BIG], Ok([50, 50, 1, 5_000])),
        (&[BIG, BIG, (100, 0, 0)], Ok([50, 50, 1, 5_000])),
    ]),
    ("no smaller disk does: a square inside another's disk changes nothing, even with a corner on its boundary", &[
        (&[BIG, (50, 110, 5)], Ok([50, 50, 1, 5_000])),
        (&[(110, 50, 5), BIG], Ok([50, 50, 1, 5_000])),
        (&[BIG, (55, 115, 5)], Ok([50, 50, 1, 5_000])),
        (&[(45, -15, 5), BIG, (115, 45, 5)], Ok([50, 50, 1, 5_000])),
    ]),
    ("It holds every possible tracing: one unit farther it changes", &[
        (&[BIG, (55, 116, 5)], Ok([12_100, 12_241, 242, 296_252_081])),
        (&[(116, 55, 5), BIG], Ok([12_241, 12_100, 242, 296_252_081])),
    ]),
];

#[rustfmt::skip]
const CHECKS: [(&str, &[Row]); 8] = [
    ("t units, 0 to 50; 14 for a t outside", &[
        (&[(500, 250, 0)], Ok([500, 250, 1, 0])),
        (&[(500, 250, 50)], Ok([500, 250, 1, 5_000])),
        (&[(500, 250, -1)], Err(14)),
        (&[(500, 250, 51)], Err(14)),
        (&[(500, 250, -32_768)], Err(14)),
        (&[(500, 250, 32_767)], Err(14)),
        (&[(0, 0, 0), (500, 250, 50), (500, 250, 51)], Err(14)),
        (&[(500, 250, -1), (0, 0, 0)], Err(14)),
    ]),
    ("a square that leaves the em box is 3: one that touches an edge does not", &[
        (&[(10, 0, 10)], Ok([10, 0, 1, 200])),
        (&[(2038, 0, 10)], Ok([2038, 0, 1, 200])),
        (&[(500, -502, 10)], Ok([500, -502, 1, 200])),
        (&[(500, 1526, 10)], Ok([500, 1526, 1, 200])),
        (&[(50, 0, 50)], Ok([50, 0, 1, 5_000])),
        (&[(1998, 0, 50)], Ok([1998, 0, 1, 5_000])),
        (&[(500, -462, 50)], Ok([500, -462, 1, 5_000])),
        (&[(500, 1486, 50)], Ok([500, 1486, 1, 5_000])),
        (&[(0, 0, 0), (2048, 0, 0)], Ok([1024, 0, 1, 1_048_576])),
        (&[(0, -512, 0), (0, 1536, 0)], Ok([0, 512, 1, 1_048_576])),
        (&[(1001, 751, 0), (1001, -251, 0)], Ok([1001, 250, 1, 251_001])),
        (&[(991, 741, 10), (991, -241, 10)], Ok([991, 250, 1, 251_101])),
    ]),
    ("a square that leaves the em box is 3: it passes an edge by one", &[
        (&[(9, 0, 10)], Err(3)),
        (&[(2039, 0, 10)], Err(3)),
        (&[(500, -503, 10)], Err(3)),
        (&[(500, 1527, 10)], Err(3)),
        (&[(49, 0, 50)], Err(3)),
        (&[(1999, 0, 50)], Err(3)),
        (&[(500, -463, 50)], Err(3)),
        (&[(500, 1487, 50)], Err(3)),
        (&[(0, 0, 1)], Err(3)),
        (&[(500, 250, 50), (7, 7, 0), (2048, 0, 1)], Err(3)),
    ]),
    ("a square that leaves the em box is 3: the point is outside itself", &[
        (&[(-1, 0, 0)], Err(3)),
        (&[(2049, 0, 0)], Err(3)),
        (&[(0, -513, 0)], Err(3)),
        (&[(0, 1537, 0)], Err(3)),
        (&[(7, 7, 0), (-1, 0, 1)], Err(3)),
        (&[(32_767, -32_768, 50)], Err(3)),
        (&[(-32_768, 32_767, 50)], Err(3)),
        (&[(32_767, 250, 50)], Err(3)),
        (&[(-32_768, 250, 50)], Err(3)),
        (&[(500, 32_767, 50)], Err(3)),
        (&[(500, -32_768, 50)], Err(3)),
    ]),
    ("14 for a t outside 0 to 50, before 3 for the same corner", &[
        (&[(32_767, -32_768, 51)], Err(14)),
        (&[(-32_768, 32_767, -1)], Err(14)),
        (&[(-1, 0, 51)], Err(14)),
        (&[(2049, 0, -1)], Err(14)),
        (&[(500, 1537, -1)], Err(14)),
        (&[(50, 0, 51)], Err(14)),
        (&[(7, 7, 7), (2049, 1537, 32_767), (8, 8, 8)], Err(14)),
    ]),
    ("the first faulty corner decides: 3 before 14 in a later one", &[
        (&[(0, 0, 1), (500, 250, 51)], Err(3)),
        (&[(2049, 0, 0), (500, 250, -1)], Err(3)),
        (&[(7, 7, 0), (500, 1537, 50), (7, 7, 0), (500, 250, 51)], Err(3)),
        (&[(32_767, 0, 50), (2049, 1537, 51)], Err(3)),
    ]),
    ("the first faulty corner decides: 14 before 3 in a later one", &[
        (&[(500, 250, 51), (0, 0, 1)], Err(14)),
        (&[(500, 250, -1), (2049, 0, 0)], Err(14)),
        (&[(7, 7, 0), (500, 250, 51), (7, 7, 0), (500, 1537, 50)], Err(14)),
        (&[(2049, 1537, 51), (32_767, 0, 50)], Err(14)),
    ]),
    ("9, 5 and 4 first", &[
        (&[], Err(5)),
    ]),
];

/// The letters of document 01 with every t zero.
fn letters() -> impl Iterator<Item = Tracing> {
    LETTERS.iter().map(|letter| {
        let given = letter.list.iter().flat_map(|&(x, y)| [x, y, 0]).collect();
        let (x, y, e, s) = letter.disk;
        Edge { says: "With every t zero the disk is the plain one", given, gives: Ok([x, y, e, s.cast_signed()]) }
    })
}

/// Short lists of a wrong length, whatever their numbers are.
fn lengths() -> impl Iterator<Item = Tracing> {
    let lists: [&[i16]; 10] = [
        &[5],
        &[5, 5],
        &[5, 5, 5, 5],
        &[5, 5, 5, 5, 5],
        &[2049],
        &[500, 32_767],
        &[500, 250, 51, 0],
        &[500, 250, 50, 2049],
        &[500, 250, -1, 2049, 1537],
        &[0, 0, 1, 500, 250],
    ];
    let says = "The list goes by threes, x, y, t, any other length being 9";
    lists.into_iter().map(move |list| Edge { says, given: list.to_vec(), gives: Err(9) })
}

/// Lists of about 1,024 points: the point (10, 10) with the tolerance 10 again and again, at times with another behind.
fn long() -> [Tracing; 11] {
    let says = "it has at most 1,024 traced corners, else 4; 9, 5 and 4 first";
    let many = |points: usize, last: &[i16]| [&vec![10; 3 * points], last].concat();
    let disk = Ok([10, 10, 1, 200]);
    [
        (many(1_023, &[]), disk),
        (many(1_024, &[]), disk),
        (many(1_023, &[500, 250, 51]), Err(14)),
        (many(1_023, &[9, 0, 10]), Err(3)),
        (many(1_025, &[]), Err(4)),
        (many(1_024, &[500, 250, 51]), Err(4)),
        (many(1_024, &[2049, 0, 0]), Err(4)),
        (vec![-1; 3_075], Err(4)),
        (many(1_024, &[10]), Err(9)),
        (many(1_024, &[10, 10]), Err(9)),
        (vec![-1; 3_076], Err(9)),
    ]
    .map(|(given, gives)| Edge { says, given, gives })
}
