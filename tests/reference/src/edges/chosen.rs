//! Chosen points on the boundary (02, item 6): the disk where there is one, and the checks in their order.

use super::{Answer, Edge};
use crate::chosen::Chosen;
use crate::engine::flat;
use crate::geometry::Point;
use crate::inputs::ChosenCase;
use crate::letters::points;

/// X Y E S, or the number of the refusal.
type Choice = Edge<ChosenCase, Answer<[i128; 4]>>;

type Pair = (i16, i16);

pub fn choices() -> Vec<Choice> {
    let rows = [&DISKS[..], &PLACES, &REFUSALS].concat();
    let rows = rows.into_iter().flat_map(|(says, rows)| rows.iter().map(move |row| (says, row)));
    let of_points = rows.map(|(says, (chosen, list, gives))| choice(says, chosen, flat(&points(list)), *gives));
    of_points.chain(numbers()).collect()
}

/// One or two chosen points. Behind one stands a point that is in no list.
fn choice(says: &'static str, chosen: &[Pair], list: Vec<i16>, gives: Answer<[i128; 4]>) -> Choice {
    let chosen = match points(chosen)[..] {
        [a] => Chosen::One(a),
        [a, b] => Chosen::Two(a, b),
        _ => unreachable!("one or two points are chosen"),
    };
    Edge { says, given: ChosenCase { chosen, unused: Point::new(2049, 1537), list }, gives }
}

/// The chosen points, the list, and what is given.
type Row = (&'static [Pair], &'static [Pair], Answer<[i128; 4]>);

/// Letter G of document 01, letter J, and the square that letter D is.
const G: &[Pair] = &[(0, 0), (10, 0), (5, 1)];
const ROW: &[Pair] = &[(0, 0), (2, 0), (4, 0)];
const SQUARE: &[Pair] = &[(0, 0), (10, 0), (0, 10), (10, 10)];

/// The twelve points at distance 5 from (10, 10).
#[rustfmt::skip]
const CIRCLE: &[Pair] = &[
    (15, 10), (14, 13), (13, 14), (10, 15), (7, 14), (6, 13), (5, 10), (6, 7), (7, 6), (10, 5), (13, 6), (14, 7),
];

/// Two points far apart across the em box, and between them one half a unit of area beside their row.
const THIN: &[Pair] = &[(0, -512), (1023, 510), (2047, 1533)];

/// Nearly half of the em box.
const WIDE: &[Pair] = &[(0, -512), (2048, -509), (1, 1536)];

#[rustfmt::skip]
const DISKS: [(&str, &[Row]); 6] = [
    ("the smallest disk that holds the list and has the chosen corners on its rim", &[
        (&[(5, 1)], G, Ok([5, -12, 1, 169])),
        (&[(0, 0)], G, Ok([5, 0, 1, 25])),
        (&[(10, 0)], G, Ok([5, 0, 1, 25])),
        (&[(0, 0), (10, 0)], G, Ok([5, 0, 1, 25])),
        (&[(0, 0), (5, 1)], G, Ok([5, -12, 1, 169])),
        (&[(5, 1), (0, 0)], G, Ok([5, -12, 1, 169])),
        (&[(5, 1)], &[(5, -3), (0, 0), (5, 1), (10, 0)], Ok([5, -12, 1, 169])),
        (&[(5, 1)], &[(5, 1), (0, 0), (5, 1), (10, 0), (0, 0), (5, 1)], Ok([5, -12, 1, 169])),
        (&[(0, 0)], &[(10, 0), (5, 6), (0, 0), (5, -6)], Ok([61, 0, 10, 3_721])),
        (&[(5, 6), (5, -6)], &[(10, 0), (5, 6), (0, 0), (5, -6)], Ok([5, 0, 1, 36])),
        (&[(0, 0), (10, 0)], &[(10, 0), (5, 6), (0, 0), (5, -4)], Ok([60, 11, 12, 3_721])),
    ]),
    ("Choosing one corner twice counts as choosing it once", &[
        (&[(5, 1), (5, 1)], G, Ok([5, -12, 1, 169])),
        (&[(0, 0), (0, 0)], G, Ok([5, 0, 1, 25])),
        (&[(2, 0), (2, 0)], ROW, Err(13)),
        (&[(7, 7), (7, 7)], ROW, Err(12)),
        (&[(7, 7), (7, 7)], &[(7, 7)], Ok([7, 7, 1, 0])),
    ]),
    ("a corner alone is its own disk, however often the list has it", &[
        (&[(7, 7)], &[(7, 7)], Ok([7, 7, 1, 0])),
        (&[(0, -512)], &[(0, -512)], Ok([0, -512, 1, 0])),
        (&[(2048, 1536)], &[(2048, 1536), (2048, 1536), (2048, 1536)], Ok([2048, 1536, 1, 0])),
    ]),
    ("X, Y and E obey the divisor rule", &[
        (&[(0, 0)], &[(0, 0), (3, 0)], Ok([3, 0, 2, 9])),
        (&[(0, 0), (4, 0)], &[(4, 0), (0, 0)], Ok([2, 0, 1, 4])),
        (&[(4, 0), (0, 0)], &[(4, 0), (0, 0)], Ok([2, 0, 1, 4])),
        (&[(3, 2)], &[(0, 0), (6, 0), (3, 2)], Ok([12, -5, 4, 169])),
        (&[(2, 3)], &[(0, 0), (4, 0), (2, 3)], Ok([12, 5, 6, 169])),
    ]),
    ("only the same disk equals it: more corners on one rim than settle it", &[
        (&[(0, 0)], SQUARE, Ok([5, 5, 1, 50])),
        (&[(0, 0), (10, 10)], SQUARE, Ok([5, 5, 1, 50])),
        (&[(10, 10), (10, 0)], SQUARE, Ok([5, 5, 1, 50])),
        (&[(13, 14)], CIRCLE, Ok([10, 10, 1, 25])),
        (&[(7, 14), (13, 14)], CIRCLE, Ok([10, 10, 1, 25])),
        (&[(6, 7), (14, 13)], CIRCLE, Ok([10, 10, 1, 25])),
        (&[(13, 14), (7, 14)], &[(10, 5), (13, 14), (10, 15), (7, 14)], Ok([10, 10, 1, 25])),
        (&[(0, 0), (10, 0)], &[(0, 0), (10, 0), (5, 5), (5, -5)], Ok([5, 0, 1, 25])),
    ]),
    ("such a disk exists for both ends of a row, and for either", &[
        (&[(0, 0), (4, 0)], ROW, Ok([2, 0, 1, 4])),
        (&[(4, 0), (0, 0)], ROW, Ok([2, 0, 1, 4])),
        (&[(0, 0)], ROW, Ok([2, 0, 1, 4])),
        (&[(4, 0)], ROW, Ok([2, 0, 1, 4])),
    ]),
];

#[rustfmt::skip]
const PLACES: [(&str, &[Row]); 4] = [
    ("The centre may be outside the em box and S/E² above its limit: on each side of the box", &[
        (&[(0, 0), (1, 0)], &[(0, 0), (1, 0), (2048, 1)], Ok([1, 4_192_257, 2, 17_575_018_754_050])),
        (&[(1, 0)], &[(0, 0), (1, 0), (2048, 1)], Ok([1, 4_192_257, 2, 17_575_018_754_050])),
        (&[(1, 0), (0, 0)], &[(2048, -1), (0, 0), (1, 0)], Ok([1, -4_192_257, 2, 17_575_018_754_050])),
        (&[(1, 500)], &[(0, 0), (1, 500), (1, 501)], Ok([-250_499, 1_001, 2, 62_750_751_002])),
        (&[(2047, 500)], &[(2048, 0), (2047, 500), (2047, 501)], Ok([254_595, 1_001, 2, 62_750_751_002])),
    ]),
    ("S/E² above its limit: the centre some 3,000 million units away, and S above 2⁶⁴", &[
        (&[(1023, 510)], THIN, Ok([-4_280_301_563, 4_284_490_747, 2, 36_677_851_205_986_959_410])),
        (&[(1023, 510), (0, -512)], THIN, Ok([-4_280_301_563, 4_284_490_747, 2, 36_677_851_205_986_959_410])),
        (&[(2047, 1533), (1023, 510)], THIN, Ok([-4_280_301_563, 4_284_490_747, 2, 36_677_851_205_986_959_410])),
    ]),
    ("E of Item 6 goes to 8,388,608: 8,388,602 is near it, and S above 2⁶⁴", &[
        (&[(0, -512)], WIDE, Ok([8_577_370_109, 4_290_778_103, 8_388_602, 147_286_249_292_406_046_810])),
        (&[(2048, -509), (1, 1536)], WIDE, Ok([8_577_370_109, 4_290_778_103, 8_388_602, 147_286_249_292_406_046_810])),
        (&[(0, -512), (2048, -512)], &[(0, -512), (2048, -512), (1, 1536)], Ok([4_194_304, 2_095_105, 4_096, 35_167_204_798_465])),
    ]),
    ("S no longer fits 64 bits (02, item 10): below 2⁶³ and above, below 2⁶⁴ and above", &[
        (&[(1583, 1347)], &[(183, 950), (1583, 1347), (1692, 135)], Ok([3_530_416_535, 2_383_782_281, 3_480_146, 9_223_371_907_131_237_050])),
        (&[(132, -42), (1950, -7)], &[(132, -42), (1723, 874), (1950, -7)], Ok([3_335_589_081, 731_664_755, 3_219_206, 9_223_372_097_824_983_970])),
        (&[(1887, 1423)], &[(544, 557), (1449, -480), (1887, 1423)], Ok([6_656_579_637, 2_191_374_377, 4_352_842, 18_446_741_001_380_373_610])),
        (&[(2007, 864), (178, -143)], &[(178, -143), (2007, 864), (2023, -249)], Ok([4_631_689_451, 1_209_566_027, 4_103_578, 18_446_744_364_319_027_250])),
        (&[(2023, -249)], &[(178, -143), (2007, 864), (2023, -249), (1400, 300)], Ok([4_631_689_451, 1_209_566_027, 4_103_578, 18_446_744_364_319_027_250])),
    ]),
];

#[rustfmt::skip]
const REFUSALS: [(&str, &[Row]); 6] = [
    ("13 exactly if no such disk exists: a chosen corner inside, within an edge or within a row", &[
        (&[(5, 5)], &[(0, 0), (10, 0), (5, 5), (0, 10), (10, 10)], Err(13)),
        (&[(1, 1)], &[(1, 1), (0, 0), (10, 0), (0, 10), (10, 10)], Err(13)),
        (&[(0, 0), (1, 1)], &[(1, 1), (0, 0), (10, 0), (0, 10), (10, 10)], Err(13)),
        (&[(5, 0)], &[(0, 0), (10, 0), (5, 10), (5, 0)], Err(13)),
        (&[(0, 0), (5, 0)], &[(0, 0), (10, 0), (5, 10), (5, 0)], Err(13)),
        (&[(2, 0)], ROW, Err(13)),
        (&[(2, 0), (4, 0)], ROW, Err(13)),
        (&[(4, 0), (2, 0)], ROW, Err(13)),
        (&[(1, 1)], &[(0, 0), (1, 1), (1, 1), (2, 2)], Err(13)),
    ]),
    ("13 exactly if no such disk exists: for either corner, but not for both", &[
        (&[(0, 0), (10, 0)], &[(10, 0), (5, 6), (0, 0), (5, -6)], Err(13)),
        (&[(0, 0), (10, 0)], &[(10, 0), (5, 6), (0, 0), (5, -5)], Err(13)),
        (&[(0, 0), (10, 0)], &[(0, 0), (10, 0), (5, 5), (5, -5), (4, 5)], Err(13)),
    ]),
    ("12 if a chosen corner, even one outside the em box, isn't in it", &[
        (&[(7, 7)], ROW, Err(12)),
        (&[(0, 0), (7, 7)], ROW, Err(12)),
        (&[(7, 7), (0, 0)], ROW, Err(12)),
        (&[(2049, 0)], ROW, Err(12)),
        (&[(-1, 0)], ROW, Err(12)),
        (&[(0, 1537)], ROW, Err(12)),
        (&[(0, -513)], ROW, Err(12)),
        (&[(0, 0), (32_767, -32_768)], ROW, Err(12)),
        (&[(-32_768, 32_767), (0, 0)], ROW, Err(12)),
    ]),
    ("12 if a chosen corner isn't in it: one of the em box, as far out as the list's", &[
        (&[(1001, 0)], &[(1001, 1), (1000, 0), (2048, 1536)], Err(12)),
        (&[(1001, 751), (2048, -512)], &[(2048, 1536), (1001, 751), (0, -512)], Err(12)),
    ]),
    ("12 if a chosen corner isn't in it: not its x beside another's y, nor its two numbers exchanged", &[
        (&[(3, 9)], &[(3, 5), (9, 9)], Err(12)),
        (&[(9, 5)], &[(3, 5), (9, 9)], Err(12)),
        (&[(5, 3)], &[(3, 5), (9, 9)], Err(12)),
        (&[(5, 9)], &[(3, 5), (9, 9)], Err(12)),
    ]),
    ("the engine's own on the list, then 12 .., then 13", &[
        (&[(7, 7)], &[(0, 0), (2049, 0)], Err(3)),
        (&[(0, 0)], &[(0, 0), (0, 1537)], Err(3)),
        (&[(2049, 0)], &[(0, 0), (2049, 0)], Err(3)),
        (&[(0, 0)], &[(0, 0), (-1, 0)], Err(3)),
        (&[(2, 0)], &[(0, 0), (2, 0), (4, 0), (0, -513)], Err(3)),
        (&[(2, 0), (9, 9)], ROW, Err(12)),
        (&[(9, 9), (2, 0)], ROW, Err(12)),
    ]),
];

/// Lists of an odd length, with no point and with too many.
fn numbers() -> Vec<Choice> {
    let says = "the engine's own on the list: 9, 5, 4, 3";
    let missing: &[Pair] = &[(7, 7)];
    vec![
        choice(says, missing, vec![0, 0, 5], Err(9)),
        choice(says, missing, vec![2049], Err(9)),
        choice(says, &[(0, 0)], vec![0, 0, 5], Err(9)),
        choice(says, missing, vec![-1; 8_195], Err(9)),
        choice(says, missing, vec![], Err(5)),
        choice(says, &[(7, 7), (7, 7)], vec![], Err(5)),
        choice(says, missing, vec![-1; 8_194], Err(4)),
        choice(says, &[(1, 1)], vec![1; 8_194], Err(4)),
        choice(says, &[(1, 1)], vec![1; 8_192], Ok([1, 1, 1, 0])),
    ]
}
