//! The procedure with two points fixed (02, item 5): where a disk holds the list with both on its boundary, where its centre is far
//! away, and where there is none.

use super::Edge;
use crate::geometry::Point;
use crate::inputs::FixedCase;
use crate::letters::points;

/// X Y E S, or none where three points in a row have no circle; and the list left.
type Fixing = Edge<FixedCase, (Option<[i128; 4]>, Vec<Point>)>;

type Pair = (i16, i16);

/// The two points, the list, X Y E S and the list left.
type Row = ([Pair; 2], &'static [Pair], Option<[i128; 4]>, &'static [Pair]);

#[rustfmt::skip]
const ROWS: [(&str, &[Row]); 6] = [
    ("for up to 4,096 corners, none included", &[
        ([(0, 0), (4, 0)], &[], Some([2, 0, 1, 4]), &[]),
        ([(4, 0), (0, 0)], &[], Some([2, 0, 1, 4]), &[]),
        ([(0, 0), (3, 0)], &[], Some([3, 0, 2, 9]), &[]),
    ]),
    ("A corner exactly on the rim counted as outside (a trap): it is not, nor is one inside or a fixed corner itself, and none moves", &[
        ([(0, 0), (4, 0)], &[(2, 2), (1, 0)], Some([2, 0, 1, 4]), &[(2, 2), (1, 0)]),
        ([(0, 0), (4, 0)], &[(2, -2), (2, 2)], Some([2, 0, 1, 4]), &[(2, -2), (2, 2)]),
        ([(0, 0), (4, 0)], &[(4, 0), (0, 0), (4, 0)], Some([2, 0, 1, 4]), &[(4, 0), (0, 0), (4, 0)]),
    ]),
    ("disk of the shorter list, test, disk with the corner added, move", &[
        ([(0, 0), (4, 0)], &[(2, 3)], Some([12, 5, 6, 169]), &[(2, 3)]),
        ([(0, 0), (4, 0)], &[(2, 1), (2, 3)], Some([12, 5, 6, 169]), &[(2, 3), (2, 1)]),
        ([(0, 0), (4, 0)], &[(2, 3), (2, 1)], Some([12, 5, 6, 169]), &[(2, 3), (2, 1)]),
        ([(0, 0), (4, 0)], &[(1, 1), (2, 3), (3, 1), (2, 4)], Some([4, 3, 2, 25]), &[(2, 4), (2, 3), (1, 1), (3, 1)]),
    ]),
    ("wherever some disk with both on its rim holds the list: its centre some two million units above them, or below", &[
        ([(0, 0), (1, 0)], &[(2048, 1)], Some([1, 4_192_257, 2, 17_575_018_754_050]), &[(2048, 1)]),
        ([(0, 0), (1, 0)], &[(2048, -1)], Some([1, -4_192_257, 2, 17_575_018_754_050]), &[(2048, -1)]),
        ([(0, -512), (1, -512)], &[(1024, 0), (2048, -511)], Some([1, 4_191_233, 2, 17_575_018_754_050]), &[(2048, -511), (1024, 0)]),
    ]),
    ("E goes to 8,388,608 .. S no longer fits 64 bits (02, item 10): nearly half of the em box, and nearly in a row", &[
        ([(0, -512), (2048, -509)], &[(1, 1536)], Some([8_577_370_109, 4_290_778_103, 8_388_602, 147_286_249_292_406_046_810]), &[(1, 1536)]),
        ([(1, 1536), (2048, -509)], &[(1024, 512), (0, -512)], Some([8_577_370_109, 4_290_778_103, 8_388_602, 147_286_249_292_406_046_810]), &[(0, -512), (1024, 512)]),
        ([(0, -512), (1023, 510)], &[(2047, 1533)], Some([-4_280_301_563, 4_284_490_747, 2, 36_677_851_205_986_959_410]), &[(2047, 1533)]),
        ([(2047, 1533), (1023, 510)], &[(0, 1536), (0, -512)], Some([-4_280_301_563, 4_284_490_747, 2, 36_677_851_205_986_959_410]), &[(0, -512), (0, 1536)]),
    ]),
    ("wherever some disk ..: none here; the text's steps all the same, and with three in a row no circle", &[
        ([(0, 0), (10, 0)], &[(5, 6), (5, -6)], Some([60, -11, 12, 3_721]), &[(5, -6), (5, 6)]),
        ([(0, 0), (10, 0)], &[(5, -6), (5, 6)], Some([60, 11, 12, 3_721]), &[(5, 6), (5, -6)]),
        ([(0, 0), (4, 0)], &[(8, 0), (2, 9)], None, &[(8, 0), (2, 9)]),
        ([(0, 0), (4, 0)], &[(2, 3), (8, 0), (2, -9)], None, &[(8, 0), (2, 3), (2, -9)]),
    ]),
];

pub fn fixings() -> Vec<Fixing> {
    let rows = ROWS.iter().flat_map(|(says, rows)| rows.iter().map(move |row| (says, row)));
    let edge = |(says, (fixed, list, disk, left)): (&&'static str, &Row)| {
        let [a, b] = fixed.map(|(x, y)| Point::new(x, y));
        Edge { says, given: FixedCase { a, b, points: points(list) }, gives: (*disk, points(left)) }
    };
    rows.map(edge).collect()
}
