//! The two points of a list that are farthest apart (document 02, item 11), by definition and not through the hull; drawn lists for it are in
//! `stretch/drawn.rs`.
//!
//! Every two places of the list make a pair, written in rising order; a place makes one with itself, so that a single point has a pair. Of
//! the pairs with the greatest squared distance the least is taken, compared by the first point, then by the second.

use crate::engine::accepted_points;
use crate::geometry::Point;
use crate::refusal::Refusal;
use std::cmp::Reverse;

mod drawn;

pub use drawn::{draw, long};

/// Two points in rising order, and their squared distance (document 02: W).
#[derive(Clone, Copy, PartialEq, Eq, Debug)]
pub struct Stretch {
    pub a: Point,
    pub b: Point,
    pub w: u64,
}

impl Stretch {
    fn between(p: Point, q: Point) -> Stretch {
        Stretch { a: p.min(q), b: p.max(q), w: square_distance(p, q) }
    }
}

fn square_distance(p: Point, q: Point) -> u64 {
    u64::from(p.x.abs_diff(q.x)).pow(2) + u64::from(p.y.abs_diff(q.y)).pow(2)
}

/// The two points of the list, x and y by turns, that are farthest apart, of equals the least pair: refusals 9, 5, 4, 3.
pub fn widest_stretch(list: &[i16]) -> Result<Stretch, Refusal> {
    accepted_points(list).map(|points| widest(&points))
}

/// The same for points, at least one.
fn widest(points: &[Point]) -> Stretch {
    let stretches = pairs(points).map(|(p, q)| Stretch::between(p, q));
    stretches.min_by_key(|stretch| (Reverse(stretch.w), stretch.a, stretch.b)).expect("a list has a point")
}

/// The points of every two places, and of every place with itself, in the order of the list.
fn pairs(points: &[Point]) -> impl Iterator<Item = (Point, Point)> + '_ {
    points.iter().enumerate().flat_map(|(i, &p)| points[i..].iter().map(move |&q| (p, q)))
}

#[cfg(test)]
mod tests {
    use super::*;
    use crate::damage::point_lists::tests::accepted_lists;
    use crate::edges;
    use crate::engine::{flat, points_of};
    use crate::geometry::Disk;
    use crate::hull::{self, corners};
    use crate::limits::EM;
    use crate::lists::{self, turned, Kind};
    use crate::random::Random;
    use crate::smallest::smallest_disk;
    use crate::support::distinct;

    /// Drawn for the widest stretch and for the hull, short and long; the plain ones have up to 4,096 points.
    fn every_list(seed: u64) -> Vec<Vec<Point>> {
        let drawn = [(1_000, 5), (2_000, 12), (2_000, 60), (100, 1_100)].map(|(count, longest)| {
            let for_hull = accepted_lists(hull::draw, seed, count / 4, longest);
            [accepted_lists(draw, seed, count, longest), for_hull].concat()
        });
        let long = long().iter().map(|list| points_of(list)).collect();
        let plain = lists::long().into_iter().map(|case| case.points).collect();
        [drawn.concat(), long, plain].concat()
    }

    /// Among the corners of the hull alone: first the greatest distance, then in rising order the first pair that has it.
    fn widest_of_corners(points: &[Point]) -> Stretch {
        let corners = distinct(&corners(points));
        let w = corners.iter().flat_map(|&a| corners.iter().map(move |&b| square_distance(a, b))).max().unwrap();
        let mut pairs = corners.iter().flat_map(|&a| corners.iter().map(move |&b| (a, b)));
        let (a, b) = pairs.find(|&(a, b)| square_distance(a, b) == w).unwrap();
        Stretch { a, b, w }
    }

    #[test]
    fn the_corners_of_the_hull_lead_to_the_same() {
        for points in every_list(1) {
            assert_eq!(widest(&points), widest_of_corners(&points), "{points:?}");
        }
    }

    #[test]
    fn it_is_the_first_of_the_last_where_all_pairs_are_sorted() {
        let mut random = Random::new(2);
        let small = (0..5_000).map(|_| lists::draw(random.pick(&[Kind::SmallBox, Kind::Circle, Kind::Repeats]), 9, &mut random));
        for points in accepted_lists(draw, 2, 4_000, 60).into_iter().chain(small) {
            let mut all: Vec<(u64, Point, Point)> =
                pairs(&distinct(&points)).map(|(a, b)| (square_distance(a, b), a, b)).collect();
            all.sort_unstable();
            let first = all.iter().find(|pair| pair.0 == all[all.len() - 1].0).copied();
            let Stretch { a, b, w } = widest(&points);
            assert_eq!(Some((w, a, b)), first, "{points:?}");
        }
    }

    #[test]
    fn squared_distances_by_hand() {
        let at = |x, y| Point::new(x, y);
        assert_eq!(square_distance(at(0, -512), at(2048, 1536)), 8_388_608);
        assert_eq!(square_distance(at(2048, -512), at(0, 1536)), 8_388_608);
        assert_eq!(square_distance(at(3, -4), at(0, 0)), 25);
        assert_eq!(square_distance(at(7, -7), at(7, -7)), 0);
        assert_eq!(square_distance(at(i16::MIN, i16::MIN), at(i16::MAX, i16::MAX)), 8_589_672_450);
    }

    #[test]
    fn one_place_gives_itself_twice() {
        let mut random = Random::new(3);
        for times in [1, 2, 3, 100, 4_096] {
            let p = lists::draw(Kind::Uniform, 1, &mut random)[0];
            assert_eq!(widest_stretch(&flat(&vec![p; times])), Ok(Stretch { a: p, b: p, w: 0 }));
        }
    }

    #[test]
    fn neither_order_nor_repeats_matter() {
        let mut random = Random::new(4);
        for points in every_list(4) {
            let mut other = [&points[..], &points[points.len() / 2..]].concat();
            random.shuffle(&mut other);
            assert_eq!(widest(&other), widest(&points), "{points:?}");
        }
    }

    #[test]
    fn a_turn_of_the_em_box_keeps_w() {
        for points in accepted_lists(draw, 5, 3_000, 40) {
            let other: Vec<Point> = points.iter().map(|&p| turned(&EM, p, 1)).collect();
            assert_eq!(widest(&other).w, widest(&points).w, "{points:?}");
        }
    }

    /// W E² beside S of the smallest disk of the same points.
    fn beside_the_disk(points: &[Point]) -> (u128, u128) {
        let Disk { e, s, .. } = smallest_disk(points);
        (u128::from(widest(points).w) * (e * e).unsigned_abs(), s)
    }

    #[test]
    fn w_keeps_to_the_bounds_of_jung() {
        for points in every_list(6) {
            let (stretch, s) = beside_the_disk(&points);
            assert!(3 * s <= stretch && stretch <= 4 * s, "{points:?}");
        }
    }

    /// Opposite points have 4S. With 3S the triangle would be equilateral, which no three points of the lattice are, unless S is 0; the edges
    /// come nearer to it than one in a million.
    #[test]
    fn the_edges_come_to_both_bounds() {
        let accepted = edges::stretches().into_iter().filter_map(|edge| accepted_points(&edge.given).ok());
        let beside: Vec<(u128, u128)> = accepted.map(|points| beside_the_disk(&points)).collect();
        let times = |is_so: fn(u128, u128) -> bool| beside.iter().filter(|&&(stretch, s)| is_so(stretch, s)).count();
        assert_eq!(times(|stretch, s| stretch < 3 * s || stretch > 4 * s), 0);
        assert!(times(|stretch, s| s > 0 && stretch == 4 * s) > 50);
        assert!(times(|stretch, s| s == 0 && stretch == 3 * s) > 5);
        assert_eq!(times(|stretch, s| s > 0 && stretch == 3 * s), 0);
        assert!(times(|stretch, s| s > 0 && 1_000_000 * (stretch - 3 * s) < 3 * s) >= 4);
    }
}
