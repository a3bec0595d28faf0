//! A list reduced to the corners of its convex hull (document 02, item 8), found in two ways; drawn lists for it are in `hull/drawn.rs`.
//!
//! By definition: a point is a corner exactly if the hull of the other points does not hold it, that is if it lies in no segment between
//! two of them and in no triangle of three, repeats counted once. The least point is a corner, and from it all others are ahead, so that
//! counterclockwise is the order of the directions to them. This is done on lists of few different points.
//!
//! By gift wrapping, on every list: from the least point always on to the one that has no point to the right of the way to it, the farthest
//! of those in a row, until the least comes again.

use crate::engine::{accepted_points, flat};
use crate::geometry::{cross, scalar, Point};
use crate::refusal::Refusal;
use crate::support::distinct;

mod drawn;
mod polygons;

pub use drawn::{draw, draw_points, long, nudge_one, Draw};
pub use polygons::{full_polygon, on_side, reordered};

/// Lists of up to so many different points are reduced by definition too.
const SHORT: usize = 30;

/// The corners of the list's hull, x and y by turns, go to its front, and all behind them becomes 0; the answer is how many there are.
/// Refusals 9, 5, 4, 3, and then the list is unchanged.
pub fn reduce_to_hull(list: &mut [i16]) -> Result<usize, Refusal> {
    let points = accepted_points(list)?;
    let corners = corners(&points);
    let different = distinct(&points);
    if different.len() <= SHORT {
        assert_eq!(corners, by_definition(&different), "the definition and gift wrapping differ: {points:?}");
    }
    list.fill(0);
    list[..2 * corners.len()].copy_from_slice(&flat(&corners));
    Ok(corners.len())
}

/// The corners of the hull, counterclockwise from the least, by gift wrapping.
pub fn corners(points: &[Point]) -> Vec<Point> {
    let least = *points.iter().min().expect("a list has a point");
    let mut corners = vec![least];
    loop {
        let next = corner_behind(corners[corners.len() - 1], points);
        if next == least {
            return corners;
        }
        corners.push(next);
        assert!(corners.len() <= points.len(), "the way round the hull comes back to its start");
    }
}

/// The next corner counterclockwise: the corner itself where there is no other point.
fn corner_behind(corner: Point, points: &[Point]) -> Point {
    let is_farther = |p: Point, q: Point| scalar(corner, corner, p) > scalar(corner, corner, q);
    points.iter().copied().fold(corner, |next, p| match cross(corner, next, p) {
        ..0 => p,
        0 if is_farther(p, next) => p,
        _ => next,
    })
}

/// The same by definition, for different points in rising order. The number of steps is the fourth power of their number.
fn by_definition(points: &[Point]) -> Vec<Point> {
    let mut corners: Vec<Point> = points.iter().copied().filter(|&p| is_corner(p, points)).collect();
    let least = corners[0];
    corners[1..].sort_by(|&p, &q| 0.cmp(&cross(least, p, q)));
    corners
}

fn is_corner(p: Point, points: &[Point]) -> bool {
    let others: Vec<Point> = points.iter().copied().filter(|&q| q != p).collect();
    for (i, &a) in others.iter().enumerate() {
        for (j, &b) in others.iter().enumerate().skip(i + 1) {
            if is_in_segment(p, a, b) || others[j + 1..].iter().any(|&c| is_in_triangle(p, [a, b, c])) {
                return false;
            }
        }
    }
    true
}

fn is_in_segment(p: Point, a: Point, b: Point) -> bool {
    cross(a, b, p) == 0 && scalar(a, b, p) <= 0
}

/// Whether p is inside or on a side; three points in a row are no triangle.
fn is_in_triangle(p: Point, [a, b, c]: [Point; 3]) -> bool {
    let sides = [cross(a, b, p), cross(b, c, p), cross(c, a, p)];
    cross(a, b, c) != 0 && (sides.iter().all(|&side| side >= 0) || sides.iter().all(|&side| side <= 0))
}

#[cfg(test)]
mod tests {
    use super::*;
    use crate::damage::point_lists::tests::accepted_lists;
    use crate::geometry::Disk;
    use crate::lists::{self, Kind};
    use crate::random::Random;
    use crate::record::LONG;
    use crate::smallest::smallest_disk;
    use crate::support::{first_support_set, SupportSet};
    use crate::{engine, figures, record};

    fn drawn_lists(seed: u64, count: usize, longest: usize) -> Vec<Vec<Point>> {
        accepted_lists(draw, seed, count, longest)
    }

    /// Those of each kind, short and long, and those of 4,096 points.
    fn every_list(seed: u64) -> Vec<Vec<Point>> {
        let short = [(2_000, 12), (1_000, 60), (200, 1_100)].map(|(count, longest)| drawn_lists(seed, count, longest));
        let long = long().iter().map(|list| engine::points_of(list)).collect();
        let plain = lists::long().into_iter().map(|case| case.points).collect();
        [short.concat(), long, plain].concat()
    }

    #[test]
    fn definition_and_gift_wrapping_agree() {
        for (seed, count, longest) in [(1, 5_000, 4), (2, 5_000, 12), (3, 1_000, 30), (4, 100, 60)] {
            for points in drawn_lists(seed, count, longest) {
                assert_eq!(corners(&points), by_definition(&distinct(&points)), "{points:?}");
            }
        }
    }

    #[test]
    fn short_lists_in_a_small_box_too() {
        let mut random = Random::new(5);
        for _ in 0..30_000 {
            let n = 1 + random.below(9);
            let points = lists::draw(random.pick(&[Kind::SmallBox, Kind::Row, Kind::Circle]), n, &mut random);
            assert_eq!(corners(&points), by_definition(&distinct(&points)), "{points:?}");
        }
    }

    /// The corners in threes, each with the two behind it, round and round.
    fn in_threes(corners: &[Point]) -> impl Iterator<Item = [Point; 3]> + '_ {
        let at = |i: usize| corners[i % corners.len()];
        (0..corners.len()).map(move |i| [at(i), at(i + 1), at(i + 2)])
    }

    #[test]
    fn corners_are_points_of_the_list_that_turn_left_around_all_others() {
        for points in every_list(6) {
            let corners = corners(&points);
            assert!(corners.iter().all(|p| points.contains(p)), "{points:?}");
            assert_eq!(Some(&corners[0]), points.iter().min(), "{points:?}");
            for [a, b, c] in in_threes(&corners) {
                assert!(corners.len() < 3 || cross(a, b, c) > 0, "{points:?}: {a:?} {b:?} {c:?}");
                assert!(points.iter().all(|&p| cross(a, b, p) >= 0), "{points:?}: {a:?} {b:?}");
            }
        }
    }

    #[test]
    fn a_row_lies_between_its_two_corners_and_one_corner_is_every_point() {
        let mut times = [0; 3];
        for points in every_list(7) {
            let corners = corners(&points);
            match corners[..] {
                [a] => assert!(points.iter().all(|&p| p == a), "{points:?}"),
                [a, b] => assert!(a < b && points.iter().all(|&p| is_in_segment(p, a, b)), "{points:?}"),
                _ => (),
            }
            times[corners.len().min(3) - 1] += 1;
        }
        assert!(times.iter().all(|&times| times > 100), "{times:?}");
    }

    /// The smallest disk, its first support set, the whole radius and the record.
    fn answers(points: &[Point]) -> (Disk, SupportSet, Result<u64, Refusal>, Vec<u8>) {
        let disk = smallest_disk(points);
        let support = first_support_set(points, &disk);
        let radius = figures::whole_radius(&disk, &support);
        let bytes = record::bytes_of(&LONG, &disk, &support);
        (disk, support, radius, bytes)
    }

    #[test]
    fn corners_lead_to_the_answers_of_the_full_list() {
        for points in every_list(8) {
            assert_eq!(answers(&corners(&points)), answers(&points), "{points:?}");
        }
    }

    #[test]
    fn the_corners_reduced_again_stay_as_they_are() {
        for points in every_list(9) {
            let mut list = flat(&points);
            let n = reduce_to_hull(&mut list).unwrap();
            let kept = list[..2 * n].to_vec();
            let mut again = kept.clone();
            assert_eq!(reduce_to_hull(&mut again), Ok(n), "{points:?}");
            assert_eq!(again, kept, "{points:?}");
        }
    }

    #[test]
    fn neither_order_nor_repeats_matter() {
        let mut random = Random::new(10);
        for points in every_list(11) {
            let mut other = [&points[..], &points[points.len() / 2..]].concat();
            random.shuffle(&mut other);
            assert_eq!(corners(&other), corners(&points), "{points:?}");
        }
    }
}
