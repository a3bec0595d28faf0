//! Drawn lists for the widest stretch, each by its seed: those where many pairs are as far apart as any, and those where it is a near thing.

use crate::damage::at_times_faulty;
use crate::engine::flat;
use crate::geometry::Point;
use crate::hull::{self, full_polygon, nudge_one, on_side, reordered, Draw};
use crate::limits::{EM, MOST_POINTS};
use crate::lists::{self, rich_circle, turned, whole_root, Kind, KINDS, RICH};
use crate::random::Random;

/// The kinds beside those of the hull and of `lists.rs`.
const DRAWS: [Draw; 7] = [on_circle, box_corners, reflected, nearly_reflected, regular, fan, nearly_equilateral];

/// The numbers of a list of up to `longest` points, of any kind, at times one or two more. In 8 lists of 100 it is faulty.
pub fn draw(longest: usize, random: &mut Random) -> Vec<i16> {
    let n = 1 + random.below(longest);
    at_times_faulty(&draw_points(n, random), random)
}

/// Of a kind for the hull in three lists of ten, else of one of the kinds here.
fn draw_points(n: usize, random: &mut Random) -> Vec<Point> {
    if random.chance(30) {
        return hull::draw_points(n, random);
    }
    random.pick(&DRAWS)(n, random)
}

/// Lists of 4,096 points: five kinds of `lists.rs`, all kinds here but the regular polygon, and the one with 560 corners.
pub fn long() -> Vec<Vec<i16>> {
    let mut random = Random::new(20);
    let plain = [Kind::Uniform, Kind::Row, Kind::Convex, Kind::Outline, Kind::Edges];
    let mut drawn: Vec<Vec<Point>> = plain.into_iter().map(|kind| lists::draw(kind, MOST_POINTS, &mut random)).collect();
    let own: [Draw; 7] = [on_circle, box_corners, reflected, nearly_reflected, fan, nearly_equilateral, full_polygon];
    drawn.extend(own.map(|draw| draw(MOST_POINTS, &mut random)));
    drawn.iter().map(|points| flat(points)).collect()
}

/// On a circle of the lattice, all its points where there is room for them: many of its diameters.
fn on_circle(n: usize, random: &mut Random) -> Vec<Point> {
    let mut all = rich_circle(&EM, random);
    random.shuffle(&mut all);
    again_and_again(&all, n, random)
}

/// The points by turns up to n, in any order.
fn again_and_again(points: &[Point], n: usize, random: &mut Random) -> Vec<Point> {
    let taken = points.iter().copied().cycle().take(n).collect();
    reordered(taken, random)
}

/// Some of the corners of the em box, of a square or of a rectangle, again and again, at times with points between them.
fn box_corners(n: usize, random: &mut Random) -> Vec<Point> {
    let (left, foot) = (random.coordinate(EM.left, EM.right - 1), random.coordinate(EM.foot, EM.top - 1));
    let (width, height) = (random.coordinate(1, EM.right - left), random.coordinate(1, EM.top - foot));
    let square = width.min(height);
    let (left, foot, width, height) = match random.below(4) {
        0 => (EM.left, EM.foot, EM.side(), EM.side()),
        1 => (left, foot, square, square),
        _ => (left, foot, width, height),
    };
    let corners = [(0, 0), (width, 0), (width, height), (0, height)].map(|(x, y)| Point::new(left + x, foot + y));
    let mut points = reordered(corners.to_vec(), random);
    points.truncate(random.pick(&[2, 3, 4, 4, 4]));
    with_points_between(&points, n, random)
}

/// The points, then up to n: again and again, or half of them between two. In any order.
fn with_points_between(points: &[Point], n: usize, random: &mut Random) -> Vec<Point> {
    let mut all: Vec<Point> = points.iter().copied().take(n).collect();
    let percent = random.pick(&[0, 50]);
    while all.len() < n {
        let p = random.pick(points);
        let end = if random.chance(percent) { random.pick(&all) } else { p };
        all.push(on_side(p, end, random));
    }
    reordered(all, random)
}

/// A figure of any kind and its image in the middle of its bounds, in one of their two axes or in the em box's rising diagonal: what is far
/// apart in the one is as far apart in the other.
fn reflected(n: usize, random: &mut Random) -> Vec<Point> {
    let figure = lists::draw(random.pick(&KINDS), n.div_ceil(2), random);
    let [(left, right), (foot, top)] = bounds_of(&figure);
    let way = random.below(5);
    let image = |p: &Point| match way {
        0 => Point::new(left + right - p.x, p.y),
        1 => Point::new(p.x, foot + top - p.y),
        2 => Point::new(p.y - EM.foot + EM.left, p.x - EM.left + EM.foot),
        _ => Point::new(left + right - p.x, foot + top - p.y),
    };
    let both = figure.iter().copied().chain(figure.iter().map(image)).collect();
    reordered(both, random)
}

/// The least and the greatest x, and y, of points, at least one.
fn bounds_of(points: &[Point]) -> [(i16, i16); 2] {
    [|p: &Point| p.x, |p: &Point| p.y].map(|along| {
        let all = || points.iter().map(along);
        all().min().zip(all().max()).expect("a figure has a point")
    })
}

/// The same, or points of a circle, with one point moved by one unit: the widest is so by little.
fn nearly_reflected(n: usize, random: &mut Random) -> Vec<Point> {
    let draw: Draw = random.pick(&[reflected as Draw, on_circle]);
    let mut points = draw(n, random);
    nudge_one(&mut points, random);
    points
}

/// The corners of a polygon that is nearly regular, three to twelve, again and again.
fn regular(n: usize, random: &mut Random) -> Vec<Point> {
    let count = 3 + random.below(10);
    let corners = lists::draw(Kind::Convex, count, random);
    again_and_again(&corners, n, random)
}

/// A point and others equally far from it, which is the greatest distance: they are within 30 degrees of one direction, right, up, left or
/// down. Again and again, at times with points between them.
fn fan(n: usize, random: &mut Random) -> Vec<Point> {
    let square = random.pick(&RICH);
    let reach = (square as u64).isqrt() as i64;
    let x = random.between(EM.left.into(), i64::from(EM.right) - reach);
    let y = random.between(i64::from(EM.foot) + reach / 2, i64::from(EM.top) - reach / 2);
    let at = |dx: i64, dy: i64| Point::new((x + dx) as i16, (y + dy) as i16);
    let mut tips: Vec<Point> =
        (-reach / 2..=reach / 2).filter_map(|dy| whole_root(square - dy * dy).map(|dx| at(dx, dy))).collect();
    random.shuffle(&mut tips);
    tips.insert(0, at(0, 0));
    any_way_round(&tips, n, random)
}

/// The points turned with the em box by none to three quarters, with points between them.
fn any_way_round(points: &[Point], n: usize, random: &mut Random) -> Vec<Point> {
    let turns = random.below(4);
    let points: Vec<Point> = points.iter().map(|&p| turned(&EM, p, turns)).collect();
    with_points_between(&points, n, random)
}

/// Half of the base and the height of triangles that are nearly equilateral: h² is 3k² + 1, or 3k² − 2.
const NEARLY_EQUILATERAL: [(i16, i16); 10] =
    [(4, 7), (15, 26), (56, 97), (209, 362), (780, 1351), (3, 5), (11, 19), (41, 71), (153, 265), (571, 989)];

/// Such a triangle, any way round, again and again, at times with points between its corners.
fn nearly_equilateral(n: usize, random: &mut Random) -> Vec<Point> {
    let (half, height) = random.pick(&NEARLY_EQUILATERAL);
    let (x, y) = (random.coordinate(EM.left, EM.right - 2 * half), random.coordinate(EM.foot, EM.top - height));
    let corners = [(0, 0), (2 * half, 0), (half, height)].map(|(dx, dy)| Point::new(x + dx, y + dy));
    any_way_round(&corners, n, random)
}

#[cfg(test)]
mod tests {
    use super::*;
    use crate::damage::point_lists::tests::{assert_that_each_kind_is_drawn, assert_that_the_first_fault_decides, KindOfList};
    use crate::engine::points_of;
    use crate::geometry::Disk;
    use crate::hull::corners;
    use crate::smallest::smallest_disk;
    use crate::stretch::{pairs, square_distance, widest_stretch};
    use crate::support::{distinct, first_support_set};

    type Pair = (Point, Point);

    /// The first or the last of some pairs.
    type Pick = fn(&mut dyn Iterator<Item = Pair>) -> Option<Pair>;

    /// A drawn list: its points, the different ones of them in rising order, the corners of its hull, all pairs that are farthest apart, in
    /// rising order, their W, and the greatest squared distance below it.
    struct Drawn {
        points: Vec<Point>,
        different: Vec<Point>,
        corners: Vec<Point>,
        widest: Vec<Pair>,
        w: u64,
        next: u64,
    }

    impl Drawn {
        fn new(points: Vec<Point>) -> Drawn {
            let different = distinct(&points);
            let pairs: Vec<Pair> = pairs(&different).collect();
            let far = |below: u64| pairs.iter().map(|&(a, b)| square_distance(a, b)).filter(|&d| d < below).max().unwrap_or(0);
            let (w, next) = (far(u64::MAX), far(far(u64::MAX)));
            let widest = pairs.into_iter().filter(|&(a, b)| square_distance(a, b) == w).collect();
            Drawn { corners: corners(&points), points, different, widest, w, next }
        }

        /// Whether another pair is as far apart as the least of them, and lies so to it.
        fn has_tie(&self, is_so: fn(Pair, Pair) -> bool) -> bool {
            self.widest[1..].iter().any(|&other| is_so(self.widest[0], other))
        }

        /// Whether of the pairs of these points, in their order, another of those farthest apart is picked than the least.
        fn is_not(&self, points: &[Point], picked: Pick) -> bool {
            let mut far = pairs(points).filter(|&(p, q)| square_distance(p, q) == self.w);
            self.w > 0 && picked(&mut far).is_some_and(|(p, q)| (p.min(q), p.max(q)) != self.widest[0])
        }

        /// Whether the greater of the two stands before the lesser in the list.
        fn is_falling(&self) -> bool {
            let place = |p: Point| self.points.iter().position(|&q| q == p);
            let (a, b) = self.widest[0];
            place(b) < place(a)
        }

        /// Whether this is so of the least pair, and the list is no row.
        fn is_pair(&self, is_so: impl Fn(Point, Point) -> bool) -> bool {
            let (a, b) = self.widest[0];
            self.corners.len() > 2 && is_so(a, b)
        }

        fn is_end(&self, p: Point) -> bool {
            self.widest.iter().any(|&(a, b)| p == a || p == b)
        }

        /// Whether no end of a widest pair has the least or the greatest x or y of all.
        fn is_off_the_bounds(&self) -> bool {
            let [(left, right), (foot, top)] = bounds_of(&self.different);
            let is_off = |p: &Point| ![left, right].contains(&p.x) && ![foot, top].contains(&p.y);
            self.widest.iter().all(|(a, b)| is_off(a) && is_off(b))
        }

        /// The different points whose image is none of them.
        fn unpaired(&self, image: impl Fn(Point) -> Point) -> Vec<Point> {
            self.different.iter().copied().filter(|&p| !self.different.contains(&image(p))).collect()
        }

        /// Whether nine different points or more are their own image.
        fn is_image(&self, image: impl Fn(Point) -> Point) -> bool {
            self.different.len() > 8 && self.unpaired(image).is_empty()
        }

        /// The point on the other side of the middle of the least pair.
        fn opposite(&self, p: Point) -> Point {
            let (a, b) = self.widest[0];
            Point::new(a.x + b.x - p.x, a.y + b.y - p.y)
        }

        /// Whether more than 20 different points are their own image in one of the axes of their bounds, but not by opposite points.
        fn is_mirrored(&self, is_upright: bool) -> bool {
            let [(left, right), (foot, top)] = bounds_of(&self.different);
            let image =
                |p: Point| if is_upright { Point::new(left + right - p.x, p.y) } else { Point::new(p.x, foot + top - p.y) };
            self.different.len() > 20 && self.is_image(image) && !self.is_image(|p| self.opposite(p))
        }

        /// Whether one or two of nine different points or more have a point beside the place of their opposite, the others there.
        fn is_nearly_opposite(&self) -> bool {
            let unpaired = self.unpaired(|p| self.opposite(p));
            let is_near = |p: &Point| self.different.iter().any(|&q| square_distance(q, self.opposite(*p)) == 1);
            self.different.len() > 8 && [1, 2].contains(&unpaired.len()) && unpaired.iter().all(is_near)
        }

        /// Whether it has the four corners of an upright rectangle and no other place.
        fn is_rectangle(&self) -> bool {
            matches!(self.different[..], [a, b, c, d] if a.x == b.x && c.x == d.x && a.y == c.y && b.y == d.y)
        }

        /// Whether every corner's squared distance from the middle of the disk is at least so many hundredths of the greatest.
        fn is_round(&self, hundredths: u128) -> bool {
            let disk = self.disk();
            self.corners.iter().all(|&p| 100 * disk.scaled_square_distance(p) >= hundredths * disk.s)
        }

        fn disk(&self) -> Disk {
            smallest_disk(&self.corners)
        }

        /// Whether the ratio of W E² to S, in hundredths, is from the one to the other.
        fn is_ratio(&self, least: u128, most: u128) -> bool {
            let Disk { e, s, .. } = self.disk();
            let stretch = 100 * u128::from(self.w) * (e * e).unsigned_abs();
            s > 0 && least * s <= stretch && stretch <= most * s
        }

        /// Whether no point of the first support set is an end of the least pair.
        fn is_apart_from_support(&self) -> bool {
            let support = first_support_set(&self.corners, &self.disk());
            self.is_pair(|a, b| !support.contains(&a) && !support.contains(&b))
        }

        /// Whether the distances from some corner, on the way round the hull, rise again after they have fallen.
        fn has_two_peaks(&self) -> bool {
            let n = self.corners.len();
            (0..n).any(|i| {
                let far: Vec<u64> = (1..n).map(|k| square_distance(self.corners[i], self.corners[(i + k) % n])).collect();
                let falls = far.windows(2).position(|two| two[1] < two[0]);
                falls.is_some_and(|at| far[at..].windows(2).any(|two| two[1] > two[0]))
            })
        }
    }

    /// What drawn lists are like, and how many of 4,000 are so at least.
    const KINDS_OF_LISTS: [KindOfList<Drawn>; 39] = [
        ("one point", 20, |l| l.points.len() == 1),
        ("one place again and again", 20, |l| l.points.len() > 1 && l.different.len() == 1),
        ("a row", 100, |l| l.corners.len() == 2 && l.different.len() > 2),
        ("two places", 50, |l| l.different.len() == 2),
        ("a tie", 1_000, |l| l.widest.len() > 1),
        ("five pairs or more tie", 100, |l| l.widest.len() > 4),
        ("a tie with the first point in common", 100, |l| l.has_tie(|least, other| least.0 == other.0)),
        ("a tie with the second point in common", 100, |l| l.has_tie(|least, other| least.1 == other.1)),
        ("a tie, and the second point is the other's first", 100, |l| l.has_tie(|least, other| least.1 == other.0)),
        ("a tie, the first points in one column", 50, |l| l.has_tie(|p, q| p.0 != q.0 && p.0.x == q.0.x)),
        ("a tie, the second decides by y", 20, |l| l.has_tie(|p, q| p.0 == q.0 && p.1.x == q.1.x)),
        ("a tie, the lesser second point in the other pair", 100, |l| l.has_tie(|p, q| p.0 != q.0 && q.1 < p.1)),
        ("the first found in the list is not the least", 300, |l| l.is_not(&l.points, |far| far.next())),
        ("the last found in the list is not the least", 300, |l| l.is_not(&l.points, |far| far.last())),
        ("the first found round the hull is not the least", 20, |l| l.is_not(&l.corners, |far| far.next())),
        ("the last found round the hull is not the least", 300, |l| l.is_not(&l.corners, |far| far.last())),
        ("the greater point stands first in the list", 1_000, Drawn::is_falling),
        ("the least point is no end", 500, |l| l.w > 0 && !l.is_end(l.different[0])),
        ("the greatest point is no end", 500, |l| l.w > 0 && !l.is_end(l.different[l.different.len() - 1])),
        ("no end has the least or greatest x or y", 30, |l| l.w > 0 && l.is_off_the_bounds()),
        ("a level pair, no row", 50, |l| l.is_pair(|a, b| a.y == b.y)),
        ("an upright pair, no row", 50, |l| l.is_pair(|a, b| a.x == b.x)),
        ("a falling pair, no row", 500, |l| l.is_pair(|a, b| a.y > b.y)),
        ("the next is nearer by one or two of more than 1,000", 50, |l| l.w > 1_000 && l.next + 2 >= l.w),
        ("opposite points, no row", 500, |l| l.corners.len() > 2 && l.is_ratio(400, 400)),
        ("between the bounds", 500, |l| l.is_ratio(302, 399)),
        ("close to the lower bound", 200, |l| l.is_ratio(300, 301)),
        ("no end in the first support set", 15, Drawn::is_apart_from_support),
        ("the distances from a corner rise twice round the hull", 100, Drawn::has_two_peaks),
        ("ten corners or more on one circle", 100, |l| l.corners.len() > 9 && l.is_round(100)),
        ("five to twelve places, nearly on a circle", 530, |l| (5..=12).contains(&l.different.len()) && l.is_round(95)),
        ("a rectangle's corners", 100, Drawn::is_rectangle),
        ("the em box's corners", 10, |l| l.is_rectangle() && l.w == 8_388_608),
        ("its own image by opposite points", 300, |l| l.is_image(|p| l.opposite(p))),
        ("such an image but for one point, a unit off", 50, Drawn::is_nearly_opposite),
        ("its own image in an upright axis", 55, |l| l.is_mirrored(true)),
        ("its own image in a level axis", 30, |l| l.is_mirrored(false)),
        ("its own image in the em box's diagonal", 40, |l| l.is_image(|p| Point::new(p.y + 512, p.x - 512))),
        ("more than 50 points", 200, |l| l.points.len() > 50),
    ];

    #[test]
    fn every_kind_of_list_is_drawn() {
        assert_that_each_kind_is_drawn(draw, Drawn::new, &KINDS_OF_LISTS);
    }

    #[test]
    fn lists_have_so_many_points_or_one_more_in_the_em_box() {
        let mut random = Random::new(2);
        for (i, draw) in DRAWS.into_iter().enumerate() {
            for n in (1..=60).chain([300, MOST_POINTS - 1, MOST_POINTS]) {
                let points = draw(n, &mut random);
                assert!((n..=n + 1).contains(&points.len()), "{i}: {n}");
                assert!(points.iter().all(|p| p.is_in_em_box()), "{i}: {n}");
            }
        }
        assert!(long().iter().all(|list| list.len() == 2 * MOST_POINTS));
    }

    /// How many pairs are farthest apart, in rising order.
    #[test]
    fn long_lists_have_ties_and_none() {
        let of_corners = |list: &Vec<i16>| Drawn::new(corners(&points_of(list))).widest.len();
        let mut ties: Vec<usize> = long().iter().map(of_corners).collect();
        ties.sort_unstable();
        assert_eq!(ties, [1, 1, 1, 1, 2, 2, 2, 2, 4, 4, 32, 64]);
    }

    #[test]
    fn the_first_fault_decides() {
        assert_that_the_first_fault_decides(draw, |list| widest_stretch(list).err());
    }
}
