//! The smallest disk with two points on its boundary (source 000, b_md; document 02, item 5), by neither Welzl's procedure nor a circle
//! through three points; and drawn lists for it.
//!
//! The centres of the disks through a and b are the middle of a b and t times the vector across it. Such a disk holds p if
//! 2 t w is at least k, with w the cross product of a b and a p and k the scalar product of a p and b p: a bound of t from below
//! where w is positive, from above where it is negative, and a test of p alone where it is 0. The nearest t to 0 that keeps to
//! all bounds gives the smallest disk.

use crate::geometry::{cross, scalar, Disk, Point};
use crate::inputs::FixedCase;
use crate::limits::EM;
use crate::lists::{self, Kind, KINDS};
use crate::random::Random;
use std::cmp::Ordering;

/// A fraction; the denominator is at least 1.
#[derive(Clone, Copy)]
struct Fraction {
    over: i128,
    under: i128,
}

impl Fraction {
    fn compared(self, other: Fraction) -> Ordering {
        (self.over * other.under).cmp(&(other.over * self.under))
    }
}

/// The smallest disk that holds the points and has a and b, two different points, on its boundary: none if there is no such disk.
pub fn smallest_through(case: &FixedCase) -> Option<Disk> {
    let FixedCase { a, b, points } = case;
    let (mut least, mut most): (Option<Fraction>, Option<Fraction>) = (None, None);
    for &p in points {
        let (w, k) = (cross(*a, *b, p), scalar(*a, *b, p));
        let bound = Fraction { over: k * w.signum(), under: 2 * w.abs() };
        match w.cmp(&0) {
            Ordering::Greater => least = [least, Some(bound)].into_iter().flatten().max_by(|x, y| x.compared(*y)),
            Ordering::Less => most = [most, Some(bound)].into_iter().flatten().min_by(|x, y| x.compared(*y)),
            Ordering::Equal if k > 0 => return None,
            Ordering::Equal => {}
        }
    }
    nearest_to_zero(least, most).map(|t| disk_at(*a, *b, t))
}

/// The number nearest to 0 from `least` to `most`, either of which may be missing: none if `least` is above `most`.
fn nearest_to_zero(least: Option<Fraction>, most: Option<Fraction>) -> Option<Fraction> {
    let is_apart = |(least, most): (Fraction, Fraction)| least.compared(most).is_gt();
    if least.zip(most).is_some_and(is_apart) {
        return None;
    }
    let beyond_zero = least.filter(|t| t.over > 0).or(most.filter(|t| t.over < 0));
    Some(beyond_zero.unwrap_or(Fraction { over: 0, under: 1 }))
}

/// The disk through a and b with the centre at t.
fn disk_at(a: Point, b: Point, t: Fraction) -> Disk {
    let ((ax, ay), (bx, by)) = (a.wide(), b.wide());
    let x = (ax + bx) * t.under - 2 * t.over * (by - ay);
    let y = (ay + by) * t.under + 2 * t.over * (bx - ax);
    Disk::about(x, y, 2 * t.under, a)
}

// ---- drawn lists

/// Two different points and up to `longest` points: of any kind, to one side of the two, near their row, in it, on a circle with them, or with
/// one of the list far from both.
pub fn draw(longest: usize, random: &mut Random) -> FixedCase {
    let n = random.below(longest + 1);
    let (a, b) = two_points(random);
    let mut case = match random.below(6) {
        0 => FixedCase { a, b, points: lists::draw(random.pick(&KINDS), n.max(1), random) },
        1 => FixedCase { a, b, points: to_one_side(a, b, n, random) },
        2 => near_a_row(n, random),
        3 => in_a_row(n, random),
        4 => far_apart(n, random),
        _ => on_a_circle(n, random),
    };
    case.points.truncate(n);
    case
}

/// Anywhere in the em box, or close to each other.
fn two_points(random: &mut Random) -> (Point, Point) {
    let reach = random.pick(&[1, 3, 30, EM.side()]);
    let a = lists::draw(Kind::Uniform, 1, random)[0];
    let near = |least: i16, middle: i16, most: i16, random: &mut Random| {
        random.coordinate((middle - reach).max(least), (middle + reach).min(most))
    };
    loop {
        let b = Point::new(near(EM.left, a.x, EM.right, random), near(EM.foot, a.y, EM.top, random));
        if b != a {
            return (a, b);
        }
    }
}

/// Points to the left of a b, so that some disk holds them: as a rule a large one.
fn to_one_side(a: Point, b: Point, n: usize, random: &mut Random) -> Vec<Point> {
    let drawn = lists::draw(random.pick(&KINDS), 4 * n + 1, random);
    drawn.into_iter().filter(|&p| cross(a, b, p) > 0).collect()
}

/// Two points next to each other, and points up to three units above their row: the centre is far away. In one case of three some are
/// below, and as a rule there is no disk.
fn near_a_row(n: usize, random: &mut Random) -> FixedCase {
    let (x, y) = (random.coordinate(EM.left, EM.right - 1), random.coordinate(EM.foot + 3, EM.top - 3));
    let below = if random.chance(33) { 50 } else { 0 };
    let beside = |random: &mut Random| {
        let height = random.coordinate(1, 3);
        Point::new(random.coordinate(EM.left, EM.right), if random.chance(below) { y - height } else { y + height })
    };
    FixedCase { a: Point::new(x, y), b: Point::new(x + 1, y), points: (0..n).map(|_| beside(random)).collect() }
}

/// Points in a row with the two, and at times one beside it: three in a row have no circle.
fn in_a_row(n: usize, random: &mut Random) -> FixedCase {
    loop {
        let mut points = lists::draw(Kind::Row, n + 2, random);
        let (a, b) = (points[0], points[1]);
        if a != b {
            return FixedCase { a, b, points: points.split_off(2) };
        }
    }
}

/// Three points near the edges of the em box, far apart: two of them, and the third among the others.
fn far_apart(n: usize, random: &mut Random) -> FixedCase {
    let mut points = lists::draw(Kind::Wide, n + 3, random);
    points.sort_by_key(|&p| scalar(lists::middle_of(&EM), lists::middle_of(&EM), p));
    let far = points.split_off(n);
    points.push(far[0]);
    random.shuffle(&mut points);
    FixedCase { a: far[1], b: far[2], points }
}

/// Points on and in a circle through the two.
fn on_a_circle(n: usize, random: &mut Random) -> FixedCase {
    loop {
        let points = lists::draw(Kind::Circle, n + 5, random);
        let (a, b) = (points[1], points[2]);
        if a != b {
            return FixedCase { a, b, points: points[3..].to_vec() };
        }
    }
}

#[cfg(test)]
mod tests {
    use super::*;
    use crate::procedure::{run_with, Cover};

    /// The run with the two points fixed is that of the text, and ends on the smallest disk wherever there is one.
    fn assert_run_is_right(case: &FixedCase) {
        let mut left = case.points.clone();
        let run = run_with(&mut left, &[case.a, case.b]);
        assert_eq!(run.tests, case.points.len() as u64, "{case:?}");
        match (smallest_through(case), run.cover) {
            (Some(disk), cover) => assert_eq!(cover, Cover::Disk(disk), "{case:?}"),
            (None, Cover::Disk(disk)) => assert!(!disk.holds_all(&case.points), "{case:?}"),
            (None, cover) => assert_eq!(cover, Cover::NoCircle, "{case:?}"),
        }
        let mut before = case.points.clone();
        before.sort_unstable();
        left.sort_unstable();
        assert_eq!(left, before, "{case:?}");
    }

    #[test]
    fn the_procedure_ends_on_the_smallest_disk_through_two_points() {
        let mut random = Random::new(5);
        for longest in [4, 12, 60] {
            for _ in 0..3_000 {
                assert_run_is_right(&draw(longest, &mut random));
            }
        }
    }

    #[test]
    fn the_disk_is_the_smallest_of_those_through_the_two_and_another_point() {
        let mut random = Random::new(6);
        for _ in 0..3_000 {
            let case = draw(12, &mut random);
            let FixedCase { a, b, points } = &case;
            let circles = points.iter().filter_map(|&p| Disk::of_three(*a, *b, p));
            let disks = std::iter::once(Disk::of_two(*a, *b)).chain(circles).filter(|disk| disk.holds_all(points));
            let smallest = disks.reduce(|best, disk| if disk.is_smaller_than(&best) { disk } else { best });
            assert_eq!(smallest_through(&case), smallest, "{case:?}");
        }
    }
}
