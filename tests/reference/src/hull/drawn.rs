//! Drawn lists for the hull, each by its seed.

use super::corners;
use super::polygons::{any_polygon, full_polygon, least_step, overtopped, reordered, with_sides, Step};
use crate::damage::at_times_faulty;
use crate::engine::flat;
use crate::geometry::Point;
use crate::limits::{EM, MOST_POINTS};
use crate::lists::{self, point_in_box, Kind, KINDS};
use crate::random::Random;

/// Draws points of a kind, at least one: as a rule n.
pub type Draw = fn(usize, &mut Random) -> Vec<Point>;

/// The kinds beside those of `lists.rs`.
const DRAWS: [Draw; 10] =
    [on_columns, on_lines, row, near_row, end_columns, in_every_column, any_polygon, with_sides, overtopped, reduced];

/// The numbers of a list of up to `longest` points, of any kind, at times one or two more. In 8 lists of 100 it is faulty.
pub fn draw(longest: usize, random: &mut Random) -> Vec<i16> {
    let n = 1 + random.below(longest);
    at_times_faulty(&draw_points(n, random), random)
}

/// Of a kind of `lists.rs` in three lists of ten, else of one of the kinds here.
pub fn draw_points(n: usize, random: &mut Random) -> Vec<Point> {
    if random.chance(30) {
        return lists::draw(random.pick(&KINDS), n, random);
    }
    random.pick(&DRAWS)(n, random)
}

/// Lists of 4,096 points: six kinds of `lists.rs`, six of the kinds here, and one with 560 corners.
pub fn long() -> Vec<Vec<i16>> {
    let mut random = Random::new(12);
    let plain = [Kind::Uniform, Kind::SmallBox, Kind::Circle, Kind::Convex, Kind::Outline, Kind::Edges];
    let mut drawn: Vec<Vec<Point>> = plain.into_iter().map(|kind| lists::draw(kind, MOST_POINTS, &mut random)).collect();
    let own: [Draw; 7] = [on_columns, on_lines, near_row, end_columns, in_every_column, with_sides, full_polygon];
    drawn.extend(own.map(|draw| draw(MOST_POINTS, &mut random)));
    drawn.iter().map(|points| flat(points)).collect()
}

pub(super) fn anywhere(random: &mut Random) -> Point {
    lists::draw(Kind::Uniform, 1, random)[0]
}

/// On one to eight columns, next to each other or anywhere, close together or up and down the em box.
fn on_columns(n: usize, random: &mut Random) -> Vec<Point> {
    let count = random.coordinate(1, 8);
    let first = random.coordinate(EM.left, EM.right - count);
    let is_apart = random.chance(50);
    let column = |k: i16| if is_apart { random.coordinate(EM.left, EM.right) } else { first + k };
    let columns: Vec<i16> = (0..count).map(column).collect();
    let reach = random.pick(&[1, 5, EM.side()]);
    let foot = random.coordinate(EM.foot, EM.top - reach);
    (0..n).map(|_| Point::new(random.pick(&columns), random.coordinate(foot, foot + reach))).collect()
}

/// Along an axis, a diagonal, steep, flat or in any direction.
fn any_step(random: &mut Random) -> Step {
    let sign = random.pick(&[1, -1]);
    let (few, many) = (random.between(1, 4), random.between(20, 200));
    let step = match random.below(8) {
        0 => (1, 0),
        1 => (0, 1),
        2 => (1, sign),
        3 => (few, sign * many),
        4 => (many, sign * few),
        _ => (random.between(1, 30), random.between(-30, 30)),
    };
    least_step(step)
}

/// All points of the em box on the line through p with this step, from one end to the other.
fn line(p: Point, step: Step) -> Vec<Point> {
    let (x, y) = (i64::from(p.x), i64::from(p.y));
    (-i64::from(EM.side())..=EM.side().into()).filter_map(|t| point_in_box((x + t * step.0, y + t * step.1))).collect()
}

/// On two to four lines, through one point or side by side.
fn on_lines(n: usize, random: &mut Random) -> Vec<Point> {
    let (p, step) = (anywhere(random), any_step(random));
    let is_star = random.chance(50);
    let draw_line = |_| if is_star { line(p, any_step(random)) } else { line(anywhere(random), step) };
    let lines: Vec<Vec<Point>> = (0..4).map(draw_line).collect();
    let count = 2 + random.below(3);
    let on_some = |_| {
        let on_line = &lines[random.below(count)];
        random.pick(on_line)
    };
    (0..n).map(on_some).collect()
}

/// In a row, many times the same where it is short: from one end to the other, or in any order.
fn row(n: usize, random: &mut Random) -> Vec<Point> {
    let mut on_line = line(anywhere(random), any_step(random));
    on_line.truncate(random.pick(&[3, 20, usize::MAX]));
    let mut points: Vec<Point> = (0..n).map(|_| random.pick(&on_line)).collect();
    match random.below(4) {
        0 => points.sort_unstable(),
        1 => points.sort_unstable_by(|a, b| b.cmp(a)),
        _ => (),
    }
    points
}

/// In a row, from all of a line across the em box, with one point moved by one unit.
fn near_row(n: usize, random: &mut Random) -> Vec<Point> {
    let on_line = line(anywhere(random), any_step(random));
    let mut points: Vec<Point> = (0..n).map(|_| random.pick(&on_line)).collect();
    nudge_one(&mut points, random);
    points
}

/// Moves one point by one unit, if it stays in the em box.
pub fn nudge_one(points: &mut [Point], random: &mut Random) {
    let place = random.below(points.len());
    let (dx, dy) = random.pick(&[(1, 0), (-1, 0), (0, 1), (0, -1)]);
    let Point { x, y } = points[place];
    points[place] = point_in_box((i64::from(x) + dx, i64::from(y) + dy)).unwrap_or(points[place]);
}

/// About a third of the points in the first column, a third in the last, the others between: up and down the em box, or within a few units.
fn end_columns(n: usize, random: &mut Random) -> Vec<Point> {
    let first = random.coordinate(EM.left, EM.right - 1);
    let last = random.coordinate(first + 1, EM.right);
    let reach = random.pick(&[2, 20, EM.side()]);
    let foot = random.coordinate(EM.foot, EM.top - reach);
    let column = |random: &mut Random| match random.below(3) {
        0 => first,
        1 => last,
        _ => random.coordinate(first, last),
    };
    (0..n).map(|_| Point::new(column(random), random.coordinate(foot, foot + reach))).collect()
}

/// In columns side by side, one point in each along a parabola that opens upwards, then along one that opens downwards, and so on; or at
/// any height.
fn in_every_column(n: usize, random: &mut Random) -> Vec<Point> {
    let most = EM.side() as usize + 1;
    let width = n.div_ceil(1 + random.below(2)).min(most);
    let first = random.coordinate(EM.left, EM.right - (width - 1) as i16);
    let (height, is_parabola) = (random.between(0, EM.side().into()), random.chance(75));
    let span = (width as i64 - 1).max(1);
    let point = |i: usize| {
        let (round, column) = (i / width, i % width);
        let off = 2 * column as i64 - span;
        let rise = (height * off * off / (span * span)) as i16;
        let y = match round % 2 {
            _ if !is_parabola => random.coordinate(EM.foot, EM.top),
            0 => EM.foot + rise,
            _ => EM.top - rise,
        };
        Point::new(first + column as i16, y)
    };
    let mut points: Vec<Point> = (0..n).map(point).collect();
    if random.chance(50) {
        random.shuffle(&mut points);
    }
    points
}

/// The corners of another list's hull: counterclockwise from the least, or in any order.
fn reduced(n: usize, random: &mut Random) -> Vec<Point> {
    let corners = corners(&draw_points(n, random));
    reordered(corners, random)
}

#[cfg(test)]
mod tests {
    use super::*;
    use crate::damage::point_lists::tests::{assert_that_each_kind_is_drawn, assert_that_the_first_fault_decides, KindOfList};
    use crate::geometry::cross;
    use crate::hull::{is_in_segment, reduce_to_hull};
    use crate::smallest::smallest_disk;
    use crate::support::distinct;

    /// A drawn list: its points, the different ones of them in rising order, and the corners of its hull.
    struct Drawn {
        points: Vec<Point>,
        different: Vec<Point>,
        corners: Vec<Point>,
    }

    impl Drawn {
        fn new(points: Vec<Point>) -> Drawn {
            Drawn { different: distinct(&points), corners: corners(&points), points }
        }

        /// Whether it is a row of three places or more, in whose direction x and y are so.
        fn is_row(&self, is_so: fn(i16, i16) -> bool) -> bool {
            let ends = [self.corners[0], self.corners[self.corners.len() - 1]];
            self.corners.len() == 2 && self.different.len() > 2 && is_so(ends[1].x - ends[0].x, ends[1].y - ends[0].y)
        }

        fn is_flat(&self) -> bool {
            self.corners.len() < 3
        }

        /// The different points on the hull's sides that are no corners.
        fn on_sides(&self) -> usize {
            let n = self.corners.len();
            let is_on_side = |p: Point| (0..n).any(|i| is_in_segment(p, self.corners[i], self.corners[(i + 1) % n]));
            self.different.iter().filter(|&&p| !self.corners.contains(&p) && is_on_side(p)).count()
        }

        /// Different points in the column of this one.
        fn in_column(&self, place: usize) -> usize {
            self.different.iter().filter(|p| p.x == self.different[place].x).count()
        }

        fn columns(&self) -> usize {
            self.different.chunk_by(|p, q| p.x == q.x).count()
        }

        /// How many columns there are from the first to the last.
        fn width(&self) -> usize {
            let [first, last] = [0, self.different.len() - 1].map(|place| self.different[place].x);
            (last - first + 1) as usize
        }

        /// Whether all different points but one are in a row, three or more, and that one is a unit beside it.
        fn is_near_row(&self) -> bool {
            let is_beside = |i: usize| {
                let rest = [&self.different[..i], &self.different[i + 1..]].concat();
                let Point { x, y } = self.different[i];
                let beside = [(x - 1, y), (x + 1, y), (x, y - 1), (x, y + 1)].map(|(x, y)| Point::new(x, y));
                matches!(corners(&rest)[..], [a, b] if beside.iter().any(|&p| cross(a, b, p) == 0))
            };
            self.corners.len() == 3 && self.different.len() > 3 && (0..self.different.len()).any(is_beside)
        }

        fn is_on_circle(&self) -> bool {
            let disk = smallest_disk(&self.corners);
            self.corners.iter().all(|&p| disk.has_on_boundary(p))
        }

        /// Whether eight points or more would be the corners of a hull if the em box's corners were not there.
        fn is_overtopped(&self) -> bool {
            let is_end = |p: &Point| [EM.left, EM.right].contains(&p.x) && [EM.foot, EM.top].contains(&p.y);
            let rest: Vec<Point> = self.different.iter().copied().filter(|p| !is_end(p)).collect();
            rest.len() > 7 && corners(&rest).len() == rest.len() && rest.len() > self.corners.len()
        }
    }

    /// Whether some `lines` lines have all the points: of one more than that, two are on one of them.
    fn are_on_lines(points: &[Point], lines: usize) -> bool {
        if points.len() <= lines {
            return true;
        }
        let pairs = (1..=lines).flat_map(|i| (0..i).map(move |j| (i, j)));
        lines > 0
            && pairs.into_iter().any(|(i, j)| {
                let is_beside = |p: &Point| cross(points[i], points[j], *p) != 0;
                let rest: Vec<Point> = points.iter().copied().filter(is_beside).collect();
                are_on_lines(&rest, lines - 1)
            })
    }

    /// What drawn lists are like, and how many of 4,000 are so at least.
    const KINDS_OF_LISTS: [KindOfList<Drawn>; 24] = [
        ("one point", 20, |l| l.points.len() == 1),
        ("one place again and again", 50, |l| l.points.len() > 1 && l.different.len() == 1),
        ("a row straight right", 40, |l| l.is_row(|_, y| y == 0)),
        ("a row straight up", 40, |l| l.is_row(|x, _| x == 0)),
        ("a rising row", 80, |l| l.is_row(|x, y| x > 0 && y > 0)),
        ("a falling row", 80, |l| l.is_row(|x, y| x > 0 && y < 0)),
        ("a steep row", 20, |l| l.is_row(|x, y| x > 0 && y.abs() / x > 9)),
        ("a flat row", 20, |l| l.is_row(|x, y| y != 0 && x / y.abs() > 9)),
        ("a row with a point a unit beside it", 100, Drawn::is_near_row),
        ("on four lines at most", 300, |l| !l.is_flat() && l.different.len() > 15 && are_on_lines(&l.different, 4)),
        ("ten or more on two or three columns", 50, |l| l.different.len() > 9 && [2, 3].contains(&l.columns())),
        ("ten columns or more side by side", 100, |l| l.columns() > 9 && l.columns() == l.width()),
        ("four or more in the first column", 300, |l| !l.is_flat() && l.in_column(0) > 3),
        ("four or more in the last column", 300, |l| !l.is_flat() && l.in_column(l.different.len() - 1) > 3),
        ("all are corners", 450, |l| l.corners.len() > 4 && l.corners.len() == l.points.len()),
        ("all are corners, in the order of the hull", 70, |l| l.corners.len() > 4 && l.corners == l.points),
        ("all are corners, the other way round", 20, |l| l.corners.len() > 4 && l.corners.iter().rev().eq(&l.points)),
        ("three or more within sides", 300, |l| !l.is_flat() && l.on_sides() > 2),
        ("seven corners or more, and more within sides", 60, |l| l.corners.len() > 6 && l.on_sides() > l.corners.len()),
        ("ten corners or more, all on one circle", 5, |l| l.corners.len() > 9 && l.is_on_circle()),
        ("a corner of the em box undoes corners", 50, Drawn::is_overtopped),
        ("more than 15 corners", 200, |l| l.corners.len() > 15),
        ("more than 35 corners", 20, |l| l.corners.len() > 35),
        ("more than 50 points", 200, |l| l.points.len() > 50),
    ];

    #[test]
    fn every_kind_of_list_is_drawn() {
        assert_that_each_kind_is_drawn(draw, Drawn::new, &KINDS_OF_LISTS);
    }

    #[test]
    fn lists_have_up_to_so_many_points_and_two_more_in_the_em_box() {
        let mut random = Random::new(2);
        for (i, draw) in DRAWS.into_iter().enumerate() {
            for n in (1..=60).chain([300, 2_049, 2_050, MOST_POINTS]) {
                let points = draw(n, &mut random);
                assert!((1..=n + 2).contains(&points.len()) && points.len() <= MOST_POINTS, "{i}: {n}");
                assert!(points.iter().all(|p| p.is_in_em_box()), "{i}: {n}");
            }
        }
        assert!(long().iter().all(|list| list.len() == 2 * MOST_POINTS));
    }

    #[test]
    fn the_first_fault_decides_and_the_list_stays() {
        assert_that_the_first_fault_decides(draw, |list| {
            let mut after = list.to_vec();
            let refusal = reduce_to_hull(&mut after).err();
            assert!(refusal.is_none() || after == list, "{list:?}");
            refusal
        });
    }
}
