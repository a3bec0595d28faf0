//! Drawn lattice polygons, whose corners are all corners of the hull, and lists made from them.

use super::drawn::anywhere;
use crate::geometry::{gcd, Point};
use crate::limits::EM;
use crate::lists::{halfway, point_in_box};
use crate::random::Random;
use std::cmp::Ordering;

/// A step from a point to another, in x and in y.
pub type Step = (i64, i64);

/// The step divided by all that divides both of its numbers.
pub fn least_step((dx, dy): Step) -> Step {
    let divisor = gcd(dx.into(), dy.into()) as i64;
    (dx / divisor, dy / divisor)
}

/// The polygon with a side for each least step of up to this squared length fits into the em box; with longer steps it would not.
const SQUARED_REACH: i64 = 290;

/// All least steps of up to this squared length.
fn least_steps(square: i64) -> Vec<Step> {
    let reach = (square as u64).isqrt() as i64;
    let all = (-reach..=reach).flat_map(|dx| (-reach..=reach).map(move |dy| (dx, dy)));
    all.filter(|&(dx, dy)| dx * dx + dy * dy <= square && gcd(dx.into(), dy.into()) == 1).collect()
}

/// Whether the step leads upwards, or straight to the right.
fn is_upward((dx, dy): Step) -> bool {
    dy > 0 || dy == 0 && dx > 0
}

/// By direction, counterclockwise from straight right.
fn by_direction(a: &Step, b: &Step) -> Ordering {
    is_upward(*b).cmp(&is_upward(*a)).then((b.0 * a.1).cmp(&(a.0 * b.1)))
}

/// The steps and one more that leads back, each direction once, in the order of the directions.
fn closed(steps: &[Step]) -> Vec<Step> {
    let plus = |a: Step, b: Step| (a.0 + b.0, a.1 + b.1);
    let end = steps.iter().copied().fold((0, 0), plus);
    let mut all = [steps, &[(-end.0, -end.1)]].concat();
    all.retain(|&step| step != (0, 0));
    all.sort_by(by_direction);
    let mut sides: Vec<Step> = Vec::new();
    for step in all {
        match sides.last_mut() {
            Some(last) if by_direction(last, &step).is_eq() => *last = plus(*last, step),
            _ => sides.push(step),
        }
    }
    sides
}

/// The corners of the polygon with these sides, somewhere in the em box: none if it is too large.
fn placed(sides: &[Step], random: &mut Random) -> Option<Vec<Point>> {
    let mut places = vec![(0, 0)];
    for side in &sides[..sides.len().max(1) - 1] {
        let (x, y) = places[places.len() - 1];
        places.push((x + side.0, y + side.1));
    }
    let start = |least: i16, most: i16, along: &[i64], random: &mut Random| {
        let (low, high) = (along.iter().min()?, along.iter().max()?);
        let (first, last) = (i64::from(least) - low, i64::from(most) - high);
        (first <= last).then(|| random.between(first, last))
    };
    let (xs, ys): (Vec<i64>, Vec<i64>) = places.iter().copied().unzip();
    let (x, y) = (start(EM.left, EM.right, &xs, random)?, start(EM.foot, EM.top, &ys, random)?);
    places.into_iter().map(|(dx, dy)| point_in_box((x + dx, y + dy))).collect()
}

/// Up to n corners of a lattice polygon, no three in a row, counterclockwise: its sides have different directions, and each is a least step
/// or several, from `fewest` to `most`, so that points of the lattice are between its ends.
fn polygon(n: usize, (fewest, most): (i64, i64), random: &mut Random) -> Vec<Point> {
    let mut steps = least_steps(random.pick(&[1, 4, 16, 64, SQUARED_REACH]));
    random.shuffle(&mut steps);
    if random.chance(50) {
        steps.retain(|&step| is_upward(step));
        steps = steps.into_iter().flat_map(|(dx, dy)| [(dx, dy), (-dx, -dy)]).collect();
    }
    steps.truncate(n - 1);
    for step in &mut steps {
        let times = random.between(fewest, most);
        *step = (times * step.0, times * step.1);
    }
    loop {
        match placed(&closed(&steps), random) {
            Some(corners) => return corners,
            None => steps.truncate(steps.len() - 1),
        }
    }
}

/// The polygon with a side for each of these steps, 560 corners, again and again, in any order.
pub fn full_polygon(n: usize, random: &mut Random) -> Vec<Point> {
    let corners = placed(&closed(&least_steps(SQUARED_REACH)), random).expect("it fits into the em box");
    let mut points: Vec<Point> = corners.into_iter().cycle().take(n).collect();
    random.shuffle(&mut points);
    points
}

/// The corners of a polygon in any order.
pub fn any_polygon(n: usize, random: &mut Random) -> Vec<Point> {
    let sides = random.pick(&[(1, 1), (1, 4), (1, 20)]);
    let corners = polygon(n, sides, random);
    reordered(corners, random)
}

/// Turned round by some places, the other way round, shuffled, or as they are.
pub fn reordered(mut points: Vec<Point>, random: &mut Random) -> Vec<Point> {
    let turn = random.below(points.len());
    match random.below(4) {
        0 => points.rotate_left(turn),
        1 => points.reverse(),
        2 => random.shuffle(&mut points),
        _ => (),
    }
    points
}

/// A polygon with points on its sides, corners again among them, and some between any two points.
pub fn with_sides(n: usize, random: &mut Random) -> Vec<Point> {
    let sides = random.pick(&[(2, 4), (2, 20)]);
    let most = 1 + random.below(n.div_ceil(2));
    let corners = polygon(most, sides, random);
    let mut points = corners.clone();
    while points.len() < n {
        let i = random.below(corners.len());
        let (a, b) = (corners[i], corners[(i + 1) % corners.len()]);
        points.push(if random.chance(80) { on_side(a, b, random) } else { halfway(a, random.pick(&points)) });
    }
    reordered(points, random)
}

/// A point of the lattice from a to b.
pub fn on_side(a: Point, b: Point, random: &mut Random) -> Point {
    let whole = (b.x - a.x, b.y - a.y);
    let parts = gcd(whole.0.into(), whole.1.into()).max(1) as i16;
    let t = random.coordinate(0, parts);
    Point::new(a.x + whole.0 / parts * t, a.y + whole.1 / parts * t)
}

/// A polygon and one or two points far off, as a rule a corner of the em box: the corners that face them are none of the hull's.
pub fn overtopped(n: usize, random: &mut Random) -> Vec<Point> {
    let mut points = polygon(n, (1, 3), random);
    for _ in 0..=random.below(2) {
        let end = Point::new(random.pick(&[EM.left, EM.right]), random.pick(&[EM.foot, EM.top]));
        points.push(if random.chance(70) { end } else { anywhere(random) });
    }
    reordered(points, random)
}

#[cfg(test)]
mod tests {
    use super::*;
    use crate::hull::corners;

    #[test]
    fn every_corner_of_a_polygon_is_one_of_its_hull() {
        let mut random = Random::new(1);
        for n in (1..=60).chain([100, 300, 600]) {
            for _ in 0..50 {
                let mut polygon = polygon(n, (1, 5), &mut random);
                let least = (0..polygon.len()).min_by_key(|&i| polygon[i]).expect("a polygon has a corner");
                polygon.rotate_left(least);
                assert!(polygon.len() <= n);
                assert_eq!(corners(&polygon), polygon);
            }
        }
    }

    #[test]
    fn the_full_polygon_has_560_corners_and_no_larger_one_fits() {
        let points = full_polygon(1_000, &mut Random::new(3));
        assert_eq!((points.len(), corners(&points).len()), (1_000, 560));
        let longer =
            (SQUARED_REACH + 1..).map(least_steps).find(|steps| steps.len() > 560).expect("longer steps make more sides");
        assert_eq!(placed(&closed(&longer), &mut Random::new(3)), None);
    }

    #[test]
    fn polygons_have_few_and_many_corners() {
        let mut random = Random::new(2);
        let mut sizes: Vec<usize> = (0..4_000).map(|i| polygon(1 + i % 600, (1, 1), &mut random).len()).collect();
        sizes.sort_unstable();
        let times = |from: usize, to: usize| sizes.iter().filter(|&&size| (from..=to).contains(&size)).count();
        for (from, to) in [(1, 2), (3, 10), (11, 50), (51, 150), (151, 300), (301, 400), (401, 560)] {
            assert!(times(from, to) > 10, "{from} to {to}: {}", times(from, to));
        }
    }
}
