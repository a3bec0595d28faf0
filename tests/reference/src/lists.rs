//! Drawn point lists, each by its seed: the kinds that letters are like, and those that are hard to get right.

use crate::geometry::Point;
use crate::limits::{Limits, EM, EM_1000, MOST_POINTS};
use crate::random::Random;

/// A drawn list; the name says how to draw it again.
pub struct Case {
    pub name: String,
    pub points: Vec<Point>,
}

#[derive(Clone, Copy, PartialEq, Eq, Debug)]
pub enum Kind {
    /// Anywhere in the em box.
    Uniform,
    /// In a box of a few units: many ties.
    SmallBox,
    /// A few points, each many times.
    Repeats,
    /// In a row, at times with a point beside it.
    Row,
    /// On a common circle, with repeats, at times with points inside.
    Circle,
    /// Around a large circle, in order.
    Convex,
    /// Along the edges of polygons, as an outline file has them.
    Outline,
    /// The corners of the em box and points near its edges.
    Edges,
    /// Round and round, from the inside out: many points are outside when they are tested.
    Growing,
    /// From the inside out, in any direction: the same.
    ByDistance,
    /// Three near the edges of the em box, far apart, and others between them: a large E and S.
    Wide,
}

pub const KINDS: [Kind; 11] = [
    Kind::Uniform,
    Kind::SmallBox,
    Kind::Repeats,
    Kind::Row,
    Kind::Circle,
    Kind::Convex,
    Kind::Outline,
    Kind::Edges,
    Kind::Growing,
    Kind::ByDistance,
    Kind::Wide,
];

/// The middle of the em box.
pub fn middle_of(em: &Limits) -> Point {
    Point::new((em.left + em.right) / 2, (em.foot + em.top) / 2)
}

/// How far its edges are from there.
fn reach_of(em: &Limits) -> i64 {
    i64::from(em.side()) / 2
}

/// A list of n points of the kind.
pub fn draw(kind: Kind, n: usize, random: &mut Random) -> Vec<Point> {
    draw_in(&EM, kind, n, random)
}

/// The same in another em box, which lies in that one.
pub fn draw_in(em: &Limits, kind: Kind, n: usize, random: &mut Random) -> Vec<Point> {
    match kind {
        Kind::Uniform => in_box(n, random, (em.left, em.right), (em.foot, em.top)),
        Kind::SmallBox => small_box(em, n, random),
        Kind::Repeats => repeats(em, n, random),
        Kind::Row => row(em, n, random),
        Kind::Circle => circle(em, n, random),
        Kind::Convex => convex(em, n, random),
        Kind::Outline => outline(em, n, random),
        Kind::Edges => edges(em, n, random),
        Kind::Growing => growing(em, n, random),
        Kind::ByDistance => by_distance(em, n, random),
        Kind::Wide => wide(em, n, random),
    }
}

/// `count` lists of all kinds, of 1 to `longest` points; about a quarter of them in the em box of 1,000 units.
pub fn mixed(count: u64, longest: usize) -> impl Iterator<Item = Case> {
    (0..count).map(move |seed| {
        let mut random = Random::new(seed);
        let kind = KINDS[seed as usize % KINDS.len()];
        let n = 1 + random.below(longest);
        let em = if random.chance(25) { EM_1000 } else { EM };
        Case { name: format!("{kind:?}, seed {seed}, {n} points"), points: draw_in(&em, kind, n, &mut random) }
    })
}

/// Lists of 500 points to the most, of each kind.
pub fn long() -> Vec<Case> {
    let draw_long = |(kind, n): (Kind, usize)| {
        let points = draw(kind, n, &mut Random::new(n as u64));
        Case { name: format!("{kind:?}, {n} points"), points }
    };
    KINDS.into_iter().flat_map(|kind| [500, 1_500, MOST_POINTS].map(|n| (kind, n))).map(draw_long).collect()
}

/// Every order of the points.
pub fn orders(points: &[Point]) -> Vec<Vec<Point>> {
    if points.is_empty() {
        return vec![vec![]];
    }
    let with_first = |first: usize| {
        let rest = [&points[..first], &points[first + 1..]].concat();
        orders(&rest).into_iter().map(move |order| [&points[first..=first], &order].concat())
    };
    (0..points.len()).flat_map(with_first).collect()
}

fn in_box(n: usize, random: &mut Random, x: (i16, i16), y: (i16, i16)) -> Vec<Point> {
    (0..n).map(|_| Point::new(random.coordinate(x.0, x.1), random.coordinate(y.0, y.1))).collect()
}

fn small_box(em: &Limits, n: usize, random: &mut Random) -> Vec<Point> {
    let side = random.coordinate(0, 9);
    let x = random.coordinate(em.left, em.right - side);
    let y = random.coordinate(em.foot, em.top - side);
    in_box(n, random, (x, x + side), (y, y + side))
}

fn repeats(em: &Limits, n: usize, random: &mut Random) -> Vec<Point> {
    let different = 1 + random.below(6);
    let few = draw_in(em, random.pick(&[Kind::Uniform, Kind::SmallBox, Kind::Circle]), different, random);
    (0..n).map(|_| random.pick(&few)).collect()
}

/// The points of a row through the box: the start, and steps that stay in it.
fn row(em: &Limits, n: usize, random: &mut Random) -> Vec<Point> {
    let step = (random.between(-9, 9), random.between(-9, 9));
    let start = (random.between(em.left.into(), em.right.into()), random.between(em.foot.into(), em.top.into()));
    let at = |t: i64| (start.0 + t * step.0, start.1 + t * step.1);
    let steps = i64::from(em.side()) / 8;
    let on_row: Vec<Point> = (-steps..=steps).filter_map(|t| point_in_box(at(t))).filter(|p| p.is_in(em)).collect();
    let mut points: Vec<Point> = (0..n).map(|_| random.pick(&on_row)).collect();
    if random.chance(20) {
        let place = random.below(n);
        points[place] = draw_in(em, Kind::Uniform, 1, random)[0];
    }
    points
}

/// The point with these coordinates, if it is in the em box.
pub fn point_in_box((x, y): (i64, i64)) -> Option<Point> {
    let p = Point::new(i16::try_from(x).ok()?, i16::try_from(y).ok()?);
    p.is_in_em_box().then_some(p)
}

/// Squared radii with many points on their circles: products of primes that are sums of two squares.
pub const RICH: [i64; 18] =
    [1, 5, 25, 65, 85, 125, 325, 425, 725, 1_105, 5_525, 8_125, 27_625, 71_825, 138_125, 160_225, 801_125, 1_047_625];

fn circle(em: &Limits, n: usize, random: &mut Random) -> Vec<Point> {
    let all = rich_circle(em, random);
    let few = random.pick(&[3, 4, 5, 8, 200]);
    let chosen: Vec<Point> = (0..few).map(|_| random.pick(&all)).collect();
    let mut points: Vec<Point> = (0..n).map(|_| random.pick(&chosen)).collect();
    if random.chance(30) {
        let center = middle(&all);
        for p in points.iter_mut().step_by(3) {
            *p = halfway(*p, center);
        }
    }
    points
}

/// All lattice points of a circle about a lattice point or the middle of a unit square, as far as they lie in the box.
pub fn rich_circle(em: &Limits, random: &mut Random) -> Vec<Point> {
    let half = random.between(0, 1);
    let fitting = RICH.iter().filter(|&&square| square <= reach_of(em).pow(2)).count();
    let square = random.pick(&RICH[..fitting]) * if half == 1 { 2 } else { 4 };
    let reach = (square as u64).isqrt() as i64;
    let least = (reach + 1) / 2;
    let x = 2 * random.between(i64::from(em.left) + least, i64::from(em.right) - least) + half;
    let y = 2 * random.between(i64::from(em.foot) + least, i64::from(em.top) - least) + half;
    let mut on_circle: Vec<Point> = (-reach..=reach).flat_map(|dx| on_column(x, y, dx, square)).collect();
    on_circle.retain(|p| p.is_in(em));
    assert!(!on_circle.is_empty());
    on_circle
}

/// The lattice points at doubled distance dx from the doubled centre (x, y) on the circle of doubled squared radius `square`.
fn on_column(x: i64, y: i64, dx: i64, square: i64) -> Vec<Point> {
    let is_lattice = |dy: &i64| (x + dx) % 2 == 0 && (y + dy) % 2 == 0;
    let ends = whole_root(square - dx * dx).filter(is_lattice).into_iter().flat_map(|dy| [dy, -dy]);
    ends.filter_map(|dy| point_in_box(((x + dx) / 2, (y + dy) / 2))).collect()
}

/// The number from 0 on whose square this is, if there is one.
pub fn whole_root(square: i64) -> Option<i64> {
    let root = (square as u64).isqrt() as i64;
    (root * root == square).then_some(root)
}

fn middle(points: &[Point]) -> Point {
    let least = points.iter().min().expect("a circle has points");
    let most = points.iter().max().expect("a circle has points");
    halfway(*least, *most)
}

pub fn halfway(a: Point, b: Point) -> Point {
    Point::new((a.x + b.x) / 2, (a.y + b.y) / 2)
}

/// Point k of n around the circle of the given radius about the middle of the em box, rounded to the lattice, by whole numbers
/// alone.
fn around(em: &Limits, k: usize, n: usize, radius: i64) -> Point {
    let (k, n) = (k as i64 % n as i64, n as i64);
    let quarter = 4 * k / n;
    // tan of half the angle within the quarter is f / n.
    let f = 4 * k - quarter * n;
    let scale = n * n + f * f;
    let (x, y) = (radius * (n * n - f * f) / scale, radius * 2 * f * n / scale);
    let (x, y) = match quarter {
        0 => (x, y),
        1 => (-y, x),
        2 => (-x, -y),
        _ => (y, -x),
    };
    let middle = middle_of(em);
    Point::new(middle.x + x as i16, middle.y + y as i16)
}

fn convex(em: &Limits, n: usize, random: &mut Random) -> Vec<Point> {
    let radius = random.between(20, reach_of(em));
    let turn = random.below(n);
    let mut points: Vec<Point> = (0..n).map(|k| around(em, k + turn, n, radius)).collect();
    if random.chance(30) {
        points.reverse();
    }
    points
}

/// One to three closed polygons of 3 to 12 vertices, their edges walked in even steps.
fn outline(em: &Limits, n: usize, random: &mut Random) -> Vec<Point> {
    let contours = 1 + random.below(3);
    let mut points = Vec::with_capacity(n);
    while points.len() < n {
        let left = n - points.len();
        let length = if points.len() * contours < n { n.div_ceil(contours).min(left) } else { left };
        points.extend(contour(em, length, random));
    }
    points
}

fn contour(em: &Limits, n: usize, random: &mut Random) -> Vec<Point> {
    let sides = (3 + random.below(10)).min(n);
    let vertices: Vec<Point> = (0..sides).map(|k| around(em, k, sides, random.between(60, reach_of(em)))).collect();
    (0..n).map(|i| along(&vertices, i, n)).collect()
}

/// Point i of n on the way round the polygon.
fn along(vertices: &[Point], i: usize, n: usize) -> Point {
    let side = i * vertices.len() / n;
    let (from, to) = (vertices[side], vertices[(side + 1) % vertices.len()]);
    let (part, whole) = ((i * vertices.len() % n) as i64, n as i64);
    let mix = |a: i16, b: i16| (i64::from(a) + (i64::from(b) - i64::from(a)) * part / whole) as i16;
    Point::new(mix(from.x, to.x), mix(from.y, to.y))
}

fn edges(em: &Limits, n: usize, random: &mut Random) -> Vec<Point> {
    let near = random.coordinate(0, 3);
    let edge = |least: i16, most: i16, random: &mut Random| match random.below(3) {
        0 => random.coordinate(least, least + near),
        1 => random.coordinate(most - near, most),
        _ => random.coordinate(least, most),
    };
    (0..n).map(|_| Point::new(edge(em.left, em.right, random), edge(em.foot, em.top, random))).collect()
}

/// Points round the middle with rising radius.
fn growing(em: &Limits, n: usize, random: &mut Random) -> Vec<Point> {
    let turn = 1 + random.below(n);
    let radius = |i: usize| 1 + (reach_of(em) - 1) * i as i64 / n as i64;
    (0..n).map(|i| around(em, i * turn, n, radius(i))).collect()
}

/// Points anywhere in the em box, the nearest to its middle first.
fn by_distance(em: &Limits, n: usize, random: &mut Random) -> Vec<Point> {
    let mut points = draw_in(em, Kind::Uniform, n, random);
    let middle = middle_of(em);
    points.sort_by_key(|p| {
        let (dx, dy) = (i32::from(p.x) - i32::from(middle.x), i32::from(p.y) - i32::from(middle.y));
        dx * dx + dy * dy
    });
    points
}

/// Two points near the ends of one edge, one near the opposite edge, and the others about the middle, in any order; any edge may be the one.
fn wide(em: &Limits, n: usize, random: &mut Random) -> Vec<Point> {
    let side = em.side();
    let near = side / 32;
    let off = |random: &mut Random| random.coordinate(0, near);
    let mut places = vec![
        (off(random), off(random)),
        (side - off(random), off(random)),
        (random.coordinate(near, side - near), side - off(random)),
    ];
    places.truncate(n);
    places.extend((3..n).map(|_| (random.coordinate(side / 4, 3 * (side / 4)), random.coordinate(side / 4, 3 * (side / 4)))));
    random.shuffle(&mut places);
    let turns = random.below(4);
    places.into_iter().map(|(x, y)| turned(em, Point::new(em.left + x, em.foot + y), turns)).collect()
}

/// The point after so many quarter turns of the em box about its middle.
pub fn turned(em: &Limits, p: Point, turns: usize) -> Point {
    (0..turns).fold(p, |p, _| Point::new(em.right - (p.y - em.foot), em.foot + (p.x - em.left)))
}

#[cfg(test)]
mod tests {
    use super::*;
    use crate::smallest::smallest_disk;

    #[test]
    fn lists_have_their_length_and_stay_in_the_box() {
        for (em, kind) in [EM, EM_1000].into_iter().flat_map(|em| KINDS.map(|kind| (em, kind))) {
            for n in [1, 2, 3, 7, 100, 4_096] {
                for seed in 0..20 {
                    let points = draw_in(&em, kind, n, &mut Random::new(seed));
                    assert_eq!(points.len(), n, "{kind:?}");
                    assert!(points.iter().all(|p| p.is_in(&em)), "{kind:?} {n} {seed}");
                }
            }
        }
    }

    #[test]
    fn mixed_lists_stay_in_the_smaller_em_box_and_leave_it() {
        let in_smaller = |case: &Case| case.points.iter().all(|p| p.is_in(&EM_1000));
        let times = mixed(1_000, 12).filter(in_smaller).count();
        assert!((200..500).contains(&times), "{times}");
    }

    /// S of the smallest disk in 2⁶³ to 2⁶⁴, and above it.
    #[test]
    fn many_lists_have_an_s_above_64_bits() {
        let disks: Vec<u128> = mixed(3_000, 12).map(|case| smallest_disk(&case.points).s).collect();
        let times = |least: u128, most: u128| disks.iter().filter(|s| (least..most).contains(s)).count();
        let (half, all) = (times(1 << 63, 1 << 64), times(1 << 64, u128::MAX));
        assert!(half > 20 && all > 60, "{half} {all}");
    }

    #[test]
    fn circles_have_many_points() {
        let sizes: Vec<usize> = (0..200).map(|seed| rich_circle(&EM, &mut Random::new(seed)).len()).collect();
        assert!(sizes.iter().any(|&size| size >= 48), "{sizes:?}");
        assert!(sizes.iter().all(|&size| size >= 4), "{sizes:?}");
    }
}
