//! Point lists that more than one call is tried on.

use reference::damage;
use reference::engine::flat;
use reference::geometry::{gcd, Point};
use reference::limits::EM;
use reference::lists::{self, Case};
use reference::random::Random;
use volkhidar::MOST_POINTS;

/// Of 500 points to the most.
pub fn long() -> Vec<Case> {
    let kinds = (0..5).flat_map(|seed| lists::KINDS.map(|kind| (seed, kind)));
    let most = kinds.map(|(seed, kind)| Case {
        name: format!("{kind:?}, seed {seed}"),
        points: lists::draw(kind, MOST_POINTS, &mut Random::new(seed)),
    });
    lists::long().into_iter().chain(most).collect()
}

/// Most of them refused, each with its name.
pub fn damaged() -> Vec<(Vec<i16>, String)> {
    let drawn = (0..20_000).map(|seed| (damage::point_list(&mut Random::new(seed)), format!("seed {seed}")));
    let lengths = [0, 1, 2, 3, 8_191, 8_192, 8_193, 8_194, 8_195];
    let alike = lengths.into_iter().flat_map(|length| {
        let all = [7, -1, i16::MIN, i16::MAX];
        all.map(|number| (vec![number; length], format!("{length} times {number}")))
    });
    drawn.chain(alike).collect()
}

/// Lists and their refusals. The length comes before the points, and a fault of the last point counts as much as one of the first.
pub const REFUSED: [(&[i16], u8); 11] = [
    (&[-1; 8_195], 9),
    (&[7; 1], 9),
    (&[], 5),
    (&[-1; 8_194], 4),
    (&[7; 8_194], 4),
    (&[-1; 8_192], 3),
    (&[-1, 0], 3),
    (&[2_049, 0], 3),
    (&[0, -513], 3),
    (&[9, 9, 5, 5, 7, 1, 0, 1_537], 3),
    (&[i16::MIN, i16::MAX], 3),
];

/// That the call refuses each of these lists with its number.
pub fn assert_refused<T>(call: impl Fn(&[i16], &str) -> Result<T, u8>) {
    for (list, refusal) in REFUSED {
        let name = format!("{} numbers, {:?}", list.len(), &list[..list.len().min(8)]);
        assert_eq!(call(list, &name).err(), Some(refusal), "{name}");
    }
}

/// The most points, from (9, -30) to (72, 33).
pub fn every_point_of_a_square() -> Vec<Point> {
    (0..64).flat_map(|x| (0..64).map(move |y| Point::new(x + 9, y - 30))).collect()
}

/// A convex polygon, counterclockwise from its least corner: its sides are all (a, b) without a common divisor and with |a| + |b| at most
/// 21, by their directions. With 22 it would be too large for the em box.
pub fn polygon_of_many_corners() -> Vec<Point> {
    let all = (0..=21_i16).flat_map(|a| (-21..=21_i16).map(move |b| (a, b)));
    let is_side = |&(a, b): &(i16, i16)| a + b.abs() <= 21 && gcd(a.into(), b.into()) == 1 && (a, b) != (0, -1);
    let mut sides: Vec<(i16, i16)> = all.filter(is_side).collect();
    sides.sort_by(|&(a, b), &(c, d)| (b * c).cmp(&(a * d)));
    let back: Vec<(i16, i16)> = sides.iter().map(|&(a, b)| (-a, -b)).collect();
    let depth: i16 = sides.iter().map(|&(_, b)| b.min(0)).sum();
    let mut at = Point::new(EM.left, EM.foot - depth);
    let mut corners = Vec::new();
    for (a, b) in [sides, back].concat() {
        corners.push(at);
        at = Point::new(at.x + a, at.y + b);
    }
    corners
}

/// A list of the most points: the corners among repeats and halfway points between any two.
pub fn corners_among_others(corners: &[Point], seed: u64) -> Vec<i16> {
    let mut random = Random::new(seed);
    let mut points = corners.to_vec();
    while points.len() < MOST_POINTS {
        let (a, b) = (random.pick(corners), random.pick(corners));
        let is_halfway_whole = (a.x + b.x) % 2 == 0 && (a.y + b.y) % 2 == 0;
        points.push(if is_halfway_whole { Point::new((a.x + b.x) / 2, (a.y + b.y) / 2) } else { a });
    }
    random.shuffle(&mut points);
    flat(&points)
}
