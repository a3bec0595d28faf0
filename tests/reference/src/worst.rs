//! Lists that cost many tests.
//!
//! Points that come from the inside out are mostly outside when they are tested: [`Kind::Growing`] goes round while the radius
//! grows, [`Kind::ByDistance`] sorts drawn points by their distance from the middle of the em box. At 4,096 points these are the
//! worst kinds found, with some 8.2 million tests. For short lists [`climb`] comes nearer to the bound.

use crate::geometry::Point;
use crate::limits::EM;
use crate::lists::{draw, Kind};
use crate::procedure;
use crate::random::Random;

pub fn tests_of(points: &[Point]) -> u64 {
    procedure::run(&mut points.to_vec()).tests
}

/// A list of n points by its seed, changed `steps` times where the count does not fall.
pub fn climb(n: usize, seed: u64, steps: usize) -> Vec<Point> {
    let mut random = Random::new(seed);
    let start = if seed.is_multiple_of(2) { Kind::ByDistance } else { Kind::Growing };
    let mut best = draw(start, n, &mut random);
    let mut most = tests_of(&best);
    for _ in 0..steps {
        let next = changed(&best, &mut random);
        let tests = tests_of(&next);
        if tests >= most {
            (best, most) = (next, tests);
        }
    }
    best
}

/// A point redrawn, a point moved a little, two points swapped, or a point put elsewhere in the list.
fn changed(points: &[Point], random: &mut Random) -> Vec<Point> {
    let mut next = points.to_vec();
    let (i, j) = (random.below(next.len()), random.below(next.len()));
    match random.below(4) {
        0 => next[i] = draw(Kind::Uniform, 1, random)[0],
        1 => next[i] = nudged(next[i], random),
        2 => next.swap(i, j),
        _ => {
            let p = next.remove(i);
            next.insert(j, p);
        }
    }
    next
}

fn nudged(p: Point, random: &mut Random) -> Point {
    let reach = random.pick(&[1, 5, 40]);
    let x = (p.x + random.coordinate(-reach, reach)).clamp(EM.left, EM.right);
    let y = (p.y + random.coordinate(-reach, reach)).clamp(EM.foot, EM.top);
    Point::new(x, y)
}

/// The number of points, the seed and the steps of the best climbs found (`cargo run --release --bin worst`).
pub const CLIMBS: [(usize, u64, usize); 11] = [
    (3, 9, 100),
    (4, 19, 300),
    (5, 39, 1_000),
    (6, 59, 1_000),
    (8, 176, 3_000),
    (12, 54, 3_000),
    (16, 29, 3_000),
    (24, 11, 3_000),
    (32, 11, 3_000),
    (48, 3, 3_000),
    (64, 1, 3_000),
];

/// Short lists near the bound.
pub fn short_lists() -> Vec<Vec<Point>> {
    CLIMBS.iter().map(|&(n, seed, steps)| climb(n, seed, steps)).collect()
}

#[cfg(test)]
mod tests {
    use super::*;

    #[test]
    fn the_bound_is_reached_at_three_four_and_five_points() {
        for (n, seed, steps) in &CLIMBS[..3] {
            assert_eq!(tests_of(&climb(*n, *seed, *steps)), procedure::most_tests(*n as u64));
        }
    }

    #[test]
    fn climbs_are_far_above_drawn_lists() {
        let counts: Vec<u64> = short_lists().iter().map(|points| tests_of(points)).collect();
        assert_eq!(counts, [7, 14, 25, 38, 80, 179, 293, 530, 928, 1_935, 3_481]);
    }
}
