//! The smallest disk that holds every traced point wherever it may really be (document 02, item 7), neither by Welzl's procedure nor from
//! the list of all corners of the squares; drawn lists for it are in `traced/drawn.rs`.
//!
//! A traced point may be anywhere in the square about (x, y) that reaches t to each side. The place in it that is farthest from a centre
//! is away from it by |x − X/E| + t in x and |y − Y/E| + t in y, so a disk holds the whole square exactly if
//! (|xE − X| + tE)² + (|yE − Y| + tE)² is at most S. A set of at most three places in squares is kept with its own smallest disk, and grows
//! by the farthest place of the square that is farthest outside. The radius grows with each step and the places added are corners, so
//! it ends; the disk it ends on holds all squares and is the smallest of some of their places, so it is the smallest of all. On short
//! lists it must be the least of the disks of one, two and three corners that hold all squares by the same inequality.

use crate::definition::{by_definition, least_that_fits};
use crate::geometry::{square_of, Disk, Point};
use crate::limits::{EM, MOST_TOLERANCE, MOST_TRACED};
use crate::refusal::Refusal;
use crate::support::first_support_set;

mod drawn;

pub use drawn::{draw, fitted};

/// A point known only to within its tolerance t, in x and in y.
#[derive(Clone, Copy, PartialEq, Eq, Debug)]
pub struct TracedPoint {
    pub x: i16,
    pub y: i16,
    pub t: i16,
}

impl TracedPoint {
    fn wide(self) -> (i128, i128, i128) {
        (self.x.into(), self.y.into(), self.t.into())
    }

    fn has_good_tolerance(self) -> bool {
        (0..=MOST_TOLERANCE).contains(&self.t)
    }

    /// Whether its square stays in the em box.
    fn is_in_em_box(self) -> bool {
        let (x, y, t) = self.wide();
        x - t >= EM.left.into() && x + t <= EM.right.into() && y - t >= EM.foot.into() && y + t <= EM.top.into()
    }

    /// The greatest (aE − X)² + (bE − Y)² of all places (a, b) of its square, to be compared with S.
    fn farthest_square_distance(self, disk: &Disk) -> u128 {
        let (x, y, t) = self.wide();
        let dx = (x * disk.e - disk.x).abs() + t * disk.e;
        let dy = (y * disk.e - disk.y).abs() + t * disk.e;
        square_of(dx, dy)
    }

    /// Whether the disk holds its whole square.
    fn is_held_by(self, disk: &Disk) -> bool {
        self.farthest_square_distance(disk) <= disk.s
    }

    /// The place of its square that is farthest from the disk's centre.
    fn farthest_place(self, disk: &Disk) -> Point {
        let away =
            |middle: i16, center: i128| if i128::from(middle) * disk.e < center { middle - self.t } else { middle + self.t };
        Point::new(away(self.x, disk.x), away(self.y, disk.y))
    }

    fn corners(self) -> [Point; 4] {
        let TracedPoint { x, y, t } = self;
        [(x - t, y - t), (x - t, y + t), (x + t, y - t), (x + t, y + t)].map(|(x, y)| Point::new(x, y))
    }
}

/// x, y and t by turns.
pub fn flat(traced: &[TracedPoint]) -> Vec<i16> {
    traced.iter().flat_map(|p| [p.x, p.y, p.t]).collect()
}

fn traced_of(list: &[i16]) -> Vec<TracedPoint> {
    list.chunks_exact(3).map(|three| TracedPoint { x: three[0], y: three[1], t: three[2] }).collect()
}

/// Lists up to this length are searched by definition too.
const SHORT: usize = 10;

/// The smallest disk that holds every point of the list, x, y and t by turns, wherever it may be: refusals 9, 5, 4, then 14 and 3 point by
/// point.
pub fn smallest_disk_of_traced(list: &[i16]) -> Result<Disk, Refusal> {
    let traced = accepted(list)?;
    let disk = smallest_by_places(&traced);
    if traced.len() <= SHORT {
        assert_eq!(
            disk,
            smallest_by_definition(&traced),
            "the definition and the search for the smallest disk differ: {traced:?}"
        );
    }
    Ok(disk)
}

fn accepted(list: &[i16]) -> Result<Vec<TracedPoint>, Refusal> {
    if !list.len().is_multiple_of(3) {
        return Err(Refusal::OddLength);
    }
    let traced = traced_of(list);
    if traced.is_empty() {
        return Err(Refusal::NoPoint);
    }
    if traced.len() > MOST_TRACED {
        return Err(Refusal::TooMany);
    }
    for p in &traced {
        if !p.has_good_tolerance() {
            return Err(Refusal::BadTolerance);
        }
        if !p.is_in_em_box() {
            return Err(Refusal::OutsideBox);
        }
    }
    Ok(traced)
}

/// The smallest disk by growing a set of at most three places; it starts with the first point as it was traced.
fn smallest_by_places(traced: &[TracedPoint]) -> Disk {
    let mut few = vec![Point::new(traced[0].x, traced[0].y)];
    loop {
        let disk = by_definition(&few);
        let farthest = traced.iter().max_by_key(|p| p.farthest_square_distance(&disk)).expect("a list has a point");
        if farthest.is_held_by(&disk) {
            return disk;
        }
        let place = farthest.farthest_place(&disk);
        assert!(!disk.holds(place), "a square outside has its farthest place outside");
        few = first_support_set(&few, &disk);
        few.push(place);
    }
}

/// The least of the disks of one, two and three corners that hold all squares.
fn smallest_by_definition(traced: &[TracedPoint]) -> Disk {
    let mut corners: Vec<Point> = traced.iter().flat_map(|p| p.corners()).collect();
    corners.sort_unstable();
    corners.dedup();
    least_that_fits(&corners, |disk| traced.iter().all(|p| p.is_held_by(disk)))
}

#[cfg(test)]
mod tests {
    use super::drawn::of_kind;
    use super::*;
    use crate::lists::{self, KINDS};
    use crate::random::Random;
    use crate::smallest::smallest_disk;

    /// The points of drawn lists that are accepted.
    fn drawn_lists(seed: u64, count: usize, longest: usize) -> Vec<Vec<TracedPoint>> {
        let mut random = Random::new(seed);
        (0..count).filter_map(|_| accepted(&draw(longest, &mut random)).ok()).collect()
    }

    #[test]
    fn it_is_the_smallest_by_definition_on_short_lists() {
        for (seed, count, longest) in [(1, 3_000, 3), (2, 1_000, 6), (3, 300, 10), (4, 100, 13)] {
            for traced in drawn_lists(seed, count, longest) {
                assert_eq!(smallest_by_places(&traced), smallest_by_definition(&traced), "{traced:?}");
            }
        }
    }

    #[test]
    fn with_every_tolerance_zero_it_is_the_plain_disk() {
        for case in lists::mixed(2_000, 60) {
            let numbers: Vec<i16> = case.points.iter().flat_map(|p| [p.x, p.y, 0]).collect();
            assert_eq!(smallest_disk_of_traced(&numbers), Ok(smallest_disk(&case.points)), "{}", case.name);
        }
    }

    fn plain_disk_of_corners(traced: &[TracedPoint]) -> Disk {
        smallest_disk(&traced.iter().flat_map(|p| p.corners()).collect::<Vec<Point>>())
    }

    #[test]
    fn it_is_the_plain_disk_of_all_corners() {
        for traced in drawn_lists(5, 4_000, 60) {
            assert_eq!(smallest_by_places(&traced), plain_disk_of_corners(&traced), "{traced:?}");
        }
    }

    #[test]
    fn long_lists_too() {
        for (seed, kind) in KINDS.into_iter().enumerate() {
            let traced = of_kind(kind, MOST_TRACED, &mut Random::new(seed as u64));
            let disk = smallest_disk_of_traced(&flat(&traced));
            assert_eq!(disk, Ok(plain_disk_of_corners(&traced)), "{kind:?}, seed {seed}");
        }
    }

    /// Whether the disk holds the place (x + t a/d, y + t b/d).
    fn holds_place(disk: &Disk, p: TracedPoint, [a, b, d]: [i128; 3]) -> bool {
        let (x, y, t) = p.wide();
        let (dx, dy) = ((x * d + t * a) * disk.e - disk.x * d, (y * d + t * b) * disk.e - disk.y * d);
        square_of(dx, dy) <= disk.s * square_of(d, 0)
    }

    /// A part of t in x and one in y, with their denominator: as a rule within the square, at times on a side or in a corner.
    fn fractions(random: &mut Random) -> [i128; 3] {
        let d = random.between(1, 1_000);
        let part = |random: &mut Random| match random.below(4) {
            0 => random.pick(&[d, -d]),
            _ => random.between(-d, d),
        };
        [part(random), part(random), d].map(i128::from)
    }

    #[test]
    fn it_holds_drawn_places_of_every_square() {
        let mut random = Random::new(6);
        for traced in drawn_lists(7, 2_000, 40) {
            let disk = smallest_by_places(&traced);
            for &p in &traced {
                for _ in 0..40 {
                    let place = fractions(&mut random);
                    assert!(holds_place(&disk, p, place), "{traced:?}: {p:?} {place:?}");
                }
            }
        }
    }

    #[test]
    fn a_square_taken_out_never_makes_it_larger() {
        let mut times_smaller = 0;
        for traced in drawn_lists(8, 1_000, 20) {
            let disk = smallest_by_places(&traced);
            for out in (0..traced.len()).filter(|_| traced.len() > 1) {
                let without = smallest_by_places(&[&traced[..out], &traced[out + 1..]].concat());
                assert!(!disk.is_smaller_than(&without), "{traced:?} without {out}");
                times_smaller += usize::from(without.is_smaller_than(&disk));
            }
        }
        assert!(times_smaller > 1_000, "{times_smaller}");
    }

    #[test]
    fn neither_order_nor_repeats_matter() {
        for traced in drawn_lists(9, 1_000, 40) {
            let other: Vec<TracedPoint> = traced.iter().rev().chain(&traced).copied().collect();
            assert_eq!(smallest_by_places(&other), smallest_by_places(&traced), "{traced:?}");
        }
    }

    #[test]
    fn answers_keep_to_the_limits_of_document_01() {
        for traced in drawn_lists(10, 2_000, 60) {
            assert!(smallest_by_places(&traced).is_within(&EM), "{traced:?}");
        }
    }
}
