//! Disks whose preview is off by nearly 2⁻⁴³ units (document 02, item 14).
//!
//! From 1024 to 2048 floats are 2⁻⁴² units apart. The farthest a fraction can be from the nearest is (1 − 1/o) × 2⁻⁴³, o the greatest odd
//! divisor of its denominator. For three points o divides the doubled area of their triangle, so it is below 2²², and triangles that fill
//! nearly half the em box come nearest to the bound. E is then 2o: an odd E is below 2²¹.

use crate::belonging::points_fit;
use crate::floats::power_of_two;
use crate::geometry::{centre_of_three, Disk, Point};
use crate::limits::EM;
use crate::lists::{self, turned, Kind};
use crate::random::Random;
use crate::support::{distinct, SupportSet};
use std::ops::RangeInclusive;

/// A coordinate of the centre.
#[derive(Clone, Copy, PartialEq, Eq, Debug)]
pub enum Axis {
    X,
    Y,
}

/// For a centre from 1024 to 2048 on the axis, which part is missing to the bound: one in so many, rounded down. Elsewhere 0.
pub fn nearness(axis: Axis, [a, b, c]: [Point; 3]) -> i128 {
    let (x, y, e) = centre_of_three(a, b, c);
    let (z, e) = match axis {
        Axis::X => (x * e.signum(), e.abs()),
        Axis::Y => (y * e.signum(), e.abs()),
    };
    if z <= 1024 * e || z >= 2048 * e {
        return 0;
    }
    // Midway between two floats are the odd multiples of 2⁻⁴³. With fewer than 43 factors of two in e no fraction is there.
    e / (e - z * power_of_two(43) % (2 * e)).abs()
}

/// The disk of three points that belong to it, if its nearness is at least this.
fn near_disk(axis: Axis, three: [Point; 3], least: i128) -> Option<(Disk, SupportSet)> {
    if nearness(axis, three) < least {
        return None;
    }
    let [a, b, c] = three;
    let (disk, support) = (Disk::of_three(a, b, c)?, distinct(&three));
    points_fit(&disk, &support).then_some((disk, support))
}

/// A drawn disk that lacks less than a thousandth of the bound, in x or in y.
pub fn draw(random: &mut Random) -> (Disk, SupportSet) {
    let axis = random.pick(&[Axis::X, Axis::Y]);
    loop {
        let points = lists::draw(Kind::Uniform, 3, random);
        if let Some(found) = near_disk(axis, [points[0], points[1], points[2]], 1_001) {
            return found;
        }
    }
}

/// The disks of at least this nearness among triangles that are as large as the em box and the axis allow, or by up to `reach` units smaller
/// on each side; each where its centre is as far to the right and up as can be. The nearest come first.
pub fn search(axis: Axis, reach: i16, least: i128) -> Vec<(Disk, SupportSet)> {
    let turns = if axis == Axis::X { 4 } else { 1 };
    let all = triangles(axis, reach).flat_map(|three| (0..turns).map(move |turns| three.map(|p| turned(&EM, p, turns))));
    let inside = all.map(in_upper_right).filter(|three| three.iter().all(|p| p.is_in_em_box()));
    let mut found: Vec<_> = inside.filter_map(|three| near_disk(axis, three, least)).collect();
    found.sort_by_key(|(_, support)| -nearness(axis, [support[0], support[1], support[2]]));
    found
}

/// Triangles with a side across the em box and a third point far below it; no two are the same in different places. If y of the centre is
/// above 1024 it is at most 1,145 units away from the points, so none of them is more than 1,657 units below the top; the third is then
/// lowest about the middle.
fn triangles(axis: Axis, reach: i16) -> impl Iterator<Item = [Point; 3]> {
    let side = EM.side();
    let third = match axis {
        Axis::X => window(0..=side, -side..=reach - side),
        Axis::Y => window(side / 2 - 16 * reach..=side / 2 + 16 * reach, -1657..=2 * reach - 1657),
    };
    let second = window(side - reach..=side, -reach..=reach);
    second.flat_map(move |b| third.clone().map(move |c| [Point::new(0, 0), b, c]))
}

/// Moved until it touches the right and the upper edge of the em box.
fn in_upper_right(three: [Point; 3]) -> [Point; 3] {
    let (x, y) = three.iter().fold((i16::MIN, i16::MIN), |(x, y), p| (x.max(p.x), y.max(p.y)));
    three.map(|p| Point::new(p.x + (EM.right - x), p.y + (EM.top - y)))
}

/// Every point with x and y in these ranges.
fn window(x: RangeInclusive<i16>, y: RangeInclusive<i16>) -> impl Iterator<Item = Point> + Clone {
    x.flat_map(move |x| y.clone().map(move |y| Point::new(x, y)))
}

#[cfg(test)]
mod tests {
    use super::*;
    use crate::edges;
    use crate::figures::preview;
    use crate::preview_error::{centre_deviations, Deviation};

    fn deviation(axis: Axis, disk: &Disk, support: &[Point]) -> Deviation {
        centre_deviations(disk, &preview(disk, support).unwrap())[axis as usize]
    }

    /// The nearness is what the floats say, and falls.
    #[test]
    fn the_search_finds_disks_near_the_bound() {
        for (axis, reach) in [(Axis::X, 2), (Axis::Y, 8)] {
            let found = search(axis, reach, 5_000);
            let near = |(disk, support): &(Disk, SupportSet)| {
                let Deviation { n, d } = deviation(axis, disk, support);
                assert_eq!(nearness(axis, [support[0], support[1], support[2]]), d / (d - n.abs()), "{disk:?}");
                d / (d - n.abs())
            };
            let all: Vec<i128> = found.iter().map(near).collect();
            assert!(all.is_sorted_by(|a, b| a >= b) && all.last() >= Some(&5_000), "{axis:?}: {all:?}");
            assert!(all.len() >= 3, "{axis:?}: {all:?}");
        }
    }

    /// No fraction with the same denominator is nearer to the bound.
    #[test]
    fn the_nearest_found_lack_one_part() {
        let by = edges::previews().into_iter().flat_map(|edge| edge.gives.by);
        let mut lacking: Vec<i128> = by.filter(|by| by.n.abs() + 1 == by.d && by.d > 1_000_000).map(|by| by.d).collect();
        lacking.sort_unstable();
        assert_eq!(lacking.len(), 9);
        assert_eq!((lacking[0], lacking[8]), (2_067_581, 4_146_443));
    }
}
