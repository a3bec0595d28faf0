//! The smallest enclosing disk of a list of any length, and not by Welzl's procedure.
//!
//! A set of at most three points is kept with its own smallest disk; the point farthest outside is added, and the smallest disk of
//! these four taken by definition. The radius grows with each step, so it ends; the disk it ends on holds all points and is the
//! smallest of some of them, so it is the smallest of all. Repeats, rows and common circles need no care.

use crate::definition::by_definition;
use crate::geometry::{Disk, Point};
use crate::support::first_support_set;

/// The smallest enclosing disk of a list of one point or more.
pub fn smallest_disk(points: &[Point]) -> Disk {
    let mut few = vec![points[0]];
    loop {
        let disk = by_definition(&few);
        few = first_support_set(&few, &disk);
        match farthest_outside(&disk, points) {
            Some(p) => few.push(p),
            None => return disk,
        }
    }
}

pub fn farthest_outside(disk: &Disk, points: &[Point]) -> Option<Point> {
    let outside = points.iter().copied().filter(|&p| !disk.holds(p));
    outside.max_by_key(|&p| disk.scaled_square_distance(p))
}

#[cfg(test)]
mod tests {
    use super::*;
    use crate::limits::EM;
    use crate::lists;

    #[test]
    fn it_is_the_smallest_by_definition_on_short_lists() {
        for case in lists::mixed(3_000, 12) {
            assert_eq!(smallest_disk(&case.points), by_definition(&case.points), "{}", case.name);
        }
    }

    #[test]
    fn answers_keep_to_the_limits_of_document_01() {
        for case in lists::mixed(2_000, 60) {
            let disk = smallest_disk(&case.points);
            assert!(disk.holds_all(&case.points), "{}", case.name);
            assert!(disk.is_within(&EM), "{}", case.name);
        }
    }

    #[test]
    fn order_and_repeats_do_not_matter() {
        for case in lists::mixed(500, 30) {
            let disk = smallest_disk(&case.points);
            let first = first_support_set(&case.points, &disk);
            let mut other: Vec<Point> = case.points.iter().rev().copied().collect();
            other.extend_from_slice(&case.points);
            assert_eq!(smallest_disk(&other), disk, "{}", case.name);
            assert_eq!(first_support_set(&other, &disk), first, "{}", case.name);
        }
    }
}
