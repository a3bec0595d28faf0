//! The smallest disk by its definition alone: every disk that can be it is tried.

use crate::geometry::{Disk, Point};

/// The smallest disk of a few points: of the disks of one, two and three of them that hold all, the one with the least radius.
/// The number of steps is the fourth power of the number of points.
pub fn by_definition(points: &[Point]) -> Disk {
    least_that_fits(points, |disk| disk.holds_all(points))
}

/// Of the disks of one, two and three of the points that fit, the one with the least radius.
pub fn least_that_fits(points: &[Point], fits: impl Fn(&Disk) -> bool) -> Disk {
    let mut best: Option<Disk> = None;
    for disk in candidates(points) {
        let is_better = best.is_none_or(|b| disk.is_smaller_than(&b));
        if is_better && fits(&disk) {
            best = Some(disk);
        }
    }
    best.expect("a list of one point or more has a smallest disk")
}

/// The disks of all sets of one, two and three of the points.
fn candidates(points: &[Point]) -> Vec<Disk> {
    let mut disks = Vec::new();
    for (i, &a) in points.iter().enumerate() {
        disks.push(Disk::of_one(a));
        for (j, &b) in points.iter().enumerate().skip(i + 1) {
            disks.push(Disk::of_two(a, b));
            let thirds = points.iter().skip(j + 1);
            disks.extend(thirds.filter_map(|&c| Disk::of_three(a, b, c)));
        }
    }
    disks
}
