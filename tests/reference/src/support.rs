//! The first support set (document 01: the first rim set).

use crate::definition::by_definition;
use crate::geometry::{Disk, Point};

/// One to three different points in rising order.
pub type SupportSet = Vec<Point>;

/// The first set of the points whose own smallest disk is `disk`, the smallest of them all: the fewest points, then the least set,
/// compared point by point. Every point of such a set is on the boundary, so only those points are tried.
pub fn first_support_set(points: &[Point], disk: &Disk) -> SupportSet {
    let on_boundary: Vec<Point> = points.iter().copied().filter(|&p| disk.has_on_boundary(p)).collect();
    first_among(&distinct(&on_boundary), disk)
}

/// The same by the definition alone, over all points.
pub fn first_by_definition(points: &[Point], disk: &Disk) -> SupportSet {
    first_among(&distinct(points), disk)
}

/// The different points in rising order.
pub fn distinct(points: &[Point]) -> Vec<Point> {
    let mut points = points.to_vec();
    points.sort_unstable();
    points.dedup();
    points
}

/// Every set of one to three of the points, which rise strictly.
pub fn sets(points: &[Point]) -> Vec<SupportSet> {
    let mut all = vec![];
    for (i, &a) in points.iter().enumerate() {
        all.push(vec![a]);
        for (j, &b) in points.iter().enumerate().skip(i + 1) {
            all.push(vec![a, b]);
            all.extend(points[j + 1..].iter().map(|&c| vec![a, b, c]));
        }
    }
    all
}

/// Sets of one, then two, then three of the points, which rise strictly, each size in rising order.
fn first_among(points: &[Point], disk: &Disk) -> SupportSet {
    (1..=3)
        .find_map(|size| first_of_size(points, size, &mut Vec::new(), disk))
        .expect("at most three points determine a smallest disk")
}

/// The least set that is `chosen` and `size` of the points behind it.
fn first_of_size(points: &[Point], size: usize, chosen: &mut Vec<Point>, disk: &Disk) -> Option<SupportSet> {
    if size == 0 {
        return (by_definition(chosen) == *disk).then(|| chosen.clone());
    }
    for (i, &p) in points.iter().enumerate() {
        chosen.push(p);
        let found = first_of_size(&points[i + 1..], size - 1, chosen, disk);
        chosen.pop();
        if found.is_some() {
            return found;
        }
    }
    None
}

#[cfg(test)]
mod tests {
    use super::*;
    use crate::lists;

    #[test]
    fn points_inside_are_in_no_first_set() {
        for case in lists::mixed(2_000, 10) {
            let disk = by_definition(&case.points);
            let all = first_by_definition(&case.points, &disk);
            assert_eq!(first_support_set(&case.points, &disk), all, "{}", case.name);
        }
    }
}
