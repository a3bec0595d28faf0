//! Whether points belong to a disk (document 02, item 9), by the words of the item alone.

use crate::geometry::{Disk, Point};
use crate::smallest::smallest_disk;

/// Whether the smallest disk of the points, one or more, is `disk`, and with any one of them left out it is another or none.
pub fn points_fit(disk: &Disk, points: &[Point]) -> bool {
    let without = |i: usize| [&points[..i], &points[i + 1..]].concat();
    disk_of(points) == Some(*disk) && (0..points.len()).all(|i| disk_of(&without(i)) != Some(*disk))
}

/// The smallest disk: none where there is no point.
fn disk_of(points: &[Point]) -> Option<Disk> {
    (!points.is_empty()).then(|| smallest_disk(points))
}

#[cfg(test)]
mod tests {
    use super::*;
    use crate::damage::single_faults;
    use crate::geometry::scalar;
    use crate::limits::EM;
    use crate::record::LONG;
    use crate::refusal::Refusal;
    use crate::support::{distinct, sets};
    use crate::{engine, figures, lists, record};
    use std::cmp::Ordering::{self, Equal, Greater, Less};
    use std::collections::BTreeMap;

    /// How many points there are; whether all are on the boundary; and whether they hold the disk in place from all sides (`Greater`): one
    /// point holds a disk of radius 0, two that are opposite hold theirs, three do if every angle is acute. `Equal` is a right angle.
    type Kind = (usize, bool, Ordering);

    /// Points fit exactly if they are on the boundary and hold the disk in place. No smallest disk is needed to see it.
    fn kind_of(disk: &Disk, points: &[Point]) -> Kind {
        let hold = |does: bool| if does { Greater } else { Less };
        let holds = match *points {
            [_] => hold(disk.s == 0),
            [a, b] => {
                let ((ax, ay), (bx, by)) = (a.wide(), b.wide());
                hold(((ax + bx) * disk.e, (ay + by) * disk.e) == (2 * disk.x, 2 * disk.y))
            }
            [a, b, c] => [scalar(a, b, c), scalar(b, c, a), scalar(c, a, b)].into_iter().min().cmp(&Some(0)),
            _ => panic!("one to three points"),
        };
        (points.len(), points.iter().all(|&p| disk.has_on_boundary(p)), holds)
    }

    /// By the words and by the angles: whether the points fit.
    fn fit_both_ways(disk: &Disk, points: &[Point]) -> bool {
        let (_, on_boundary, holds) = kind_of(disk, points);
        let fit = points_fit(disk, points);
        assert_eq!(fit, on_boundary && holds == Greater, "{disk:?} with {points:?}");
        fit
    }

    /// The smallest disk of the points, which rise strictly, those of the first ones alone, the circle of the first three, and disks about
    /// the same centres that are larger and smaller by the least amount.
    fn disks_about(points: &[Point]) -> Vec<Disk> {
        let few = &points[..points.len().min(3)];
        let mut disks = vec![smallest_disk(points), smallest_disk(few), Disk::of_one(few[0])];
        if let [a, b, ..] = *few {
            disks.push(Disk::of_two(a, b));
        }
        if let [a, b, c] = *few {
            disks.extend(Disk::of_three(a, b, c));
        }
        let beside = disks.clone().into_iter().flat_map(|disk| [disk.s.wrapping_sub(1), disk.s + 1].map(|s| Disk { s, ..disk }));
        disks.extend(beside);
        disks
    }

    #[test]
    fn the_words_and_the_angles_agree_on_every_kind_of_set() {
        let mut times: BTreeMap<Kind, usize> = BTreeMap::new();
        for case in lists::mixed(1_500, 9) {
            let points = distinct(&case.points);
            for disk in disks_about(&points) {
                for set in sets(&points) {
                    fit_both_ways(&disk, &set);
                    *times.entry(kind_of(&disk, &set)).or_default() += 1;
                }
            }
        }
        for on_boundary in [false, true] {
            for (size, holds) in [(1, Less), (1, Greater), (2, Less), (2, Greater), (3, Less), (3, Equal), (3, Greater)] {
                assert!(times[&(size, on_boundary, holds)] > 500, "{times:?}");
            }
        }
    }

    #[test]
    fn every_answer_of_the_engine_fits_and_its_record_is_read() {
        let mut times = [0; 4];
        for case in lists::mixed(10_000, 24) {
            let answer = engine::solve(&mut engine::flat(&case.points)).unwrap();
            let (disk, support) = (answer.disk, answer.support);
            assert!(fit_both_ways(&disk, &support), "{}", case.name);
            let mut buffer = [0; LONG.length()];
            assert_eq!(record::write(&disk, &support, &mut buffer), Ok(()), "{}", case.name);
            assert!(figures::preview(&disk, &support).is_ok(), "{}", case.name);
            times[support.len()] += 1;
            assert_eq!(record::read(&buffer), Ok((disk, support)), "{}", case.name);
        }
        assert!(times[1..].iter().all(|&number| number > 500), "{times:?}");
    }

    /// A fault in the disk is always seen. One in the points may lead to other points that belong to the disk as well.
    #[test]
    fn every_single_fault_is_judged_by_the_angles_too() {
        let mut times = [0; 16];
        for case in lists::mixed(3_000, 12) {
            let answer = engine::solve(&mut engine::flat(&case.points)).unwrap();
            for (disk, support) in single_faults(&answer.disk, &answer.support, &case.points) {
                let refusal = record::check(&disk, &support, &EM).err();
                if refusal != Some(Refusal::BadRecord) {
                    assert_eq!(fit_both_ways(&disk, &support), refusal.is_none(), "{}", case.name);
                }
                assert!(disk == answer.disk || refusal.is_some(), "{disk:?}: {}", case.name);
                times[refusal.map_or(0, |refusal| usize::from(refusal.number()))] += 1;
            }
        }
        assert!(times[0] > 100 && times[7] > 5_000 && times[15] > 5_000, "{times:?}");
    }
}
