//! Disks with points that belong to them and with points that do not, and their records: what the engine gives passes in every call, and
//! every damage to it gets what the reference says.

use super::{compare_figures, compare_reader, compare_writer, lent, ours};
use reference::damage::single_faults;
use reference::engine::{flat, solve};
use reference::geometry::{scalar, Disk as ExpectedDisk, Point as ExpectedPoint};
use reference::limits::EM;
use reference::record::{bytes_of, LONG, SHORT};
use reference::support::sets;
use reference::{letters, lists};
use std::collections::BTreeMap;
use volkhidar::*;

/// X, Y, E, S.
pub type Numbers = (i128, i128, i128, u128);

pub fn disk_with((x, y, e, s): Numbers) -> ExpectedDisk {
    ExpectedDisk { x, y, e, s }
}

/// The number of the refusal that the four calls have for a disk and its points, or 0: they must answer as the reference does, and all the
/// same. None where our types cannot hold the numbers.
pub fn compare_calls(disk: &ExpectedDisk, set: &[ExpectedPoint], name: &str) -> Option<u8> {
    let (d, t) = lent(disk, set)?;
    let bytes = bytes_of(&LONG, disk, set);
    compare_figures(d, t, name);
    compare_writer(d, t, 60, name);
    compare_reader(&bytes, name);
    compare_reader(&bytes_of(&SHORT, disk, set), name);
    let mut buffer = [0; RECORD_LENGTH];
    let radius = ours(whole_radius(d, t)).err();
    let others = [ours(preview(d, t)).err(), ours(write_record(d, t, &mut buffer)).err(), ours(read_record(&bytes)).err()];
    assert_eq!(others, [radius; 3], "the calls differ: {name}");
    Some(radius.unwrap_or(0))
}

/// The points as a set in rising order.
fn rising(mut set: Vec<ExpectedPoint>) -> Vec<ExpectedPoint> {
    set.sort_unstable();
    set
}

#[test]
fn answers_of_the_engine_pass() {
    let mut times = [0; 4];
    for case in lists::mixed(100_000, 24) {
        let found = smallest_disk(&mut flat(&case.points)).unwrap();
        let (disk, support) = (found.disk, found.support);
        let mut buffer = [0; RECORD_LENGTH];
        assert!(whole_radius(disk, support).is_ok(), "{}", case.name);
        assert!(preview(disk, support).is_ok(), "{}", case.name);
        assert_eq!(write_record(disk, support, &mut buffer), Ok(()), "{}", case.name);
        assert_eq!(read_record(&buffer), Ok((disk, support)), "{}", case.name);
        times[support.points().len()] += 1;
    }
    assert!(times[1..].iter().all(|&number| number > 1_000), "{times:?}");
}

/// Nearly all are refused; in a few another point of the boundary took one's place and belongs to the disk as well.
#[test]
fn answers_of_the_engine_damaged() {
    let mut times = [0; 16];
    for case in lists::mixed(5_000, 16) {
        let answer = solve(&mut flat(&case.points)).unwrap();
        let (on_boundary, inside): (Vec<_>, Vec<_>) = case.points.iter().partition(|&&p| answer.disk.has_on_boundary(p));
        let others = [&on_boundary[..], &inside[..inside.len().min(3)]].concat();
        for (disk, set) in single_faults(&answer.disk, &answer.support, &others) {
            let name = format!("{disk:?} with {set:?}, {}", case.name);
            if let Some(number) = compare_calls(&disk, &set, &name) {
                times[usize::from(number)] += 1;
            }
        }
    }
    assert!(times[0] > 200 && times[7] > 20_000 && times[15] > 50_000, "{times:?}");
}

/// Belonging by the angles, for a valid disk: one point is the disk, two are opposite, three have only acute angles; all on the boundary.
fn belongs_by_angles(disk: &ExpectedDisk, set: &[ExpectedPoint]) -> bool {
    let is_midway = |a: ExpectedPoint, b: ExpectedPoint| {
        let ((ax, ay), (bx, by)) = (a.wide(), b.wide());
        ((ax + bx) * disk.e, (ay + by) * disk.e) == (2 * disk.x, 2 * disk.y)
    };
    let fixes_it = match *set {
        [a] => is_midway(a, a),
        [a, b] => is_midway(a, b),
        [a, b, c] => [(a, b, c), (b, c, a), (c, a, b)].iter().all(|&(p, q, at)| scalar(p, q, at) > 0),
        _ => false,
    };
    fixes_it && set.iter().all(|&p| disk.has_on_boundary(p))
}

/// Circles with many whole points, in the middle of the em box and over its edges.
const CIRCLES: [Numbers; 9] = [
    (1_024, 512, 1, 25),
    (1_024, 512, 1, 1_105),
    (1_024, 512, 1, 27_625),
    (2_049, 1_025, 2, 50),
    (2_049, 1_025, 2, 5_525 * 2),
    (2_048, 1_025, 2, 5_525),
    (1, -512, 1, 325),
    (2_047, 1_535, 1, 5_525),
    (12, 5, 6, 169),
];

/// By the reference, and by the angles.
#[test]
fn every_set_of_points_on_one_circle() {
    let mut times = [[0; 2]; 4];
    for disk in CIRCLES.map(disk_with) {
        let every = (EM.left..=EM.right).flat_map(|x| (EM.foot..=EM.top).map(move |y| ExpectedPoint::new(x, y)));
        let on_boundary: Vec<_> = every.filter(|&p| disk.has_on_boundary(p)).collect();
        for set in sets(&on_boundary) {
            let name = format!("{disk:?} with {set:?}");
            let belongs = belongs_by_angles(&disk, &set);
            assert_eq!(compare_calls(&disk, &set, &name), Some(if belongs { 0 } else { 15 }), "{name}");
            times[set.len()][usize::from(belongs)] += 1;
        }
    }
    assert_eq!(times[1][1], 0, "a point on a circle around it");
    assert!([times[1][0], times[2][0], times[2][1], times[3][0], times[3][1]].iter().all(|&number| number > 50), "{times:?}");
}

/// What it is, a disk, its points, and the refusal that is due, or 0.
type Row = (&'static str, Numbers, &'static [(i16, i16)], u8);

#[rustfmt::skip]
const BY_HAND: [Row; 43] = [
    ("letter F with a point left out", (12, 5, 6, 169), &[(2, 3), (4, 0)], 15),
    ("letter F with a point left out", (12, 5, 6, 169), &[(0, 0), (4, 0)], 15),
    ("letter F with a point left out", (12, 5, 6, 169), &[(0, 0), (2, 3)], 15),
    ("letter F with one point", (12, 5, 6, 169), &[(2, 3)], 15),
    ("letter F with a point moved", (12, 5, 6, 169), &[(0, 0), (1, 3), (4, 0)], 15),
    ("letter F with X moved", (13, 5, 6, 169), &[(0, 0), (2, 3), (4, 0)], 15),
    ("letter F with Y moved", (12, 7, 6, 169), &[(0, 0), (2, 3), (4, 0)], 15),
    ("letter F with S moved", (12, 5, 6, 168), &[(0, 0), (2, 3), (4, 0)], 15),
    ("letter F with S moved", (12, 5, 6, 170), &[(0, 0), (2, 3), (4, 0)], 15),
    ("letter E with its right angle", (3, 4, 1, 25), &[(0, 0), (0, 8), (6, 0)], 15),
    ("letter D with three points", (5, 5, 1, 50), &[(0, 0), (0, 10), (10, 10)], 15),
    ("letter D with two neighbours", (5, 5, 1, 50), &[(0, 0), (0, 10)], 15),
    ("letter D with its other two", (5, 5, 1, 50), &[(0, 10), (10, 0)], 0),
    ("letter G with the point inside", (5, 0, 1, 25), &[(0, 0), (5, 1), (10, 0)], 15),
    ("the circle through letter G, an obtuse triangle", (5, -12, 1, 169), &[(0, 0), (5, 1), (10, 0)], 15),
    ("letter J with its middle", (2, 0, 1, 4), &[(0, 0), (2, 0), (4, 0)], 15),
    ("letter J with its middle as the end", (2, 0, 1, 4), &[(0, 0), (2, 0)], 15),
    ("letter C with opposite points inside", (2, 0, 1, 4), &[(1, 0), (3, 0)], 15),
    ("letter C with S moved", (2, 0, 1, 3), &[(0, 0), (4, 0)], 15),
    ("letter C with S moved", (2, 0, 1, 5), &[(0, 0), (4, 0)], 15),
    ("letter K with its other two", (500, 250, 1, 500_000), &[(0, 750), (1000, -250)], 0),
    ("letter K with three points", (500, 250, 1, 500_000), &[(0, -250), (0, 750), (1000, 750)], 15),
    ("letter K with its centre", (500, 250, 1, 500_000), &[(500, 250)], 15),
    ("letter K with S moved", (500, 250, 1, 500_001), &[(0, -250), (1000, 750)], 15),
    ("opposite corners of the em box", (1024, 512, 1, 2_097_152), &[(0, -512), (2048, 1536)], 0),
    ("its other two", (1024, 512, 1, 2_097_152), &[(0, 1536), (2048, -512)], 0),
    ("three corners of the em box", (1024, 512, 1, 2_097_152), &[(0, -512), (0, 1536), (2048, 1536)], 15),
    ("opposite corners with S moved", (1024, 512, 1, 2_097_151), &[(0, -512), (2048, 1536)], 15),
    ("one corner of the em box", (2048, 1536, 1, 0), &[(2048, 1536)], 0),
    ("S above 2^64", (8_577_370_109, 4_290_778_103, 8_388_602, 147_286_249_292_406_046_810), &[(0, -512), (1, 1536), (2048, -509)], 0),
    ("a point and the disk beside it", (0, 0, 1, 0), &[(0, 1)], 15),
    ("a point and a disk around it", (0, 0, 1, 1), &[(0, 0)], 15),
    ("a point and a disk through it", (1, 0, 1, 1), &[(0, 0)], 15),
    ("two points and the disk of one", (0, 0, 1, 0), &[(0, 0), (0, 1)], 15),
    ("acute, not the least set of its circle", (5, 5, 1, 25), &[(0, 5), (8, 1), (8, 9)], 0),
    ("a right angle, on a circle with acute sets", (5, 5, 1, 25), &[(0, 5), (5, 10), (10, 5)], 15),
    ("obtuse, on a circle with acute sets", (5, 5, 1, 25), &[(0, 5), (2, 1), (2, 9)], 15),
    ("7 first: a common divisor", (12, 6, 6, 169), &[(0, 0), (4, 0)], 7),
    ("7 first: a common divisor, of the disk of a point", (0, 0, 2, 0), &[(0, 0)], 7),
    ("7 first: S too large", (1024, 512, 1, 2_097_153), &[(0, -512), (2048, 1536)], 7),
    ("7 first: a point outside the em box", (12, 5, 6, 169), &[(0, 0), (4, 0), (2049, 0)], 7),
    ("7 first: falling points", (12, 5, 6, 169), &[(4, 0), (0, 0)], 7),
    ("7 first: a point twice", (2, 0, 1, 4), &[(0, 0), (4, 0), (4, 0)], 7),
];

#[test]
fn sets_by_hand() {
    for (name, numbers, set, due) in BY_HAND {
        assert_eq!(compare_calls(&disk_with(numbers), &letters::points(set), name), Some(due), "{name}");
    }
    for letter in &letters::LETTERS {
        assert_eq!(compare_calls(&disk_with(letter.disk), &letters::points(letter.support), letter.name), Some(0), "{}", letter.name);
    }
}

/// The writer checks 8, 7, 15 and the reader 7, 15; a refused buffer is unchanged.
#[test]
fn the_first_rule_that_is_broken_decides() {
    let two = letters::points(&[(0, 0), (4, 0)]);
    for (numbers, due) in [((12, 5, 6, 169), 15), ((12, 6, 6, 169), 7)] {
        let (d, t) = lent(&disk_with(numbers), &two).unwrap();
        for room in [0, 45, 52, 53, 60] {
            let mut buffer = vec![0xEE; room];
            assert_eq!(ours(write_record(d, t, &mut buffer)), Err(if room < RECORD_LENGTH { 8 } else { due }));
            assert_eq!(buffer, vec![0xEE; room]);
        }
        for bytes in [LONG, SHORT].map(|form| bytes_of(&form, &disk_with(numbers), &two)) {
            assert_eq!(ours(read_record(&bytes)), Err(due));
            for length in [0, 44, 46, 52, 54, 90] {
                let mut bytes = bytes.clone();
                bytes.resize(length, 0);
                assert_eq!(ours(read_record(&bytes)), Err(7), "{length} bytes");
            }
            for count in [0, 1, 3, 4, 255] {
                let counted = [&bytes[..bytes.len() - 1], &[count]].concat();
                assert_eq!(ours(read_record(&counted)), Err(7), "count {count}");
            }
        }
    }
}

/// Every disk whose numbers are at their limits, a step within them or, but for S, in the middle; some of these have a common divisor.
fn disks_about_the_limits() -> Vec<ExpectedDisk> {
    let mut all = vec![];
    for e in [1, 2, EM.most_e - 1, EM.most_e] {
        let places = |least: i16, most: i16| {
            let [least, most] = [least, most].map(|edge| i128::from(edge) * e);
            [least, least + 1, (least + most) / 2, most - 1, most]
        };
        let centres = places(EM.left, EM.right).into_iter().flat_map(|x| places(EM.foot, EM.top).map(|y| (x, y)));
        let largest = (EM.most_square * e * e).unsigned_abs();
        all.extend(centres.flat_map(|(x, y)| [0, 1, largest - 1, largest].map(|s| ExpectedDisk { x, y, e, s })));
    }
    all
}

#[test]
fn disks_at_the_limits() {
    let corners = [(0, -512), (0, 1_536), (1_024, 512), (2_048, -512), (2_048, 1_535), (2_048, 1_536)];
    let sets = sets(&letters::points(&corners));
    let mut times = [0; 16];
    for disk in disks_about_the_limits() {
        for set in &sets {
            let number = compare_calls(&disk, set, &format!("{disk:?} with {set:?}")).unwrap();
            times[usize::from(number)] += 1;
        }
    }
    assert!(times[0] > 1 && times[7] > 1_000 && times[15] > 1_000, "{times:?}");
}

/// The acute triangle of three points near corners of the em box: E is nearly the largest.
#[test]
fn a_disk_with_a_large_e() {
    let list = letters::points(&[(0, -512), (2048, -509), (1, 1536)]);
    let answer = solve(&mut flat(&list)).unwrap();
    assert_eq!((answer.disk.e, answer.support.len()), (8_388_602, 3));
    assert_eq!(compare_calls(&answer.disk, &answer.support, "as it is"), Some(0));
    for (disk, set) in single_faults(&answer.disk, &answer.support, &[]) {
        let name = format!("{disk:?} with {set:?}");
        assert_ne!(compare_calls(&disk, &set, &name), Some(0), "{name}");
    }
}

/// The squares of the distances that points of the em box have, each with the steps from one point to the other.
fn square_distances() -> BTreeMap<u64, (i16, i16)> {
    let steps = (0..=EM.side()).flat_map(|dx| (0..=EM.side()).map(move |dy| (dx, dy)));
    steps.map(|(dx, dy)| (u64::from(dx.unsigned_abs()).pow(2) + u64::from(dy.unsigned_abs()).pow(2), (dx, dy))).collect()
}

/// For every whole radius, opposite points at twice this distance, where there are some, and at the nearest below and above: the least R
/// with R²E² greater than S is the radius itself below it, and one more at it and above.
#[test]
fn every_whole_radius() {
    let distances = square_distances();
    let mut at = 0;
    for r in 1..=1_448 {
        let below = distances.range(..4 * r * r).next_back().map(|(_, &steps)| (steps, r));
        let equal = distances.get(&(4 * r * r)).map(|&steps| (steps, r + 1));
        let above = distances.range(4 * r * r + 1..).next().map(|(_, &steps)| (steps, r + 1));
        at += usize::from(equal.is_some());
        for ((dx, dy), radius) in [below, above].into_iter().map(Option::unwrap).chain(equal) {
            let set = rising(letters::points(&[(EM.left, EM.top), (EM.left + dx, EM.top - dy)]));
            let disk = ExpectedDisk::of_two(set[0], set[1]);
            let name = format!("{set:?}");
            assert_eq!(compare_calls(&disk, &set, &name), Some(0), "{name}");
            let (d, t) = lent(&disk, &set).unwrap();
            assert_eq!(whole_radius(d, t), Ok(radius), "{name}");
        }
    }
    assert!(at > 1_000, "{at}");
}
