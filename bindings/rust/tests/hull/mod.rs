//! Reduction to the hull, tried by its definition, against the reference's corners and by hand: nothing here works out a hull.

use super::{compare_list, ours, point_lists};
use reference::engine::{flat, points_of};
use reference::geometry::Point;
use reference::random::Random;
use reference::{hull, letters, lists};
use std::collections::BTreeSet;
use volkhidar::{preview, reduce_to_hull, smallest_disk, whole_radius, write_record, Disk, Refusal, SupportSet, RECORD_LENGTH};

/// Above 0 where p is to the left of the way from a to b, below 0 where it is to the right, and 0 where the three are in a row.
fn side(a: Point, b: Point, p: Point) -> i32 {
    let [dx, dy] = [(a.x, b.x), (a.y, b.y)].map(|(from, to)| i32::from(to) - i32::from(from));
    dx * (i32::from(p.y) - i32::from(a.y)) - dy * (i32::from(p.x) - i32::from(a.x))
}

/// That these are the corners of the hull in their order. No other row of points passes: where all turns are to the left and no point is
/// to the right of a side, each side is one of the hull, whole, and leads on to the next; and none comes twice.
fn assert_is_hull(kept: &[Point], points: &[Point], name: &str) {
    let given: BTreeSet<Point> = points.iter().copied().collect();
    assert_eq!(kept.first(), given.first(), "the first kept: {name}");
    assert!(kept.iter().all(|p| given.contains(p)), "a point that was not there: {name}");
    assert_eq!(kept.iter().collect::<BTreeSet<_>>().len(), kept.len(), "a point kept twice: {name}");
    match *kept {
        [_] => assert_eq!(given.len(), 1, "one kept of more: {name}"),
        [a, b] => {
            assert_eq!(Some(&b), given.last(), "a row's last: {name}");
            assert!(given.iter().all(|&p| side(a, b, p) == 0), "two kept, and no row: {name}");
        }
        _ => {
            for i in 0..kept.len() {
                let [a, b, c] = [i, i + 1, i + 2].map(|at| kept[at % kept.len()]);
                assert!(side(a, b, c) > 0, "no turn to the left at {b:?}: {name}");
                assert!(given.iter().all(|&p| side(a, b, p) >= 0), "a point to the right of {a:?} to {b:?}: {name}");
            }
        }
    }
}

/// Disk, support set, whole radius, preview by its bits, and record of a list.
type Answers = (Disk, SupportSet, u64, [u64; 3], [u8; RECORD_LENGTH]);

fn answers_of(list: &[i16]) -> Result<Answers, Refusal> {
    let found = smallest_disk(&mut list.to_vec())?;
    let radius = whole_radius(found.disk, found.support)?;
    let shown = preview(found.disk, found.support)?;
    let mut record = [0; RECORD_LENGTH];
    write_record(found.disk, found.support, &mut record)?;
    Ok((found.disk, found.support, radius, [shown.x, shown.y, shown.radius].map(f64::to_bits), record))
}

/// A list reduced: refused with the engine's number and unchanged, or the corners of its hull with zeros behind them. These corners must
/// have the answers of the full list, and for a list of their own all that the reference gives, the count of tests too. Answers how many
/// were kept, or the refusal's number.
pub fn compare_hull(list: &[i16], name: &str) -> Result<usize, u8> {
    let mut reduced = list.to_vec();
    let answer = ours(reduce_to_hull(&mut reduced));
    let expected = ours(answers_of(list));
    assert_eq!(answer.err(), expected.err(), "refusal: {name}");
    let Ok(count) = answer else {
        assert_eq!(reduced, list, "the list refused: {name}");
        return answer;
    };
    assert!(count <= list.len() / 2, "{count} kept, more than there were: {name}");
    let (kept, rest) = reduced.split_at(2 * count);
    assert_is_hull(&points_of(kept), &points_of(list), name);
    assert_eq!(points_of(kept), hull::corners(&points_of(list)), "the reference's corners: {name}");
    assert!(rest.iter().all(|&number| number == 0), "not all zeros behind: {name}");
    assert_eq!(ours(answers_of(kept)), expected, "answers of the kept: {name}");
    compare_list(kept, name);
    answer
}

#[test]
fn drawn_lists_reduced() {
    let mut times = [0; 6];
    for case in lists::mixed(50_000, 40) {
        let kept = compare_hull(&flat(&case.points), &case.name).unwrap();
        times[kept.min(5)] += 1;
    }
    assert!(times[1..].iter().all(|&number| number > 1_000), "{times:?}");
}

#[test]
fn long_lists_reduced() {
    for case in point_lists::long() {
        compare_hull(&flat(&case.points), &case.name).unwrap();
    }
}

#[test]
fn damaged_lists_reduced() {
    let mut times = [0; 10];
    for (list, name) in point_lists::damaged() {
        times[usize::from(compare_hull(&list, &name).err().unwrap_or(0))] += 1;
    }
    assert!([0, 3, 5, 9].iter().all(|&number| times[number] > 100), "{times:?}");
}

#[test]
fn letters_of_the_papers_reduced() {
    let kept = letters::LETTERS.map(|letter| compare_hull(&flat(&letters::points(letter.list)), letter.name).unwrap());
    assert_eq!(kept, [1, 2, 2, 4, 3, 3, 3, 1, 2, 2, 4]);
}

/// Lists and what is kept of them.
#[test]
fn hulls_by_hand() {
    let cases: [(&[i16], &[i16]); 14] = [
        (&[7, 7], &[7, 7]),
        (&[7, 7, 7, 7, 7, 7], &[7, 7]),
        (&[0, 0, 0, 0], &[0, 0]),
        (&[4, 0, 0, 0], &[0, 0, 4, 0]),
        // rows: level, upright, rising, falling, with repeats
        (&[3, 1, 9, 1, 5, 1, 9, 1], &[3, 1, 9, 1]),
        (&[5, 3, 5, 7, 5, -1, 5, 3], &[5, -1, 5, 7]),
        (&[2, 2, 0, 0, 1, 1, 0, 0, 2, 2], &[0, 0, 2, 2]),
        (&[3, 1, 1, 3, 4, 0, 0, 4], &[0, 4, 4, 0]),
        // given clockwise, and with two points of the least x
        (&[0, 0, 2, 3, 4, 0], &[0, 0, 4, 0, 2, 3]),
        (&[0, 5, 3, 3, 0, -1], &[0, -1, 3, 3, 0, 5]),
        (&[0, 10, 10, 10, 10, 0, 0, 0], &[0, 0, 10, 0, 10, 10, 0, 10]),
        // points on every side, inside, and corners repeated
        (&[2, 0, 4, 0, 4, 1, 4, 0, 4, 3, 1, 3, 0, 3, 0, 2, 0, 0, 1, 1, 3, 2, 0, 0], &[0, 0, 4, 0, 4, 3, 0, 3]),
        // as near to a row as three points of the em box can be, and its corners
        (&[0, -512, 2_048, 1_535, 2_047, 1_534], &[0, -512, 2_047, 1_534, 2_048, 1_535]),
        (&[2_048, 1_536, 0, -512, 0, 1_536, 1_024, 512, 2_048, -512], &[0, -512, 2_048, -512, 2_048, 1_536, 0, 1_536]),
    ];
    for (list, kept) in cases {
        let mut reduced = list.to_vec();
        assert_eq!(reduce_to_hull(&mut reduced), Ok(kept.len() / 2), "{list:?}");
        let zeros = vec![0; list.len() - kept.len()];
        assert_eq!(reduced, [kept, &zeros[..]].concat(), "{list:?}");
        compare_hull(list, &format!("{list:?}")).unwrap();
    }
}

#[test]
fn lists_refused_by_hand() {
    point_lists::assert_refused(compare_hull);
}

/// Each row and column of them keeps at most its ends.
#[test]
fn every_point_of_a_square() {
    let mut points = point_lists::every_point_of_a_square();
    for seed in 0..5 {
        let mut list = flat(&points);
        assert_eq!(compare_hull(&list, &format!("shuffle {seed}")), Ok(4));
        assert_eq!(reduce_to_hull(&mut list), Ok(4));
        assert_eq!(list[..10], [9, -30, 72, -30, 72, 33, 9, 33, 0, 0]);
        Random::new(seed).shuffle(&mut points);
    }
}

/// They are all kept, among repeats and halfway points between any two.
#[test]
fn a_hull_of_many_corners() {
    let corners = point_lists::polygon_of_many_corners();
    assert_eq!(corners.len(), 560);
    for seed in 0..10 {
        let mut list = point_lists::corners_among_others(&corners, seed);
        assert_eq!(compare_hull(&list, &format!("seed {seed}")), Ok(corners.len()));
        assert_eq!(reduce_to_hull(&mut list), Ok(corners.len()));
        assert_eq!(points_of(&list[..2 * corners.len()]), corners, "seed {seed}");
    }
}
