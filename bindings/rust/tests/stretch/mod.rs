//! The widest stretch, tried by its words over all pairs, by Jung's bound, against the reference and by hand.

use super::{number, ours, point_lists, point_of};
use reference::engine::{flat, points_of};
use reference::geometry::Point;
use reference::random::Random;
use reference::support::distinct;
use reference::{letters, lists, stretch};
use volkhidar::{smallest_disk, widest_stretch, Disk, Stretch};

fn square_distance(p: Point, q: Point) -> u64 {
    let [dx, dy] = [(p.x, q.x), (p.y, q.y)].map(|(from, to)| i32::from(to) - i32::from(from));
    (dx * dx + dy * dy) as u64
}

/// That they are points of the list, in rising order, and w is theirs; that no two points are farther apart, and none as far that are
/// less. Answers how many pairs are as far apart.
fn assert_is_widest(found: Stretch, points: &[Point], name: &str) -> usize {
    let (a, b, w) = (point_of(found.a), point_of(found.b), found.w);
    assert!(points.contains(&a) && points.contains(&b), "a point that is not there: {name}");
    assert!(a <= b, "not in rising order: {name}");
    assert_eq!(square_distance(a, b), w, "another distance than theirs: {name}");
    let different = distinct(points);
    let mut as_far = 0;
    for (i, &p) in different.iter().enumerate() {
        for &q in &different[i..] {
            let square = square_distance(p, q);
            assert!(square <= w, "{p:?} and {q:?} are farther apart: {name}");
            assert!(square < w || (a, b) <= (p, q), "{p:?} and {q:?} are less: {name}");
            as_far += usize::from(square == w);
        }
    }
    as_far
}

/// That w e² is at least 3s and at most 4s.
fn assert_within_jungs_bound(w: u64, disk: Disk, name: &str) {
    let scaled = u128::from(w) * u128::from(disk.e).pow(2);
    assert!((3 * disk.s..=4 * disk.s).contains(&scaled), "w {w} and {disk:?}: {name}");
}

/// The widest stretch of a list, which is left as it was: refused with the engine's number, or the widest. Answers it with the number of
/// pairs as far apart, or the refusal's number.
pub fn compare_stretch(list: &[i16], name: &str) -> Result<(Stretch, usize), u8> {
    let read = list.to_vec();
    let found = ours(widest_stretch(&read));
    assert_eq!(read, list, "the list: {name}");
    let seen = found.map(|f| (point_of(f.a), point_of(f.b), f.w));
    assert_eq!(seen, number(stretch::widest_stretch(list)).map(|s| (s.a, s.b, s.w)), "{name}");
    let engine = ours(smallest_disk(&mut list.to_vec()));
    assert_eq!(found.err(), engine.err(), "refusal: {name}");
    let (found, disk) = (found?, engine?.disk);
    assert_within_jungs_bound(found.w, disk, name);
    Ok((found, assert_is_widest(found, &points_of(list), name)))
}

/// Many have no second point, and many have pairs that are as far apart.
#[test]
fn drawn_lists_stretched() {
    let mut times = [0; 5];
    for case in lists::mixed(50_000, 40) {
        let (found, as_far) = compare_stretch(&flat(&case.points), &case.name).unwrap();
        times[if found.w == 0 { 0 } else { as_far.min(4) }] += 1;
    }
    assert!(times.iter().all(|&number| number > 300), "{times:?}");
}

/// Drawn for pairs that are as far apart; some are faulty.
#[test]
fn lists_with_ties_stretched() {
    let mut random = Random::new(1);
    let mut ties = 0;
    for place in 0..20_000 {
        let list = stretch::draw(100, &mut random);
        let found = compare_stretch(&list, &format!("list {place} of seed 1"));
        ties += usize::from(found.is_ok_and(|(found, as_far)| found.w > 0 && as_far > 1));
    }
    assert!(ties > 6_000, "{ties}");
}

#[test]
fn long_lists_stretched() {
    for case in point_lists::long() {
        compare_stretch(&flat(&case.points), &case.name).unwrap();
    }
    for (place, list) in stretch::long().iter().enumerate() {
        compare_stretch(list, &format!("list {place} of the stored long ones")).unwrap();
    }
}

#[test]
fn damaged_lists_stretched() {
    let mut times = [0; 10];
    for (list, name) in point_lists::damaged() {
        times[usize::from(compare_stretch(&list, &name).err().unwrap_or(0))] += 1;
    }
    assert!([0, 3, 5, 9].iter().all(|&number| times[number] > 100), "{times:?}");
}

#[test]
fn lists_refused_by_hand() {
    point_lists::assert_refused(compare_stretch);
}

/// x and y of both points, and w.
type ByHand = (i16, i16, i16, i16, u64);

fn assert_stretch(points: &[Point], stretch: ByHand, name: &str) {
    let (found, _) = compare_stretch(&flat(points), name).unwrap();
    assert_eq!((found.a.x, found.a.y, found.b.x, found.b.y, found.w), stretch, "{name}");
}

#[test]
fn letters_of_the_papers_stretched() {
    let stretches = [
        (0, 0, 0, 0, 0),
        (0, 0, 3, 0, 9),
        (0, 0, 4, 0, 16),
        (0, 0, 10, 10, 200),
        (0, 8, 6, 0, 100),
        (0, 0, 4, 0, 16),
        (0, 0, 10, 0, 100),
        (7, 7, 7, 7, 0),
        (0, 0, 2, 2, 8),
        (0, 0, 4, 0, 16),
        (0, -250, 1_000, 750, 2_000_000),
    ];
    for (letter, stretch) in letters::LETTERS.iter().zip(stretches) {
        assert_stretch(&letters::points(letter.list), stretch, letter.name);
    }
}

/// Points in any order, each once and then with the first or the last of them repeated.
#[test]
fn stretches_by_hand() {
    let cases: [(&[i16], ByHand); 16] = [
        (&[7, -3], (7, -3, 7, -3, 0)),
        (&[2_048, 1_536], (2_048, 1_536, 2_048, 1_536, 0)),
        // rows: level, upright, rising, falling
        (&[3, 1, 5, 1, 9, 1], (3, 1, 9, 1, 36)),
        (&[5, -1, 5, 3, 5, 7], (5, -1, 5, 7, 64)),
        (&[0, 0, 1, 1, 2, 2], (0, 0, 2, 2, 8)),
        (&[0, 4, 1, 3, 3, 1, 4, 0], (0, 4, 4, 0, 32)),
        // both diagonals of a square, of one on its corner and of a rectangle with a point inside
        (&[0, 0, 10, 0, 10, 10, 0, 10], (0, 0, 10, 10, 200)),
        (&[5, 0, 10, 5, 5, 10, 0, 5], (0, 5, 10, 5, 100)),
        (&[1, 1, 5, 1, 5, 4, 1, 4, 2, 3], (1, 1, 5, 4, 25)),
        // two sides of a triangle that have the first point in common, the second, and the first of one with the second of the other
        (&[0, 0, 3, 4, 5, 0], (0, 0, 3, 4, 25)),
        (&[0, 0, 2, 4, 5, 0], (0, 0, 5, 0, 25)),
        (&[0, 0, 1, 5, 2, 0], (0, 0, 1, 5, 26)),
        // the same where the points that differ have one x
        (&[0, 0, 8, -3, 8, 3], (0, 0, 8, -3, 73)),
        (&[0, -3, 0, 3, 6, 0], (0, -3, 6, 0, 45)),
        // three sides nearly equal: w e² is hardly above 3s
        (&[0, 0, 4, 15, 15, 4], (4, 15, 15, 4, 242)),
        // the corners of the em box
        (&[0, -512, 2_048, -512, 2_048, 1_536, 0, 1_536], (0, -512, 2_048, 1_536, 8_388_608)),
    ];
    for (list, stretch) in cases {
        for order in lists::orders(&points_of(list)) {
            let (first, last) = (order[0], order[order.len() - 1]);
            for points in [order.clone(), [&[last], &order[..]].concat(), [&order[..], &[first, first]].concat()] {
                assert_stretch(&points, stretch, &format!("{points:?}"));
            }
        }
    }
}

/// A polygon of 560 corners, each with its opposite, among repeats and halfway points.
#[test]
fn a_polygon_of_many_corners_stretched() {
    let corners = point_lists::polygon_of_many_corners();
    let (expected, _) = compare_stretch(&flat(&corners), "the corners alone").unwrap();
    for seed in 0..10 {
        let list = point_lists::corners_among_others(&corners, seed);
        let (found, _) = compare_stretch(&list, &format!("seed {seed}")).unwrap();
        assert_eq!(found, expected, "seed {seed}");
    }
}

#[test]
fn every_point_of_a_square_stretched() {
    let mut points = point_lists::every_point_of_a_square();
    for seed in 0..3 {
        Random::new(seed).shuffle(&mut points);
        assert_stretch(&points, (9, -30, 72, 33, 7_938), &format!("shuffle {seed}"));
    }
}
