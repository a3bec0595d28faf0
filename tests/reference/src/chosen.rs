//! The smallest disk that holds a list and has one or two chosen points of it on its boundary (source 000, b_md; document 02, item 6),
//! and not by Welzl's procedure; and drawn lists for it.
//!
//! Such a disk is that of the chosen points alone, of them and one more point, or of three points: on lists of up to 40 points all of these
//! are tried, and on every list it is found as follows. For two points, by bounds on the line across them ([`two_fixed`]).
//! For one point a, the disk about a + c holds p exactly if 2(p − a)·c is at least |p − a|²: a half plane for each p, and c is the
//! nearest place to 0 in all of them. At most two of them settle it. So two points are kept with their own smallest disk through a;
//! the point farthest outside is added, and of the three those two are kept that have the disk of the three. The radius grows with
//! each step, so it ends: on a disk that holds all, or on three half planes with no place in common, and then there is no disk.

use crate::engine::{accepted_points, flat};
use crate::geometry::{Disk, Point};
use crate::hull::corners;
use crate::inputs::{ChosenCase, FixedCase};
use crate::limits::EM;
use crate::lists::{self, KINDS};
use crate::random::Random;
use crate::refusal::Refusal;
use crate::smallest::{farthest_outside, smallest_disk};
use crate::support::first_support_set;
use crate::two_fixed;

/// The points that must be on the boundary.
#[derive(Clone, Copy, PartialEq, Eq, Debug)]
pub enum Chosen {
    One(Point),
    Two(Point, Point),
}

impl Chosen {
    /// The different points.
    pub fn set(self) -> Vec<Point> {
        match self {
            Chosen::Two(a, b) if a != b => vec![a, b],
            Chosen::One(a) | Chosen::Two(a, _) => vec![a],
        }
    }
}

/// Lists up to this length are searched by candidates too.
const SHORT: usize = 40;

/// The smallest disk that holds the list, x and y by turns, and has the chosen points on its boundary: refusals 9, 5, 4, 3, 12, 13.
pub fn smallest_disk_through(numbers: &[i16], chosen: Chosen) -> Result<Disk, Refusal> {
    let points = accepted_points(numbers)?;
    let set = chosen.set();
    if !set.iter().all(|p| points.contains(p)) {
        return Err(Refusal::NotInList);
    }
    let disk = match set[..] {
        [a, b] => two_fixed::smallest_through(&FixedCase { a, b, points: points.clone() }),
        _ => smallest_through_one(set[0], &points),
    };
    if points.len() <= SHORT {
        assert_eq!(
            disk,
            by_candidates(&set, &points),
            "the candidates and the search for the smallest disk differ: {chosen:?} {points:?}"
        );
    }
    disk.ok_or(Refusal::NoDisk)
}

/// The smallest disk that holds the points and has a on its boundary, by growing two of them: none if there is no such disk.
fn smallest_through_one(a: Point, points: &[Point]) -> Option<Disk> {
    let mut two = [a, a];
    let mut disk = Disk::of_one(a);
    while let Some(p) = farthest_outside(&disk, points) {
        let three = [two[0], two[1], p];
        disk = by_candidates(&[a], &three)?;
        let pairs = [[p, p], [two[0], p], [two[1], p], two];
        let makes_it = |pair: &[Point; 2]| by_candidates(&[a], pair) == Some(disk);
        two = pairs.into_iter().find(makes_it).expect("two half planes settle the nearest place in three");
    }
    Some(disk)
}

/// The smallest disk of all that can be it: none if none of them holds the points with the set on its boundary.
fn by_candidates(set: &[Point], points: &[Point]) -> Option<Disk> {
    let fits = |disk: &Disk| set.iter().all(|&p| disk.has_on_boundary(p)) && disk.holds_all(points);
    let fitting = candidates(set, points).into_iter().filter(fits);
    fitting.reduce(|best, disk| if disk.is_smaller_than(&best) { disk } else { best })
}

/// The disks of the set alone, with one of the points and, for a set of one, with two.
fn candidates(set: &[Point], points: &[Point]) -> Vec<Disk> {
    let mut disks = Vec::new();
    match *set {
        [a, b] => {
            disks.push(Disk::of_two(a, b));
            disks.extend(points.iter().filter_map(|&p| Disk::of_three(a, b, p)));
        }
        [a] => {
            disks.push(Disk::of_one(a));
            for (i, &p) in points.iter().enumerate() {
                disks.push(Disk::of_two(a, p));
                disks.extend(points[i + 1..].iter().filter_map(|&q| Disk::of_three(a, p, q)));
            }
        }
        _ => unreachable!("one or two points are chosen"),
    }
    disks
}

// ---- drawn lists

/// A list of any kind, or of item 5 with its two points in it, with one or two points chosen: `longest` points, and a few more where some
/// are put in again. In one case of ten the list is faulty or a chosen point is replaced.
pub fn draw(longest: usize, random: &mut Random) -> ChosenCase {
    let n = 1 + random.below(longest);
    let (mut points, chosen) = if random.chance(30) { through_two(n, random) } else { of_a_kind(n, random) };
    if random.chance(20) {
        points.extend(vec![random.pick(&chosen.set()); 1 + random.below(3)]);
        random.shuffle(&mut points);
    }
    let unused =
        random.pick(&[points[0], Point::new(7, 7), Point::new(EM.right + 1, EM.top + 1), Point::new(i16::MIN, i16::MAX)]);
    let mut case = ChosenCase { chosen, unused, list: flat(&points) };
    match random.below(20) {
        0 => damage_list(&mut case.list, random),
        1 => case.chosen = with_another(case.chosen, random),
        _ => (),
    }
    case
}

/// The lists of item 5 with the two points put into them.
fn through_two(n: usize, random: &mut Random) -> (Vec<Point>, Chosen) {
    let FixedCase { a, b, mut points } = two_fixed::draw(n, random);
    points.extend([a, b]);
    random.shuffle(&mut points);
    (points, if random.chance(40) { Chosen::One(a) } else { Chosen::Two(a, b) })
}

/// A list of any kind; chosen from it are corners of the hull, points of the support set, others, neighbours, one twice, or any.
fn of_a_kind(n: usize, random: &mut Random) -> (Vec<Point>, Chosen) {
    let points = lists::draw(random.pick(&KINDS), n, random);
    let hull = corners(&points);
    let support = first_support_set(&points, &smallest_disk(&points));
    let mut inner: Vec<Point> = points.iter().copied().filter(|p| !hull.contains(p)).collect();
    if inner.is_empty() {
        inner.clone_from(&points);
    }
    let next_to = |list: &[Point], random: &mut Random| {
        let i = random.below(list.len());
        Chosen::Two(list[i], list[(i + 1) % list.len()])
    };
    let chosen = match random.below(20) {
        0..2 => Chosen::One(random.pick(&hull)),
        2 => Chosen::One(random.pick(&support)),
        3 => Chosen::One(random.pick(&points)),
        4..9 => Chosen::One(random.pick(&inner)),
        9..11 => next_to(&hull, random),
        11..13 => next_to(&support, random),
        13..15 => Chosen::Two(random.pick(&hull), random.pick(&hull)),
        15 => next_to(&points, random),
        16 => Chosen::Two(random.pick(&points), random.pick(&points)),
        17..19 => Chosen::Two(random.pick(&inner), random.pick(&hull)),
        _ => {
            let a = random.pick(&hull);
            Chosen::Two(a, a)
        }
    };
    (points, chosen)
}

/// No point, an odd length, a part of the list, or a number beyond an edge of the em box.
fn damage_list(list: &mut Vec<i16>, random: &mut Random) {
    let at = random.below(list.len());
    match random.below(5) {
        0 => list.clear(),
        1 => list.push(random.word() as i16),
        2 => list.truncate(at),
        _ => list[at] = random.pick(&[EM.left - 1, EM.right + 1, EM.foot - 1, i16::MIN, i16::MAX]),
    }
}

/// A chosen point is replaced: by its neighbour, its mirror image or a point outside the em box.
fn with_another(chosen: Chosen, random: &mut Random) -> Chosen {
    let Point { x, y } = chosen.set()[0];
    let others = [(x, y - 1), (x + 1, y), (y, x), (EM.left - 1, y), (x, EM.top + 1), (i16::MIN, i16::MAX)];
    let (x, y) = random.pick(&others);
    let other = Point::new(x, y);
    match chosen {
        Chosen::One(_) => Chosen::One(other),
        Chosen::Two(a, _) if random.chance(50) => Chosen::Two(a, other),
        Chosen::Two(_, b) => Chosen::Two(other, b),
    }
}

#[cfg(test)]
mod tests {
    use super::*;
    use crate::geometry::gcd;
    use crate::lists::Kind;
    use crate::procedure::{run_with, Cover};

    /// Drawn cases whose list is accepted and has the chosen points, the points and the answer.
    fn answered(seed: u64, count: usize, longest: usize) -> Vec<(ChosenCase, Vec<Point>, Option<Disk>)> {
        let mut random = Random::new(seed);
        let drawn = (0..count).map(|_| draw(longest, &mut random));
        let answer = |case: ChosenCase| match smallest_disk_through(&case.list, case.chosen) {
            Err(refusal) if refusal != Refusal::NoDisk => None,
            answer => Some((case.clone(), crate::engine::points_of(&case.list), answer.ok())),
        };
        drawn.filter_map(answer).collect()
    }

    #[test]
    fn it_is_the_smallest_of_the_candidates() {
        for (seed, longest) in [(1, 3), (2, 6), (3, 12), (4, 60)] {
            for (case, points, disk) in answered(seed, 2_000, longest) {
                assert_eq!(disk, by_candidates(&case.chosen.set(), &points), "{case:?}");
            }
        }
    }

    #[test]
    fn short_lists_in_a_small_box_too() {
        let mut random = Random::new(9);
        for _ in 0..20_000 {
            let n = 1 + random.below(7);
            let points = lists::draw(random.pick(&[Kind::SmallBox, Kind::Row, Kind::Circle]), n, &mut random);
            for chosen in [Chosen::One(points[0]), Chosen::Two(points[0], points[n - 1])] {
                let disk = smallest_disk_through(&flat(&points), chosen).ok();
                assert_eq!(disk, by_candidates(&chosen.set(), &points), "{chosen:?} {points:?}");
            }
        }
    }

    #[test]
    fn the_procedure_ends_on_it_where_there_is_one() {
        for (case, mut points, disk) in answered(5, 4_000, 60) {
            let set = case.chosen.set();
            let before = points.clone();
            match (disk, run_with(&mut points, &set).cover) {
                (Some(disk), cover) => assert_eq!(cover, Cover::Disk(disk), "{case:?}"),
                (None, Cover::Disk(other)) => assert!(!other.holds_all(&before) || !has_on_boundary(&other, &set), "{case:?}"),
                (None, cover) => assert_eq!(cover, Cover::NoCircle, "{case:?}"),
            }
        }
    }

    fn has_on_boundary(disk: &Disk, set: &[Point]) -> bool {
        set.iter().all(|&p| disk.has_on_boundary(p))
    }

    #[test]
    fn it_holds_the_list_and_keeps_to_the_limits() {
        for (case, points, disk) in answered(6, 4_000, 60) {
            let Some(disk) = disk else { continue };
            assert!(disk.holds_all(&points) && has_on_boundary(&disk, &case.chosen.set()), "{case:?}");
            assert!((1..=EM.most_e).contains(&disk.e) && gcd(gcd(disk.x, disk.y), disk.e) == 1, "{case:?}");
        }
    }

    #[test]
    fn a_point_has_a_disk_exactly_if_it_is_a_corner_of_the_hull() {
        for case in lists::mixed(2_000, 60) {
            let hull = corners(&case.points);
            for &p in &case.points {
                let answer = smallest_disk_through(&flat(&case.points), Chosen::One(p));
                assert_eq!(answer.is_ok(), hull.contains(&p), "{}: {p:?}", case.name);
            }
        }
    }

    #[test]
    fn points_of_the_support_set_lead_to_the_smallest_disk() {
        for case in lists::mixed(2_000, 60) {
            let disk = smallest_disk(&case.points);
            let support = first_support_set(&case.points, &disk);
            let chosen = [Chosen::One(support[0]), Chosen::Two(support[0], support[support.len() - 1])];
            for chosen in chosen {
                assert_eq!(smallest_disk_through(&flat(&case.points), chosen), Ok(disk), "{}", case.name);
            }
        }
    }

    #[test]
    fn neither_order_nor_choosing_one_twice_matters() {
        for (case, mut points, disk) in answered(7, 4_000, 40) {
            points.reverse();
            let others = match case.chosen {
                Chosen::One(a) => vec![Chosen::Two(a, a)],
                Chosen::Two(a, b) if a == b => vec![Chosen::One(a)],
                Chosen::Two(a, b) => vec![Chosen::Two(b, a)],
            };
            for chosen in others {
                assert_eq!(smallest_disk_through(&case.list, chosen).ok(), disk, "{case:?}");
                assert_eq!(smallest_disk_through(&flat(&points), chosen).ok(), disk, "{case:?}");
            }
        }
    }

    #[test]
    fn long_lists_by_their_points_on_the_hull() {
        for case in lists::long() {
            let hull = corners(&case.points);
            for chosen in [Chosen::One(hull[0]), Chosen::Two(hull[0], hull[1 % hull.len()])] {
                let disk = smallest_disk_through(&flat(&case.points), chosen).unwrap();
                assert!(disk.holds_all(&case.points) && has_on_boundary(&disk, &chosen.set()), "{}", case.name);
                let on_hull = smallest_disk_through(&flat(&hull), chosen);
                assert_eq!(on_hull, Ok(disk), "{}", case.name);
            }
        }
    }

    #[test]
    fn refusals_come_in_their_order() {
        let refusal_of = |list: &[i16], chosen| smallest_disk_through(list, chosen).err().map(Refusal::number);
        let missing = Chosen::Two(Point::new(-1, 1900), Point::new(2, 0));
        assert_eq!(refusal_of(&[-1; 9_001], missing), Some(9));
        assert_eq!(refusal_of(&[], missing), Some(5));
        assert_eq!(refusal_of(&[-1; 8_194], missing), Some(4));
        assert_eq!(refusal_of(&[0, 0, 2, 0, 4, 0, 0, 1537], missing), Some(3));
        assert_eq!(refusal_of(&[0, 0, 2, 0, 4, 0], missing), Some(12));
        assert_eq!(refusal_of(&[0, 0, 2, 0, 4, 0], Chosen::One(Point::new(2, 0))), Some(13));
        assert_eq!(refusal_of(&[0, 0, 2, 0, 4, 0], Chosen::One(Point::new(4, 0))), None);
    }

    #[test]
    fn every_kind_of_answer_is_drawn() {
        let mut random = Random::new(8);
        let mut times = [0; 14];
        for _ in 0..5_000 {
            let case = draw(40, &mut random);
            let answer = smallest_disk_through(&case.list, case.chosen);
            let number = answer.err().map_or(case.chosen.set().len(), |refusal| refusal.number().into());
            times[number] += 1;
        }
        assert!([1, 2, 13].iter().all(|&number| times[number] > 1_000), "{times:?}");
        assert!([3, 5, 9, 12].iter().all(|&number| times[number] > 20), "{times:?}");
    }
}
