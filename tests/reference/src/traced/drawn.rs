//! Drawn lists of traced points, each by its seed.

use super::{flat, TracedPoint};
use crate::geometry::{Disk, Point};
use crate::limits::{EM, MOST_TOLERANCE};
use crate::lists::{self, Kind, KINDS};
use crate::random::Random;
use crate::smallest::smallest_disk;

/// The numbers of a list of traced points: of any kind with tolerances, with the points of a plain list for the farthest corners, or with
/// squares inside others; up to `longest` points, and two where a faulty list would have one. In 15 lists of 100 a point or two are faulty,
/// and in 3 of 40 there is no point or the length is wrong.
pub fn draw(longest: usize, random: &mut Random) -> Vec<i16> {
    let n = 1 + random.below(longest);
    let kind = random.pick(&KINDS);
    let mut traced = match random.below(4) {
        0..2 => of_kind(kind, n, random),
        2 => reaching_inward(random.pick(&[kind, Kind::Circle]), n, random),
        _ => swallowed(kind, n, random),
    };
    if random.chance(15) {
        damage(&mut traced, random);
    }
    let mut list = flat(&traced);
    match random.below(40) {
        0 => list.clear(),
        excess @ 1..3 => list.extend((0..excess).map(|_| random.word() as i16)),
        _ => (),
    }
    list
}

/// A list of the kind with tolerances.
pub(super) fn of_kind(kind: Kind, n: usize, random: &mut Random) -> Vec<TracedPoint> {
    let points = lists::draw(kind, n, random);
    points.into_iter().zip(tolerances(n, random)).map(|(p, t)| fitted(p, t)).collect()
}

/// The point moved as far as its square needs it to stay in the em box: near an edge, the square touches it.
pub fn fitted(p: Point, t: i16) -> TracedPoint {
    TracedPoint { x: p.x.clamp(EM.left + t, EM.right - t), y: p.y.clamp(EM.foot + t, EM.top - t), t }
}

/// All zero, all equal, all different (as far as there are so many), zero or the most, or any up to a bound.
fn tolerances(n: usize, random: &mut Random) -> Vec<i16> {
    match random.below(6) {
        0 => vec![0; n],
        1 => vec![random.coordinate(1, MOST_TOLERANCE); n],
        2 => {
            let mut all: Vec<i16> = (0..=MOST_TOLERANCE).collect();
            random.shuffle(&mut all);
            all.into_iter().cycle().take(n).collect()
        }
        3 => (0..n).map(|_| random.pick(&[0, MOST_TOLERANCE])).collect(),
        _ => {
            let most = random.pick(&[1, 3, 20, MOST_TOLERANCE]);
            (0..n).map(|_| random.coordinate(0, most)).collect()
        }
    }
}

/// Squares that have the points of a plain list for their farthest corners and reach towards the centre of its smallest disk, which is
/// theirs too: many on one circle where the points are.
fn reaching_inward(kind: Kind, n: usize, random: &mut Random) -> Vec<TracedPoint> {
    let points = lists::draw(kind, n, random);
    let disk = smallest_disk(&points);
    points.into_iter().map(|p| inward(p, &disk, random)).collect()
}

/// A square in the em box with its corner p farthest from the centre.
fn inward(p: Point, disk: &Disk, random: &mut Random) -> TracedPoint {
    let (x, y) = p.wide();
    let (dx, dy) = (disk.x - x * disk.e, disk.y - y * disk.e);
    let most = (dx.abs().min(dy.abs()) / disk.e).min(MOST_TOLERANCE.into()) as i16;
    let t = random.coordinate(0, most);
    let square = TracedPoint { x: p.x + t * dx.signum() as i16, y: p.y + t * dy.signum() as i16, t };
    if square.is_in_em_box() {
        square
    } else {
        fitted(p, 0)
    }
}

/// One to three big squares, and small ones inside them.
fn swallowed(kind: Kind, n: usize, random: &mut Random) -> Vec<TracedPoint> {
    let points = lists::draw(kind, n.min(1 + random.below(3)), random);
    let big: Vec<TracedPoint> = points.into_iter().map(|p| fitted(p, random.coordinate(10, MOST_TOLERANCE))).collect();
    let inside = |random: &mut Random| {
        let TracedPoint { x, y, t: reach } = random.pick(&big);
        let t = random.coordinate(0, reach);
        let room = reach - t;
        TracedPoint { x: x + random.coordinate(-room, room), y: y + random.coordinate(-room, room), t }
    };
    let mut traced: Vec<TracedPoint> = (big.len()..n).map(|_| inside(random)).collect();
    traced.extend(&big);
    random.shuffle(&mut traced);
    traced
}

/// 14 or 3 for one point, both for one, or one for an earlier and the other for a later point.
fn damage(traced: &mut Vec<TracedPoint>, random: &mut Random) {
    if traced.len() == 1 {
        traced.push(traced[0]);
    }
    let later = 1 + random.below(traced.len() - 1);
    let earlier = random.below(later);
    let one = random.pick(&[earlier, later]);
    match random.below(5) {
        0 => spoil_tolerance(&mut traced[one], random),
        1 => push_out(&mut traced[one], random),
        2 => {
            traced[one].t = 0;
            push_out(&mut traced[one], random);
            spoil_tolerance(&mut traced[one], random);
        }
        3 => {
            spoil_tolerance(&mut traced[earlier], random);
            push_out(&mut traced[later], random);
        }
        _ => {
            push_out(&mut traced[earlier], random);
            spoil_tolerance(&mut traced[later], random);
        }
    }
}

fn spoil_tolerance(p: &mut TracedPoint, random: &mut Random) {
    p.t = random.pick(&[-1, MOST_TOLERANCE + 1, i16::MIN, i16::MAX]);
}

/// The square passes an edge of the em box by one, or lies far outside.
fn push_out(p: &mut TracedPoint, random: &mut Random) {
    let TracedPoint { x, y, t } = *p;
    let edges = [(EM.left + t - 1, y), (EM.right - t + 1, y), (x, EM.foot + t - 1), (x, EM.top - t + 1)];
    let far = [(i16::MIN, y), (i16::MAX, y), (x, i16::MIN), (x, i16::MAX)];
    (p.x, p.y) = if random.chance(70) { random.pick(&edges) } else { random.pick(&far) };
}

#[cfg(test)]
mod tests {
    use super::*;
    use crate::refusal::Refusal;
    use crate::traced::{accepted, smallest_by_places, smallest_disk_of_traced, traced_of};

    /// Whether the square lies in the other, which is bigger.
    fn is_inside(p: &TracedPoint, other: &TracedPoint) -> bool {
        let reach = (p.x - other.x).abs().max((p.y - other.y).abs()) + p.t;
        p.t < other.t && reach <= other.t
    }

    /// The different squares that lie in no bigger one.
    fn outermost(traced: &[TracedPoint]) -> Vec<TracedPoint> {
        let mut outer: Vec<TracedPoint> = Vec::new();
        for p in traced {
            if !outer.contains(p) && !traced.iter().any(|other| is_inside(p, other)) {
                outer.push(*p);
            }
        }
        outer
    }

    #[test]
    fn one_to_three_big_squares_swallow_the_others_and_settle_the_disk() {
        let mut random = Random::new(1);
        for _ in 0..2_000 {
            let (kind, n) = (random.pick(&KINDS), 1 + random.below(40));
            let traced = swallowed(kind, n, &mut random);
            let outer = outermost(&traced);
            assert!(traced.len() == n && outer.len() <= 3, "{traced:?}");
            assert_eq!(smallest_by_places(&outer), smallest_by_places(&traced), "{traced:?}");
        }
    }

    #[test]
    fn squares_that_reach_inward_keep_the_disk_of_their_outer_corners() {
        let mut random = Random::new(2);
        let mut times = 0;
        for case in lists::mixed(2_000, 40) {
            let disk = smallest_disk(&case.points);
            let traced: Vec<TracedPoint> = case.points.iter().map(|&p| inward(p, &disk, &mut random)).collect();
            times += usize::from(traced.iter().any(|p| p.t > 5 && p.farthest_square_distance(&disk) == disk.s));
            assert_eq!(smallest_by_places(&traced), disk, "{}", case.name);
        }
        assert!(times > 500, "{times}");
    }

    type Test = fn(&[TracedPoint]) -> bool;

    fn has_only(traced: &[TracedPoint], tolerances: &[i16]) -> bool {
        traced.iter().all(|p| tolerances.contains(&p.t))
    }

    fn are_different(traced: &[TracedPoint]) -> bool {
        let mut tolerances: Vec<i16> = traced.iter().map(|p| p.t).collect();
        tolerances.sort_unstable();
        tolerances.dedup();
        tolerances.len() == traced.len()
    }

    /// Whether at least five of the squares decide together: their farthest corners are different and on the disk's boundary.
    fn share_a_circle(traced: &[TracedPoint]) -> bool {
        let disk = smallest_by_places(traced);
        let deciding = traced.iter().filter(|p| p.t > 0 && p.farthest_square_distance(&disk) == disk.s);
        let mut corners: Vec<Point> = deciding.map(|p| p.farthest_place(&disk)).collect();
        corners.sort_unstable();
        corners.dedup();
        corners.len() >= 5
    }

    /// What drawn lists are like, and how many of 4,000 are so at least.
    const KINDS_OF_LISTS: [(&str, usize, Test); 13] = [
        ("all tolerances zero", 200, |l| l.len() > 1 && has_only(l, &[0])),
        ("all equal", 200, |l| l.len() > 1 && l[0].t > 0 && has_only(l, &[l[0].t])),
        ("all different", 200, |l| l.len() > 4 && are_different(l)),
        ("zero or 50", 200, |l| has_only(l, &[0, 50]) && !has_only(l, &[0]) && !has_only(l, &[50])),
        ("more than ten squares in up to three bigger ones", 600, |l| l.len() > 10 && outermost(l).len() <= 3),
        ("on one circle", 80, share_a_circle),
        ("a square touches the left edge", 200, |l| l.iter().any(|p| p.t > 0 && p.x - p.t == 0)),
        ("the right edge", 200, |l| l.iter().any(|p| p.t > 0 && p.x + p.t == 2048)),
        ("the lower edge", 200, |l| l.iter().any(|p| p.t > 0 && p.y - p.t == -512)),
        ("the upper edge", 200, |l| l.iter().any(|p| p.t > 0 && p.y + p.t == 1536)),
        ("one point", 40, |l| l.len() == 1),
        ("more than 30", 500, |l| l.len() > 30),
        ("a large E", 200, |l| smallest_by_places(l).e > 100_000),
    ];

    #[test]
    fn every_kind_of_list_is_drawn() {
        let mut random = Random::new(3);
        let drawn: Vec<Vec<TracedPoint>> = (0..4_000).filter_map(|_| accepted(&draw(40, &mut random)).ok()).collect();
        for (name, least, is_so) in KINDS_OF_LISTS {
            let times = drawn.iter().filter(|traced| is_so(traced)).count();
            assert!(times >= least, "{name}: {times}");
        }
    }

    /// The faults of a point: a tolerance outside 0 to 50, and a place outside the em box.
    fn faults(p: &TracedPoint) -> [bool; 2] {
        let (x, y, t) = (i32::from(p.x), i32::from(p.y), i32::from(p.t));
        let reach = t.clamp(0, 50);
        let is_in_box = x >= reach && x <= 2048 - reach && y >= reach - 512 && y <= 1536 - reach;
        [t != reach, !is_in_box]
    }

    /// Whether the length is right, and the faulty points in their order.
    type Faults = (bool, Vec<[bool; 2]>);

    fn due(list: &[i16], (is_by_threes, faulty): &Faults) -> Option<Refusal> {
        match faulty.first() {
            _ if !is_by_threes => Some(Refusal::OddLength),
            _ if list.is_empty() => Some(Refusal::NoPoint),
            Some([true, _]) => Some(Refusal::BadTolerance),
            Some(_) => Some(Refusal::OutsideBox),
            None => None,
        }
    }

    #[test]
    fn every_kind_of_fault_is_drawn_and_the_first_decides() {
        let mut random = Random::new(4);
        let mut drawn: Vec<(usize, Faults)> = Vec::new();
        for _ in 0..8_000 {
            let list = draw(12, &mut random);
            let faulty = traced_of(&list).iter().map(faults).filter(|faults| faults.contains(&true)).collect();
            let faults = (list.len().is_multiple_of(3), faulty);
            assert_eq!(smallest_disk_of_traced(&list).err(), due(&list, &faults), "{list:?}");
            drawn.push((list.len(), faults));
        }
        let times =
            |is_so: &dyn Fn(usize, &Faults) -> bool| drawn.iter().filter(|(length, faults)| is_so(*length, faults)).count();
        let [bad, out, both] = [[true, false], [false, true], [true, true]];
        for faulty in [vec![], vec![bad], vec![out], vec![both], vec![bad, out], vec![out, bad]] {
            let wanted = (true, faulty);
            assert!(times(&|length, faults| length > 0 && *faults == wanted) > 50, "{wanted:?}");
        }
        assert!(times(&|length, _| length == 0) > 50);
        assert!([1, 2].iter().all(|rest| times(&|length, faults| length % 3 == *rest && faults.1.is_empty()) > 50));
        assert!([1, 2].iter().all(|rest| times(&|length, faults| length % 3 == *rest && !faults.1.is_empty()) > 10));
    }

    #[test]
    fn squares_pass_each_edge_by_one() {
        let mut random = Random::new(5);
        let lists = (0..4_000).map(|_| draw(12, &mut random));
        let drawn: Vec<_> =
            lists.flat_map(|list| traced_of(&list)).map(TracedPoint::wide).filter(|p| (1..=50).contains(&p.2)).collect();
        let times = |is_so: fn(i128, i128, i128) -> bool| drawn.iter().filter(|(x, y, t)| is_so(*x, *y, *t)).count();
        let passed =
            [|x, _, t| x - t == -1, |x, _, t| x + t == 2049, |_, y, t| y - t == -513, |_, y, t| y + t == 1537].map(times);
        assert!(passed.iter().all(|&times| times > 20), "{passed:?}");
    }
}
