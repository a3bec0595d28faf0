//! Drawn point lists that are faulty, or at times faulty.

use crate::engine::flat;
use crate::geometry::Point;
use crate::limits::{EM, MOST_POINTS};
use crate::lists;
use crate::random::Random;

/// A short list of numbers, x and y by turns: in half of the cases of odd length, empty or with a point outside the em box.
pub fn point_list(random: &mut Random) -> Vec<i16> {
    let n = 1 + random.below(9);
    let mut list = flat(&lists::draw(random.pick(&lists::KINDS), n, random));
    let at = random.below(list.len());
    match random.below(8) {
        0 => list.truncate(at),
        1 => list.push(random.word() as i16),
        2 | 3 => list[at] = random.pick(&[EM.left - 1, EM.right + 1, EM.foot - 1, EM.top + 1, i16::MIN, i16::MAX]),
        _ => (),
    }
    list
}

/// The numbers of the points, x and y by turns. In 8 lists of 100 they are made faulty.
pub fn at_times_faulty(points: &[Point], random: &mut Random) -> Vec<i16> {
    let mut list = flat(points);
    if random.chance(8) {
        damage(&mut list, random);
    }
    list
}

/// No number, a number too many or too few, or too many points; a point outside the em box, at times beside one of these.
fn damage(list: &mut Vec<i16>, random: &mut Random) {
    let fault = random.below(13);
    if fault >= 7 || random.chance(30) {
        push_out(list, random);
    }
    match fault {
        0 => list.clear(),
        1..3 => list.push(random.word() as i16),
        3..5 => list.truncate(list.len() - 1),
        5..7 => *list = list.iter().copied().cycle().take(2 * MOST_POINTS + random.pick(&[2, 3, 4, 6])).collect(),
        _ => (),
    }
}

/// One number passes an edge of the em box by one, or by far.
fn push_out(list: &mut [i16], random: &mut Random) {
    let at = random.below(list.len());
    let (least, most) = if at.is_multiple_of(2) { (EM.left, EM.right) } else { (EM.foot, EM.top) };
    list[at] = random.pick(&[least - 1, most + 1, least - 1, most + 1, i16::MIN, i16::MAX]);
}

#[cfg(test)]
pub(crate) mod tests {
    use super::*;
    use crate::damage::tests::seen;
    use crate::engine::{accepted_points, points_of, solve};
    use crate::lists::Kind;
    use crate::refusal::Refusal;

    /// Draws the numbers of a list of about so many points at most.
    pub type Draw = fn(usize, &mut Random) -> Vec<i16>;

    /// The points of drawn lists that are accepted.
    pub fn accepted_lists(draw: Draw, seed: u64, count: usize, longest: usize) -> Vec<Vec<Point>> {
        let mut random = Random::new(seed);
        (0..count).filter_map(|_| accepted_points(&draw(longest, &mut random)).ok()).collect()
    }

    /// What drawn lists are like, and how many are so at least.
    pub type KindOfList<D> = (&'static str, usize, fn(&D) -> bool);

    /// That of 4,000 drawn lists of up to 60 points so many are of each kind.
    pub fn assert_that_each_kind_is_drawn<D>(draw: Draw, seen_as: fn(Vec<Point>) -> D, kinds: &[KindOfList<D>]) {
        let drawn: Vec<D> = accepted_lists(draw, 1, 4_000, 60).into_iter().map(seen_as).collect();
        assert_kinds(&drawn, kinds);
    }

    /// That so many of these are of each kind.
    pub fn assert_kinds<D>(drawn: &[D], kinds: &[KindOfList<D>]) {
        for (name, least, is_so) in kinds {
            let times = drawn.iter().filter(|drawn| is_so(drawn)).count();
            assert!(times >= *least, "{name}: {times}");
        }
    }

    /// The faults of a list in the order of the checks.
    fn faults(list: &[i16]) -> [bool; 4] {
        let is_outside = |p: &Point| !(0..=2048).contains(&p.x) || !(-512..=1536).contains(&p.y);
        [list.len() % 2 == 1, list.is_empty(), list.len() > 8_192, points_of(list).iter().any(is_outside)]
    }

    /// Of lists of up to 12 points, each kind of fault is drawn, and the first decides what a call answers.
    pub fn assert_that_the_first_fault_decides(draw: Draw, refusal_of: impl Fn(&[i16]) -> Option<Refusal>) {
        let mut random = Random::new(3);
        let drawn: Vec<Vec<i16>> = (0..8_000).map(|_| draw(12, &mut random)).collect();
        let numbers = [Refusal::OddLength, Refusal::NoPoint, Refusal::TooMany, Refusal::OutsideBox];
        for list in &drawn {
            let due = faults(list).into_iter().zip(numbers).find(|(is_faulty, _)| *is_faulty).map(|(_, refusal)| refusal);
            assert_eq!(refusal_of(list), due, "{list:?}");
            assert!(list.len() <= 8_200);
        }
        let times = |wanted: [bool; 4]| drawn.iter().filter(|list| faults(list) == wanted).count();
        let (no, yes) = (false, true);
        for (wanted, least) in [
            ([no; 4], 6_000),
            ([yes, no, no, no], 50),
            ([yes, no, no, yes], 20),
            ([no, yes, no, no], 20),
            ([no, no, yes, no], 10),
            ([no, no, yes, yes], 5),
            ([yes, no, yes, no], 5),
            ([no, no, no, yes], 200),
        ] {
            assert!(times(wanted) >= least, "{wanted:?}: {}", times(wanted));
        }
    }

    fn draw(longest: usize, random: &mut Random) -> Vec<i16> {
        let n = 1 + random.below(longest);
        at_times_faulty(&lists::draw(Kind::Uniform, n, random), random)
    }

    #[test]
    fn point_lists_are_refused_for_each_reason() {
        let times = seen(5_000, |random| solve(&mut point_list(random)).err());
        assert!([0, 3, 5, 9].iter().all(|&number| times[number] > 50), "{times:?}");
    }

    #[test]
    fn every_kind_of_fault_is_drawn() {
        assert_that_the_first_fault_decides(draw, |list| accepted_points(list).err());
    }

    #[test]
    fn points_pass_each_edge_by_one() {
        let mut random = Random::new(4);
        let drawn: Vec<Point> = (0..4_000).flat_map(|_| points_of(&draw(12, &mut random))).collect();
        let times = |is_so: fn(&Point) -> bool| drawn.iter().filter(|p| is_so(p)).count();
        let passed =
            [|p: &Point| p.x == -1, |p: &Point| p.x == 2049, |p: &Point| p.y == -513, |p: &Point| p.y == 1537].map(times);
        assert!(passed.iter().all(|&times| times > 10), "{passed:?}");
    }
}
