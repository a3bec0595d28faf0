//! Drawn lists for the calls that refuse a list as the engine does and make no disk: the hull and the widest stretch.

use crate::hull;
use crate::random::Random;
use crate::stretch;

/// How many points a list has at most, each as likely as another: up to 60 in three lists of four, in the others up to 300, 600 and 1,100.
const LENGTHS: [usize; 20] = [4, 4, 12, 12, 12, 40, 40, 40, 40, 60, 60, 60, 60, 60, 60, 300, 600, 600, 600, 1_100];

/// `count` lists to be reduced to their hulls.
pub fn for_hull(random: &mut Random, count: usize) -> Vec<Vec<i16>> {
    (0..count).map(|_| hull::draw(random.pick(&LENGTHS), random)).collect()
}

pub fn stored_for_hull() -> Vec<Vec<i16>> {
    for_hull(&mut Random::new(9), 1_000)
}

/// `count` lists whose two points farthest apart are to be found.
pub fn for_stretch(random: &mut Random, count: usize) -> Vec<Vec<i16>> {
    (0..count).map(|_| stretch::draw(random.pick(&LENGTHS), random)).collect()
}

pub fn stored_for_stretch() -> Vec<Vec<i16>> {
    for_stretch(&mut Random::new(11), 1_000)
}

#[cfg(test)]
mod tests {
    use super::*;
    use crate::hull::reduce_to_hull;
    use crate::refusal::Refusal;
    use crate::stretch::{widest_stretch, Stretch};

    /// Each refusal of the engine is among the answers.
    fn assert_refusals<T: PartialEq>(answers: &[Result<T, Refusal>]) {
        let refused = |refusal: Refusal| answers.iter().filter(|answer| **answer == Err(refusal)).count();
        assert!(refused(Refusal::OddLength) >= 20 && refused(Refusal::OutsideBox) >= 30);
        assert!(refused(Refusal::NoPoint) >= 4 && refused(Refusal::TooMany) >= 4);
    }

    #[test]
    fn lists_that_keep_few_many_and_all_points_are_among_the_cases() {
        let lists = stored_for_hull();
        let answers: Vec<Result<usize, Refusal>> = lists.iter().map(|list| reduce_to_hull(&mut list.clone())).collect();
        assert_refusals(&answers);
        let kept = |least: usize, most: usize| {
            let is_so = |answer: &&Result<usize, Refusal>| answer.is_ok_and(|count| (least..=most).contains(&count));
            answers.iter().filter(is_so).count()
        };
        assert!(kept(1, 1) >= 20 && kept(2, 2) >= 80 && kept(3, 3) >= 80);
        assert!(kept(4, 30) >= 400 && kept(31, 100) >= 40 && kept(101, 400) >= 5);
        let all = lists.iter().zip(&answers).filter(|(list, answer)| **answer == Ok(list.len() / 2)).count();
        assert!(all >= 100, "{all}");
    }

    #[test]
    fn lists_have_every_length() {
        for lists in [stored_for_hull(), stored_for_stretch()] {
            let lengths: Vec<usize> = lists.iter().map(|list| list.len() / 2).collect();
            let times = |least: usize, most: usize| lengths.iter().filter(|length| (least..=most).contains(length)).count();
            assert!((1..=60).all(|length| times(length, length) > 0));
            assert!((50..600).step_by(50).all(|length| times(length + 1, length + 50) >= 5));
            assert!(times(601, 1_100) >= 10);
        }
    }

    #[test]
    fn long_lists_keep_few_points_and_many() {
        let mut kept: Vec<usize> = hull::long().iter_mut().map(|list| reduce_to_hull(list).unwrap()).collect();
        kept.sort_unstable();
        assert!(kept.len() >= 8 && kept[0] <= 4 && kept[kept.len() - 1] == 560, "{kept:?}");
    }

    #[test]
    fn short_and_long_stretches_in_every_direction_are_among_the_cases() {
        let lists = stored_for_stretch();
        let answers: Vec<Result<Stretch, Refusal>> = lists.iter().map(|list| widest_stretch(list)).collect();
        assert_refusals(&answers);
        let times = |is_so: fn(&Stretch) -> bool| answers.iter().flatten().filter(|found| is_so(found)).count();
        assert!(times(|found| found.w == 0) >= 20 && times(|found| (1..1_000).contains(&found.w)) >= 100);
        assert!(times(|found| (1_000..1_000_000).contains(&found.w)) >= 200 && times(|found| found.w >= 1_000_000) >= 200);
        assert!(times(|found| found.w == 8_388_608) >= 5);
        let along = |is_so: fn(i16, i16) -> bool| {
            let is_so = |found: &&Stretch| found.w > 0 && is_so(found.b.x - found.a.x, found.b.y - found.a.y);
            answers.iter().flatten().filter(is_so).count()
        };
        assert!(along(|_, y| y == 0) >= 20 && along(|x, _| x == 0) >= 20);
        assert!(along(|x, y| x > 0 && y > 0) >= 300 && along(|x, y| x > 0 && y < 0) >= 100);
    }

    #[test]
    fn long_lists_have_different_stretches() {
        let mut found: Vec<u64> = stretch::long().iter().map(|list| widest_stretch(list).unwrap().w).collect();
        found.sort_unstable();
        found.dedup();
        assert!(found.len() >= 10, "{found:?}");
    }
}
