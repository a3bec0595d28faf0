//! Sheets to be estimated.

use super::runs::most_glyphs;
use crate::edges;
use crate::estimate;
use crate::inputs::EstimateCase;
use crate::random::Random;
use crate::sheet::MOST_PLACES;

/// `count` sheets with the lengths of both lists.
pub fn to_estimate(random: &mut Random, count: usize) -> Vec<EstimateCase> {
    (0..count).map(|_| estimate::draw(most_glyphs(random), random)).collect()
}

pub fn stored_to_estimate() -> Vec<EstimateCase> {
    to_estimate(&mut Random::new(60), 500)
}

/// The edges by hand whose lists are not too long for a stored case.
pub fn edges_to_estimate() -> impl Iterator<Item = EstimateCase> {
    let given = edges::estimates().into_iter().map(|edge| edge.given);
    given.filter(|case| case.points.max(case.refusals) <= MOST_PLACES)
}

#[cfg(test)]
mod tests {
    use super::*;
    use crate::damage::point_lists::tests::{assert_kinds, KindOfList};
    use crate::estimate::estimate_sheet;
    use crate::estimate::tests::{after, Estimated};
    use crate::sheet::{self, tests::gaps};

    /// A case that is refused: the number, and of a sheet that is not refused how many glyphs it has, and how many acceptable ones.
    struct Refused {
        case: EstimateCase,
        number: u8,
        glyphs: Option<(usize, usize)>,
    }

    impl Refused {
        fn new(case: &EstimateCase) -> Option<Refused> {
            let number = after(case, estimate_sheet).0.err()?.number();
            let glyphs = sheet::parts(&case.sheet).ok().map(|parts| {
                let ample = EstimateCase { points: parts.len(), refusals: parts.len(), sheet: case.sheet.clone() };
                let acceptable = Estimated::new(ample).map(|estimated| estimated.acceptable().count());
                (parts.len(), acceptable.expect("the lists have room"))
            });
            Some(Refused { case: case.clone(), number, glyphs })
        }

        /// Whether the first list is too short, and whether the second is.
        fn is_short(&self) -> (bool, bool) {
            self.glyphs.map_or((false, false), |(count, _)| (self.case.points < count, self.case.refusals < count))
        }

        /// Whether the lists are too short only as faulty glyphs need places too.
        fn is_short_for_faulty(&self) -> bool {
            self.glyphs.is_some_and(|(_, acceptable)| self.case.points.min(self.case.refusals) >= acceptable)
        }

        /// Whether the shorter list lacks one place.
        fn lacks_one(&self) -> bool {
            self.glyphs.is_some_and(|(count, _)| self.case.points.min(self.case.refusals) + 1 == count)
        }
    }

    /// How many of the 500 are refused so at least.
    const KINDS_OF_REFUSALS: [KindOfList<Refused>; 8] = [
        ("6", 25, |r| r.number == 6),
        ("6, and both lists are empty", 1, |r| r.number == 6 && (r.case.points, r.case.refusals) == (0, 0)),
        ("8", 25, |r| r.number == 8),
        ("8 for the points alone", 8, |r| r.number == 8 && r.is_short() == (true, false)),
        ("8 for the refusals alone", 8, |r| r.number == 8 && r.is_short() == (false, true)),
        ("8 for both", 4, |r| r.number == 8 && r.is_short() == (true, true)),
        ("8 for one place", 10, |r| r.number == 8 && r.lacks_one()),
        ("8 for faulty glyphs alone", 15, |r| r.number == 8 && r.is_short_for_faulty()),
    ];

    impl Estimated {
        /// How many points each acceptable glyph has.
        fn acceptable(&self) -> impl Iterator<Item = u16> + '_ {
            self.points[..self.texts.len()].iter().copied().filter(|&n| n > 0)
        }

        fn refusals(&self) -> &[u16] {
            &self.refusals[..self.texts.len()]
        }

        /// Whether so many places of each list are behind those of the glyphs.
        fn has_spare(&self, is_so: fn(usize, usize) -> bool) -> bool {
            is_so(self.case.points - self.texts.len(), self.case.refusals - self.texts.len())
        }

        /// Whether a faulty glyph stands between two acceptable ones.
        fn has_faulty_between(&self) -> bool {
            self.refusals().windows(3).any(|three| three[0] == 0 && three[1] != 0 && three[2] == 0)
        }

        fn has_points(&self, is_so: fn(u16) -> bool) -> bool {
            self.acceptable().any(is_so)
        }
    }

    /// How many of the 500 are such estimates at least.
    const KINDS_OF_ESTIMATES: [KindOfList<Estimated>; 35] = [
        ("no glyph", 25, |e| e.texts.is_empty()),
        ("one glyph", 25, |e| e.texts.len() == 1),
        ("two to ten glyphs", 150, |e| (2..=10).contains(&e.texts.len())),
        ("more than ten glyphs", 25, |e| e.texts.len() > 10),
        ("more than a hundred glyphs", 2, |e| e.texts.len() > 100),
        ("more than 500 glyphs", 1, |e| e.texts.len() > 500),
        ("faulty ones alone", 25, |e| e.texts.len() > 1 && e.acceptable().count() == 0),
        ("no faulty one", 50, |e| e.texts.len() > 1 && e.refusals().iter().all(|&refusal| refusal == 0)),
        ("a faulty one first, another not", 40, |e| e.estimate.bytes > 0 && e.refusals()[0] > 0),
        ("a faulty one last, another not", 40, |e| e.estimate.bytes > 0 && e.refusals().last() > Some(&0)),
        ("a faulty one between", 50, |e| e.has_faulty_between()),
        ("2", 80, |e| e.refusals().contains(&2)),
        ("3", 25, |e| e.refusals().contains(&3)),
        ("4", 1, |e| e.refusals().contains(&4)),
        ("5", 50, |e| e.refusals().contains(&5)),
        ("one point", 80, |e| e.has_points(|n| n == 1)),
        ("two points", 80, |e| e.has_points(|n| n == 2)),
        ("three points", 80, |e| e.has_points(|n| n == 3)),
        ("four to twelve points", 80, |e| e.has_points(|n| (4..=12).contains(&n))),
        ("13 to 51 points", 80, |e| e.has_points(|n| (13..=51).contains(&n))),
        ("more than a hundred points", 12, |e| e.has_points(|n| n > 100)),
        ("a sum of one", 4, |e| e.estimate.tests == 1),
        ("a sum of more than 500,000", 5, |e| e.estimate.tests > 500_000),
        ("an empty part", 30, |e| e.texts.iter().any(Vec::is_empty)),
        ("no gap", 120, |e| gaps(&e.case.sheet).iter().all(|&gap| gap == 0)),
        ("a gap before the first part", 20, |e| gaps(&e.case.sheet)[0] > 0),
        ("a gap behind the last part", 20, |e| gaps(&e.case.sheet).last() > Some(&0)),
        ("a gap between parts", 40, |e| e.texts.len() > 1 && gaps(&e.case.sheet)[1..e.texts.len()].iter().any(|&gap| gap > 0)),
        ("a point named again", 60, |e| e.texts.iter().any(|text| names_one_again(text))),
        ("just the places in both", 80, |e| e.has_spare(|points, refusals| points + refusals == 0)),
        ("a place more for points alone", 20, |e| e.has_spare(|points, refusals| points == 1 && refusals == 0)),
        ("a place more for refusals alone", 20, |e| e.has_spare(|points, refusals| points == 0 && refusals == 1)),
        ("places more in both", 20, |e| e.has_spare(|points, refusals| points > 0 && refusals > 0)),
        ("many places more for points", 4, |e| e.has_spare(|points, _| points > 100)),
        ("many places more for refusals", 4, |e| e.has_spare(|_, refusals| refusals > 100)),
    ];

    fn names_one_again(text: &[u8]) -> bool {
        let mut points = crate::description::points_of(text).unwrap_or_default();
        let named = points.len();
        points.sort_unstable();
        points.dedup();
        points.len() < named
    }

    #[test]
    fn every_kind_of_estimate_and_refusal_is_among_the_cases() {
        let cases = stored_to_estimate();
        assert_kinds(&cases.iter().filter_map(Refused::new).collect::<Vec<_>>(), &KINDS_OF_REFUSALS);
        assert_kinds(&cases.into_iter().filter_map(Estimated::new).collect::<Vec<_>>(), &KINDS_OF_ESTIMATES);
    }

    /// The sheets of 9,361 and of 16,383 glyphs.
    #[test]
    fn all_edges_but_the_longest_are_stored() {
        let stored: Vec<EstimateCase> = edges_to_estimate().collect();
        assert_eq!(edges::estimates().len() - stored.len(), 4);
        assert!(stored.iter().all(|case| case.sheet.len() <= 65_536));
    }
}
