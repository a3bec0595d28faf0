//! Sheets to be run under one allowance of tests.

use crate::edges;
use crate::inputs::RunCase;
use crate::random::Random;
use crate::run;
use crate::sheet::{MOST_BUFFER, MOST_PLACES};

/// How many glyphs a sheet has at most: up to 30, and in one case of a hundred 1,200.
pub fn most_glyphs(random: &mut Random) -> usize {
    if random.chance(1) {
        1_200
    } else {
        random.pick(&[4, 6, 6, 8, 8, 10, 10, 15, 15, 30])
    }
}

/// `count` sheets with allowances and the lengths of buffers and lists.
pub fn to_run(random: &mut Random, count: usize) -> Vec<RunCase> {
    (0..count).map(|_| run::draw(most_glyphs(random), random)).collect()
}

pub fn stored_to_run() -> Vec<RunCase> {
    to_run(&mut Random::new(15), 700)
}

/// The edges by hand whose buffers and lists are not too long for a stored case.
pub fn edges_to_run() -> impl Iterator<Item = RunCase> {
    let given = edges::runs().into_iter().map(|edge| edge.given);
    given.filter(|case| case.buffer <= MOST_BUFFER && case.numbers <= MOST_PLACES)
}

#[cfg(test)]
mod tests {
    use super::*;
    use crate::damage::point_lists::tests::{assert_kinds, KindOfList};
    use crate::run::tests::{after, Ran};
    use crate::run::{run_sheet, Outcome};
    use crate::sheet::{self, tests::gaps};

    /// A case that is refused: the number, and of a sheet that is not refused the counts of all glyphs and of the acceptable ones.
    struct Refused {
        case: RunCase,
        number: u8,
        glyphs: Option<(usize, usize)>,
    }

    impl Refused {
        fn new(case: &RunCase) -> Option<Refused> {
            let number = after(case, run_sheet).0.err()?.number();
            let glyphs = sheet::texts(&case.sheet).ok();
            let glyphs = glyphs.map(|texts| (texts.len(), run::solve_each(texts).iter().flatten().count()));
            Some(Refused { case: case.clone(), number, glyphs })
        }

        fn is_too_much(&self) -> bool {
            self.case.allowance >= 1 << 60
        }

        /// Whether the buffer is too short, and whether the list is.
        fn is_short(&self) -> (bool, bool) {
            self.glyphs.map_or((false, false), |(count, _)| (self.case.buffer < 53 * count, self.case.numbers < count))
        }

        /// Whether buffer or list lack room only as faulty glyphs need it too.
        fn is_short_for_faulty(&self) -> bool {
            self.glyphs.is_some_and(|(_, acceptable)| self.case.buffer >= 53 * acceptable && self.case.numbers >= acceptable)
        }
    }

    /// How many of the 700 are refused so at least.
    const KINDS_OF_REFUSALS: [KindOfList<Refused>; 14] = [
        ("1", 1, |r| r.number == 1),
        ("6", 30, |r| r.number == 6),
        ("6, and T is too much", 1, |r| r.number == 6 && r.is_too_much()),
        ("8", 40, |r| r.number == 8),
        ("8 for the buffer alone", 15, |r| r.number == 8 && r.is_short() == (true, false)),
        ("8 for the list alone", 15, |r| r.number == 8 && r.is_short() == (false, true)),
        ("8 for both", 5, |r| r.number == 8 && r.is_short() == (true, true)),
        ("8 for one byte", 8, |r| r.number == 8 && r.glyphs.is_some_and(|(count, _)| r.case.buffer + 1 == 53 * count)),
        ("8 for one place", 8, |r| r.number == 8 && r.glyphs.is_some_and(|(count, _)| r.case.numbers + 1 == count)),
        ("8 for faulty glyphs alone", 25, |r| r.number == 8 && r.is_short_for_faulty()),
        ("8, and T is too much", 2, |r| r.number == 8 && r.is_too_much()),
        ("17", 15, |r| r.number == 17),
        ("17 for 2⁶⁰", 2, |r| r.number == 17 && r.case.allowance == 1 << 60),
        ("17 for the greatest", 2, |r| r.number == 17 && r.case.allowance == u64::MAX),
    ];

    impl Ran {
        fn stopped(&self) -> Option<usize> {
            self.numbers[..self.texts.len()].iter().position(|&number| number == 16)
        }

        /// Whether a glyph is stopped, the first such with so many acceptable ones before it and so many behind.
        fn is_stopped(&self, is_so: fn(usize, usize) -> bool) -> bool {
            let acceptable = self.alone.iter().flatten().count();
            self.stopped().is_some() && is_so(self.run.worked, acceptable - self.run.worked - 1)
        }

        /// Whether all acceptable glyphs are worked, and there are some.
        fn is_done(&self) -> bool {
            self.run.worked > 0 && self.stopped().is_none()
        }

        /// The count of the first glyph that is stopped.
        fn first_stopped_tests(&self) -> Option<u64> {
            self.stopped().and_then(|k| self.alone[k].as_ref().ok()).map(|answer| answer.tests)
        }

        /// Whether a faulty glyph stands between two with these numbers.
        fn has_faulty_between(&self, before: u16, behind: u16) -> bool {
            let numbers = &self.numbers[..self.texts.len()];
            numbers.windows(3).any(|three| three[0] == before && (2..6).contains(&three[1]) && three[2] == behind)
        }

        fn is_faulty(&self, at: impl Fn(&[Outcome]) -> Option<&Outcome>) -> bool {
            at(&self.alone).is_some_and(Result::is_err)
        }

        fn has_number(&self, number: u16) -> bool {
            self.numbers[..self.texts.len()].contains(&number)
        }

        /// Whether a worked glyph is so: S of its disk, the points of its support set, and its count.
        fn has_worked(&self, is_so: fn(u128, usize, u64) -> bool) -> bool {
            let worked = self.alone.iter().zip(&self.numbers).filter(|(_, number)| **number == 0);
            worked.filter_map(|(glyph, _)| glyph.as_ref().ok()).any(|a| is_so(a.disk.s, a.support.len(), a.tests))
        }

        fn gaps(&self) -> Vec<usize> {
            gaps(&self.case.sheet)
        }

        /// By how much the buffer and the list are longer than they have to be.
        fn spare(&self) -> (usize, usize) {
            (self.case.buffer - 53 * self.texts.len(), self.case.numbers - self.texts.len())
        }
    }

    /// How many of the 700 are such runs at least.
    const KINDS_OF_RUNS: [KindOfList<Ran>; 51] = [
        ("no glyph", 30, |r| r.texts.is_empty()),
        ("one glyph", 30, |r| r.texts.len() == 1),
        ("two to ten glyphs", 200, |r| (2..=10).contains(&r.texts.len())),
        ("more than ten glyphs", 30, |r| r.texts.len() > 10),
        ("more than a hundred glyphs", 2, |r| r.texts.len() > 100),
        ("more than 500 glyphs", 1, |r| r.texts.len() > 500),
        ("all worked, none left", 25, |r| r.is_done() && r.run.left == 0),
        ("all worked, some left", 50, |r| r.is_done() && r.run.left > 0),
        ("all worked, one left", 4, |r| r.is_done() && r.run.left == 1),
        ("stopped at the first acceptable", 40, |r| r.is_stopped(|before, _| before == 0)),
        ("stopped at the only acceptable", 10, |r| r.is_stopped(|before, behind| before + behind == 0)),
        ("stopped between others", 60, |r| r.is_stopped(|before, behind| before > 0 && behind > 0)),
        ("stopped at the last acceptable", 20, |r| r.is_stopped(|before, behind| before > 0 && behind == 0)),
        ("stopped for one test", 60, |r| r.first_stopped_tests() == Some(r.run.left + 1)),
        ("stopped for more", 60, |r| r.first_stopped_tests().is_some_and(|tests| tests > r.run.left + 1)),
        ("stopped with nothing left", 30, |r| r.run.worked > 0 && r.stopped().is_some() && r.run.left == 0),
        ("stopped with T 0", 10, |r| r.case.allowance == 0 && r.stopped().is_some()),
        ("an acceptable one behind that would do with what is left", 30, |r| {
            r.acceptable().iter().any(|glyph| glyph.2 == 16 && glyph.1 <= r.run.left)
        }),
        ("faulty ones alone", 30, |r| r.texts.len() > 1 && r.alone.iter().all(Result::is_err)),
        ("faulty ones alone and T 0", 20, |r| !r.texts.is_empty() && r.case.allowance == 0 && r.alone.iter().all(Result::is_err)),
        ("no faulty one", 60, |r| r.texts.len() > 1 && r.alone.iter().all(Result::is_ok)),
        ("a faulty one first, another worked", 20, |r| r.run.worked > 0 && r.is_faulty(|glyphs| glyphs.first())),
        ("a faulty one last, another worked", 30, |r| r.run.worked > 0 && r.is_faulty(|glyphs| glyphs.last())),
        ("a faulty one between worked ones", 30, |r| r.has_faulty_between(0, 0)),
        ("a faulty one between the last worked and the first stopped", 8, |r| r.has_faulty_between(0, 16)),
        ("a faulty one between stopped ones", 20, |r| r.has_faulty_between(16, 16)),
        ("2", 80, |r| r.has_number(2)),
        ("3", 25, |r| r.has_number(3)),
        ("4", 1, |r| r.has_number(4)),
        ("5", 60, |r| r.has_number(5)),
        ("16", 150, |r| r.has_number(16)),
        ("an empty part", 30, |r| r.texts.iter().any(Vec::is_empty)),
        ("no gap", 150, |r| r.gaps().iter().all(|&gap| gap == 0)),
        ("a gap before the first part", 20, |r| r.gaps()[0] > 0),
        ("a gap behind the last part", 20, |r| r.gaps().last() > Some(&0)),
        ("a gap between parts", 50, |r| r.gaps().len() > 2 && r.gaps()[1..r.texts.len()].iter().any(|&gap| gap > 0)),
        ("just the bytes", 150, |r| r.spare().0 == 0),
        ("up to a record more", 40, |r| (1..=53).contains(&r.spare().0)),
        ("many bytes more", 30, |r| r.spare().0 > 200),
        ("just the places", 150, |r| r.spare().1 == 0),
        ("a place more", 40, |r| r.spare().1 == 1),
        ("many places more", 5, |r| r.spare().1 > 100),
        ("T of 2³² or more", 20, |r| r.case.allowance >= 1 << 32),
        ("the greatest T", 5, |r| r.case.allowance == (1 << 60) - 1),
        ("a worked glyph of more than 300 tests", 30, |r| r.has_worked(|_, _, tests| tests > 300)),
        ("a stopped glyph of more than 300 tests", 20, |r| r.first_stopped_tests() > Some(300)),
        ("a worked glyph of one test", 50, |r| r.has_worked(|_, _, tests| tests == 1)),
        ("S above 64 bits", 10, |r| r.has_worked(|s, _, _| s >> 64 > 0)),
        ("one point on the rim", 50, |r| r.has_worked(|_, points, _| points == 1)),
        ("two points on the rim", 50, |r| r.has_worked(|_, points, _| points == 2)),
        ("three points on the rim", 50, |r| r.has_worked(|_, points, _| points == 3)),
    ];

    #[test]
    fn every_kind_of_run_and_refusal_is_among_the_cases() {
        let cases = stored_to_run();
        assert_kinds(&cases.iter().filter_map(Refused::new).collect::<Vec<_>>(), &KINDS_OF_REFUSALS);
        assert_kinds(&cases.into_iter().filter_map(Ran::new).collect::<Vec<_>>(), &KINDS_OF_RUNS);
    }

    #[test]
    fn all_edges_but_the_longest_are_stored() {
        let stored: Vec<RunCase> = edges_to_run().collect();
        assert_eq!(edges::runs().len() - stored.len(), 4);
        assert!(stored.iter().all(|case| case.sheet.len() <= 65_536));
    }
}
