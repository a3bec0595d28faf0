//! What a sheet will take (document 02, item 13), with no disk worked out; drawn sheets for it are in `estimate/drawn.rs`.
//!
//! Every description is loaded on its own before any number is settled; lists and sums are then taken from all that was loaded. The tests that
//! n points may take are found as the number of sets of one, two or three of them: n + n(n − 1)/2 + n(n − 1)(n − 2)/6 is (n³ + 5n) / 6.

use crate::description;
use crate::record::LONG;
use crate::refusal::{number_or_0, Refusal};
use crate::sheet;

mod drawn;

pub use drawn::draw;

/// How many bytes the records of all acceptable glyphs have, and how many tests are enough for all of them.
#[derive(Clone, Copy, PartialEq, Eq, Debug)]
pub struct Estimate {
    pub bytes: u64,
    pub tests: u64,
}

/// How many points a description names, or why it is refused.
type Loaded = Result<usize, Refusal>;

/// Puts the points of each glyph, 0 for a faulty one, and its refusal or 0 into the lists: refusals 1, 6, 8, and then both are unchanged.
pub fn estimate_sheet(sheet: &[u8], points: &mut [u16], refusals: &mut [u16]) -> Result<Estimate, Refusal> {
    let loaded: Vec<Loaded> = sheet::texts(sheet)?.into_iter().map(points_named).collect();
    if points.len().min(refusals.len()) < loaded.len() {
        return Err(Refusal::NoRoom);
    }
    let named = loaded.iter().map(|glyph| glyph.map_or(0, |n| u16::try_from(n).expect("at most 4,096 points")));
    put(points, named);
    put(refusals, loaded.iter().map(number_or_0));
    let acceptable: Vec<usize> = loaded.into_iter().flatten().collect();
    let tests: u128 = acceptable.iter().map(|&n| small_sets(n as u128)).sum();
    let bytes = LONG.length() * acceptable.len();
    Ok(Estimate { bytes: bytes as u64, tests: tests.try_into().expect("the sum is far below 2⁶⁰") })
}

fn points_named(text: &[u8]) -> Loaded {
    description::points_of(text).map(|points| points.len())
}

/// The numbers at the front of the list.
fn put(list: &mut [u16], numbers: impl Iterator<Item = u16>) {
    list.iter_mut().zip(numbers).for_each(|(place, number)| *place = number);
}

/// How many sets of one, two or three of n points there are.
fn small_sets(n: u128) -> u128 {
    let pairs = n * n.saturating_sub(1) / 2;
    let triples = pairs * n.saturating_sub(2) / 3;
    n + pairs + triples
}

#[cfg(test)]
pub(crate) mod tests {
    use super::*;
    use crate::edges::{self, sheet_of};
    use crate::inputs::{EstimateCase, RunCase};
    use crate::limits::MOST_POINTS;
    use crate::procedure::most_tests;
    use crate::random::Random;
    use crate::run::{needs, run_sheet, tests::Ran, SheetRun};
    use crate::worst;

    type Call = fn(&[u8], &mut [u16], &mut [u16]) -> Result<Estimate, Refusal>;

    /// What a call returned, and both lists after it.
    pub fn after(case: &EstimateCase, call: Call) -> (Result<Estimate, Refusal>, [Vec<u16>; 2]) {
        let [mut points, mut refusals] = case.lent();
        let answer = call(&case.sheet, &mut points, &mut refusals);
        (answer, [points, refusals])
    }

    fn cases(seed: u64) -> impl Iterator<Item = EstimateCase> {
        let mut random = Random::new(seed);
        (0..1_000).map(move |i| draw(if i % 100 == 0 { 300 } else { random.pick(&[3, 8, 30]) }, &mut random))
    }

    fn edges() -> impl Iterator<Item = EstimateCase> {
        edges::estimates().into_iter().map(|edge| edge.given)
    }

    /// An estimate that was not refused: its descriptions, and what the call left.
    pub struct Estimated {
        pub case: EstimateCase,
        pub texts: Vec<Vec<u8>>,
        pub estimate: Estimate,
        pub points: Vec<u16>,
        pub refusals: Vec<u16>,
    }

    impl Estimated {
        pub fn new(case: EstimateCase) -> Option<Estimated> {
            let (answer, [points, refusals]) = after(&case, estimate_sheet);
            let texts: Vec<Vec<u8>> = sheet::texts(&case.sheet).ok()?.into_iter().map(<[u8]>::to_vec).collect();
            answer.ok().map(|estimate| Estimated { case, texts, estimate, points, refusals })
        }

        /// The sheet with lists that have a place for each glyph.
        fn of_sheet(sheet: Vec<u8>) -> Estimated {
            let count = sheet::parts(&sheet).unwrap().len();
            Estimated::new(EstimateCase { points: count, refusals: count, sheet }).unwrap()
        }

        /// A run of the sheet with so many tests, in a buffer with 60 bytes and a list with 2 places more than it needs.
        fn run(&self, allowance: u64) -> Ran {
            let count = self.texts.len();
            let case = RunCase { allowance, buffer: 53 * count + 60, numbers: count + 2, sheet: self.case.sheet.clone() };
            Ran::new(case).expect("the run is not refused")
        }
    }

    /// Those of drawn sheets and of the edges.
    fn estimates(seed: u64) -> impl Iterator<Item = Estimated> {
        cases(seed).chain(edges()).filter_map(Estimated::new)
    }

    /// Item 13 sentence by sentence, from the first glyph on.
    fn as_told(sheet: &[u8], points: &mut [u16], refusals: &mut [u16]) -> Result<Estimate, Refusal> {
        if let Err(refusal @ (Refusal::TooLong | Refusal::BadSheet)) = sheet::glyph(sheet, 0) {
            return Err(refusal);
        }
        let count = usize::from(u16::from_be_bytes([sheet[0], sheet[1]]));
        if points.len() < count || refusals.len() < count {
            return Err(Refusal::NoRoom);
        }
        let (mut bytes, mut tests) = (0, 0);
        for (k, part) in sheet::parts(sheet)?.into_iter().enumerate() {
            match description::load(&sheet[part], &mut [0; 8_192]) {
                Ok(n) => {
                    (points[k], refusals[k]) = (n as u16, 0);
                    bytes += 53;
                    tests += (n.pow(3) + 5 * n) as u64 / 6;
                }
                Err(refusal) => (points[k], refusals[k]) = (0, refusal.number().into()),
            }
        }
        Ok(Estimate { bytes, tests })
    }

    #[test]
    fn it_is_as_told_glyph_by_glyph() {
        for case in cases(1).chain(edges()) {
            assert!(after(&case, estimate_sheet) == after(&case, as_told), "{case:?}");
        }
    }

    #[test]
    fn the_small_sets_are_as_many_as_the_papers_have_tests() {
        for n in 0..=MOST_POINTS as u64 {
            let sets = small_sets(n.into());
            assert_eq!(6 * sets, u128::from(n).pow(3) + 5 * u128::from(n), "{n}: the division is exact");
            assert_eq!(sets, most_tests(n).into());
        }
    }

    /// With one test less than its glyphs need, a run refuses one: the sum is not tried in vain.
    #[test]
    fn a_run_with_the_sum_refuses_no_glyph_as_16_and_writes_that_many_bytes() {
        let mut with_less = 0;
        for estimated in estimates(2) {
            let (estimate, count) = (estimated.estimate, estimated.texts.len());
            let ran = estimated.run(estimate.tests);
            assert!(!ran.numbers.contains(&16));
            assert_eq!(ran.numbers[..count], estimated.refusals[..count]);
            assert_eq!(53 * ran.run.worked as u64, estimate.bytes);
            assert!(ran.buffer[53 * ran.run.worked..].iter().all(|&byte| byte == 238));
            let need = needs(&ran.alone).last().copied().unwrap_or(0);
            assert_eq!(ran.run.left, estimate.tests - need);
            if let Some(less) = need.checked_sub(1) {
                assert!(estimated.run(less).numbers.contains(&16));
                with_less += 1;
            }
        }
        assert!(with_less > 500, "{with_less}");
    }

    /// Two buffers that differ everywhere before the run have just so many bytes in common after it.
    #[test]
    fn exactly_that_many_bytes_are_written() {
        for Estimated { case, texts, estimate, .. } in estimates(3) {
            let [one, other] = [1, 2].map(|byte| {
                let (mut buffer, mut numbers) = (vec![byte; 53 * texts.len()], vec![0; texts.len()]);
                run_sheet(&case.sheet, estimate.tests, &mut buffer, &mut numbers).unwrap();
                buffer
            });
            let written = one.iter().zip(&other).filter(|(one, other)| one == other).count();
            assert_eq!(written as u64, estimate.bytes);
        }
    }

    /// Lists that take as many tests as demand 3 allows: for these no smaller sum would do.
    #[test]
    fn the_sum_is_needed_by_the_worst_lists() {
        let is_worst = |points: &Vec<_>| worst::tests_of(points) == most_tests(points.len() as u64);
        let lists: Vec<_> = worst::short_lists().into_iter().filter(is_worst).collect();
        assert!(lists.iter().map(Vec::len).max() >= Some(5), "{:?}", lists.iter().map(Vec::len).collect::<Vec<_>>());
        let estimated = Estimated::of_sheet(sheet::packed(lists.iter().map(|points| description::describe(points))));
        let tests = estimated.estimate.tests;
        assert_eq!(estimated.run(tests).run, SheetRun { worked: lists.len(), left: 0 });
        assert_eq!(estimated.run(tests - 1).run.worked, lists.len() - 1);
    }

    #[test]
    fn a_faulty_glyph_takes_nothing() {
        let mut faulty = 0;
        for estimated in estimates(4) {
            let glyphs = || estimated.texts.iter().zip(&estimated.refusals);
            let acceptable = glyphs().filter(|(_, refusal)| **refusal == 0).map(|(text, _)| text.clone());
            let without = Estimated::of_sheet(sheet::packed(acceptable));
            assert_eq!(without.estimate, estimated.estimate);
            assert!(without.refusals.iter().all(|refusal| *refusal == 0));
            assert!(estimated.points.iter().filter(|n| **n != 0).take(without.points.len()).eq(&without.points));
            faulty += estimated.texts.len() - without.texts.len();
        }
        assert!(faulty > 1_000, "{faulty}");
    }

    #[test]
    fn estimates_of_joined_sheets_add_up() {
        let sheets: Vec<Estimated> = estimates(5).filter(|estimated| estimated.case.sheet.len() < 30_000).collect();
        for two in sheets.windows(2) {
            let joined = Estimated::of_sheet(sheet::packed(two.iter().flat_map(|one| one.texts.clone())));
            let sum = |part: fn(&Estimate) -> u64| two.iter().map(|one| part(&one.estimate)).sum::<u64>();
            assert_eq!(joined.estimate, Estimate { bytes: sum(|one| one.bytes), tests: sum(|one| one.tests) });
            let lists = |list: fn(&Estimated) -> &Vec<u16>| {
                two.iter().flat_map(|one| list(one)[..one.texts.len()].to_vec()).collect::<Vec<_>>()
            };
            assert_eq!((joined.points, joined.refusals), (lists(|one| &one.points), lists(|one| &one.refusals)));
        }
    }

    #[test]
    fn places_behind_stay_and_a_refused_call_changes_nothing() {
        for case in cases(6).chain(edges()) {
            let (answer, lists) = after(&case, estimate_sheet);
            let places = answer.map_or(0, |_| sheet::parts(&case.sheet).unwrap().len());
            assert!(lists.iter().all(|list| list[places..].iter().all(|&number| number == 12_321)), "{case:?}");
        }
    }

    /// The most points that a sheet can hold, in one description and in four; the most records; and the most glyphs.
    #[test]
    fn the_sum_is_below_2_to_the_60_for_the_largest_sheets() {
        let mut one = b"0 0\n".repeat(4_096);
        one.resize(65_529, b' ');
        let four = edges::estimates().into_iter().map(|edge| edge.given).find(|case| case.sheet.len() == 65_535).unwrap().sheet;
        let largest = [
            (sheet::packed([one]), 53, 11_453_249_536),
            (four, 212, 45_779_476_466),
            (sheet_of(&"a".repeat(9_361)), 496_133, 9_361),
            (sheet_of(&"_".repeat(16_383)), 0, 0),
        ];
        for (sheet, bytes, tests) in largest {
            assert!(sheet.len() > 65_528 && tests < 1 << 60);
            let estimated = Estimated::of_sheet(sheet);
            assert_eq!(estimated.estimate, Estimate { bytes, tests });
            assert_eq!(53 * estimated.run(tests).run.worked as u64, bytes);
        }
        assert!(16_383 * small_sets(4_096) < 1 << 60, "as many glyphs as a directory has pairs for, each with the most points");
    }
}
