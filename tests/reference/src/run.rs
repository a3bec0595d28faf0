//! A whole sheet worked under one allowance of tests (document 02, item 12); drawn sheets for it are in `run/drawn.rs`.
//!
//! Every glyph is solved on its own before any number is settled. A glyph's need is the sum of the counts of all acceptable glyphs up to it,
//! its own included, and it is worked exactly if its need is at most T. That says the same as going through the sheet with what is left: all
//! acceptable glyphs before the first that is stopped are worked, so what is left there is T less their counts, and its own count is more than
//! that exactly if its need is above T. No need is below an earlier one, so those of all later glyphs are above T too.

use crate::engine::Answer;
use crate::limits::MOST_ALLOWANCE;
use crate::listing;
use crate::record::{self, LONG};
use crate::refusal::{number_or_0, Refusal};
use crate::sheet;

mod drawn;

pub use drawn::draw;

/// How many glyphs were worked, and what is left of the allowance.
#[derive(Clone, Copy, PartialEq, Eq, Debug)]
pub struct SheetRun {
    pub worked: usize,
    pub left: u64,
}

/// What a glyph comes to: its answer, or why it has none.
pub type Outcome = Result<Answer, Refusal>;

/// Puts the records of the worked glyphs one behind another into the buffer, and a number for each glyph into the list: refusals 1, 6, 8, 17,
/// and then both are unchanged.
pub fn run_sheet(sheet: &[u8], allowance: u64, buffer: &mut [u8], numbers: &mut [u16]) -> Result<SheetRun, Refusal> {
    let texts = sheet::texts(sheet)?;
    if buffer.len() < LONG.length() * texts.len() || numbers.len() < texts.len() {
        return Err(Refusal::NoRoom);
    }
    if allowance > MOST_ALLOWANCE {
        return Err(Refusal::TooMuch);
    }
    let outcomes = allowed(solve_each(texts), allowance);
    for (place, outcome) in numbers.iter_mut().zip(&outcomes) {
        *place = number_or_0(outcome);
    }
    let worked: Vec<&Answer> = outcomes.iter().flatten().collect();
    for (place, answer) in buffer.chunks_exact_mut(LONG.length()).zip(&worked) {
        record::write(&answer.disk, &answer.support, place).expect("every answer makes a valid record");
    }
    let spent: u64 = worked.iter().map(|answer| answer.tests).sum();
    Ok(SheetRun { worked: worked.len(), left: allowance - spent })
}

/// Each description on its own, by loader and engine.
pub fn solve_each<'a>(texts: impl IntoIterator<Item = &'a [u8]>) -> Vec<Outcome> {
    texts.into_iter().map(|text| listing::solved(text).map(|(answer, _)| answer)).collect()
}

/// For each glyph the sum of the counts of all acceptable glyphs up to it.
pub fn needs(solved: &[Outcome]) -> Vec<u64> {
    let add = |sum: &mut u64, glyph: &Outcome| {
        *sum += glyph.as_ref().map_or(0, |answer| answer.tests);
        Some(*sum)
    };
    solved.iter().scan(0, add).collect()
}

/// The glyphs, those whose need is above the allowance refused.
fn allowed(solved: Vec<Outcome>, allowance: u64) -> Vec<Outcome> {
    let needs = needs(&solved);
    let settle = |(glyph, need): (Outcome, u64)| if need <= allowance { glyph } else { glyph.and(Err(Refusal::NotAllowed)) };
    solved.into_iter().zip(needs).map(settle).collect()
}

#[cfg(test)]
pub(crate) mod tests {
    use super::*;
    use crate::edges;
    use crate::inputs::RunCase;
    use crate::random::Random;

    /// What a call returned, and buffer and list after it.
    pub type After = (Result<SheetRun, Refusal>, Vec<u8>, Vec<u16>);

    type Call = fn(&[u8], u64, &mut [u8], &mut [u16]) -> Result<SheetRun, Refusal>;

    pub fn after(case: &RunCase, call: Call) -> After {
        let (mut buffer, mut numbers) = case.lent();
        let answer = call(&case.sheet, case.allowance, &mut buffer, &mut numbers);
        (answer, buffer, numbers)
    }

    fn cases(seed: u64) -> impl Iterator<Item = RunCase> {
        let mut random = Random::new(seed);
        (0..1_500).map(move |i| draw(if i % 100 == 0 { 300 } else { random.pick(&[3, 8, 30]) }, &mut random))
    }

    /// Item 12 sentence by sentence, from the first glyph on with what is left.
    fn as_told(sheet: &[u8], allowance: u64, buffer: &mut [u8], numbers: &mut [u16]) -> Result<SheetRun, Refusal> {
        if let Err(refusal @ (Refusal::TooLong | Refusal::BadSheet)) = sheet::glyph(sheet, 0) {
            return Err(refusal);
        }
        let count = usize::from(u16::from_be_bytes([sheet[0], sheet[1]]));
        if buffer.len() < 53 * count || numbers.len() < count {
            return Err(Refusal::NoRoom);
        }
        if allowance >= 1 << 60 {
            return Err(Refusal::TooMuch);
        }
        let (mut left, mut written, mut is_stopped) = (allowance, 0, false);
        for (k, number) in numbers[..count].iter_mut().enumerate() {
            *number = match listing::solved(&sheet[sheet::glyph(sheet, k)?]) {
                Err(refusal) => refusal.number().into(),
                Ok((answer, _)) if !is_stopped && answer.tests <= left => {
                    left -= answer.tests;
                    record::write(&answer.disk, &answer.support, &mut buffer[written..])?;
                    written += 53;
                    0
                }
                Ok(_) => {
                    is_stopped = true;
                    16
                }
            };
        }
        Ok(SheetRun { worked: written / 53, left })
    }

    #[test]
    fn it_is_as_told_glyph_by_glyph() {
        for case in cases(1).chain(edges::runs().into_iter().map(|edge| edge.given)) {
            assert!(after(&case, run_sheet) == after(&case, as_told), "{case:?}");
        }
    }

    /// A run that was not refused: its allowance and sheet, every glyph on its own, and what the run left.
    pub struct Ran {
        pub case: RunCase,
        pub texts: Vec<Vec<u8>>,
        pub alone: Vec<Outcome>,
        pub run: SheetRun,
        pub buffer: Vec<u8>,
        pub numbers: Vec<u16>,
    }

    impl Ran {
        pub fn new(case: RunCase) -> Option<Ran> {
            let (answer, buffer, numbers) = after(&case, run_sheet);
            let texts: Vec<Vec<u8>> = sheet::texts(&case.sheet).ok()?.into_iter().map(<[u8]>::to_vec).collect();
            let alone = solve_each(texts.iter().map(Vec::as_slice));
            answer.ok().map(|run| Ran { case, texts, alone, run, buffer, numbers })
        }

        /// The acceptable glyphs: place, count and number.
        pub fn acceptable(&self) -> Vec<(usize, u64, u16)> {
            let glyphs = self.alone.iter().zip(&self.numbers).enumerate();
            glyphs.filter_map(|(k, (glyph, &number))| glyph.as_ref().ok().map(|answer| (k, answer.tests, number))).collect()
        }
    }

    fn runs(seed: u64) -> impl Iterator<Item = Ran> {
        cases(seed).filter_map(Ran::new)
    }

    #[test]
    fn a_larger_allowance_never_changes_a_glyph_that_had_its_record() {
        let mut more_worked = 0;
        for ran in runs(2) {
            for more in [1, 7, 1_000, MOST_ALLOWANCE] {
                let allowance = ran.case.allowance.saturating_add(more).min(MOST_ALLOWANCE);
                let larger = Ran::new(RunCase { allowance, ..ran.case.clone() }).unwrap();
                let records = 53 * ran.run.worked;
                assert_eq!(larger.buffer[..records], ran.buffer[..records]);
                assert!(ran.numbers.iter().zip(&larger.numbers).all(|(number, then)| *number != 0 || *then == 0));
                more_worked += usize::from(larger.run.worked > ran.run.worked);
            }
        }
        assert!(more_worked > 500, "{more_worked}");
    }

    #[test]
    fn the_counts_of_the_worked_and_what_is_left_make_the_allowance() {
        for ran in runs(3) {
            let counts: Vec<u64> = ran.acceptable().into_iter().filter(|glyph| glyph.2 == 0).map(|glyph| glyph.1).collect();
            assert_eq!(counts.len(), ran.run.worked);
            assert_eq!(counts.iter().sum::<u64>() + ran.run.left, ran.case.allowance);
        }
    }

    /// A cheap glyph behind the first that is stopped would have had enough.
    #[test]
    fn from_the_first_that_needs_more_every_acceptable_glyph_gets_16() {
        let (mut stopped, mut with_cheap) = (0, 0);
        for ran in runs(4) {
            let glyphs = ran.acceptable();
            let first = glyphs.iter().position(|glyph| glyph.2 == 16).unwrap_or(glyphs.len());
            assert!(glyphs[..first].iter().all(|glyph| glyph.2 == 0));
            assert!(glyphs[first..].iter().all(|glyph| glyph.2 == 16));
            assert!(glyphs.get(first).is_none_or(|glyph| glyph.1 > ran.run.left));
            stopped += usize::from(first < glyphs.len());
            with_cheap += usize::from(glyphs[first..].iter().any(|glyph| glyph.1 <= ran.run.left));
        }
        assert!(stopped > 400 && with_cheap > 100, "{stopped} {with_cheap}");
    }

    /// Without the faulty ones the sheet leads to the same records and the same rest.
    #[test]
    fn a_faulty_description_keeps_its_refusal_and_costs_nothing() {
        for ran in runs(5) {
            let is_acceptable = |k: &usize| ran.alone[*k].is_ok();
            let (kept, faulty): (Vec<usize>, Vec<usize>) = (0..ran.texts.len()).partition(is_acceptable);
            assert!(faulty.iter().all(|&k| ran.alone[k].as_ref().is_err_and(|own| ran.numbers[k] == own.number().into())));
            let sheet = sheet::packed(kept.iter().map(|&k| ran.texts[k].clone()));
            let without = Ran::new(RunCase { sheet, ..ran.case.clone() }).unwrap();
            assert_eq!((without.run, without.buffer), (ran.run, ran.buffer));
            assert!(kept.iter().zip(&without.numbers).all(|(&k, number)| ran.numbers[k] == *number));
        }
    }

    #[test]
    fn what_is_behind_the_last_written_stays_and_a_refused_call_changes_nothing() {
        for case in cases(6) {
            let (before, numbers_before) = case.lent();
            let (answer, buffer, numbers) = after(&case, run_sheet);
            let (bytes, places) = answer.map_or((0, 0), |run| (53 * run.worked, sheet::parts(&case.sheet).unwrap().len()));
            assert_eq!(buffer[bytes..], before[bytes..]);
            assert_eq!(numbers[places..], numbers_before[places..]);
        }
    }

    #[test]
    fn each_record_is_that_of_the_single_calls() {
        for ran in runs(7) {
            let worked = ran.acceptable().into_iter().filter(|glyph| glyph.2 == 0);
            for ((k, ..), found) in worked.zip(ran.buffer.chunks(53)) {
                let (answer, _) = listing::solved(&ran.texts[k]).unwrap();
                let mut record = [0; 53];
                assert_eq!(record::write(&answer.disk, &answer.support, &mut record), Ok(()));
                assert_eq!(found, record);
                assert_eq!(record::read(found), Ok((answer.disk, answer.support)));
            }
        }
    }
}
