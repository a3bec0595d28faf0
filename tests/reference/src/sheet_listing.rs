//! What the listing program for sheets prints: a line for each glyph, and one for the whole run, or for what it will take.

use crate::estimate::estimate_sheet;
use crate::limits::MOST_BYTES;
use crate::listing;
use crate::record::LONG;
use crate::run::run_sheet;
use crate::sheet;

/// A sheet has at most this many glyphs, as many as pairs fit into it.
const MOST_GLYPHS: usize = (MOST_BYTES - 2) / 4;

/// The listing's output, to the byte. Buffer and list have room for any sheet.
pub fn sheet_listing(sheet: &[u8], allowance: u64) -> String {
    let mut buffer = vec![0; LONG.length() * MOST_GLYPHS];
    let mut numbers = vec![0; MOST_GLYPHS];
    match run_sheet(sheet, allowance, &mut buffer, &mut numbers) {
        Ok(run) => glyph_lines(sheet, &numbers) + &format!("worked {} left {}\n", run.worked, run.left),
        Err(refusal) => listing::refused(refusal),
    }
}

/// A line for each glyph of a sheet that is not refused: the lines of its own listing in one where it was worked, else its number.
fn glyph_lines(sheet: &[u8], numbers: &[u16]) -> String {
    let texts = sheet::texts(sheet).expect("the sheet is not refused");
    let own = |text: &[u8]| listing::listing(text).trim_end().replace('\n', " ");
    texts.into_iter().enumerate().map(|(k, text)| glyph_line(k, numbers[k], || own(text))).collect()
}

/// The words where the glyph's number is 0, else the number.
fn glyph_line(k: usize, number: u16, words: impl FnOnce() -> String) -> String {
    match number {
        0 => format!("glyph {k} {}\n", words()),
        _ => format!("glyph {k} refused {number}\n"),
    }
}

/// What the sheet will take, to the byte. Both lists have room for any sheet.
pub fn estimate_listing(sheet: &[u8]) -> String {
    let mut points = vec![0; MOST_GLYPHS];
    let mut refusals = vec![0; MOST_GLYPHS];
    match estimate_sheet(sheet, &mut points, &mut refusals) {
        Ok(estimate) => {
            let count = sheet::parts(sheet).expect("the sheet is not refused").len();
            let lines = (0..count).map(|k| glyph_line(k, refusals[k], || format!("points {}", points[k])));
            lines.collect::<String>() + &format!("bytes {} tests {}\n", estimate.bytes, estimate.tests)
        }
        Err(refusal) => listing::refused(refusal),
    }
}

#[cfg(test)]
mod tests {
    use super::*;
    use crate::edges::sheet_of;

    #[test]
    fn a_line_for_each_glyph_and_one_for_the_run() {
        let sheet = sheet_of("F2.C_A");
        let letter_f = "glyph 0 disk 12 5 6 169 rim 0 0 2 3 4 0 whole 3 tests 7\nglyph 1 refused 2\n";
        let stopped = "glyph 2 refused 16\nglyph 3 refused 5\nglyph 4 refused 16\nworked 1 left 2\n";
        assert_eq!(sheet_listing(&sheet, 9), letter_f.to_string() + stopped);
        let worked = "glyph 2 disk 2 0 1 4 rim 0 0 4 0 whole 3 tests 3\nglyph 3 refused 5\n\
                      glyph 4 disk 0 0 1 0 rim 0 0 whole 1 tests 1\nworked 3 left 1\n";
        assert_eq!(sheet_listing(&sheet, 12), letter_f.to_string() + worked);
    }

    #[test]
    fn a_line_for_each_glyph_and_one_for_what_all_take() {
        let printed =
            "glyph 0 points 3\nglyph 1 refused 2\nglyph 2 points 2\nglyph 3 refused 5\nglyph 4 points 1\nbytes 159 tests 11\n";
        assert_eq!(estimate_listing(&sheet_of("F2.C_A")), printed);
        assert_eq!(estimate_listing(&[0, 0]), "bytes 0 tests 0\n");
        assert_eq!(estimate_listing(&[0; 65_536]), "refused 1\n");
        assert_eq!(estimate_listing(&[0]), "refused 6\n");
    }

    #[test]
    fn a_refused_run_is_one_line() {
        assert_eq!(sheet_listing(&[0; 65_536], 1 << 60), "refused 1\n");
        assert_eq!(sheet_listing(&[0], 1 << 60), "refused 6\n");
        assert_eq!(sheet_listing(&[0, 0], 1 << 60), "refused 17\n");
        assert_eq!(sheet_listing(&[0, 0], 5), "worked 0 left 5\n");
    }

    #[test]
    fn a_sheet_of_the_most_glyphs_has_room() {
        let printed = sheet_listing(&sheet_of(&"_".repeat(16_383)), 0);
        assert!(printed.ends_with("glyph 16382 refused 5\nworked 0 left 0\n"));
        assert_eq!(printed.lines().count(), 16_384);
        assert!(estimate_listing(&sheet_of(&"_".repeat(16_383))).ends_with("glyph 16382 refused 5\nbytes 0 tests 0\n"));
    }
}
