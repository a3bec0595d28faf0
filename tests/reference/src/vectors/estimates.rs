//! What sheets will take.

use super::checksums::glyph_checksum;
use super::{length_bytes, Call, Vector};
use crate::estimate::estimate_sheet;
use crate::inputs::EstimateCase;
use crate::listing;

/// The lengths of the lists of points and of refusals in two bytes each, high byte first; then the sheet. The checksums of both after the call
/// are printed.
pub fn estimate(case: &EstimateCase) -> Vector {
    let lengths = [case.points, case.refusals].map(length_bytes).concat();
    let [mut points, mut refusals] = case.lent();
    let printed = match estimate_sheet(&case.sheet, &mut points, &mut refusals) {
        Ok(estimate) => format!("takes {} {}\n", estimate.bytes, estimate.tests),
        Err(refusal) => listing::refused(refusal),
    };
    let printed = printed + &format!("points {}\nrefusals {}\n", glyph_checksum(&points), glyph_checksum(&refusals));
    Vector { call: Call::Estimate, bytes: [&lengths[..], &case.sheet].concat(), printed }
}

#[cfg(test)]
mod tests {
    use super::*;

    /// A faulty glyph and one of two points: the list of points has 258 places, that of refusals three.
    #[test]
    fn an_estimate_is_printed_with_both_lists() {
        let sheet = b"\x00\x02\x00\x0a\x00\x01\x00\x0b\x00\x07x7 7\n7 7".to_vec();
        let vector = |points| estimate(&EstimateCase { points, refusals: 3, sheet: sheet.clone() });
        assert_eq!(vector(258).bytes, [&[1, 2, 0, 3], &sheet[..]].concat());
        assert_eq!(vector(258).call as u8, b'B');
        let points = glyph_checksum(&[&[0, 2], &[12_321; 256][..]].concat());
        let refusals = glyph_checksum(&[2, 0, 12_321]);
        assert_eq!(vector(258).printed, format!("takes 53 3\npoints {points}\nrefusals {refusals}\n"));
        let [points, refusals] = [1, 3].map(|places| glyph_checksum(&vec![12_321; places]));
        assert_eq!(vector(1).printed, format!("refused 8\npoints {points}\nrefusals {refusals}\n"));
    }
}
