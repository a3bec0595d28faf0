//! Sheets run under one allowance of tests.

use super::checksums::{byte_checksum, glyph_checksum};
use super::{length_bytes, Call, Vector};
use crate::inputs::RunCase;
use crate::listing;
use crate::run::run_sheet;

/// The allowance in eight bytes and the lengths of buffer and list in two each, high byte first; then the sheet. The checksums of both after
/// the call are printed.
pub fn run(case: &RunCase) -> Vector {
    let lengths = [case.buffer, case.numbers].map(length_bytes);
    let bytes = [&case.allowance.to_be_bytes(), &lengths.concat()[..], &case.sheet].concat();
    let (mut buffer, mut numbers) = case.lent();
    let printed = match run_sheet(&case.sheet, case.allowance, &mut buffer, &mut numbers) {
        Ok(run) => format!("worked {} {}\n", run.worked, run.left),
        Err(refusal) => listing::refused(refusal),
    };
    let printed = printed + &format!("buffer {}\nnumbers {}\n", byte_checksum(&buffer), glyph_checksum(&numbers));
    Vector { call: Call::Run, bytes, printed }
}

#[cfg(test)]
mod tests {
    use super::*;
    use crate::geometry::{Disk, Point};
    use crate::record::{bytes_of, LONG};

    /// A faulty glyph and (7, 7): the buffer has 107 bytes, the list three places.
    #[test]
    fn a_run_is_printed_with_its_buffer_and_its_list() {
        let sheet = b"\x00\x02\x00\x0a\x00\x01\x00\x0b\x00\x03x7 7".to_vec();
        let vector = |allowance, buffer| run(&RunCase { allowance, buffer, numbers: 3, sheet: sheet.clone() });
        let head = [1, 0, 0, 0, 0, 0, 0, 2, 0, 107, 0, 3];
        assert_eq!(vector((1 << 56) + 2, 107).bytes, [&head, &sheet[..]].concat());
        assert_eq!(vector(0, 107).call as u8, b'G');
        let p = Point::new(7, 7);
        let record = bytes_of(&LONG, &Disk::of_one(p), &[p]);
        let worked = byte_checksum(&[&record[..], &[238; 54]].concat());
        let [all, two] = [[2, 0, 12_321], [2, 16, 12_321]].map(|numbers| glyph_checksum(&numbers));
        assert_eq!(vector(3, 107).printed, format!("worked 1 2\nbuffer {worked}\nnumbers {all}\n"));
        assert_eq!(vector(0, 107).printed, format!("worked 0 0\nbuffer {}\nnumbers {two}\n", byte_checksum(&[238; 107])));
        let (buffer, numbers) = (byte_checksum(&[238; 105]), glyph_checksum(&[12_321; 3]));
        assert_eq!(vector(1 << 60, 105).printed, format!("refused 8\nbuffer {buffer}\nnumbers {numbers}\n"));
    }
}
