//! The sheet opener (document 01, "Description, sheet, record"); drawn sheets to be run or estimated are in `sheet/drawn.rs`.

use crate::limits::MOST_BYTES;
use crate::refusal::Refusal;
use std::ops::Range;

mod drawn;

pub use drawn::{draw_bytes, draw_glyphs, draw_rooms, MOST_BUFFER, MOST_PLACES};

/// Where part k lies in the sheet: refusals 1, 6, 10.
pub fn glyph(sheet: &[u8], k: usize) -> Result<Range<usize>, Refusal> {
    parts(sheet)?.get(k).cloned().ok_or(Refusal::NoGlyph)
}

/// Where every part lies in the sheet: refusals 1, 6.
pub fn parts(sheet: &[u8]) -> Result<Vec<Range<usize>>, Refusal> {
    if sheet.len() > MOST_BYTES {
        return Err(Refusal::TooLong);
    }
    let parts = directory(sheet).ok_or(Refusal::BadSheet)?;
    if !are_in_order(&parts, sheet.len()) {
        return Err(Refusal::BadSheet);
    }
    Ok(parts)
}

/// The description of every glyph: refusals 1, 6.
pub fn texts(sheet: &[u8]) -> Result<Vec<&[u8]>, Refusal> {
    Ok(parts(sheet)?.into_iter().map(|part| &sheet[part]).collect())
}

/// The bytes of the sheet at a place; none where they do not all lie in it.
pub fn part(sheet: &[u8], start: usize, length: usize) -> &[u8] {
    let end = start.checked_add(length);
    end.and_then(|end| sheet.get(start..end)).unwrap_or(&[])
}

fn number_at(sheet: &[u8], at: usize) -> Option<usize> {
    let bytes = sheet.get(at..at + 2)?;
    Some(usize::from(bytes[0]) * 256 + usize::from(bytes[1]))
}

/// The parts that the directory names; none if the sheet is shorter than its directory.
fn directory(sheet: &[u8]) -> Option<Vec<Range<usize>>> {
    let count = number_at(sheet, 0)?;
    let part = |k| {
        let offset = number_at(sheet, 2 + 4 * k)?;
        let length = number_at(sheet, 4 + 4 * k)?;
        Some(offset..offset + length)
    };
    (0..count).map(part).collect()
}

/// Each part starts at or after the end of what lies before it, the first at or after the directory's, and the last ends within the
/// sheet. So every part does.
fn are_in_order(parts: &[Range<usize>], length: usize) -> bool {
    let mut free = 2 + 4 * parts.len();
    for part in parts {
        if part.start < free {
            return false;
        }
        free = part.end;
    }
    free <= length
}

/// The pairs and the body of a sheet with these parts, each behind the bytes of a gap.
pub fn laid_out(gaps_and_parts: &[(Vec<u8>, Vec<u8>)]) -> (Vec<(u16, u16)>, Vec<u8>) {
    let directory = 2 + 4 * gaps_and_parts.len();
    let number = |length: usize| u16::try_from(length).expect("a place in a sheet has 16 bits");
    let (mut pairs, mut body) = (Vec::new(), Vec::new());
    for (gap, part) in gaps_and_parts {
        body.extend_from_slice(gap);
        pairs.push((number(directory + body.len()), number(part.len())));
        body.extend_from_slice(part);
    }
    (pairs, body)
}

/// A sheet of these parts, with no gaps.
pub fn packed(parts: impl IntoIterator<Item = Vec<u8>>) -> Vec<u8> {
    let behind_gaps: Vec<_> = parts.into_iter().map(|part| (vec![], part)).collect();
    let (pairs, body) = laid_out(&behind_gaps);
    with_directory(&pairs, &body)
}

/// A sheet's bytes: the directory as given, whatever it says, then the body.
pub fn with_directory(pairs: &[(u16, u16)], body: &[u8]) -> Vec<u8> {
    let count = u16::try_from(pairs.len()).expect("a count has 16 bits");
    let mut sheet = count.to_be_bytes().to_vec();
    for (offset, length) in pairs {
        sheet.extend_from_slice(&offset.to_be_bytes());
        sheet.extend_from_slice(&length.to_be_bytes());
    }
    sheet.extend_from_slice(body);
    sheet
}

#[cfg(test)]
pub(crate) mod tests {
    use super::*;

    /// The bytes between the directory and the first part, between each two parts, and behind the last, in a sheet that is not refused.
    pub fn gaps(sheet: &[u8]) -> Vec<usize> {
        let parts = parts(sheet).unwrap();
        let starts = parts.iter().map(|part| part.start).chain([sheet.len()]);
        let ends = [2 + 4 * parts.len()].into_iter().chain(parts.iter().map(|part| part.end));
        starts.zip(ends).map(|(start, end)| start - end).collect()
    }

    fn opened(pairs: &[(u16, u16)], body: &[u8], k: usize) -> Result<Vec<u8>, u8> {
        let sheet = with_directory(pairs, body);
        let part = glyph(&sheet, k).map_err(Refusal::number)?;
        Ok(sheet[part].to_vec())
    }

    #[test]
    fn parts_gaps_and_empty_parts() {
        let pairs = [(18, 2), (20, 0), (20, 1), (23, 0)];
        let body = [1, 2, 3, 4, 5];
        assert_eq!(opened(&pairs, &body, 0), Ok(vec![1, 2]));
        assert_eq!(opened(&pairs, &body, 1), Ok(vec![]));
        assert_eq!(opened(&pairs, &body, 2), Ok(vec![3]));
        assert_eq!(opened(&pairs, &body, 3), Ok(vec![]));
        assert_eq!(opened(&pairs, &body, 4), Err(10));
        assert_eq!(opened(&pairs, &body, usize::MAX), Err(10));
    }

    #[test]
    fn parts_are_laid_out_behind_their_gaps() {
        let bytes = |text: &str| text.as_bytes().to_vec();
        let (pairs, body) =
            laid_out(&[("..", "ab"), ("", ""), ("", "c"), (".", "")].map(|(gap, part)| (bytes(gap), bytes(part))));
        assert_eq!((&pairs[..], &body[..]), (&[(20, 2), (22, 0), (22, 1), (24, 0)][..], &b"..abc."[..]));
        let sheet = with_directory(&pairs, &body);
        assert_eq!(parts(&sheet), Ok(vec![20..22, 22..22, 22..23, 24..24]));
        assert_eq!(texts(&sheet), Ok(vec![&b"ab"[..], b"", b"c", b""]));
        assert_eq!(gaps(&sheet), [2, 0, 0, 1, 0]);
    }

    #[test]
    fn packed_parts_have_no_gaps() {
        let parts = [&b"ab"[..], b"", b"c"];
        let sheet = packed(parts.map(<[u8]>::to_vec));
        assert_eq!((texts(&sheet), gaps(&sheet)), (Ok(parts.to_vec()), vec![0; 4]));
    }

    #[test]
    fn rules_that_pairs_break() {
        assert_eq!(opened(&[(5, 1)], &[1, 2], 0), Err(6), "starts in the directory");
        assert_eq!(opened(&[(10, 2), (11, 1)], &[1, 2], 0), Err(6), "starts in the part before");
        assert_eq!(opened(&[(11, 1), (10, 1)], &[1, 2], 0), Err(6), "not sorted");
        assert_eq!(opened(&[(6, 3)], &[1, 2], 0), Err(6), "ends beyond the sheet");
        assert_eq!(opened(&[(9, 0)], &[1, 2], 0), Err(6), "starts beyond the sheet");
        assert_eq!(opened(&[(8, 0)], &[1, 2], 0), Ok(vec![]), "starts at the sheet's end");
        assert_eq!(opened(&[(5, 1)], &[1, 2], 7), Err(6), "6 before 10");
    }

    #[test]
    fn short_sheets_and_long_ones() {
        let refusal = |sheet: &[u8], k| glyph(sheet, k).map_err(Refusal::number);
        assert_eq!(refusal(&[], 0), Err(6));
        assert_eq!(refusal(&[0], 0), Err(6));
        assert_eq!(refusal(&[0, 0], 0), Err(10));
        assert_eq!(refusal(&[0, 1, 0, 6, 0], 0), Err(6));
        assert_eq!(refusal(&[0, 1, 0, 6, 0, 0], 0), Ok(6..6));
        assert_eq!(refusal(&[255; 65_535], 0), Err(6));
        assert_eq!(refusal(&[255; 65_536], 0), Err(1));
        let mut long = with_directory(&[(6, 65_529)], &[9; 65_529]);
        assert_eq!(refusal(&long, 0), Ok(6..65_535));
        long.push(9);
        assert_eq!(refusal(&long, 0), Err(1));
    }
}
