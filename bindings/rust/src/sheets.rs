//! The calls that take a sheet.

use crate::raw;
use crate::refusal::{checked, Refusal};
use crate::shapes::{SheetEstimate, SheetRun};
use std::ops::Range;

/// Finds part k of a sheet, from 0.
///
/// Refuses, in this order: [`Refusal::TooLong`], [`Refusal::BadSheet`], [`Refusal::NoGlyph`].
///
/// ```
/// use volkhidar::{glyph, Refusal};
///
/// let sheet = b"\x00\x01\x00\x06\x00\x030 0";
/// assert_eq!(glyph(sheet, 0), Ok(6..9));
/// assert_eq!(&sheet[glyph(sheet, 0)?], b"0 0");
/// assert_eq!(glyph(sheet, 1), Err(Refusal::NoGlyph));
/// # Ok::<(), Refusal>(())
/// ```
pub fn glyph(sheet: &[u8], k: usize) -> Result<Range<usize>, Refusal> {
    let answer = unsafe { raw::volkhidar_glyph(sheet.as_ptr(), sheet.len(), k) };
    checked(answer.refusal)?;
    let start = answer.start as usize;
    Ok(start..start + answer.length as usize)
}

/// Works the glyphs of a sheet, from the first on, with an allowance of containment tests in all. The list `numbers` gets a number for
/// each glyph: 0 where it is worked, else that of its refusal ([`Refusal::from_number`]). The records of the worked glyphs go one behind
/// another to the front of the buffer, [`RECORD_LENGTH`](crate::RECORD_LENGTH) bytes each and no gap where a glyph has none; so the first
/// record is of the first glyph with a 0. Bytes behind the last record and places behind the last glyph stay.
///
/// A description that [`load`](crate::load) refuses gives its refusal, wherever it stands, and costs nothing. Any other glyph is worked if
/// the tests that [`smallest_disk`](crate::smallest_disk) counts for it are no more than what is left, which then falls by them, and its
/// record is that of [`record_of`](crate::record_of). From the first glyph that needs more, each with an acceptable description gets 16
/// ([`Refusal::NotAllowed`]), even a cheap one: behind that glyph no disk is worked out. So the counts of the worked glyphs and what is
/// left make the allowance, and a larger one never changes a glyph that had its record.
///
/// A sheet's first two bytes, high byte first, are its count of glyphs, at most [`MOST_GLYPHS`](crate::MOST_GLYPHS): a buffer of 53 times
/// as many bytes and a list of as many places always do. [`estimate_sheet`] gives an allowance that is enough for every glyph.
///
/// Refuses, in this order: [`Refusal::TooLong`], [`Refusal::BadSheet`]; [`Refusal::NoRoom`] for a buffer under 53 bytes for each glyph, be
/// it faulty or not, or a list under one place for each; [`Refusal::TooMuch`] for an allowance above
/// [`MOST_ALLOWANCE`](crate::MOST_ALLOWANCE).
///
/// ```
/// use volkhidar::{read_record, run_sheet, Disk, Refusal, SheetRun, RECORD_LENGTH};
///
/// // a point, a fault, letter F, which takes 7 tests, and a point
/// let directory = [0, 4, 0, 18, 0, 4, 0, 22, 0, 2, 0, 24, 0, 12, 0, 36, 0, 4];
/// let sheet = [&directory[..], b"0 0\n", b"x\n", b"0 0\n4 0\n2 3\n", b"7 7\n"].concat();
/// let (mut buffer, mut numbers) = ([0; 4 * RECORD_LENGTH], [0; 4]);
///
/// assert_eq!(run_sheet(&sheet, 8, &mut buffer, &mut numbers), Ok(SheetRun { worked: 2, left: 0 }));
/// assert_eq!(numbers.map(Refusal::from_number), [None, Some(Refusal::BadLine), None, Some(Refusal::NotAllowed)]);
/// let second = &buffer[RECORD_LENGTH..2 * RECORD_LENGTH];
/// assert_eq!(read_record(second)?.0, Disk { x: 12, y: 5, e: 6, s: 169 });
///
/// // one test less: F needs more than the 6 that are left, and the point behind it is not worked for them
/// assert_eq!(run_sheet(&sheet, 7, &mut buffer, &mut numbers), Ok(SheetRun { worked: 1, left: 6 }));
/// assert_eq!(numbers, [0, 2, 16, 16]);
///
/// assert_eq!(run_sheet(&sheet, 7, &mut buffer, &mut numbers[..3]), Err(Refusal::NoRoom));
/// assert_eq!(run_sheet(&sheet, 1 << 60, &mut buffer, &mut numbers), Err(Refusal::TooMuch));
/// # Ok::<(), Refusal>(())
/// ```
pub fn run_sheet(sheet: &[u8], allowance: u64, buffer: &mut [u8], numbers: &mut [u16]) -> Result<SheetRun, Refusal> {
    let (written, listed) = (buffer.as_mut_ptr(), numbers.as_mut_ptr());
    let answer =
        unsafe { raw::volkhidar_run_sheet(sheet.as_ptr(), sheet.len(), allowance, written, buffer.len(), listed, numbers.len()) };
    checked(answer.refusal)?;
    Ok(SheetRun { worked: answer.worked as usize, left: answer.left })
}

/// What a run of a sheet will take, from its descriptions alone: no disk is worked out. The list `points` gets for each glyph how many
/// points its description has, 0 where [`load`](crate::load) refuses it, and the list `refusals` the number of that refusal
/// ([`Refusal::from_number`]), or 0. Places behind the last glyph stay. The answer has how many bytes the records of all acceptable
/// descriptions make, and the sum of (n³ + 5n) / 6 over the same descriptions, each of n points, which never take more tests.
///
/// A run with this sum as its allowance gives no glyph 16 ([`Refusal::NotAllowed`]) and writes so many bytes; its numbers are those of
/// `refusals`. Its buffer may have to be longer: [`run_sheet`] asks for [`RECORD_LENGTH`](crate::RECORD_LENGTH) bytes for every glyph, the
/// faulty ones too.
///
/// Refuses, in this order: [`Refusal::TooLong`], [`Refusal::BadSheet`]; [`Refusal::NoRoom`] for a list under one place for each glyph.
///
/// ```
/// use volkhidar::{estimate_sheet, run_sheet, Refusal, SheetEstimate, SheetRun, RECORD_LENGTH};
///
/// // a point, a fault, letter G, which takes 4 tests where three points can take 7, and a point
/// let directory = [0, 4, 0, 18, 0, 4, 0, 22, 0, 2, 0, 24, 0, 13, 0, 37, 0, 4];
/// let sheet = [&directory[..], b"0 0\n", b"x\n", b"0 0\n10 0\n5 1\n", b"7 7\n"].concat();
/// let (mut points, mut refusals) = ([0; 4], [0; 4]);
///
/// let estimate = estimate_sheet(&sheet, &mut points, &mut refusals)?;
/// assert_eq!(estimate, SheetEstimate { bytes: 3 * RECORD_LENGTH, tests: 1 + 7 + 1 });
/// assert_eq!((points, refusals), ([1, 0, 3, 1], [0, 2, 0, 0]));
///
/// let (mut buffer, mut numbers) = ([0; 4 * RECORD_LENGTH], [0; 4]);
/// assert_eq!(run_sheet(&sheet, estimate.tests, &mut buffer, &mut numbers), Ok(SheetRun { worked: 3, left: 3 }));
/// assert_eq!(numbers, refusals);
///
/// assert_eq!(estimate_sheet(&sheet, &mut points[..3], &mut refusals), Err(Refusal::NoRoom));
/// # Ok::<(), Refusal>(())
/// ```
pub fn estimate_sheet(sheet: &[u8], points: &mut [u16], refusals: &mut [u16]) -> Result<SheetEstimate, Refusal> {
    let (counted, listed) = (points.as_mut_ptr(), refusals.as_mut_ptr());
    let answer =
        unsafe { raw::volkhidar_estimate_sheet(sheet.as_ptr(), sheet.len(), counted, points.len(), listed, refusals.len()) };
    checked(answer.refusal)?;
    Ok(SheetEstimate { bytes: answer.bytes as usize, tests: answer.tests })
}
