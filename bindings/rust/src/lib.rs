//! The smallest disk that holds a letter's points, exact and proved.
//!
//! Safe wrappers of the C interface (`include/volkhidar.h`). The library behind it is built by `rt lib` in `crates/volkhidar`, which the
//! build calls where it was not built yet.
//!
//! A letter's way through the library:
//!
//! ```
//! use volkhidar::{load, preview, read_record, smallest_disk, whole_radius, write_record, Disk, LIST_LENGTH, RECORD_LENGTH};
//!
//! let mut list = [0; LIST_LENGTH];
//! let count = load(b"0 0\n4 0\n2 3\n", &mut list)?;
//! let found = smallest_disk(&mut list[..2 * count])?;
//! assert_eq!(found.disk, Disk { x: 12, y: 5, e: 6, s: 169 });
//! assert_eq!(found.tests, 7);
//! assert_eq!(whole_radius(found.disk, found.support)?, 3);
//! assert_eq!(preview(found.disk, found.support)?.y, 5.0 / 6.0);
//!
//! let mut record = [0; RECORD_LENGTH];
//! write_record(found.disk, found.support, &mut record)?;
//! assert_eq!(read_record(&record)?, (found.disk, found.support));
//! # Ok::<(), volkhidar::Refusal>(())
//! ```
//!
//! A call that refuses its input changes nothing that it was lent.

mod raw;
mod refusal;
mod shapes;
mod sheets;

pub use raw::Point;
pub use refusal::Refusal;
pub use shapes::{Chosen, Disk, DrawnPoint, Enclosed, Preview, SheetEstimate, SheetRun, Stretch, SupportSet};
pub use sheets::{estimate_sheet, glyph, run_sheet};

use refusal::checked;

/// A description or a sheet has at most this many bytes.
pub const MOST_BYTES: usize = 65_535;

/// A point list has at most this many points.
pub const MOST_POINTS: usize = 4_096;

/// The least length of the list that [`load`] and [`append_point`] are lent.
pub const LIST_LENGTH: usize = 8_192;

/// The bytes of a record.
pub const RECORD_LENGTH: usize = 53;

/// The bytes of a record of an em box of 1,000 units, which [`read_record`] takes as well.
pub const OLD_RECORD_LENGTH: usize = 45;

/// A list has at most this many traced points.
pub const MOST_TRACED: usize = 1_024;

/// A traced point has at most this tolerance, in units.
pub const MOST_TOLERANCE: i16 = 50;

/// A sheet has at most this many glyphs.
pub const MOST_GLYPHS: usize = 16_383;

/// [`run_sheet`] is allowed at most this many containment tests.
pub const MOST_ALLOWANCE: u64 = (1 << 60) - 1;

/// Reads a description: a point a line, "x y" in decimal, each number of 1 to 4 digits with one plus, one minus or no sign before them.
/// The points go to the front of the list in the order of the lines, x and y by turns, and the rest of the list stays; the answer is how
/// many there are.
///
/// Refuses, in this order: [`Refusal::NoRoom`] for a list under [`LIST_LENGTH`] numbers, [`Refusal::TooLong`]; the first faulty line,
/// by [`Refusal::BadLine`], [`Refusal::OutsideBox`], [`Refusal::TooMany`]; [`Refusal::NoPoint`].
///
/// ```
/// use volkhidar::{load, Refusal, LIST_LENGTH};
///
/// let mut list = [-1; LIST_LENGTH];
/// assert_eq!(load(b" 7 -512 \n\n+8 +0", &mut list), Ok(2));
/// assert_eq!(list[..5], [7, -512, 8, 0, -1]);
/// assert_eq!(load(b"7 1537", &mut list), Err(Refusal::OutsideBox));
/// assert_eq!(load(b"7\t0", &mut list), Err(Refusal::BadLine));
/// assert_eq!(load(b"+-7 0", &mut list), Err(Refusal::BadLine));
/// ```
pub fn load(text: &[u8], list: &mut [i16]) -> Result<usize, Refusal> {
    let answer = unsafe { raw::volkhidar_load(text.as_ptr(), text.len(), list.as_mut_ptr(), list.len()) };
    checked(answer.refusal)?;
    Ok(answer.count as usize)
}

/// Puts a point behind the first n points of the list, x and y by turns, and answers how many there are now; all other numbers of the
/// list stay, and the points that are there are not looked at. A float is taken only where it stands for a whole number exactly, and
/// then as that number; minus zero is 0. 1e300 is a whole number, outside the em box.
///
/// Refuses, in this order: [`Refusal::NoRoom`] for a list under [`LIST_LENGTH`] numbers, [`Refusal::NotWhole`],
/// [`Refusal::OutsideBox`], [`Refusal::TooMany`] where n is [`MOST_POINTS`] or more.
///
/// ```
/// use volkhidar::{append_point, smallest_disk, Disk, DrawnPoint, Refusal, LIST_LENGTH};
///
/// let mut list = [0; LIST_LENGTH];
/// let mut count = 0;
/// for point in [DrawnPoint::Whole(0, 0), DrawnPoint::Drawn(4.0, -0.0), DrawnPoint::Drawn(2.0, 3.0)] {
///     count = append_point(point, &mut list, count)?;
/// }
/// assert_eq!(list[..6], [0, 0, 4, 0, 2, 3]);
/// assert_eq!(smallest_disk(&mut list[..2 * count])?.disk, Disk { x: 12, y: 5, e: 6, s: 169 });
///
/// assert_eq!(append_point(DrawnPoint::Drawn(0.5, 0.0), &mut list, count), Err(Refusal::NotWhole));
/// assert_eq!(append_point(DrawnPoint::Drawn(1e300, 0.0), &mut list, count), Err(Refusal::OutsideBox));
/// # Ok::<(), Refusal>(())
/// ```
pub fn append_point(point: DrawnPoint, list: &mut [i16], n: usize) -> Result<usize, Refusal> {
    let answer = unsafe { raw::volkhidar_append_point(point.into(), list.as_mut_ptr(), list.len(), n) };
    checked(answer.refusal)?;
    Ok(answer.count as usize)
}

/// The smallest disk that holds the points of the list, x and y by turns; its first support set; and the count of containment tests of
/// Welzl's move-to-front procedure on the list as given, in whose order the list is left.
///
/// Refuses, in this order: [`Refusal::OddLength`], [`Refusal::NoPoint`], [`Refusal::TooMany`], [`Refusal::OutsideBox`].
///
/// ```
/// use volkhidar::{smallest_disk, Disk, Point, Refusal, SupportSet};
///
/// let mut list = [0, 0, 2, 0, 4, 0];
/// let found = smallest_disk(&mut list)?;
/// assert_eq!(found.disk, Disk { x: 2, y: 0, e: 1, s: 4 });
/// assert_eq!(found.support, SupportSet::Two(Point { x: 0, y: 0 }, Point { x: 4, y: 0 }));
/// assert_eq!(found.tests, 7);
/// assert_eq!(list, [4, 0, 0, 0, 2, 0]);
/// assert_eq!(smallest_disk(&mut [1, 2, 3]), Err(Refusal::OddLength));
///
/// // three points near corners of the em box: s is above 2⁶⁴
/// let disk = smallest_disk(&mut [0, -512, 2048, -509, 1, 1536])?.disk;
/// assert_eq!((disk.e, disk.s), (8_388_602, 147_286_249_292_406_046_810));
/// # Ok::<(), Refusal>(())
/// ```
pub fn smallest_disk(list: &mut [i16]) -> Result<Enclosed, Refusal> {
    let answer = unsafe { raw::volkhidar_smallest_disk(list.as_mut_ptr(), list.len()) };
    checked(answer.refusal)?;
    Ok(Enclosed { disk: answer.disk.into(), support: answer.support.into(), tests: answer.tests })
}

/// The smallest disk that holds the points of the list, x and y by turns, and has the chosen points on its boundary: smallest of all
/// disks with a fractional centre and squared radius that do, and no other is as small. One point chosen twice is chosen once. The list
/// is only read. The centre may be outside the em box and the squared radius above the limit of 2,097,152; then [`whole_radius`],
/// [`preview`] and [`write_record`] refuse the disk ([`Refusal::BadRecord`]). Within these limits they take it with points that
/// [belong](SupportSet#belonging) to it, which the chosen points need not do.
///
/// Refuses, in this order: [`Refusal::OddLength`], [`Refusal::NoPoint`], [`Refusal::TooMany`], [`Refusal::OutsideBox`];
/// [`Refusal::NotInList`] for a chosen point that is not in the list, one outside the em box too; [`Refusal::NoDisk`] exactly where
/// there is no such disk.
///
/// ```
/// use volkhidar::{smallest_disk_through, Chosen, Disk, Point, Refusal};
///
/// let top = Chosen::One(Point { x: 5, y: 1 });
/// assert_eq!(smallest_disk_through(&[0, 0, 10, 0, 5, 1], top), Ok(Disk { x: 5, y: -12, e: 1, s: 169 }));
///
/// let row = [0, 0, 2, 0, 4, 0];
/// let ends = Chosen::Two(Point { x: 0, y: 0 }, Point { x: 4, y: 0 });
/// assert_eq!(smallest_disk_through(&row, ends), Ok(Disk { x: 2, y: 0, e: 1, s: 4 }));
/// assert_eq!(smallest_disk_through(&row, Chosen::One(Point { x: 2, y: 0 })), Err(Refusal::NoDisk));
/// assert_eq!(smallest_disk_through(&row, Chosen::One(Point { x: 7, y: 7 })), Err(Refusal::NotInList));
/// ```
pub fn smallest_disk_through(list: &[i16], chosen: Chosen) -> Result<Disk, Refusal> {
    let (first, second) = chosen.pair();
    let answer = unsafe { raw::volkhidar_smallest_disk_through(list.as_ptr(), list.len(), first, second) };
    checked(answer.refusal)?;
    Ok(answer.disk.into())
}

/// The smallest disk that holds every traced point of the list, wherever each may really be. The list goes by threes, x, y and t: the
/// point may be anywhere in the square from (x − t, y − t) to (x + t, y + t), at fractional places too, and t is its tolerance, 0 to
/// [`MOST_TOLERANCE`] units. The disk holds all of these squares: smallest of all disks with a fractional centre and squared radius
/// that do, and no other is as small. With every t 0 it is the disk of [`smallest_disk`]. The list is only read. [`whole_radius`],
/// [`preview`] and [`write_record`] take the disk with points that [belong](SupportSet#belonging) to it: [`smallest_disk`] of the four
/// corners of every square, [`MOST_POINTS`] at most, gives the same disk with such a set.
///
/// Refuses, in this order: [`Refusal::OddLength`] for a length that is not a multiple of three, [`Refusal::NoPoint`],
/// [`Refusal::TooMany`] for more than [`MOST_TRACED`] traced points; the first faulty traced point, by [`Refusal::BadTolerance`],
/// [`Refusal::OutsideBox`] where its square leaves the em box.
///
/// ```
/// use volkhidar::{smallest_disk, smallest_disk_of_traced, whole_radius, Disk, Refusal};
///
/// // a square of side 6, and its corners are √18 away from its middle
/// assert_eq!(smallest_disk_of_traced(&[5, 6, 3]), Ok(Disk { x: 5, y: 6, e: 1, s: 18 }));
///
/// // (0, 7) and the corners (5, 6) and (5, 8) of a square are on the boundary
/// let disk = Disk { x: 13, y: 35, e: 5, s: 169 };
/// assert_eq!(smallest_disk_of_traced(&[0, 7, 0, 4, 7, 1]), Ok(disk));
/// let of_corners = smallest_disk(&mut [0, 7, 3, 6, 5, 6, 5, 8, 3, 8])?;
/// assert_eq!(of_corners.disk, disk);
/// assert_eq!(whole_radius(disk, of_corners.support), Ok(3));
///
/// let plain = smallest_disk(&mut [0, 0, 4, 0, 2, 3])?.disk;
/// assert_eq!(smallest_disk_of_traced(&[0, 0, 0, 4, 0, 0, 2, 3, 0]), Ok(plain));
///
/// assert_eq!(smallest_disk_of_traced(&[0, 0, 51]), Err(Refusal::BadTolerance));
/// assert_eq!(smallest_disk_of_traced(&[0, 0, 50]), Err(Refusal::OutsideBox));
/// assert_eq!(smallest_disk_of_traced(&[0, 0, 50, 0, 0, 51]), Err(Refusal::OutsideBox));
/// # Ok::<(), Refusal>(())
/// ```
pub fn smallest_disk_of_traced(list: &[i16]) -> Result<Disk, Refusal> {
    let answer = unsafe { raw::volkhidar_smallest_disk_of_traced(list.as_ptr(), list.len()) };
    checked(answer.refusal)?;
    Ok(answer.disk.into())
}

/// Reduces the list, x and y by turns, to the corners of the convex hull of its points, no three of them in a row, and answers how many
/// were kept. They go to the front of the list, counterclockwise (y goes upward) from the least by x, then y; all further numbers of the
/// list become 0. Points in a row keep the two ends, the least first; a lone point, repeated or not, is kept itself.
///
/// [`smallest_disk`] of the kept points gives the disk and the support set of the full list, so [`whole_radius`], [`preview`] and
/// [`write_record`] give what they give for it; the test count is that of the kept points.
///
/// Refuses, in this order: [`Refusal::OddLength`], [`Refusal::NoPoint`], [`Refusal::TooMany`], [`Refusal::OutsideBox`].
///
/// ```
/// use volkhidar::{reduce_to_hull, smallest_disk, Refusal};
///
/// // (4, 0) is on a side, (3, 2) inside, and (8, 6) is there twice
/// let mut list = [8, 6, 4, 0, 0, 0, 3, 2, 8, 0, 8, 6];
/// let whole = smallest_disk(&mut list.clone())?;
/// let count = reduce_to_hull(&mut list)?;
/// assert_eq!(count, 3);
/// assert_eq!(list, [0, 0, 8, 0, 8, 6, 0, 0, 0, 0, 0, 0]);
///
/// let kept = smallest_disk(&mut list[..2 * count])?;
/// assert_eq!((kept.disk, kept.support), (whole.disk, whole.support));
///
/// let mut row = [2, 2, 3, 3, 1, 1, 2, 2];
/// assert_eq!(reduce_to_hull(&mut row), Ok(2));
/// assert_eq!(row, [1, 1, 3, 3, 0, 0, 0, 0]);
///
/// let mut outside = [7, 7, 7, 1537];
/// assert_eq!(reduce_to_hull(&mut outside), Err(Refusal::OutsideBox));
/// assert_eq!(outside, [7, 7, 7, 1537]);
/// # Ok::<(), Refusal>(())
/// ```
pub fn reduce_to_hull(list: &mut [i16]) -> Result<usize, Refusal> {
    let answer = unsafe { raw::volkhidar_reduce_to_hull(list.as_mut_ptr(), list.len()) };
    checked(answer.refusal)?;
    Ok(answer.count as usize)
}

/// The widest stretch of the list, x and y by turns: the two of its points that are farthest apart, in rising order, and the square w of
/// their distance. Among pairs as far apart, each in rising order, they are the least, compared point by point. A lone point, repeated
/// or not, is given twice with w 0. The list is only read. With e and s of [`smallest_disk`] for the same list, w e² is at least 3s and at
/// most 4s (Jung's bound).
///
/// Refuses, in this order: [`Refusal::OddLength`], [`Refusal::NoPoint`], [`Refusal::TooMany`], [`Refusal::OutsideBox`].
///
/// ```
/// use volkhidar::{smallest_disk, widest_stretch, Point, Refusal, Stretch};
///
/// // the two diagonals are as long
/// let square = [10, 0, 0, 10, 10, 10, 0, 0];
/// assert_eq!(widest_stretch(&square), Ok(Stretch { a: Point { x: 0, y: 0 }, b: Point { x: 10, y: 10 }, w: 200 }));
///
/// let mut letter = [0, 0, 4, 0, 2, 3];
/// let w = u128::from(widest_stretch(&letter)?.w);
/// let disk = smallest_disk(&mut letter)?.disk;
/// assert_eq!((w, disk.e, disk.s), (16, 6, 169));
/// assert!((3 * disk.s..=4 * disk.s).contains(&(w * u128::from(disk.e).pow(2))));
///
/// let lone = Point { x: 7, y: 7 };
/// assert_eq!(widest_stretch(&[7, 7, 7, 7]), Ok(Stretch { a: lone, b: lone, w: 0 }));
/// assert_eq!(widest_stretch(&[]), Err(Refusal::NoPoint));
/// # Ok::<(), Refusal>(())
/// ```
pub fn widest_stretch(list: &[i16]) -> Result<Stretch, Refusal> {
    let answer = unsafe { raw::volkhidar_widest_stretch(list.as_ptr(), list.len()) };
    checked(answer.refusal)?;
    Ok(Stretch { a: answer.a, b: answer.b, w: answer.w })
}

/// The radius to cut with: the least whole number R with R²e² greater than s. The circle of radius R about the disk's centre keeps off
/// every point that the disk holds: each lies inside it and none on it. R is at most 1449.
///
/// Refuses, in this order: [`Refusal::BadRecord`] for a disk and support set that a valid record could not hold;
/// [`Refusal::PointsDoNotFit`] for points that do not [belong](SupportSet#belonging) to the disk.
///
/// ```
/// use volkhidar::{whole_radius, Disk, Point, Refusal, SupportSet};
///
/// let support = SupportSet::Two(Point { x: 0, y: 0 }, Point { x: 3, y: 0 });
/// assert_eq!(whole_radius(Disk { x: 3, y: 0, e: 2, s: 9 }, support), Ok(2));
/// assert_eq!(whole_radius(Disk { x: 6, y: 0, e: 4, s: 36 }, support), Err(Refusal::BadRecord));
///
/// // both points are 2 away from the centre: a circle of radius 2 would go through them
/// let support = SupportSet::Two(Point { x: 0, y: 0 }, Point { x: 4, y: 0 });
/// assert_eq!(whole_radius(Disk { x: 2, y: 0, e: 1, s: 4 }, support), Ok(3));
///
/// // the disk through (0, 0), (2, 3) and (4, 0): without (2, 3) there is a smaller one
/// assert_eq!(whole_radius(Disk { x: 12, y: 5, e: 6, s: 169 }, support), Err(Refusal::PointsDoNotFit));
/// ```
pub fn whole_radius(disk: Disk, support: SupportSet) -> Result<u64, Refusal> {
    let answer = unsafe { raw::volkhidar_whole_radius(disk.into(), support.into()) };
    checked(answer.refusal)?;
    Ok(answer.radius)
}

/// The centre as x/e and y/e, each divided once and rounded once, and the whole radius (see [`whole_radius`]).
///
/// For every disk that is taken, the two numbers of the centre are at most 2⁻⁴³ units (about 1.1 × 10⁻¹³) away from x/e and y/e, and the
/// radius is exact.
///
/// Refuses what [`whole_radius`] refuses, in the same order: [`Refusal::BadRecord`], [`Refusal::PointsDoNotFit`].
///
/// ```
/// use volkhidar::{preview, smallest_disk, Disk, Point, Preview, Refusal, SupportSet};
///
/// let support = SupportSet::Two(Point { x: 0, y: 0 }, Point { x: 3, y: 0 });
/// assert_eq!(preview(Disk { x: 3, y: 0, e: 2, s: 9 }, support), Ok(Preview { x: 1.5, y: 0.0, radius: 2.0 }));
///
/// // a right angle at (0, 0): it is on the boundary, and the two others have the disk without it
/// let (disk, corner, a, b) = (Disk { x: 3, y: 4, e: 1, s: 25 }, Point { x: 0, y: 0 }, Point { x: 0, y: 8 }, Point { x: 6, y: 0 });
/// assert_eq!(preview(disk, SupportSet::Three(corner, a, b)), Err(Refusal::PointsDoNotFit));
/// assert_eq!(preview(disk, SupportSet::Two(a, b)), Ok(Preview { x: 3.0, y: 4.0, radius: 6.0 }));
///
/// // a disk that comes very near to 2⁻⁴³: from 1024 to 2048 floats are 2⁻⁴² apart
/// let found = smallest_disk(&mut [21, 123, 2046, -511, 2048, 1536])?;
/// let (x, e) = (i128::from(found.disk.x), i128::from(found.disk.e));
/// let steps = (preview(found.disk, found.support)?.x * 2f64.powi(42)) as i128;
/// // x/e less the preview, in 2⁻⁴³ units, times e
/// assert_eq!((x << 43) - 2 * steps * e, e - 2);
/// # Ok::<(), Refusal>(())
/// ```
pub fn preview(disk: Disk, support: SupportSet) -> Result<Preview, Refusal> {
    let answer = unsafe { raw::volkhidar_preview(disk.into(), support.into()) };
    checked(answer.refusal)?;
    Ok(Preview { x: answer.x, y: answer.y, radius: answer.radius })
}

/// Writes the record of a disk and its support set into the first [`RECORD_LENGTH`] bytes of the buffer; the rest stays. The record
/// has three points, the last repeated where there are fewer, and in its last byte how many are meant: 1, 2 or 3.
///
/// Refuses, in this order: [`Refusal::NoRoom`] for a shorter buffer; [`Refusal::BadRecord`] for a disk and support set that a valid
/// record could not hold; [`Refusal::PointsDoNotFit`] for points that do not [belong](SupportSet#belonging) to the disk.
///
/// ```
/// use volkhidar::{write_record, Disk, Point, Refusal, SupportSet};
///
/// let (disk, support) = (Disk { x: 7, y: 7, e: 1, s: 0 }, SupportSet::One(Point { x: 7, y: 7 }));
/// let mut buffer = [0xEE; 54];
/// assert_eq!(write_record(disk, support, &mut buffer), Ok(()));
/// assert_eq!(buffer[..8], [0, 0, 0, 0, 0, 0, 0, 7]);
/// assert_eq!(buffer[52..], [1, 0xEE]);
/// assert_eq!(write_record(disk, support, &mut buffer[..52]), Err(Refusal::NoRoom));
///
/// // a single point belongs to no disk but itself
/// assert_eq!(write_record(Disk { s: 1, ..disk }, support, &mut buffer), Err(Refusal::PointsDoNotFit));
/// ```
pub fn write_record(disk: Disk, support: SupportSet, buffer: &mut [u8]) -> Result<(), Refusal> {
    checked(unsafe { raw::volkhidar_write_record(disk.into(), support.into(), buffer.as_mut_ptr(), buffer.len()) })
}

/// Reads a record of [`RECORD_LENGTH`] bytes, or of [`OLD_RECORD_LENGTH`] by the limits of an em box of 1,000 units: x from 0 to 1000, y
/// from −250 to 750, e at most 2,000,000 and s at most 500,000 e². What [`write_record`] wrote is read back. What is read, written again,
/// gives its own bytes if they were 53, and otherwise the 53 bytes of the same disk and points.
///
/// Refuses, in this order: [`Refusal::BadRecord`], for bytes of another length and for a count that disagrees with the repeats, too;
/// [`Refusal::PointsDoNotFit`] for a valid record whose points do not [belong](SupportSet#belonging) to its disk.
///
/// ```
/// use volkhidar::{read_record, record_of, write_record, Point, Refusal, SupportSet, OLD_RECORD_LENGTH, RECORD_LENGTH};
///
/// let mut record = [0; RECORD_LENGTH];
/// record_of(b"0 0\n3 0\n", &mut record)?;
/// assert_eq!(read_record(&record)?.1, SupportSet::Two(Point { x: 0, y: 0 }, Point { x: 3, y: 0 }));
/// assert_eq!(read_record(&record[..52]), Err(Refusal::BadRecord));
///
/// // the same disk and points in 45 bytes: s in 8 of them
/// let mut old = [0; OLD_RECORD_LENGTH];
/// (old[7], old[23], old[31]) = (3, 2, 9);
/// (old[37], old[41], old[44]) = (3, 3, 2);
/// let (disk, support) = read_record(&old)?;
/// let mut again = [0; RECORD_LENGTH];
/// write_record(disk, support, &mut again)?;
/// assert_eq!(again, record);
///
/// // (4, 0) in place of (3, 0), and then another count
/// (record[45], record[49]) = (4, 4);
/// assert_eq!(read_record(&record), Err(Refusal::PointsDoNotFit));
/// record[52] = 3;
/// assert_eq!(read_record(&record), Err(Refusal::BadRecord));
/// # Ok::<(), Refusal>(())
/// ```
pub fn read_record(bytes: &[u8]) -> Result<(Disk, SupportSet), Refusal> {
    let answer = unsafe { raw::volkhidar_read_record(bytes.as_ptr(), bytes.len()) };
    checked(answer.refusal)?;
    Ok((answer.disk.into(), answer.support.into()))
}

/// From a description to its record in one call: [`load`], [`smallest_disk`], [`write_record`]. The rest of the buffer stays.
///
/// Refuses, in this order: [`Refusal::NoRoom`] for a buffer under [`RECORD_LENGTH`] bytes; then what [`load`] refuses.
///
/// ```
/// use volkhidar::{read_record, record_of, Disk, Refusal, RECORD_LENGTH};
///
/// let mut record = [0; RECORD_LENGTH];
/// record_of(b"0 0\n4 0\n2 3\n", &mut record)?;
/// assert_eq!(read_record(&record)?.0, Disk { x: 12, y: 5, e: 6, s: 169 });
/// assert_eq!(record_of(b"\n", &mut record), Err(Refusal::NoPoint));
/// # Ok::<(), Refusal>(())
/// ```
pub fn record_of(text: &[u8], buffer: &mut [u8]) -> Result<(), Refusal> {
    checked(unsafe { raw::volkhidar_record_of(text.as_ptr(), text.len(), buffer.as_mut_ptr(), buffer.len()) })
}
