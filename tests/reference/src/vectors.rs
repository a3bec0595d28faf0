//! A case of the test program `crates/vectors` for each call: what it reads and what it must print.
//!
//! `tests/README.md` has the layout.

mod checksums;
mod estimates;
mod runs;

use crate::chosen::{smallest_disk_through, Chosen};
use crate::description;
use crate::drawing::{self, DrawnPoint};
use crate::engine::{self, flat};
use crate::figures;
use crate::geometry::{Disk, Point};
use crate::hull::reduce_to_hull;
use crate::inputs::{AppendCase, ChosenCase, FixedCase, LoaderCase, PartCase, SheetCase, WriterCase};
use crate::listing;
use crate::procedure::{self, Cover};
use crate::record::{self, LONG};
use crate::refusal::Refusal;
use crate::sheet;
use crate::stretch::{widest_stretch, Stretch};
use crate::traced::smallest_disk_of_traced;
use crate::two_fixed;
use checksums::{byte_checksum, list_checksum};

pub use estimates::estimate;
pub use runs::run;

/// A case: the call that it is for, the bytes given and the lines printed.
pub struct Vector {
    pub call: Call,
    pub bytes: Vec<u8>,
    pub printed: String,
}

/// The letter at the head of a case.
#[derive(Clone, Copy, PartialEq, Eq, Debug)]
pub enum Call {
    /// Loader, engine and cutting radius, as the listing program calls them.
    Listing = b'D' as isize,
    /// The engine alone.
    Engine = b'E' as isize,
    /// The loader alone.
    Loader = b'L' as isize,
    /// The procedure with two points fixed.
    Fixed = b'F' as isize,
    /// The smallest disk with chosen points on its boundary.
    Chosen = b'C' as isize,
    /// The smallest disk of traced points.
    Traced = b'T' as isize,
    /// A list reduced to the corners of its hull, then the engine on them.
    Hull = b'H' as isize,
    /// The two points farthest apart.
    Stretch = b'X' as isize,
    /// A drawing program's point put behind others, then the engine on them.
    Append = b'A' as isize,
    /// The sheet opener, then the part it found.
    Sheet = b'S' as isize,
    /// A whole sheet run under one allowance of tests.
    Run = b'G' as isize,
    /// What a sheet will take, before a run of it is booked.
    Estimate = b'B' as isize,
    /// A part of a sheet, by its place.
    Part = b'P' as isize,
    /// The record reader, then cutting radius, preview and record writer.
    Reader = b'R' as isize,
    /// Cutting radius, preview and record writer.
    Writer = b'W' as isize,
}

/// What the program reads: for each case the letter, the length in five decimal digits, a line feed and the bytes.
pub fn input(vectors: &[Vector]) -> Vec<u8> {
    let mut input = Vec::new();
    for vector in vectors {
        assert!(vector.bytes.len() <= 99_999, "a length has five digits");
        let head = format!("{}{:05}\n", vector.call as u8 as char, vector.bytes.len());
        input.extend_from_slice(head.as_bytes());
        input.extend_from_slice(&vector.bytes);
    }
    input
}

/// What the program prints.
pub fn output(vectors: &[Vector]) -> String {
    vectors.iter().map(|vector| vector.printed.as_str()).collect()
}

/// The length of something that is lent, in two bytes, high byte first.
fn length_bytes(length: usize) -> [u8; 2] {
    u16::try_from(length).expect("a length has 16 bits").to_be_bytes()
}

/// A list's numbers, two bytes each, high byte first.
fn bytes_of(list: &[i16]) -> Vec<u8> {
    list.iter().flat_map(|number| number.to_be_bytes()).collect()
}

/// The line with the checksum of the list after a call.
fn left(list: &[i16]) -> String {
    format!("left {}\n", list_checksum(list))
}

// ---- a case for each call

/// A description: the listing, and the checksum of the list as the engine leaves it.
pub fn from_description(text: Vec<u8>) -> Vector {
    let printed = match listing::solved(&text) {
        Ok((answer, points)) => listing::lines(&answer) + &left(&flat(&points)),
        Err(refusal) => listing::refused(refusal),
    };
    Vector { call: Call::Listing, bytes: text, printed }
}

/// A point list, two bytes a number, high byte first: the same, with the checksum also where the list is refused.
pub fn engine(mut list: Vec<i16>) -> Vector {
    let bytes = bytes_of(&list);
    let printed = match engine::solve(&mut list) {
        Ok(answer) => listing::lines(&answer),
        Err(refusal) => listing::refused(refusal),
    };
    Vector { call: Call::Engine, bytes, printed: printed + &left(&list) }
}

/// The lent list's length in two bytes, high byte first, then the description. The list holds 12,321 everywhere before the call; its
/// checksum after it is printed.
pub fn loader(case: &LoaderCase) -> Vector {
    let mut list = vec![12_321; case.room];
    let printed = match description::load(&case.text, &mut list) {
        Ok(count) => format!("points {count}\n"),
        Err(refusal) => listing::refused(refusal),
    };
    let printed = printed + &format!("list {}\n", list_checksum(&list));
    Vector { call: Call::Loader, bytes: [&length_bytes(case.room)[..], &case.text].concat(), printed }
}

/// The two points that are fixed, then the list, two bytes a number, high byte first: the disk that the procedure ends on, its tests, and
/// the checksum of the list as it is left.
pub fn fixed(case: &FixedCase) -> Vector {
    let mut points = case.points.clone();
    let bytes = bytes_of(&flat(&[&[case.a, case.b], &points[..]].concat()));
    let run = procedure::run_with(&mut points, &[case.a, case.b]);
    let disk = match run.cover {
        Cover::Disk(Disk { x, y, e, s }) => format!("disk {x} {y} {e} {s}\n"),
        _ => "no circle\n".to_string(),
    };
    if let Some(smallest) = two_fixed::smallest_through(case) {
        assert_eq!(run.cover, Cover::Disk(smallest), "the procedure and the search for the smallest disk differ");
    }
    let printed = disk + &format!("tests {}\n", run.tests) + &left(&flat(&points));
    Vector { call: Call::Fixed, bytes, printed }
}

/// How many points are chosen, a byte; two points, of which the second is not used where one is chosen; then the list, two bytes a number,
/// high byte first: the disk, and the checksum of the list, which is left as it came.
pub fn chosen(case: &ChosenCase) -> Vector {
    let (count, a, b) = match case.chosen {
        Chosen::One(a) => (1, a, case.unused),
        Chosen::Two(a, b) => (2, a, b),
    };
    let numbers = [&flat(&[a, b]), &case.list[..]].concat();
    let bytes = [&[count], &bytes_of(&numbers)[..]].concat();
    let printed = match smallest_disk_through(&case.list, case.chosen) {
        Ok(Disk { x, y, e, s }) => format!("disk {x} {y} {e} {s}\n"),
        Err(refusal) => listing::refused(refusal),
    };
    Vector { call: Call::Chosen, bytes, printed: printed + &left(&case.list) }
}

/// A list of traced points, two bytes a number, high byte first: the disk, and the checksum of the list, which is left as it came.
pub fn traced(list: &[i16]) -> Vector {
    let printed = match smallest_disk_of_traced(list) {
        Ok(Disk { x, y, e, s }) => format!("disk {x} {y} {e} {s}\n"),
        Err(refusal) => listing::refused(refusal),
    };
    Vector { call: Call::Traced, bytes: bytes_of(list), printed: printed + &left(list) }
}

/// A point list, two bytes a number, high byte first: how many points are kept, the checksum of the whole list after the call, and what the
/// engine makes of the points kept.
pub fn hull(mut list: Vec<i16>) -> Vector {
    let bytes = bytes_of(&list);
    let answer = reduce_to_hull(&mut list);
    Vector { call: Call::Hull, bytes, printed: front_printed(answer, &list) }
}

/// A point list, two bytes a number, high byte first: the two points farthest apart and their squared distance, and the checksum of the
/// list, which is left as it came.
pub fn stretch(list: &[i16]) -> Vector {
    let printed = match widest_stretch(list) {
        Ok(Stretch { a, b, w }) => format!("stretch{} {w}\n", listing::coordinates(&[a, b])),
        Err(refusal) => listing::refused(refusal),
    };
    Vector { call: Call::Stretch, bytes: bytes_of(list), printed: printed + &left(list) }
}

/// The kind, 1 for whole numbers and 2 for floats; x and y in eight bytes each, floats by their bits; how many points are there in eight
/// bytes and the lent list's length in two, high byte first; then the numbers at the front of the list. Its checksum after the call is
/// printed, and where a point was put into it, what the engine makes of the points there now.
pub fn append(case: &AppendCase) -> Vector {
    let (kind, x, y) = match case.point {
        DrawnPoint::Whole(x, y) => (1, i64::from(x) as u64, i64::from(y) as u64),
        DrawnPoint::Drawn(x, y) => (2, x.to_bits(), y.to_bits()),
    };
    let mut bytes = vec![kind];
    bytes.extend([x, y, case.n].iter().flat_map(|number| number.to_be_bytes()));
    bytes.extend(length_bytes(case.room));
    bytes.extend(bytes_of(&case.front));
    let mut list = case.list();
    let answer = drawing::append(case.point, &mut list, case.n);
    Vector { call: Call::Append, bytes, printed: front_printed(answer, &list) }
}

/// How many points are at the front of the list, or the refusal; the checksum of the whole list; and what the engine makes of these points.
fn front_printed(answer: Result<usize, Refusal>, list: &[i16]) -> String {
    let whole = format!("list {}\n", list_checksum(list));
    match answer {
        Ok(count) => format!("points {count}\n{whole}{}", engine(list[..2 * count].to_vec()).printed),
        Err(refusal) => listing::refused(refusal) + &whole,
    }
}

/// k in two bytes, high byte first, then the sheet.
pub fn open_sheet(case: &SheetCase) -> Vector {
    let printed = match sheet::glyph(&case.bytes, case.k.into()) {
        Ok(place) => {
            let (start, length) = (place.start, place.len());
            format!("part {start} {length}\n") + &part_printed(&case.bytes, start, length)
        }
        Err(refusal) => listing::refused(refusal),
    };
    Vector { call: Call::Sheet, bytes: [&case.k.to_be_bytes()[..], &case.bytes].concat(), printed }
}

/// Start and length in eight bytes each, high byte first, then the sheet.
pub fn part(case: &PartCase) -> Vector {
    let place = [case.start, case.length].map(|number| (number as u64).to_be_bytes()).concat();
    let printed = part_printed(&case.bytes, case.start, case.length);
    Vector { call: Call::Part, bytes: [&place[..], &case.bytes].concat(), printed }
}

/// How many bytes, and their checksum.
fn part_printed(bytes: &[u8], start: usize, length: usize) -> String {
    let part = sheet::part(bytes, start, length);
    format!("bytes {} {}\n", part.len(), byte_checksum(part))
}

/// The length of the buffer that a record is written to again.
const AGAIN: u8 = 64;

/// The disk and points of a record, and what the writer makes of them.
pub fn reader(bytes: Vec<u8>) -> Vector {
    let printed = match record::read(&bytes) {
        Ok((disk, support)) => {
            let Disk { x, y, e, s } = disk;
            let read = format!("disk {x} {y} {e} {s}\nrim{}\n", listing::coordinates(&support));
            read + &figures_printed(&disk, &support) + &written_printed(&disk, &support, AGAIN)
        }
        Err(refusal) => listing::refused(refusal),
    };
    Vector { call: Call::Reader, bytes, printed }
}

/// The cutting radius, and the bits of the preview.
fn figures_printed(disk: &Disk, support: &[Point]) -> String {
    let whole = match figures::whole_radius(disk, support) {
        Ok(radius) => format!("whole {radius}\n"),
        Err(refusal) => listing::refused(refusal),
    };
    let preview = match figures::preview(disk, support) {
        Ok(preview) => {
            let [x, y, radius] = preview.bits();
            format!("preview {x:016x} {y:016x} {radius:016x}\n")
        }
        Err(refusal) => listing::refused(refusal),
    };
    whole + &preview
}

/// What the writer answers with a buffer of this length, which holds 238 everywhere before the call, and the checksum of the buffer after it.
fn written_printed(disk: &Disk, support: &[Point], room: u8) -> String {
    let mut buffer = vec![238; room.into()];
    let written = match record::write(disk, support, &mut buffer) {
        Ok(()) => "written\n".to_string(),
        Err(refusal) => listing::refused(refusal),
    };
    written + &format!("buffer {}\n", byte_checksum(&buffer))
}

/// The buffer's length and the number of points, a byte each, then the disk and points of a record of 53 bytes, the last point repeated.
pub fn writer(case: &WriterCase) -> Vector {
    let count = case.support.len() as u8;
    let bytes = [vec![case.room, count], record::disk_and_points(&LONG, &case.disk, &case.support)].concat();
    let printed = figures_printed(&case.disk, &case.support) + &written_printed(&case.disk, &case.support, case.room);
    Vector { call: Call::Writer, bytes, printed }
}

#[cfg(test)]
mod tests {
    use super::*;
    use crate::record::SHORT;

    #[test]
    fn chosen_points_stand_before_their_list() {
        let (a, b) = (Point::new(5, 1), Point::new(-250, 256));
        let vector = |points| chosen(&ChosenCase { chosen: points, unused: b, list: vec![5, 1, 3] });
        let numbers = [0, 5, 0, 1, 255, 6, 1, 0, 0, 5, 0, 1, 0, 3];
        assert_eq!(vector(Chosen::One(a)).bytes, [&[1], &numbers[..]].concat());
        assert_eq!(vector(Chosen::Two(a, b)).bytes, [&[2], &numbers[..]].concat());
        let left = list_checksum(&[5, 1, 3]);
        assert_eq!(vector(Chosen::One(a)).printed, format!("refused 9\nleft {left}\n"));
    }

    #[test]
    fn traced_points_are_printed_with_their_list() {
        let list = [500, -200, 50];
        let vector = traced(&list);
        assert_eq!((vector.call as u8, vector.bytes), (b'T', vec![1, 244, 255, 56, 0, 50]));
        assert_eq!(vector.printed, format!("disk 500 -200 1 5000\nleft {}\n", list_checksum(&list)));
        let left = list_checksum(&[500, -200, 51]);
        assert_eq!(traced(&[500, -200, 51]).printed, format!("refused 14\nleft {left}\n"));
    }

    #[test]
    fn a_reduced_list_is_printed_whole_and_then_what_the_engine_makes_of_its_corners() {
        let vector = hull(vec![4, 0, 2, 3, 0, 0, 2, 1]);
        assert_eq!((vector.call as u8, vector.bytes), (b'H', vec![0, 4, 0, 0, 0, 2, 0, 3, 0, 0, 0, 0, 0, 2, 0, 1]));
        let (list, left) = (list_checksum(&[0, 0, 4, 0, 2, 3, 0, 0]), list_checksum(&[2, 3, 0, 0, 4, 0]));
        let letter_f = "disk 12 5 6 169\nrim 0 0 2 3 4 0\nwhole 3\ntests 7\n";
        assert_eq!(vector.printed, format!("points 3\nlist {list}\n{letter_f}left {left}\n"));
        let list = list_checksum(&[4, 0, -1]);
        assert_eq!(hull(vec![4, 0, -1]).printed, format!("refused 9\nlist {list}\n"));
    }

    #[test]
    fn the_widest_stretch_is_printed_with_its_list() {
        let list = [2, -3, 4, 0, 0, 0];
        let vector = stretch(&list);
        assert_eq!((vector.call as u8, vector.bytes), (b'X', vec![0, 2, 255, 253, 0, 4, 0, 0, 0, 0, 0, 0]));
        assert_eq!(vector.printed, format!("stretch 0 0 4 0 16\nleft {}\n", list_checksum(&list)));
        assert_eq!(stretch(&[2, -3]).printed, format!("stretch 2 -3 2 -3 0\nleft {}\n", list_checksum(&[2, -3])));
        let left = list_checksum(&[2, -513]);
        assert_eq!(stretch(&[2, -513]).printed, format!("refused 3\nleft {left}\n"));
    }

    /// Letter C in 45 bytes and in 53: read the same, and written again in 53, with eleven bytes of the buffer left.
    #[test]
    fn a_record_that_is_read_is_written_again() {
        let (disk, support) = (Disk { x: 2, y: 0, e: 1, s: 4 }, [Point::new(0, 0), Point::new(4, 0)]);
        let long = record::bytes_of(&LONG, &disk, &support);
        let buffer = byte_checksum(&[&long[..], &[238; 11]].concat());
        let figures = "whole 3\npreview 4000000000000000 0000000000000000 4008000000000000\n";
        let printed = format!("disk 2 0 1 4\nrim 0 0 4 0\n{figures}written\nbuffer {buffer}\n");
        for form in [SHORT, LONG] {
            let vector = reader(record::bytes_of(&form, &disk, &support));
            assert_eq!((vector.call as u8, vector.bytes.len()), (b'R', form.length()));
            assert_eq!(vector.printed, printed);
        }
        assert_eq!(reader(long[..52].to_vec()).printed, "refused 7\n");
    }

    /// S in 16 bytes, from byte 26 on.
    #[test]
    fn a_case_for_the_writer_has_54_bytes() {
        let disk = Disk { x: -2, y: 3, e: 5, s: (7 << 64) + 9 };
        let vector = writer(&WriterCase { room: 52, disk, support: vec![Point::new(1, -1), Point::new(2, 258)] });
        let words = [-2i64, 3, 5, 7, 9].map(i64::to_be_bytes).concat();
        assert_eq!(vector.bytes, [&[52, 2], &words[..], &[0, 1, 255, 255, 0, 2, 1, 2, 0, 2, 1, 2]].concat());
        assert_eq!(vector.bytes.len(), 54);
        let left = byte_checksum(&[238; 52]);
        assert_eq!(vector.printed, format!("refused 7\nrefused 7\nrefused 8\nbuffer {left}\n"));
    }
}
