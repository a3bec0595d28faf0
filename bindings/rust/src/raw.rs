//! The C interface as `include/volkhidar.h` has it. A Rust slice's pointer is never null, and two slices never overlap where one is
//! `&mut`: that is all that the functions ask of their callers.

/// A point of the em box: x from 0 to 2048, y from −512 to 1536. Points are ordered by x, then y.
#[repr(C)]
#[derive(Clone, Copy, PartialEq, Eq, PartialOrd, Ord, Hash, Debug)]
pub struct Point {
    pub x: i16,
    pub y: i16,
}

/// The number hi · 2⁶⁴ + lo.
#[repr(C)]
#[derive(Clone, Copy, PartialEq, Eq, Debug)]
pub struct Wide {
    pub hi: u64,
    pub lo: u64,
}

#[repr(C)]
#[derive(Clone, Copy, PartialEq, Eq, Debug)]
pub struct Disk {
    pub x: i64,
    pub y: i64,
    pub e: u64,
    pub s: Wide,
}

#[repr(C)]
pub struct Support {
    pub size: u64,
    pub points: [Point; 3],
}

#[repr(C)]
pub struct DrawnPoint {
    pub kind: u64,
    pub whole_x: i32,
    pub whole_y: i32,
    pub drawn_x: f64,
    pub drawn_y: f64,
}

#[repr(C)]
pub struct LoadAnswer {
    pub refusal: u64,
    pub count: u64,
}

#[repr(C)]
pub struct GlyphAnswer {
    pub refusal: u64,
    pub start: u64,
    pub length: u64,
}

#[repr(C)]
pub struct DiskAnswer {
    pub refusal: u64,
    pub disk: Disk,
    pub support: Support,
    pub tests: u64,
}

#[repr(C)]
pub struct ThroughAnswer {
    pub refusal: u64,
    pub disk: Disk,
}

#[repr(C)]
pub struct StretchAnswer {
    pub refusal: u64,
    pub a: Point,
    pub b: Point,
    pub w: u64,
}

#[repr(C)]
pub struct RadiusAnswer {
    pub refusal: u64,
    pub radius: u64,
}

#[repr(C)]
pub struct PreviewAnswer {
    pub refusal: u64,
    pub x: f64,
    pub y: f64,
    pub radius: f64,
}

#[repr(C)]
pub struct RecordAnswer {
    pub refusal: u64,
    pub disk: Disk,
    pub support: Support,
}

#[repr(C)]
pub struct RunAnswer {
    pub refusal: u64,
    pub worked: u64,
    pub left: u64,
}

#[repr(C)]
pub struct EstimateAnswer {
    pub refusal: u64,
    pub bytes: u64,
    pub tests: u64,
}

extern "C" {
    pub fn volkhidar_load(text: *const u8, text_length: usize, list: *mut i16, list_length: usize) -> LoadAnswer;
    pub fn volkhidar_append_point(point: DrawnPoint, list: *mut i16, list_length: usize, n: usize) -> LoadAnswer;
    pub fn volkhidar_glyph(sheet: *const u8, sheet_length: usize, k: usize) -> GlyphAnswer;
    pub fn volkhidar_smallest_disk(list: *mut i16, list_length: usize) -> DiskAnswer;
    pub fn volkhidar_smallest_disk_through(list: *const i16, list_length: usize, first: Point, second: Point) -> ThroughAnswer;
    pub fn volkhidar_smallest_disk_of_traced(list: *const i16, list_length: usize) -> ThroughAnswer;
    pub fn volkhidar_reduce_to_hull(list: *mut i16, list_length: usize) -> LoadAnswer;
    pub fn volkhidar_widest_stretch(list: *const i16, list_length: usize) -> StretchAnswer;
    pub fn volkhidar_whole_radius(disk: Disk, support: Support) -> RadiusAnswer;
    pub fn volkhidar_preview(disk: Disk, support: Support) -> PreviewAnswer;
    pub fn volkhidar_write_record(disk: Disk, support: Support, buffer: *mut u8, buffer_length: usize) -> u64;
    pub fn volkhidar_read_record(bytes: *const u8, length: usize) -> RecordAnswer;
    pub fn volkhidar_record_of(text: *const u8, text_length: usize, buffer: *mut u8, buffer_length: usize) -> u64;
    pub fn volkhidar_run_sheet(
        sheet: *const u8,
        sheet_length: usize,
        allowance: u64,
        buffer: *mut u8,
        buffer_length: usize,
        numbers: *mut u16,
        numbers_length: usize,
    ) -> RunAnswer;
    pub fn volkhidar_estimate_sheet(
        sheet: *const u8,
        sheet_length: usize,
        points: *mut u16,
        points_length: usize,
        refusals: *mut u16,
        refusals_length: usize,
    ) -> EstimateAnswer;
}

#[cfg(test)]
mod tests {
    use super::*;

    const ORIGIN: Point = Point { x: 0, y: 0 };
    const NO_DISK: Disk = Disk { x: 0, y: 0, e: 0, s: Wide { hi: 0, lo: 0 } };

    fn disk(x: i64, y: i64, e: u64, s: u64) -> Disk {
        Disk { x, y, e, s: Wide { hi: 0, lo: s } }
    }

    fn no_set(size: u64) -> Support {
        Support { size, points: [ORIGIN; 3] }
    }

    #[test]
    fn sizes_that_no_support_set_has() {
        let disk = disk(0, 0, 1, 0);
        for size in [0, 4, 5, 256, u64::MAX] {
            let mut buffer = [0xEE; 53];
            let mut write = |length| unsafe { volkhidar_write_record(disk, no_set(size), buffer.as_mut_ptr(), length) };
            assert_eq!((write(53), write(52)), (7, 8));
            assert_eq!(buffer, [0xEE; 53]);
            assert_eq!(unsafe { volkhidar_whole_radius(disk, no_set(size)) }.refusal, 7);
            assert_eq!(unsafe { volkhidar_preview(disk, no_set(size)) }.refusal, 7);
        }
        assert_eq!(unsafe { volkhidar_whole_radius(disk, no_set(1)) }.refusal, 0);
    }

    /// The points (0, 0) and (2, 3) belong to the disk, (4, 0) is outside.
    #[test]
    fn points_behind_the_size_are_not_looked_at() {
        let disk = disk(2, 3, 2, 13);
        let far = Point { x: i16::MIN, y: i16::MAX };
        for (size, third, refusal) in [(2, Point { x: 4, y: 0 }, 0), (2, far, 0), (3, Point { x: 4, y: 0 }, 15), (3, far, 7)] {
            let set = || Support { size, points: [ORIGIN, Point { x: 2, y: 3 }, third] };
            let mut buffer = [0; 53];
            assert_eq!(unsafe { volkhidar_whole_radius(disk, set()) }.refusal, refusal);
            assert_eq!(unsafe { volkhidar_preview(disk, set()) }.refusal, refusal);
            assert_eq!(unsafe { volkhidar_write_record(disk, set(), buffer.as_mut_ptr(), 53) }, refusal);
        }
    }

    /// Letter F's disk with two of its three points, and as a record.
    #[test]
    fn points_that_do_not_belong_get_nothing_else() {
        let disk = disk(12, 5, 6, 169);
        let end = Point { x: 4, y: 0 };
        let set = || Support { size: 2, points: [ORIGIN, end, end] };
        let radius = unsafe { volkhidar_whole_radius(disk, set()) };
        assert_eq!((radius.refusal, radius.radius), (15, 0));
        let preview = unsafe { volkhidar_preview(disk, set()) };
        assert_eq!((preview.refusal, [preview.x, preview.y, preview.radius].map(f64::to_bits)), (15, [0; 3]));
        let mut buffer = [0xEE; 54];
        assert_eq!(unsafe { volkhidar_write_record(disk, set(), buffer.as_mut_ptr(), 54) }, 15);
        assert_eq!(buffer, [0xEE; 54]);

        // in 53 bytes, and in 45, where all behind X, Y and E is 8 bytes earlier
        for (length, earlier) in [(53, 0), (45, 8)] {
            let mut bytes = vec![0; length];
            (bytes[7], bytes[15], bytes[23], bytes[39 - earlier]) = (12, 5, 6, 169);
            (bytes[45 - earlier], bytes[49 - earlier], bytes[52 - earlier]) = (4, 4, 2);
            assert_nothing_else(&unsafe { volkhidar_read_record(bytes.as_ptr(), length) }, 15);
        }
    }

    fn assert_nothing_else(read: &RecordAnswer, refusal: u64) {
        assert_eq!((read.refusal, read.disk, read.support.size), (refusal, NO_DISK, 0));
        assert_eq!(read.support.points, [ORIGIN; 3]);
    }

    /// The disk of three points near corners of the em box has s above 2⁶⁴; without the high word of s it is another.
    #[test]
    fn both_words_of_s_count() {
        let mut list = [0, -512, 2048, -509, 1, 1536];
        let found = unsafe { volkhidar_smallest_disk(list.as_mut_ptr(), list.len()) };
        let s = Wide { hi: 7, lo: 0xFC01_DF60_1D7D_C05A };
        assert_eq!((found.refusal, found.disk), (0, Disk { x: 8_577_370_109, y: 4_290_778_103, e: 8_388_602, s }));
        let set = || Support { size: 3, points: found.support.points };
        let radius = unsafe { volkhidar_whole_radius(found.disk, set()) };
        assert_eq!((radius.refusal, radius.radius), (0, 1_447));
        for (hi, refusal) in [(0, 15), (6, 15), (8, 7), (u64::MAX, 7)] {
            let other = Disk { s: Wide { hi, lo: s.lo }, ..found.disk };
            let radius = unsafe { volkhidar_whole_radius(other, set()) };
            assert_eq!((radius.refusal, radius.radius), (refusal, 0), "{hi}");
        }
    }

    #[test]
    fn kinds_that_no_drawn_point_has() {
        let mut list = [-7; 8_192];
        let mut append = |kind, drawn_x, length, n| {
            let point = DrawnPoint { kind, whole_x: 5, whole_y: 6, drawn_x, drawn_y: 8.0 };
            let answer = unsafe { volkhidar_append_point(point, list.as_mut_ptr(), length, n) };
            (answer.refusal, answer.count)
        };
        for kind in [0, 3, 256, 1 << 32, u64::MAX] {
            assert_eq!(append(kind, 7.0, 8_192, 0), (11, 0));
            assert_eq!(append(kind, 7.0, 8_192, usize::MAX), (11, 0));
            assert_eq!(append(kind, 7.0, 8_191, 0), (8, 0));
        }
        assert_eq!(append(1, f64::NAN, 8_192, 0), (0, 1));
        assert_eq!(append(2, 7.0, 8_192, 4_095), (0, 4_096));
        assert_eq!((&list[..3], &list[8_189..]), (&[5, 6, -7][..], &[-7, 7, 8][..]));
    }

    #[test]
    fn a_refused_answer_holds_nothing_else() {
        let bytes = [0; 3];
        assert_nothing_else(&unsafe { volkhidar_read_record(bytes.as_ptr(), bytes.len()) }, 7);
        let answer = unsafe { volkhidar_glyph(bytes.as_ptr(), bytes.len(), 0) };
        assert_eq!((answer.refusal, answer.start, answer.length), (10, 0, 0));
        let row = [0, 0, 2, 0, 4, 0];
        for (x, refusal) in [(7, 12), (2, 13)] {
            let chosen = Point { x, y: 0 };
            let answer = unsafe { volkhidar_smallest_disk_through(row.as_ptr(), row.len(), chosen, chosen) };
            assert_eq!((answer.refusal, answer.disk), (refusal, NO_DISK));
        }
        let traced: [(&[i16], u64); 5] = [(&[7; 4], 9), (&[], 5), (&[7; 3_075], 4), (&[7, 7, 51], 14), (&[7, 7, 8], 3)];
        for (list, refusal) in traced {
            let answer = unsafe { volkhidar_smallest_disk_of_traced(list.as_ptr(), list.len()) };
            assert_eq!((answer.refusal, answer.disk), (refusal, NO_DISK));
        }
        for (length, refusal) in [(3, 9), (0, 5), (8_194, 4), (2, 3)] {
            let mut list = vec![-1; length];
            let answer = unsafe { volkhidar_reduce_to_hull(list.as_mut_ptr(), list.len()) };
            assert_eq!((answer.refusal, answer.count), (refusal, 0));
            let answer = unsafe { volkhidar_widest_stretch(list.as_ptr(), list.len()) };
            assert_eq!((answer.refusal, answer.a, answer.b, answer.w), (refusal, ORIGIN, ORIGIN, 0));
        }
    }

    /// A sheet of one glyph, the point (0, 0), in its first 9 bytes, and a gap that makes it a byte too long.
    fn long_sheet() -> [u8; 65_536] {
        let mut sheet = [0; 65_536];
        sheet[..9].copy_from_slice(b"\x00\x01\x00\x06\x00\x030 0");
        sheet
    }

    /// Runs of a sheet: too long, without its last byte, without a byte of the buffer or the one place of the list, with one test too many.
    #[test]
    fn a_refused_run_holds_nothing_else() {
        let sheet = long_sheet();
        let (mut buffer, mut numbers) = ([0xEE; 53], [0xEEEE]);
        let mut run = |length, allowance, room, places| {
            let (written, listed) = (buffer.as_mut_ptr(), numbers.as_mut_ptr());
            let answer = unsafe { volkhidar_run_sheet(sheet.as_ptr(), length, allowance, written, room, listed, places) };
            (answer.refusal, answer.worked, answer.left)
        };
        assert_eq!(run(65_536, 7, 53, 1), (1, 0, 0));
        assert_eq!(run(8, 7, 53, 1), (6, 0, 0));
        assert_eq!(run(9, 7, 52, 1), (8, 0, 0));
        assert_eq!(run(9, 7, 53, 0), (8, 0, 0));
        assert_eq!(run(9, 1 << 60, 53, 1), (17, 0, 0));
        assert_eq!(run(9, 7, 53, 1), (0, 1, 6));
        assert_eq!((buffer[52], numbers), (1, [0]));
    }

    /// Estimates of the sheet: too long, without its last byte, without the one place of a list.
    #[test]
    fn a_refused_estimate_holds_nothing_else() {
        let sheet = long_sheet();
        let (mut points, mut refusals) = ([0xEEEE], [0xEEEE]);
        let mut estimate = |length, points_length, refusals_length| {
            let (counted, listed) = (points.as_mut_ptr(), refusals.as_mut_ptr());
            let answer =
                unsafe { volkhidar_estimate_sheet(sheet.as_ptr(), length, counted, points_length, listed, refusals_length) };
            (answer.refusal, answer.bytes, answer.tests)
        };
        assert_eq!(estimate(65_536, 1, 1), (1, 0, 0));
        assert_eq!(estimate(8, 1, 1), (6, 0, 0));
        assert_eq!(estimate(9, 0, 1), (8, 0, 0));
        assert_eq!(estimate(9, 1, 0), (8, 0, 0));
        assert_eq!(estimate(9, 1, 1), (0, 53, 1));
        assert_eq!((points, refusals), ([1], [0]));
    }
}
