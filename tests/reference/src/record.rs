//! The record: its two forms, validity, writer and reader (document 01, "Description, sheet, record"; document 02, items 4, 9 and 10).

use crate::belonging::points_fit;
use crate::geometry::{gcd, Disk, Point};
use crate::limits::{Limits, EM, EM_1000};
use crate::refusal::Refusal;
use crate::support::SupportSet;

/// A form of the record: X, Y and E in 8 bytes each, S in so many, three points in 4 each, and the count; and the limits that it goes by.
#[derive(Clone, Copy, PartialEq, Eq, Debug)]
pub struct Form {
    bytes_of_s: usize,
    pub limits: Limits,
}

/// The form that is written and read.
pub const LONG: Form = Form { bytes_of_s: 16, limits: EM };

/// The form that is only read.
pub const SHORT: Form = Form { bytes_of_s: 8, limits: EM_1000 };

const S_AT: usize = 24;

impl Form {
    pub const fn points_at(&self) -> usize {
        S_AT + self.bytes_of_s
    }

    pub const fn count_at(&self) -> usize {
        self.points_at() + 12
    }

    pub const fn length(&self) -> usize {
        self.count_at() + 1
    }

    /// The form of so many bytes.
    pub fn of_length(length: usize) -> Option<Form> {
        [LONG, SHORT].into_iter().find(|form| form.length() == length)
    }
}

/// Whether a valid record by these limits can hold the disk and support set, and these belong together: refusals 7, 15.
pub fn check(disk: &Disk, support: &[Point], limits: &Limits) -> Result<(), Refusal> {
    if !is_valid_disk(disk, limits) || !is_valid_support(support, limits) {
        return Err(Refusal::BadRecord);
    }
    if !points_fit(disk, support) {
        return Err(Refusal::PointsDoNotFit);
    }
    Ok(())
}

fn is_valid_disk(disk: &Disk, limits: &Limits) -> bool {
    disk.is_within(limits) && gcd(gcd(disk.x, disk.y), disk.e) == 1
}

fn is_valid_support(support: &[Point], limits: &Limits) -> bool {
    (1..=3).contains(&support.len()) && support.is_sorted_by(|a, b| a < b) && support.iter().all(|p| p.is_in(limits))
}

/// Fills the first 53 bytes of the buffer: refusals 8, 7, 15, and then the buffer is unchanged.
pub fn write(disk: &Disk, support: &[Point], buffer: &mut [u8]) -> Result<(), Refusal> {
    let Some(place) = buffer.get_mut(..LONG.length()) else {
        return Err(Refusal::NoRoom);
    };
    check(disk, support, &LONG.limits)?;
    place.copy_from_slice(&bytes_of(&LONG, disk, support));
    Ok(())
}

/// The bytes of a disk and a support set of one to three points, valid or not.
pub fn bytes_of(form: &Form, disk: &Disk, support: &[Point]) -> Vec<u8> {
    [disk_and_points(form, disk, support), vec![support.len() as u8]].concat()
}

/// The bytes before the count of points. Of each number the low ones, as many as the form has for it.
pub fn disk_and_points(form: &Form, disk: &Disk, support: &[Point]) -> Vec<u8> {
    let mut bytes = Vec::new();
    for number in [disk.x, disk.y, disk.e] {
        // Signed numbers in two's complement.
        bytes.extend_from_slice(&number.to_be_bytes()[8..]);
    }
    bytes.extend_from_slice(&disk.s.to_be_bytes()[16 - form.bytes_of_s..]);
    for i in 0..3 {
        let p = support[i.min(support.len() - 1)];
        bytes.extend_from_slice(&p.x.to_be_bytes());
        bytes.extend_from_slice(&p.y.to_be_bytes());
    }
    bytes
}

/// The disk and support set of a record of either form, by its limits: refusals 7, 15.
pub fn read(bytes: &[u8]) -> Result<(Disk, SupportSet), Refusal> {
    let form = Form::of_length(bytes.len()).ok_or(Refusal::BadRecord)?;
    let (points_at, count_at) = (form.points_at(), form.count_at());
    let disk = Disk {
        x: signed(&bytes[..8]),
        y: signed(&bytes[8..16]),
        e: number(&bytes[16..S_AT]).cast_signed(),
        s: number(&bytes[S_AT..points_at]),
    };
    let support = without_repeats_of_the_last([0, 4, 8].map(|at| point_at(bytes, points_at + at)));
    if usize::from(bytes[count_at]) != support.len() {
        return Err(Refusal::BadRecord);
    }
    check(&disk, &support, &form.limits)?;
    Ok((disk, support))
}

/// A number of up to 16 bytes, high byte first.
fn number(bytes: &[u8]) -> u128 {
    bytes.iter().fold(0, |number, &byte| number << 8 | u128::from(byte))
}

/// A signed number of 8 bytes.
fn signed(bytes: &[u8]) -> i128 {
    i128::from((number(bytes) as u64).cast_signed())
}

fn point_at(bytes: &[u8], at: usize) -> Point {
    let number = |at| i16::from_be_bytes([bytes[at], bytes[at + 1]]);
    Point::new(number(at), number(at + 2))
}

fn without_repeats_of_the_last([a, b, c]: [Point; 3]) -> SupportSet {
    if b != c {
        vec![a, b, c]
    } else if a != b {
        vec![a, b]
    } else {
        vec![a]
    }
}

#[cfg(test)]
mod tests {
    use super::*;

    const F: Disk = Disk { x: 12, y: 5, e: 6, s: 169 };

    fn f_support() -> SupportSet {
        vec![Point::new(0, 0), Point::new(2, 3), Point::new(4, 0)]
    }

    /// A disk with S above 2⁶⁴: its high word is 7.
    const WIDE: Disk = Disk { x: 8_577_370_109, y: 4_290_778_103, e: 8_388_602, s: 147_286_249_292_406_046_810 };

    fn wide_support() -> SupportSet {
        vec![Point::new(0, -512), Point::new(1, 1536), Point::new(2048, -509)]
    }

    #[test]
    fn the_record_of_letter_f() {
        let mut buffer = [0xEE; 60];
        assert_eq!(write(&F, &f_support(), &mut buffer), Ok(()));
        let mut expected = [0u8; 53];
        (expected[7], expected[15], expected[23], expected[39]) = (12, 5, 6, 169);
        (expected[45], expected[47], expected[49], expected[52]) = (2, 3, 4, 3);
        assert_eq!(buffer[..53], expected);
        assert_eq!(buffer[53..], [0xEE; 7]);
        assert_eq!(read(&expected), Ok((F, f_support())));
    }

    /// The same without the eight bytes by which S is longer in the other form.
    #[test]
    fn the_45_byte_record_of_letter_f() {
        let mut bytes = [0u8; 45];
        (bytes[7], bytes[15], bytes[23], bytes[31]) = (12, 5, 6, 169);
        (bytes[37], bytes[39], bytes[41], bytes[44]) = (2, 3, 4, 3);
        assert_eq!(bytes_of(&SHORT, &F, &f_support()), bytes);
        assert_eq!(read(&bytes), Ok((F, f_support())));
    }

    #[rustfmt::skip]
    #[test]
    fn a_record_with_s_above_64_bits() {
        let expected = [
            0, 0, 0, 1, 0xFF, 0x40, 0x47, 0xFD,
            0, 0, 0, 0, 0xFF, 0xC0, 0x13, 0xF7,
            0, 0, 0, 0, 0, 0x7F, 0xFF, 0xFA,
            0, 0, 0, 0, 0, 0, 0, 0x07, 0xFC, 0x01, 0xDF, 0x60, 0x1D, 0x7D, 0xC0, 0x5A,
            0, 0, 0xFE, 0, 0, 1, 6, 0, 8, 0, 0xFE, 3,
            3,
        ];
        let mut buffer = [0xEE; 53];
        assert_eq!(write(&WIDE, &wide_support(), &mut buffer), Ok(()));
        assert_eq!(buffer, expected);
        assert_eq!(read(&expected), Ok((WIDE, wide_support())));
    }

    /// The first of the writer's checks that fails decides, and the buffer stays.
    #[test]
    fn refused_writes_change_nothing() {
        let bad = Disk { e: 0, ..F };
        let [all, two] = [f_support(), f_support()[..2].to_vec()];
        let cases = [
            (52, bad, &two, Refusal::NoRoom),
            (52, F, &two, Refusal::NoRoom),
            (52, F, &all, Refusal::NoRoom),
            (45, F, &all, Refusal::NoRoom),
            (53, bad, &two, Refusal::BadRecord),
            (53, F, &two, Refusal::PointsDoNotFit),
        ];
        for (room, disk, support, refusal) in cases {
            let mut buffer = vec![1; room];
            assert_eq!(write(&disk, support, &mut buffer), Err(refusal));
            assert_eq!(buffer, vec![1; room]);
        }
    }

    #[test]
    fn disks_at_the_limits() {
        for ([right, foot, top], limits, e, square) in
            [([2048, -512, 1536], EM, 8_388_608, 2_097_152), ([1000, -250, 750], EM_1000, 2_000_000, 500_000)]
        {
            let at_limit = Disk { x: 1, y: top * e, e, s: square * e.unsigned_abs().pow(2) };
            let valid = |disk| check(&disk, &f_support(), &limits) != Err(Refusal::BadRecord);
            assert!(valid(at_limit));
            assert!(!valid(Disk { s: at_limit.s + 1, ..at_limit }));
            assert!(!valid(Disk { y: top * e + 1, ..at_limit }));
            assert!(!valid(Disk { x: -1, ..at_limit }));
            assert!(!valid(Disk { x: 2, ..at_limit }), "a common divisor");
            assert!(!valid(Disk { e: e + 1, s: 0, ..at_limit }));
            assert!(valid(Disk { x: 0, y: 0, e: 1, s: 0 }));
            assert!(!valid(Disk { x: 0, y: 0, e: 2, s: 0 }));
            assert!(valid(Disk { x: right, y: foot, e: 1, s: square }));
            assert!(!valid(Disk { x: right + 1, y: foot, e: 1, s: 0 }));
            assert!(!valid(Disk { x: right, y: foot - 1, e: 1, s: 0 }));
        }
    }

    /// Numbers at the ends of their types are judged without an overflow.
    #[test]
    fn the_largest_numbers_are_refused() {
        let (least, most) = (i128::from(i64::MIN), i128::from(i64::MAX));
        for s in [1 << 64, 169 + (1 << 64), 1 << 127, u128::MAX] {
            for e in [0, 1, 6, most, i128::from(u64::MAX)] {
                for (x, y) in [(12, 5), (least, least), (most, most)] {
                    let disk = Disk { x, y, e, s };
                    assert_eq!(check(&disk, &f_support(), &EM), Err(Refusal::BadRecord), "{disk:?}");
                    assert_eq!(read(&bytes_of(&LONG, &disk, &f_support())), Err(Refusal::BadRecord), "{disk:?}");
                }
            }
        }
    }

    /// S by 2⁶⁴ beside the right one is within the limits, and no disk of these points.
    #[test]
    fn s_is_judged_by_all_its_bits() {
        for s in [WIDE.s - (1 << 64), WIDE.s % (1 << 64), WIDE.s + 1, 7 << 64] {
            let disk = Disk { s, ..WIDE };
            assert_eq!(check(&disk, &wide_support(), &EM), Err(Refusal::PointsDoNotFit));
            assert_eq!(read(&bytes_of(&LONG, &disk, &wide_support())), Err(Refusal::PointsDoNotFit));
        }
        assert_eq!(check(&WIDE, &wide_support(), &EM), Ok(()));
    }

    #[test]
    fn only_the_last_point_is_repeated_and_the_count_agrees() {
        let [a, b, c] = [Point::new(0, 0), Point::new(2, 3), Point::new(4, 0)];
        for (form, count) in [LONG, SHORT].into_iter().flat_map(|form| (0..=255).map(move |count| (form, count))) {
            let counted = |disk: Disk, points: [Point; 3]| {
                let mut bytes = bytes_of(&form, &disk, &points);
                bytes[form.count_at()] = count;
                read(&bytes).map(|(_, support)| support)
            };
            let only = |n, support: &[Point]| if count == n { Ok(support.to_vec()) } else { Err(Refusal::BadRecord) };
            assert_eq!(counted(F, [a, b, c]), only(3, &[a, b, c]));
            assert_eq!(counted(Disk::of_two(a, b), [a, b, b]), only(2, &[a, b]));
            assert_eq!(counted(Disk::of_one(b), [b, b, b]), only(1, &[b]));
            for faulty in [[a, a, b], [a, b, a], [b, a, a], [c, b, a], [a, c, b]] {
                assert_eq!(counted(Disk::of_two(a, b), faulty), Err(Refusal::BadRecord));
            }
            let refusal = if count == 2 { Refusal::PointsDoNotFit } else { Refusal::BadRecord };
            assert_eq!(counted(F, [a, b, b]), Err(refusal));
        }
    }
}
