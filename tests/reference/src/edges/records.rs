//! Disks with their points for the writer and the cutting radius, and records of both forms for the reader.

use super::{belonging, radii, Answer, Edge};
use crate::geometry::Disk;
use crate::inputs::WriterCase;
use crate::letters::{points, LETTERS};
use crate::record;
use crate::support::SupportSet;

/// X, Y, E, S.
pub type Numbers = (i128, i128, i128, u128);

pub type Points = &'static [(i16, i16)];

const fn disk((x, y, e, s): Numbers) -> Disk {
    Disk { x, y, e, s }
}

pub const F: Numbers = (12, 5, 6, 169);
pub const F_POINTS: Points = &[(0, 0), (2, 3), (4, 0)];

/// What the writer and the cutting radius answer.
pub struct Written {
    pub written: Answer<()>,
    pub radius: Answer<u64>,
}

pub type Writing = Edge<WriterCase, Written>;

pub fn lent(room: u8, numbers: Numbers, support: &[(i16, i16)]) -> WriterCase {
    WriterCase { room, disk: disk(numbers), support: points(support) }
}

pub fn writing(
    says: &'static str,
    room: u8,
    numbers: Numbers,
    support: &[(i16, i16)],
    written: Answer<()>,
    radius: Answer<u64>,
) -> Writing {
    Edge { says, given: lent(room, numbers, support), gives: Written { written, radius } }
}

pub type Reading = Edge<Vec<u8>, Answer<(Disk, SupportSet)>>;

pub fn reading(says: &'static str, given: Vec<u8>, gives: Answer<(Numbers, &[(i16, i16)])>) -> Reading {
    Edge { says, given, gives: gives.map(|(numbers, support)| (disk(numbers), points(support))) }
}

/// The 53 bytes of a disk with one to three points, valid or not.
pub fn bytes_of(numbers: Numbers, support: &[(i16, i16)]) -> Vec<u8> {
    record::bytes_of(&record::LONG, &disk(numbers), &points(support))
}

/// The 45 bytes: the same without the first eight of S.
pub fn short_bytes_of(numbers: Numbers, support: &[(i16, i16)]) -> Vec<u8> {
    let bytes = bytes_of(numbers, support);
    [&bytes[..24], &bytes[32..]].concat()
}

pub fn writings() -> Vec<Writing> {
    let letters = LETTERS.iter().map(|l| writing("X Y E S; rim; R", 53, l.disk, l.support, Ok(()), Ok(l.radius)));
    let refused =
        |number: u8| move |&(says, numbers, support): &Row| writing(says, 53, numbers, support, Err(number), Err(number));
    let valid = VALID.iter().chain(&BEYOND_THE_1000_EM).chain(&VALID_IN_45_BYTES).map(refused(15));
    let faulty = FAULTY.iter().chain(&FAULTY_BY_ANY_LIMITS).map(refused(7));
    letters.chain(valid).chain(faulty).chain(rooms()).chain(radii::writings()).chain(belonging::writings()).collect()
}

/// Words, a disk and points.
type Row = (&'static str, Numbers, Points);

/// Valid up to the limits, so that 7 is not given; but the points belong to another disk.
#[rustfmt::skip]
const VALID: [Row; 19] = [
    ("the centre in the em box; S/E² to 2,097,152", (0, -512, 1, 2_097_152), &[(0, -512)]),
    ("the centre in the em box", (2048, 1536, 1, 1), &[(2048, 1536)]),
    ("E goes to 8,388,608 and S/E² to 2,097,152", (17_179_869_183, -4_294_967_295, 8_388_608, 147_573_952_589_676_412_928), &[(0, -512), (2048, 1536)]),
    ("E goes to 8,388,608", (1, 12_884_901_888, 8_388_608, 0), F_POINTS),
    ("the centre in the em box", (17_179_869_184, 5, 8_388_608, 169), F_POINTS),
    ("the centre in the em box", (12_288, 5, 6, 169), F_POINTS),
    ("the centre in the em box", (0, 5, 6, 169), F_POINTS),
    ("the centre in the em box", (13, -3_072, 6, 169), F_POINTS),
    ("the centre in the em box", (13, 9_216, 6, 169), F_POINTS),
    ("S/E² to 2,097,152", (12, 5, 6, 75_497_472), F_POINTS),
    ("corners in the em box", F, &[(0, -512), (2, 1536), (2048, 0)]),
    ("X, Y (signed); x and y 2 bytes each, signed", (1, -7, 3, 11), &[(3, -9), (3, -8), (4, -512)]),
    // S with a high word, and a low word that is nothing, little or all there is
    ("S .. is held and stored in 16 bytes", (1, 0, 8_388_608, 1 << 63), &[(0, 0)]),
    ("S .. is held and stored in 16 bytes", (1, 0, 8_388_608, u64::MAX as u128), &[(0, 0)]),
    ("S .. is held and stored in 16 bytes", (1, 0, 8_388_608, 1 << 64), &[(0, 0)]),
    ("S .. is held and stored in 16 bytes", (1, 0, 8_388_608, (1 << 64) + 1), &[(0, 0)]),
    ("S .. is held and stored in 16 bytes", (1, 0, 8_388_607, 7 << 64), &[(0, 0), (2048, 0)]),
    ("S .. is held and stored in 16 bytes", (12, 5, 8_388_607, (3 << 64) + 169), F_POINTS),
    ("S .. is held and stored in 16 bytes", (12, 5, 8_388_607, (8 << 64) - 36_028_797_018_963_968), F_POINTS),
];

#[rustfmt::skip]
const FAULTY: [Row; 33] = [
    ("E goes to 8,388,608", (12, 5, 8_388_609, 169), F_POINTS),
    ("E goes to 8,388,608", (1, 0, 16_777_216, 0), &[(0, 0)]),
    ("the centre in the em box", (12_289, 5, 6, 169), F_POINTS),
    ("the centre in the em box", (12, -3_073, 6, 169), F_POINTS),
    ("the centre in the em box", (12, 9_217, 6, 169), F_POINTS),
    ("the centre in the em box", (2049, 0, 1, 0), &[(2048, 0)]),
    ("the centre in the em box", (0, -513, 1, 0), &[(0, -512)]),
    ("the centre in the em box", (0, 1537, 1, 0), &[(0, 1536)]),
    ("the centre in the em box", (17_179_869_185, 5, 8_388_608, 169), F_POINTS),
    ("S/E² to 2,097,152", (12, 5, 6, 75_497_473), F_POINTS),
    ("S/E² to 2,097,152", (1024, 512, 1, 2_097_153), &[(0, -512), (2048, 1536)]),
    ("S/E² to 2,097,152", (1, 5, 8_388_608, 147_573_952_589_676_412_929), F_POINTS),
    ("corners in the em box", F, &[(0, 0), (2049, 0)]),
    ("corners in the em box", F, &[(0, -513), (2, 3), (4, 0)]),
    ("corners in the em box", F, &[(0, 0), (2, 1537), (4, 0)]),
    // the points are on the boundary and hold the disk in place, but are not in the em box
    ("corners in the em box", (2048, 0, 1, 1), &[(2047, 0), (2049, 0)]),
    ("corners in the em box", (0, -512, 1, 1), &[(0, -513), (0, -511)]),
    ("corners in the em box", (0, 1536, 1, 1), &[(0, 1535), (0, 1537)]),
    // S by 2⁶⁴ and more beside that of the letters A, C, F and H
    ("S/E² to 2,097,152: all 16 bytes of S", (0, 0, 1, 1 << 64), &[(0, 0)]),
    ("S/E² to 2,097,152: all 16 bytes of S", (0, 0, 1, 1 << 65), &[(0, 0)]),
    ("S/E² to 2,097,152: all 16 bytes of S", (0, 0, 1, 1 << 96), &[(0, 0)]),
    ("S/E² to 2,097,152: all 16 bytes of S", (0, 0, 1, 1 << 127), &[(0, 0)]),
    ("S/E² to 2,097,152: all 16 bytes of S", (0, 0, 1, u128::MAX), &[(0, 0)]),
    ("S/E² to 2,097,152: all 16 bytes of S", (1, 0, 8_388_608, 1 << 127), &[(0, 0)]),
    ("S/E² to 2,097,152: all 16 bytes of S", (1, 0, 8_388_608, u128::MAX), &[(0, 0)]),
    ("S/E² to 2,097,152: all 16 bytes of S", (7, 7, 1, 1 << 64), &[(7, 7)]),
    ("S/E² to 2,097,152: all 16 bytes of S", (2, 0, 1, (1 << 64) + 4), &[(0, 0), (4, 0)]),
    ("S/E² to 2,097,152: all 16 bytes of S", (2, 0, 1, (1 << 127) + 4), &[(0, 0), (4, 0)]),
    ("S/E² to 2,097,152: all 16 bytes of S", (12, 5, 6, (1 << 64) + 169), F_POINTS),
    ("S/E² to 2,097,152: all 16 bytes of S", (12, 5, 6, (1 << 126) + 169), F_POINTS),
    ("S/E² to 2,097,152: all 16 bytes of S", (12, 5, 6, u128::MAX - (1 << 64) + 170), F_POINTS),
    ("S/E² to 2,097,152: all 16 bytes of S", (12, 5, u64::MAX as i128, u128::MAX), F_POINTS),
    ("S/E² to 2,097,152: all 16 bytes of S", (i64::MIN as i128, i64::MIN as i128, u64::MAX as i128, u128::MAX), F_POINTS),
];

/// In records of either form, and for the writer.
#[rustfmt::skip]
const FAULTY_BY_ANY_LIMITS: [Row; 28] = [
    ("E from 1", (12, 5, 0, 0), F_POINTS),
    ("E goes to 8,388,608", (12, 5, u64::MAX as i128, 169), F_POINTS),
    ("No whole number above 1 divides X, Y and E all together", (12, 6, 6, 169), F_POINTS),
    ("No whole number above 1 divides X, Y and E all together", (0, 0, 5, 169), F_POINTS),
    ("the centre in the em box", (-1, 5, 6, 169), F_POINTS),
    ("the centre in the em box", (i64::MIN as i128, 5, 6, 169), F_POINTS),
    ("the centre in the em box", (i64::MAX as i128, 5, 6, 169), F_POINTS),
    ("the centre in the em box", (12, i64::MIN as i128, 6, 169), F_POINTS),
    ("S/E² to 2,097,152", (12, 5, 6, u64::MAX as u128), F_POINTS),
    ("S/E² to 2,097,152", (1, 0, 2_000_000, 1 << 63), &[(0, 0)]),
    ("S/E² to 2,097,152", (1, 0, 2_000_000, u64::MAX as u128), &[(0, 0)]),
    ("The corners rise strictly", F, &[(2, 3), (2, 3)]),
    ("The corners rise strictly", F, &[(2, 3), (0, 0)]),
    ("The corners rise strictly", F, &[(2, 3), (2, 2)]),
    ("The corners rise strictly", F, &[(0, 0), (0, 0), (4, 0)]),
    ("The corners rise strictly", F, &[(0, 0), (4, 0), (2, 3)]),
    ("corners in the em box", F, &[(-1, 0)]),
    ("corners in the em box", F, &[(i16::MIN, 0)]),
    ("corners in the em box", F, &[(0, i16::MAX)]),
    // the points are on the boundary and hold the disk in place, but are not in order or not in the em box
    ("The corners rise strictly", F, &[(4, 0), (2, 3), (0, 0)]),
    ("The corners rise strictly", F, &[(2, 3), (0, 0), (4, 0)]),
    ("The corners rise strictly", (2, 0, 1, 4), &[(4, 0), (0, 0)]),
    ("The corners rise strictly", (0, 250, 1, 250_000), &[(0, 750), (0, -250)]),
    ("The corners rise strictly", (2, 0, 1, 4), &[(0, 0), (0, 0), (4, 0)]),
    ("The corners rise strictly", (2, 0, 1, 4), &[(0, 0), (4, 0), (4, 0)]),
    ("The corners rise strictly", (7, 7, 1, 0), &[(7, 7), (7, 7)]),
    ("The corners rise strictly", (7, 7, 1, 0), &[(7, 7), (7, 7), (7, 7)]),
    ("corners in the em box", (0, 0, 1, 1), &[(-1, 0), (1, 0)]),
];

/// Up to the limits of 45 bytes, in either form; but the points belong to another disk.
#[rustfmt::skip]
const VALID_IN_45_BYTES: [Row; 9] = [
    ("45-byte records by the old limits: the centre in the em box, S at most 500,000 × E²", (0, -250, 1, 500_000), &[(0, -250)]),
    ("45-byte records by the old limits: the centre in the em box", (1000, 750, 1, 1), &[(1000, 750)]),
    ("45-byte records by the old limits: E from 1 to 2,000,000, S at most 500,000 × E²", (1_999_999_999, -499_999_999, 2_000_000, 2_000_000_000_000_000_000), &[(0, -250), (1000, 750)]),
    ("45-byte records by the old limits: E from 1 to 2,000,000", (12, 5, 2_000_000 - 1, 169), F_POINTS),
    ("45-byte records by the old limits: X, Y (signed); x and y 2 bytes each, signed", (1, -7, 3, 11), &[(3, -9), (3, -8), (4, -250)]),
    ("45-byte records by the old limits: the centre in the em box", (5_999, 4_500, 6, 169), F_POINTS),
    ("45-byte records by the old limits: the centre in the em box", (6_000, -1_499, 6, 169), F_POINTS),
    ("45-byte records by the old limits: S at most 500,000 × E²", (12, 5, 6, 18_000_000), F_POINTS),
    ("45-byte records by the old limits: corners in the em box", F, &[(0, -250), (2, 750), (1000, 0)]),
];

/// By a step beyond the limits of 45 bytes, which refuses them there; in 53 bytes the points belong to another disk.
#[rustfmt::skip]
const BEYOND_THE_1000_EM: [Row; 13] = [
    ("45-byte records by the old limits: E from 1 to 2,000,000", (12, 5, 2_000_001, 169), F_POINTS),
    ("45-byte records by the old limits: E from 1 to 2,000,000", (12, 5, 8_388_607, 169), F_POINTS),
    ("45-byte records by the old limits: the centre in the em box", (6_001, 5, 6, 169), F_POINTS),
    ("45-byte records by the old limits: the centre in the em box", (12, -1_501, 6, 169), F_POINTS),
    ("45-byte records by the old limits: the centre in the em box", (12, 4_501, 6, 169), F_POINTS),
    ("45-byte records by the old limits: the centre in the em box", (1_001, 0, 1, 0), &[(1_000, 0)]),
    ("45-byte records by the old limits: S at most 500,000 × E²", (12, 5, 6, 18_000_001), F_POINTS),
    ("45-byte records by the old limits: S at most 500,000 × E²", (500, 250, 1, 500_001), &[(0, -250), (1000, 750)]),
    ("45-byte records by the old limits: S at most 500,000 × E²", (1, 0, 2_000_000, 2_000_000_000_000_000_001), F_POINTS),
    ("45-byte records by the old limits: corners in the em box", F, &[(0, 0), (1001, 0)]),
    ("45-byte records by the old limits: corners in the em box", F, &[(0, -251), (2, 3), (4, 0)]),
    ("45-byte records by the old limits: corners in the em box", F, &[(0, 0), (2, 751), (4, 0)]),
    ("45-byte records by the old limits: corners in the em box", F, &[(0, 0), (2, 3), (2048, 0)]),
];

/// Letter F, a disk with E 0, and letter F without a point, into buffers of other lengths.
fn rooms() -> impl Iterator<Item = Writing> {
    let says =
        "Writer: 8, 7, then 15. It leaves the rest. The writer writes 53 only, into a buffer of at least 53 (02, items 9 and 10)";
    let faulty = (12, 5, 0, 0);
    let two = &F_POINTS[..2];
    let short = [0, 1, 44, 45, 46, 52].into_iter().flat_map(move |room| {
        [(room, F, F_POINTS, Err(8), Ok(3)), (room, faulty, F_POINTS, Err(8), Err(7)), (room, F, two, Err(8), Err(15))]
    });
    let long = [53, 54, 64, 106, 255].into_iter().flat_map(move |room| {
        [
            (room, F, F_POINTS, Ok(()), Ok(3)),
            (room, faulty, F_POINTS, Err(7), Err(7)),
            (room, F, two, Err(15), Err(15)),
            (room, faulty, two, Err(7), Err(7)),
        ]
    });
    let rows = short.chain(long);
    rows.map(move |(room, numbers, support, written, radius)| writing(says, room, numbers, support, written, radius))
}

pub fn readings() -> Vec<Reading> {
    [letters(), of_rows(), changed(), lengths(), counts(), belonging::readings().collect()].concat()
}

/// In both forms.
fn letters() -> Vec<Reading> {
    let says = "high byte first; if there are one or two, the last is repeated to make three; the record has 53 (02, item 10)";
    let short = "The reader still takes 45-byte records by the old limits (02, item 10)";
    let both = LETTERS.iter().flat_map(|l| {
        let gives = Ok((l.disk, l.support));
        [reading(says, bytes_of(l.disk, l.support), gives), reading(short, short_bytes_of(l.disk, l.support), gives)]
    });
    both.collect()
}

fn of_rows() -> Vec<Reading> {
    let long = |number: u8| move |&(says, numbers, support): &Row| reading(says, bytes_of(numbers, support), Err(number));
    let short = |number: u8| move |&(says, numbers, support): &Row| reading(says, short_bytes_of(numbers, support), Err(number));
    let in_53 = VALID.iter().chain(&VALID_IN_45_BYTES).chain(&BEYOND_THE_1000_EM).map(long(15));
    let faulty = FAULTY.iter().chain(&FAULTY_BY_ANY_LIMITS).map(long(7));
    let in_45 = VALID_IN_45_BYTES.iter().map(short(15)).chain(BEYOND_THE_1000_EM.iter().map(short(7)));
    let unwritten = [45, 53].map(|length| reading("7: a record .. not valid", vec![0xAA; length], Err(7)));
    in_53.chain(faulty).chain(in_45).chain(FAULTY_BY_ANY_LIMITS.iter().map(short(7))).chain(unwritten).collect()
}

/// Letter F in both forms and beside them: cut off or made longer, with the eight bytes put in or taken out at S, and twice.
fn lengths() -> Vec<Reading> {
    let says = "the record has 53; the reader still takes 45-byte records (02, item 10); any other length is 7";
    let (long, short) = (bytes_of(F, F_POINTS), short_bytes_of(F, F_POINTS));
    let resized = |bytes: &[u8], length: usize| {
        let mut bytes = bytes.to_vec();
        bytes.resize(length, 0);
        bytes
    };
    let put_in = |bytes: &[u8], count: usize| [&bytes[..24], &vec![0; count], &bytes[24..]].concat();
    let taken_out = |count: usize| [&long[..24], &long[24 + count..]].concat();
    let mut given: Vec<Vec<u8>> = Vec::new();
    for length in [0, 1, 8, 43, 44, 45, 46, 50, 52, 53, 54, 60, 90, 106] {
        given.extend([resized(&long, length), resized(&short, length)]);
    }
    given.extend([1, 7, 8, 9, 16].map(|count| put_in(&short, count)));
    given.extend([1, 8].map(|count| put_in(&long, count)));
    given.extend([1, 7, 8, 9].map(taken_out));
    given.extend([[&long[..], &long].concat(), [&short[..], &short].concat(), [&short[..], &[0; 7], &[3]].concat()]);
    // The count stands behind eight more bytes, or before the last eight.
    given.extend([[&short[..44], &[0; 8], &[3]].concat(), [&long[..44], &[3]].concat()]);
    let is_a_form = |bytes: &Vec<u8>| *bytes == long || *bytes == short;
    let gives = |bytes: &Vec<u8>| if is_a_form(bytes) { Ok((F, F_POINTS)) } else { Err(7) };
    given.iter().map(|bytes| reading(says, bytes.clone(), gives(bytes))).collect()
}

/// Every value of the last byte of 53, and some of 45, against every kind of repeats.
fn counts() -> Vec<Reading> {
    let says = "1, 2 or 3. A count that disagrees with the repeats is refused as 7 (02, item 4)";
    let kinds = [
        ((2, 3, 1, 0), [(2, 3), (2, 3), (2, 3)], Some(1)),
        ((2, 3, 2, 13), [(0, 0), (2, 3), (2, 3)], Some(2)),
        (F, [(0, 0), (2, 3), (4, 0)], Some(3)),
        ((2, 0, 1, 4), [(0, 0), (0, 0), (4, 0)], None),
    ];
    let counted = |(numbers, three, meant): (Numbers, [(i16, i16); 3], Option<u8>), mut given: Vec<u8>, count: u8| {
        *given.last_mut().expect("a record ends with its count") = count;
        reading(says, given, if meant == Some(count) { Ok((numbers, &three[..count.into()])) } else { Err(7) })
    };
    let of_kind = |kind: (Numbers, [(i16, i16); 3], Option<u8>)| {
        let long = (0..=255).map(move |count| counted(kind, bytes_of(kind.0, &kind.1), count));
        let short = [0, 1, 2, 3, 4, 255].map(|count| counted(kind, short_bytes_of(kind.0, &kind.1), count));
        long.chain(short)
    };
    kinds.into_iter().flat_map(of_kind).collect()
}

/// The record of letter F with new bytes at some places, in both forms.
fn changed() -> Vec<Reading> {
    let with = |mut bytes: Vec<u8>, changes: &[(usize, u8)]| {
        changes.iter().for_each(|&(place, byte)| bytes[place] = byte);
        bytes
    };
    let long = CHANGED.iter().map(|&(says, changes, gives)| reading(says, with(bytes_of(F, F_POINTS), changes), gives));
    let short = CHANGED_IN_45_BYTES.iter();
    let short = short.map(|&(says, changes, gives)| reading(says, with(short_bytes_of(F, F_POINTS), changes), gives));
    long.chain(short).collect()
}

/// Words, new bytes, and what is read.
type Change = (&'static str, &'static [(usize, u8)], Answer<(Numbers, Points)>);

#[rustfmt::skip]
const CHANGED: [Change; 40] = [
    ("no change", &[(0, 0)], Ok((F, F_POINTS))),
    ("the centre in the em box: X negative", &[(0, 0x80)], Err(7)),
    ("the centre in the em box: X beyond", &[(6, 0x30)], Err(7)),
    ("the centre in the em box: another X, not of these points", &[(6, 0x2F)], Err(15)),
    ("the centre in the em box: another X, of other points", &[(6, 0x06), (40, 1), (44, 1), (48, 1)], Ok(((1548, 5, 6, 169), &[(256, 0), (258, 3), (260, 0)]))),
    ("the centre in the em box: another X, of points beyond 1,000", &[(6, 0x1E), (40, 5), (44, 5), (48, 5)], Ok(((7692, 5, 6, 169), &[(1280, 0), (1282, 3), (1284, 0)]))),
    ("the centre in the em box: Y negative", &[(8, 0xFF)], Err(7)),
    ("the centre in the em box: Y beyond", &[(14, 0x24)], Err(7)),
    ("the centre in the em box: another Y, not of these points", &[(14, 0x23)], Err(15)),
    ("the divisor rule", &[(15, 6)], Err(7)),
    ("E from 1", &[(23, 0)], Err(7)),
    ("E goes to 8,388,608", &[(20, 1)], Err(7)),
    ("E goes to 8,388,608: 8,388,614", &[(21, 0x80)], Err(7)),
    ("E goes to 8,388,608: 8,323,078, with another disk", &[(21, 0x7F)], Err(15)),
    ("S/E² to 2,097,152", &[(36, 5)], Err(7)),
    ("S/E² to 2,097,152: S 2⁶⁴ larger", &[(31, 1)], Err(7)),
    ("S/E² to 2,097,152: S 2¹²⁷ larger", &[(24, 0x80)], Err(7)),
    ("S/E² to 2,097,152: the first bytes of S", &[(24, 0xFF), (25, 0xFF), (26, 0xFF), (27, 0xFF), (28, 0xFF), (29, 0xFF), (30, 0xFF), (31, 0xFF)], Err(7)),
    ("S/E² to 2,097,152: S in the first eight bytes, where 45 have it", &[(31, 169), (39, 0)], Err(7)),
    ("S/E² to 2,097,152: another S, not of these points", &[(39, 0xAA)], Err(15)),
    ("S/E² to 2,097,152: another S, of another point", &[(7, 4), (15, 3), (23, 2), (39, 25), (47, 4)], Ok(((4, 3, 2, 25), &[(0, 0), (2, 4), (4, 0)]))),
    ("The corners rise strictly: the first x beyond the second", &[(41, 3)], Err(7)),
    ("corners in the em box: the first x", &[(40, 0x80)], Err(7)),
    ("corners in the em box: the first y", &[(42, 7)], Err(7)),
    ("The corners rise strictly: the second x beyond the third", &[(45, 5)], Err(7)),
    ("The corners rise strictly: by y where x is the same, but with another disk", &[(45, 0)], Err(15)),
    ("The corners rise strictly: by y where x is the same", &[(7, 7), (15, 24), (23, 8), (38, 2), (39, 0x71), (45, 0), (47, 6), (51, 3)], Ok(((7, 24, 8, 625), &[(0, 0), (0, 6), (4, 3)]))),
    ("corners in the em box: the second y beyond", &[(46, 7)], Err(7)),
    ("corners in the em box: the second y 771, with another disk", &[(46, 3)], Err(15)),
    ("corners in the em box: the second y negative", &[(46, 0xFD)], Err(7)),
    ("corners in the em box: the second y −253, with another disk", &[(46, 0xFF)], Err(15)),
    ("corners in the em box: the third x", &[(48, 8)], Err(7)),
    ("The corners rise strictly: the third x before the second", &[(49, 1)], Err(7)),
    ("corners in the em box: the third y negative", &[(50, 0xFD)], Err(7)),
    ("corners in the em box: the third y least", &[(50, 0x80)], Err(7)),
    ("the last is repeated: no other may be", &[(45, 0), (47, 0)], Err(7)),
    ("the last is repeated: no other may be, whatever the count", &[(45, 0), (47, 0), (52, 2)], Err(7)),
    ("the last is repeated: the second here, with its count, but with another disk", &[(45, 4), (47, 0), (52, 2)], Err(15)),
    ("the last is repeated: the second here, with its count", &[(7, 2), (15, 0), (23, 1), (39, 4), (45, 4), (47, 0), (52, 2)], Ok(((2, 0, 1, 4), &[(0, 0), (4, 0)]))),
    ("the last is repeated: the second here, with the count of three", &[(45, 4), (47, 0)], Err(7)),
];

#[rustfmt::skip]
const CHANGED_IN_45_BYTES: [Change; 30] = [
    ("no change", &[(0, 0)], Ok((F, F_POINTS))),
    ("the centre in the em box: X negative", &[(0, 0x80)], Err(7)),
    ("the centre in the em box: X beyond", &[(6, 0x18)], Err(7)),
    ("the centre in the em box: another X, not of these points", &[(6, 0x16)], Err(15)),
    ("the centre in the em box: another X, of other points", &[(6, 0x06), (32, 1), (36, 1), (40, 1)], Ok(((1548, 5, 6, 169), &[(256, 0), (258, 3), (260, 0)]))),
    ("the centre in the em box: Y negative", &[(8, 0xFF)], Err(7)),
    ("the centre in the em box: Y beyond", &[(14, 0x12)], Err(7)),
    ("the divisor rule", &[(15, 6)], Err(7)),
    ("E from 1", &[(23, 0)], Err(7)),
    ("E to 2,000,000", &[(20, 1)], Err(7)),
    ("S at most 500,000 × E²", &[(28, 2)], Err(7)),
    ("S at most 500,000 × E²: another S, not of these points", &[(31, 0xAA)], Err(15)),
    ("S at most 500,000 × E²: another S, of another point", &[(7, 4), (15, 3), (23, 2), (31, 25), (39, 4)], Ok(((4, 3, 2, 25), &[(0, 0), (2, 4), (4, 0)]))),
    ("The corners rise strictly: the first x beyond the second", &[(33, 3)], Err(7)),
    ("corners in the em box: the first x", &[(32, 0x80)], Err(7)),
    ("corners in the em box: the first y", &[(34, 3)], Err(7)),
    ("The corners rise strictly: the second x beyond the third", &[(37, 5)], Err(7)),
    ("The corners rise strictly: by y where x is the same, but with another disk", &[(37, 0)], Err(15)),
    ("The corners rise strictly: by y where x is the same", &[(7, 7), (15, 24), (23, 8), (30, 2), (31, 0x71), (37, 0), (39, 6), (43, 3)], Ok(((7, 24, 8, 625), &[(0, 0), (0, 6), (4, 3)]))),
    ("corners in the em box: the second y beyond", &[(38, 3)], Err(7)),
    ("corners in the em box: the second y negative", &[(38, 0xFF)], Err(7)),
    ("corners in the em box: the third x", &[(40, 4)], Err(7)),
    ("The corners rise strictly: the third x before the second", &[(41, 1)], Err(7)),
    ("corners in the em box: the third y negative", &[(42, 0xFF)], Err(7)),
    ("corners in the em box: the third y least", &[(42, 0x80)], Err(7)),
    ("the last is repeated: no other may be", &[(37, 0), (39, 0)], Err(7)),
    ("the last is repeated: no other may be, whatever the count", &[(37, 0), (39, 0), (44, 2)], Err(7)),
    ("the last is repeated: the second here, with its count, but with another disk", &[(37, 4), (39, 0), (44, 2)], Err(15)),
    ("the last is repeated: the second here, with its count", &[(7, 2), (15, 0), (23, 1), (31, 4), (37, 4), (39, 0), (44, 2)], Ok(((2, 0, 1, 4), &[(0, 0), (4, 0)]))),
    ("the last is repeated: the second here, with the count of three", &[(37, 4), (39, 0)], Err(7)),
];
