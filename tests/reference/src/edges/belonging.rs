//! Disks with points that belong to them and with points that do not (document 02, item 9), for the writer, the cutting radius and the
//! reader, in records of both forms (item 10).

use super::records::{bytes_of, reading, short_bytes_of, writing, Numbers, Points, Reading, Writing, F, F_POINTS};
use super::Answer;
use crate::letters::LETTERS;

/// The item's words, a disk, its points, and the cutting radius.
type Row = (&'static str, Numbers, Points, Answer<u64>);

const FIT: &str = "the smallest disk .. is the disk, and with any one of them left out it is another or none (02, item 9)";
const SPARE: &str = "with any one of them left out it is another or none. 15 when it fails (02, item 9)";
const OTHER: &str = "the smallest disk of the named corners is the disk. 15 when it fails (02, item 9)";
const FIRST: &str = "15 when it fails, after 7 (02, item 9)";
const OLD_LIMITS: &str = "The reader still takes 45-byte records by the old limits, with every number as before (02, item 10)";

pub fn writings() -> impl Iterator<Item = Writing> {
    of_other_letters().map(as_written).chain(rows().chain(rows_beyond()).flat_map(writings_of))
}

pub fn readings() -> impl Iterator<Item = Reading> {
    let of_letters = of_other_letters().flat_map(|row| [as_read(row), as_read_in_45_bytes(row)]);
    let within = rows().flat_map(|row| [readings_of(row).to_vec(), readings_in_45_bytes(row).to_vec()].concat());
    let beyond = rows_beyond().flat_map(|row| [&readings_of(row)[..], &[refused_in_45_bytes(row)]].concat());
    of_letters.chain(within).chain(beyond)
}

fn as_written((says, numbers, support, radius): Row) -> Writing {
    writing(says, 53, numbers, support, radius.map(|_| ()), radius)
}

fn as_read((says, numbers, support, radius): Row) -> Reading {
    reading(says, bytes_of(numbers, support), radius.map(|_| (numbers, support)))
}

fn as_read_in_45_bytes((says, numbers, support, radius): Row) -> Reading {
    reading(says, short_bytes_of(numbers, support), radius.map(|_| (numbers, support)))
}

/// A letter's disk with the points of another, whose disk is another.
fn of_other_letters() -> impl Iterator<Item = Row> {
    let pairs = LETTERS.iter().flat_map(|one| LETTERS.iter().map(move |other| (one, other)));
    pairs.filter(|(one, other)| one.disk != other.disk).map(|(one, other)| (OTHER, one.disk, other.support, Err(15)))
}

/// Rows within the limits of 45 bytes, which both forms can hold.
fn rows() -> impl Iterator<Item = Row> {
    let fitting = FITTING.iter().map(|&(numbers, support, radius)| (FIT, numbers, support, Ok(radius)));
    let with_spare = WITH_SPARE.iter().map(refused(SPARE));
    fitting.chain(with_spare).chain(OF_ANOTHER_DISK.iter().chain(&BESIDE).map(refused(OTHER)))
}

/// Rows beyond them.
fn rows_beyond() -> impl Iterator<Item = Row> {
    let fitting = FITTING_BEYOND.iter().map(|&(numbers, support, radius)| (FIT, numbers, support, Ok(radius)));
    let with_spare = WITH_SPARE_BEYOND.iter().map(refused(SPARE));
    fitting.chain(with_spare).chain(OF_ANOTHER_DISK_BEYOND.iter().chain(&BESIDE_BEYOND).map(refused(OTHER)))
}

fn refused(says: &'static str) -> impl Fn(&(Numbers, Points)) -> Row {
    move |&(numbers, support)| (says, numbers, support, Err(15))
}

/// The same disk in other than lowest terms: no valid record has it.
fn doubled((x, y, e, s): Numbers) -> Numbers {
    (2 * x, 2 * y, 2 * e, 4 * s)
}

/// The points with the last one moved to this x, outside the em box: still in rising order.
fn moved_out(support: Points, x: i16) -> Vec<(i16, i16)> {
    let (last, others) = support.split_last().expect("one to three points");
    [others, &[(x, last.1)]].concat()
}

/// A row for the writer; then in a buffer with a byte too few, and made invalid, in a buffer of either length.
fn writings_of(row: Row) -> [Writing; 5] {
    let (_, numbers, support, radius) = row;
    let faulty = doubled(numbers);
    let no_room = "Writer: 8, 7 (01); 15 .. after 7 (02, item 9)";
    [
        as_written(row),
        writing(no_room, 52, numbers, support, Err(8), radius),
        writing(no_room, 52, faulty, support, Err(8), Err(7)),
        writing(FIRST, 53, faulty, support, Err(7), Err(7)),
        writing(FIRST, 53, numbers, &moved_out(support, 2049), Err(7), Err(7)),
    ]
}

/// A row for the reader; then made invalid, with a count that is one too high, and with a byte too few and too many.
fn readings_of(row: Row) -> [Reading; 6] {
    let (_, numbers, support, _) = row;
    let bytes = bytes_of(numbers, support);
    let (before, count) = (&bytes[..52], bytes[52]);
    [
        as_read(row),
        reading(FIRST, bytes_of(doubled(numbers), support), Err(7)),
        reading(FIRST, bytes_of(numbers, &moved_out(support, 2049)), Err(7)),
        reading(FIRST, [before, &[count + 1]].concat(), Err(7)),
        reading(FIRST, before.to_vec(), Err(7)),
        reading(FIRST, [before, &[count, 0]].concat(), Err(7)),
    ]
}

/// The same row in 45 bytes; then with a point outside their em box, and with a count that is one too high.
fn readings_in_45_bytes(row: Row) -> [Reading; 3] {
    let (_, numbers, support, _) = row;
    let bytes = short_bytes_of(numbers, support);
    let (before, count) = (&bytes[..44], bytes[44]);
    [
        as_read_in_45_bytes(row),
        reading(OLD_LIMITS, short_bytes_of(numbers, &moved_out(support, 1001)), Err(7)),
        reading(FIRST, [before, &[count + 1]].concat(), Err(7)),
    ]
}

/// A row beyond the limits of 45 bytes in so many.
fn refused_in_45_bytes((_, numbers, support, _): Row) -> Reading {
    reading(OLD_LIMITS, short_bytes_of(numbers, support), Err(7))
}

/// A disk with (0, −250), (1000, −247) and (1, 750) on its boundary.
const LARGE_E: Numbers = (997_008_997, 499_002_491, 1_999_994, 1_992_029_920_117_928_090);
const LARGE_E_POINTS: Points = &[(0, -250), (1, 750), (1000, -247)];

/// Letter F, a hundred units to the right and up.
const MOVED_F: Numbers = (612, 605, 6, 169);
const MOVED_F_POINTS: Points = &[(100, 100), (102, 103), (104, 100)];

/// A disk with (0, −512), (2048, −509) and (1, 1536) on its boundary: S is above 7 × 2⁶⁴.
const WIDE: Numbers = (8_577_370_109, 4_290_778_103, 8_388_602, 147_286_249_292_406_046_810);
const WIDE_POINTS: Points = &[(0, -512), (1, 1536), (2048, -509)];

/// S is next to 2⁶⁴, above it and below.
const OVER: Numbers = (4_631_689_451, 1_209_566_027, 4_103_578, 18_446_744_364_319_027_250);
const OVER_POINTS: Points = &[(178, -143), (2007, 864), (2023, -249)];
const UNDER: Numbers = (6_656_579_637, 2_191_374_377, 4_352_842, 18_446_741_001_380_373_610);
const UNDER_POINTS: Points = &[(544, 557), (1449, -480), (1887, 1423)];

/// The circle of radius 5 about (5, 5) has twelve whole points.
const FIVE: Numbers = (5, 5, 1, 25);

/// With the cutting radius.
#[rustfmt::skip]
const FITTING: [(Numbers, Points, u64); 42] = [
    // not the first set of a letter
    ((5, 5, 1, 50), &[(0, 10), (10, 0)], 8),
    ((500, 250, 1, 500_000), &[(0, 750), (1000, -250)], 708),
    // any opposite points, and any acute triangle, of many on one circle
    (FIVE, &[(0, 5), (10, 5)], 6),
    (FIVE, &[(1, 2), (9, 8)], 6),
    (FIVE, &[(1, 8), (9, 2)], 6),
    (FIVE, &[(2, 1), (8, 9)], 6),
    (FIVE, &[(2, 9), (8, 1)], 6),
    (FIVE, &[(5, 0), (5, 10)], 6),
    (FIVE, &[(0, 5), (8, 1), (8, 9)], 6),
    (FIVE, &[(1, 2), (5, 10), (9, 2)], 6),
    (FIVE, &[(1, 2), (2, 9), (10, 5)], 6),
    (FIVE, &[(1, 8), (5, 0), (8, 9)], 6),
    // the angle at (4, 5) is acute by the least amount
    ((50, 1, 10, 2501), &[(0, 0), (4, 5), (10, 0)], 6),
    // two points with the same x, in front or behind
    ((7, 24, 8, 625), &[(0, 0), (0, 6), (4, 3)], 4),
    ((25, 24, 8, 625), &[(0, 3), (4, 0), (4, 6)], 4),
    ((4, 3, 2, 25), &[(0, 0), (2, 4), (4, 0)], 3),
    // the pairs of sets that have a spare point below
    ((2, 3, 2, 13), &[(0, 0), (2, 3)], 2),
    ((3, 0, 1, 9), &[(0, 0), (6, 0)], 4),
    ((5, 5, 1, 32), &[(1, 1), (9, 9)], 6),
    ((1, 1, 2, 2), &[(0, 0), (1, 1)], 1),
    ((1, 1, 2, 2), &[(0, 1), (1, 0)], 1),
    // letter F elsewhere, to the edges of the em box of 1,000 units
    (MOVED_F, MOVED_F_POINTS, 3),
    ((12, -1495, 6, 169), &[(0, -250), (2, -247), (4, -250)], 3),
    ((12, 4487, 6, 169), &[(0, 747), (2, 750), (4, 747)], 3),
    ((5988, -1495, 6, 169), &[(996, -250), (998, -247), (1000, -250)], 3),
    ((5988, 4487, 6, 169), &[(996, 747), (998, 750), (1000, 747)], 3),
    // single points
    ((0, -250, 1, 0), &[(0, -250)], 1),
    ((0, 750, 1, 0), &[(0, 750)], 1),
    ((500, 250, 1, 0), &[(500, 250)], 1),
    ((1000, -250, 1, 0), &[(1000, -250)], 1),
    ((1000, 750, 1, 0), &[(1000, 750)], 1),
    // the centre on an edge of that box
    ((0, -499, 2, 1), &[(0, -250), (0, -249)], 1),
    ((1, -500, 2, 1), &[(0, -250), (1, -250)], 1),
    ((2000, 1499, 2, 1), &[(1000, 749), (1000, 750)], 1),
    ((1999, 1500, 2, 1), &[(999, 750), (1000, 750)], 1),
    ((0, 250, 1, 250_000), &[(0, -250), (0, 750)], 501),
    ((500, -250, 1, 250_000), &[(0, -250), (1000, -250)], 501),
    ((1000, 250, 1, 250_000), &[(1000, -250), (1000, 750)], 501),
    ((500, 750, 1, 250_000), &[(0, 750), (1000, 750)], 501),
    // large disks
    ((1000, 499, 2, 1_998_001), &[(0, -250), (1000, 749)], 707),
    ((999, 501, 2, 1_996_002), &[(0, -249), (999, 750)], 707),
    (LARGE_E, LARGE_E_POINTS, 706),
];

/// The smallest disk of the points is the disk, but that of two of them is the same.
#[rustfmt::skip]
const WITH_SPARE: [(Numbers, Points); 31] = [
    // right angles: letter E, the corners of letters D and K, and others
    ((3, 4, 1, 25), &[(0, 0), (0, 8), (6, 0)]),
    ((5, 5, 1, 50), &[(0, 0), (0, 10), (10, 0)]),
    ((5, 5, 1, 50), &[(0, 0), (0, 10), (10, 10)]),
    ((5, 5, 1, 50), &[(0, 0), (10, 0), (10, 10)]),
    ((5, 5, 1, 50), &[(0, 10), (10, 0), (10, 10)]),
    ((500, 250, 1, 500_000), &[(0, -250), (0, 750), (1000, 750)]),
    ((500, 250, 1, 500_000), &[(0, -250), (0, 750), (1000, -250)]),
    ((1000, 499, 2, 1_998_001), &[(0, -250), (1000, -250), (1000, 749)]),
    ((2, 0, 1, 4), &[(0, 0), (2, -2), (4, 0)]),
    ((2, 0, 1, 4), &[(0, 0), (2, 2), (4, 0)]),
    ((1, 1, 2, 2), &[(0, 0), (0, 1), (1, 1)]),
    ((1, 1, 2, 2), &[(0, 0), (0, 1), (1, 0)]),
    ((3, 0, 1, 9), &[(0, 0), (3, 3), (6, 0)]),
    (FIVE, &[(0, 5), (5, 10), (10, 5)]),
    (FIVE, &[(0, 5), (1, 2), (10, 5)]),
    (FIVE, &[(0, 5), (9, 8), (10, 5)]),
    (FIVE, &[(1, 2), (9, 2), (9, 8)]),
    (FIVE, &[(2, 1), (5, 10), (8, 9)]),
    // a third point inside the disk of two: obtuse angles, the last by the least amount
    ((5, 0, 1, 25), &[(0, 0), (5, 1), (10, 0)]),
    ((2, 0, 1, 4), &[(0, 0), (1, 1), (4, 0)]),
    ((2, 0, 1, 4), &[(0, 0), (3, -1), (4, 0)]),
    ((3, 0, 2, 9), &[(0, 0), (1, 1), (3, 0)]),
    ((500, 250, 1, 500_000), &[(0, -250), (999, 750), (1000, 750)]),
    ((500, 250, 1, 500_000), &[(0, -250), (0, -249), (1000, 750)]),
    ((3, 0, 1, 9), &[(0, 0), (1, 2), (6, 0)]),
    // a third point between the two
    ((1, 1, 1, 2), &[(0, 0), (1, 1), (2, 2)]),
    ((2, 0, 1, 4), &[(0, 0), (1, 0), (4, 0)]),
    ((2, 0, 1, 4), &[(0, 0), (2, 0), (4, 0)]),
    (FIVE, &[(0, 5), (5, 5), (10, 5)]),
    ((500, 250, 1, 500_000), &[(0, -250), (500, 250), (1000, 750)]),
    ((500, 250, 1, 500_000), &[(0, 750), (500, 250), (1000, -250)]),
];

#[rustfmt::skip]
const OF_ANOTHER_DISK: [(Numbers, Points); 50] = [
    // two of three, one of three, and one of two
    (F, &[(0, 0), (2, 3)]),
    (F, &[(0, 0), (4, 0)]),
    (F, &[(2, 3), (4, 0)]),
    (F, &[(0, 0)]),
    (F, &[(2, 3)]),
    (F, &[(4, 0)]),
    ((2, 0, 1, 4), &[(0, 0)]),
    ((2, 0, 1, 4), &[(4, 0)]),
    (LARGE_E, &[(0, -250), (1, 750)]),
    (LARGE_E, &[(0, -250), (1000, -247)]),
    (LARGE_E, &[(1, 750), (1000, -247)]),
    // two on the boundary that are not opposite, neighbours and nearly opposite ones
    ((5, 5, 1, 50), &[(0, 0), (0, 10)]),
    ((5, 5, 1, 50), &[(0, 0), (10, 0)]),
    ((5, 5, 1, 50), &[(0, 10), (10, 10)]),
    (FIVE, &[(0, 5), (1, 2)]),
    (FIVE, &[(0, 5), (9, 8)]),
    (FIVE, &[(1, 2), (1, 8)]),
    // obtuse angles on their circle: letter G, one by the least amount, and others
    ((5, -12, 1, 169), &[(0, 0), (5, 1), (10, 0)]),
    ((12, -1, 4, 145), &[(0, 0), (1, 2), (6, 0)]),
    (FIVE, &[(0, 5), (1, 2), (1, 8)]),
    (FIVE, &[(0, 5), (2, 1), (2, 9)]),
    (FIVE, &[(1, 8), (2, 1), (8, 1)]),
    // one point of two not on the boundary
    ((5, 0, 1, 25), &[(0, 0), (5, 1)]),
    ((2, 0, 1, 4), &[(0, 0), (2, 0)]),
    ((2, 0, 1, 4), &[(2, 0), (4, 0)]),
    // opposite points and acute triangles inside the disk and outside, about its centre
    ((2, 0, 1, 4), &[(1, 0), (3, 0)]),
    ((2, 0, 1, 1), &[(0, 0), (4, 0)]),
    ((2, 0, 1, 0), &[(0, 0), (4, 0)]),
    ((5, 5, 1, 50), &[(1, 1), (9, 9)]),
    ((5, 5, 1, 32), &[(0, 0), (10, 10)]),
    ((5, 5, 1, 50), &[(0, 5), (8, 1), (8, 9)]),
    ((5, 5, 1, 5), &[(0, 5), (8, 1), (8, 9)]),
    ((12, 5, 6, 676), F_POINTS),
    // in a row, longer than the disk is wide
    ((1, 1, 1, 2), &[(0, 0), (1, 1), (3, 3)]),
    // a disk moved from its points
    (MOVED_F, F_POINTS),
    (F, MOVED_F_POINTS),
    // single points: around them, through them, beside them
    ((0, 0, 1, 1), &[(0, 0)]),
    ((1000, 750, 1, 1), &[(1000, 750)]),
    ((500, 250, 1, 500_000), &[(500, 250)]),
    ((2, 0, 1, 4), &[(2, 0)]),
    ((1, 0, 1, 1), &[(0, 0)]),
    ((1, 0, 2, 1), &[(0, 0)]),
    (FIVE, &[(0, 5)]),
    ((1, 1, 2, 0), &[(0, 0)]),
    ((7, 7, 1, 0), &[(6, 7)]),
    ((7, 7, 1, 0), &[(7, 6)]),
    ((7, 7, 1, 0), &[(7, 8)]),
    ((7, 7, 1, 0), &[(8, 7)]),
    // a disk of radius 0 with more than its point
    ((7, 7, 1, 0), &[(7, 7), (7, 8)]),
    ((1, 1, 2, 0), &[(0, 0), (1, 1)]),
];

/// A number of the disk or a coordinate of a point a step away.
#[rustfmt::skip]
const BESIDE: [(Numbers, Points); 72] = [
    // S
    ((3, 0, 2, 8), &[(0, 0), (3, 0)]),
    ((3, 0, 2, 10), &[(0, 0), (3, 0)]),
    ((2, 0, 1, 3), &[(0, 0), (4, 0)]),
    ((2, 0, 1, 5), &[(0, 0), (4, 0)]),
    ((12, 5, 6, 168), F_POINTS),
    ((12, 5, 6, 170), F_POINTS),
    ((5, 5, 1, 24), &[(0, 5), (8, 1), (8, 9)]),
    ((5, 5, 1, 26), &[(0, 5), (8, 1), (8, 9)]),
    ((7, 24, 8, 624), &[(0, 0), (0, 6), (4, 3)]),
    ((7, 24, 8, 626), &[(0, 0), (0, 6), (4, 3)]),
    ((50, 1, 10, 2500), &[(0, 0), (4, 5), (10, 0)]),
    ((50, 1, 10, 2502), &[(0, 0), (4, 5), (10, 0)]),
    ((500, 250, 1, 499_999), &[(0, -250), (1000, 750)]),
    ((997_008_997, 499_002_491, 1_999_994, 1_992_029_920_117_928_089), LARGE_E_POINTS),
    ((997_008_997, 499_002_491, 1_999_994, 1_992_029_920_117_928_091), LARGE_E_POINTS),
    // X
    ((11, 5, 6, 169), F_POINTS),
    ((13, 5, 6, 169), F_POINTS),
    ((4, 5, 1, 25), &[(0, 5), (8, 1), (8, 9)]),
    ((6, 5, 1, 25), &[(0, 5), (8, 1), (8, 9)]),
    ((1, 0, 1, 4), &[(0, 0), (4, 0)]),
    ((3, 0, 1, 4), &[(0, 0), (4, 0)]),
    ((499, 250, 1, 500_000), &[(0, -250), (1000, 750)]),
    ((501, 250, 1, 500_000), &[(0, -250), (1000, 750)]),
    ((997_008_996, 499_002_491, 1_999_994, 1_992_029_920_117_928_090), LARGE_E_POINTS),
    ((997_008_998, 499_002_491, 1_999_994, 1_992_029_920_117_928_090), LARGE_E_POINTS),
    // Y
    ((3, -1, 2, 9), &[(0, 0), (3, 0)]),
    ((3, 1, 2, 9), &[(0, 0), (3, 0)]),
    ((7, 23, 8, 625), &[(0, 0), (0, 6), (4, 3)]),
    ((7, 25, 8, 625), &[(0, 0), (0, 6), (4, 3)]),
    ((5, 4, 1, 25), &[(0, 5), (8, 1), (8, 9)]),
    ((5, 6, 1, 25), &[(0, 5), (8, 1), (8, 9)]),
    ((500, 249, 1, 500_000), &[(0, -250), (1000, 750)]),
    ((500, 251, 1, 500_000), &[(0, -250), (1000, 750)]),
    ((997_008_997, 499_002_490, 1_999_994, 1_992_029_920_117_928_090), LARGE_E_POINTS),
    ((997_008_997, 499_002_492, 1_999_994, 1_992_029_920_117_928_090), LARGE_E_POINTS),
    // E
    ((12, 5, 5, 169), F_POINTS),
    ((12, 5, 7, 169), F_POINTS),
    ((997_008_997, 499_002_491, 1_999_993, 1_992_029_920_117_928_090), LARGE_E_POINTS),
    ((997_008_997, 499_002_491, 1_999_995, 1_992_029_920_117_928_090), LARGE_E_POINTS),
    // a point of three
    (MOVED_F, &[(99, 100), (102, 103), (104, 100)]),
    (MOVED_F, &[(101, 100), (102, 103), (104, 100)]),
    (MOVED_F, &[(100, 99), (102, 103), (104, 100)]),
    (MOVED_F, &[(100, 101), (102, 103), (104, 100)]),
    (MOVED_F, &[(100, 100), (101, 103), (104, 100)]),
    (MOVED_F, &[(100, 100), (103, 103), (104, 100)]),
    (MOVED_F, &[(100, 100), (102, 102), (104, 100)]),
    (MOVED_F, &[(100, 100), (102, 104), (104, 100)]),
    (MOVED_F, &[(100, 100), (102, 103), (103, 100)]),
    (MOVED_F, &[(100, 100), (102, 103), (105, 100)]),
    (MOVED_F, &[(100, 100), (102, 103), (104, 99)]),
    (MOVED_F, &[(100, 100), (102, 103), (104, 101)]),
    (LARGE_E, &[(1, -250), (1, 750), (1000, -247)]),
    (LARGE_E, &[(0, -249), (1, 750), (1000, -247)]),
    (LARGE_E, &[(0, -250), (0, 750), (1000, -247)]),
    (LARGE_E, &[(0, -250), (2, 750), (1000, -247)]),
    (LARGE_E, &[(0, -250), (1, 749), (1000, -247)]),
    (LARGE_E, &[(0, -250), (1, 750), (999, -247)]),
    (LARGE_E, &[(0, -250), (1, 750), (1000, -248)]),
    (LARGE_E, &[(0, -250), (1, 750), (1000, -246)]),
    // a point of two
    ((2, 0, 1, 4), &[(1, 0), (4, 0)]),
    ((2, 0, 1, 4), &[(0, -1), (4, 0)]),
    ((2, 0, 1, 4), &[(0, 1), (4, 0)]),
    ((2, 0, 1, 4), &[(0, 0), (3, 0)]),
    ((2, 0, 1, 4), &[(0, 0), (5, 0)]),
    ((2, 0, 1, 4), &[(0, 0), (4, -1)]),
    ((2, 0, 1, 4), &[(0, 0), (4, 1)]),
    ((500, 250, 1, 500_000), &[(1, -250), (1000, 750)]),
    ((500, 250, 1, 500_000), &[(0, -249), (1000, 750)]),
    ((500, 250, 1, 500_000), &[(0, -250), (999, 750)]),
    ((500, 250, 1, 500_000), &[(0, -250), (1000, 749)]),
    // a single point's disk, by its nearest neighbours
    ((0, 0, 1, 0), &[(0, 1)]),
    ((0, 0, 1, 0), &[(1, 0)]),
];

// ---- beyond the limits of 45 bytes

/// The em box's corners, and the disk of two of them.
const BOX: Numbers = (1024, 512, 1, 2_097_152);

/// With the cutting radius.
#[rustfmt::skip]
const FITTING_BEYOND: [(Numbers, Points, u64); 49] = [
    // by a unit beyond the em box of 1,000 units: a point, the centre, S/E² or E
    ((1001, 0, 1, 0), &[(1001, 0)], 1),
    ((0, -251, 1, 0), &[(0, -251)], 1),
    ((0, 751, 1, 0), &[(0, 751)], 1),
    ((1000, 0, 1, 1), &[(999, 0), (1001, 0)], 2),
    ((0, -250, 1, 1), &[(0, -251), (0, -249)], 2),
    ((0, 750, 1, 1), &[(0, 749), (0, 751)], 2),
    ((2001, 0, 2, 1), &[(1000, 0), (1001, 0)], 1),
    ((0, -501, 2, 1), &[(0, -251), (0, -250)], 1),
    ((0, 1501, 2, 1), &[(0, 750), (0, 751)], 1),
    ((1001, 500, 2, 2_002_001), &[(0, -250), (1001, 750)], 708),
    ((250_001_501, 125_250_748, 500_999, 125_251_250_000_501_005), &[(0, -250), (1, 751), (1001, -247)], 707),
    ((1_002_994_961, 498_006_505, 2_003_986, 2_004_006_024_173_780_650), &[(2, -252), (4, 751), (1001, -250)], 707),
    // single points
    ((0, -512, 1, 0), &[(0, -512)], 1),
    ((0, 1536, 1, 0), &[(0, 1536)], 1),
    ((1024, 512, 1, 0), &[(1024, 512)], 1),
    ((2048, -512, 1, 0), &[(2048, -512)], 1),
    ((2048, 1536, 1, 0), &[(2048, 1536)], 1),
    // letter F at the edges of the em box
    ((12, -3067, 6, 169), &[(0, -512), (2, -509), (4, -512)], 3),
    ((12, 9203, 6, 169), &[(0, 1533), (2, 1536), (4, 1533)], 3),
    ((12_276, -3067, 6, 169), &[(2044, -512), (2046, -509), (2048, -512)], 3),
    ((12_276, 9203, 6, 169), &[(2044, 1533), (2046, 1536), (2048, 1533)], 3),
    // the centre on an edge of the em box
    ((0, -1023, 2, 1), &[(0, -512), (0, -511)], 1),
    ((1, -1024, 2, 1), &[(0, -512), (1, -512)], 1),
    ((4096, 3071, 2, 1), &[(2048, 1535), (2048, 1536)], 1),
    ((4095, 3072, 2, 1), &[(2047, 1536), (2048, 1536)], 1),
    ((0, 512, 1, 1_048_576), &[(0, -512), (0, 1536)], 1025),
    ((1024, -512, 1, 1_048_576), &[(0, -512), (2048, -512)], 1025),
    ((2048, 512, 1, 1_048_576), &[(2048, -512), (2048, 1536)], 1025),
    ((1024, 1536, 1, 1_048_576), &[(0, 1536), (2048, 1536)], 1025),
    // large disks
    (BOX, &[(0, -512), (2048, 1536)], 1449),
    (BOX, &[(0, 1536), (2048, -512)], 1449),
    ((2048, 1023, 2, 8_384_513), &[(0, -512), (2048, 1535)], 1448),
    ((2047, 1025, 2, 8_380_418), &[(0, -511), (2047, 1536)], 1448),
    // S below 2⁶³ and above, below 2⁶⁴ and above, and with every high word
    ((1_559_055_257, 768_499_772, 1_780_530, 5_253_493_915_094_937_473), &[(0, -512), (1537, 1536), (2048, -100)], 1288),
    ((3_530_416_535, 2_383_782_281, 3_480_146, 9_223_371_907_131_237_050), &[(183, 950), (1583, 1347), (1692, 135)], 873),
    ((3_335_589_081, 731_664_755, 3_219_206, 9_223_372_097_824_983_970), &[(132, -42), (1723, 874), (1950, -7)], 944),
    ((2_926_437_281, 1_300_128_267, 2_733_286, 14_292_602_959_842_745_850), &[(0, -400), (1999, 1501), (2040, -511)], 1384),
    (UNDER, UNDER_POINTS, 987),
    (OVER, OVER_POINTS, 1047),
    ((3_810_776_127, 1_523_076_439, 3_997_166, 18_446_763_629_958_917_450), &[(205, -390), (760, 1438), (1751, 1101)], 1075),
    ((3_554_502_213, 3_216_146_299, 4_415_062, 18_446_792_931_183_781_490), &[(26, 1311), (1315, -100), (1522, 1386)], 973),
    ((5_107_328_065, 5_530_808_691, 5_098_438, 27_845_497_680_398_308_090), &[(4, 1360), (837, 63), (2017, 1286)], 1036),
    ((6_623_264_889, 3_575_770_061, 5_516_198, 37_818_259_938_367_183_930), &[(160, 1048), (749, -371), (1914, 1505)], 1115),
    ((8_022_869_867, 3_256_216_661, 6_615_274, 56_128_409_488_275_358_090), &[(81, 533), (1801, 1460), (1892, -414)], 1133),
    ((7_163_061_471, 3_530_721_067, 7_076_138, 82_204_108_614_625_724_810), &[(80, -380), (1789, 1518), (1936, -389)], 1282),
    ((9_223_040_943, 4_268_006_749, 7_624_174, 93_872_757_707_766_523_330), &[(64, 10), (2025, -415), (2034, 1527)], 1271),
    ((8_584_695_807, 2_148_532_225, 8_386_562, 115_202_189_471_595_358_210), &[(0, -512), (1023, 1536), (2048, -511)], 1280),
    (WIDE, WIDE_POINTS, 1447),
    // a right angle's two others
    ((1024, 512, 1, 2_095_105), &[(1, 1536), (2047, -512)], 1448),
];

#[rustfmt::skip]
const WITH_SPARE_BEYOND: [(Numbers, Points); 7] = [
    // right angles
    (BOX, &[(0, -512), (0, 1536), (2048, 1536)]),
    (BOX, &[(0, -512), (0, 1536), (2048, -512)]),
    ((1001, 500, 2, 2_002_001), &[(0, -250), (1001, -250), (1001, 750)]),
    ((1024, 512, 1, 2_095_105), &[(0, -511), (1, 1536), (2047, -512)]),
    // a third point inside the disk of two, or between them
    (BOX, &[(0, -512), (2047, 1536), (2048, 1536)]),
    (BOX, &[(0, -512), (0, -511), (2048, 1536)]),
    (BOX, &[(0, -512), (1024, 512), (2048, 1536)]),
];

#[rustfmt::skip]
const OF_ANOTHER_DISK_BEYOND: [(Numbers, Points); 14] = [
    // two of three, and one
    (WIDE, &[(0, -512), (1, 1536)]),
    (WIDE, &[(0, -512), (2048, -509)]),
    (WIDE, &[(1, 1536), (2048, -509)]),
    (WIDE, &[(0, -512)]),
    // obtuse angles on their circle, with S above 2⁶⁴
    ((5_510_774_811, 2_389_249_445, 3_819_466, 20_628_177_661_779_834_250), &[(291, 330), (490, 1337), (2043, -401)]),
    ((4_317_005_373, 2_858_045_303, 4_461_482, 31_507_329_692_933_952_730), &[(280, -413), (1472, -512), (2031, 1313)]),
    // another disk's points
    (WIDE, OVER_POINTS),
    (OVER, UNDER_POINTS),
    (WIDE, &[(0, -250), (1, 750), (1000, -247)]),
    // single points: around them and beside them
    ((2048, 1536, 1, 1), &[(2048, 1536)]),
    (BOX, &[(1024, 512)]),
    ((1024, 512, 1, 1_048_576), &[(0, 512)]),
    ((2047, 512, 1, 0), &[(2048, 512)]),
    ((4097, 0, 4, 0), &[(1024, 0)]),
];

/// A number of the disk or a coordinate of a point a step away, or S by 2⁶³ or 2⁶⁴.
#[rustfmt::skip]
const BESIDE_BEYOND: [(Numbers, Points); 30] = [
    // S
    ((8_577_370_109, 4_290_778_103, 8_388_602, 147_286_249_292_406_046_809), WIDE_POINTS),
    ((8_577_370_109, 4_290_778_103, 8_388_602, 147_286_249_292_406_046_811), WIDE_POINTS),
    ((8_577_370_109, 4_290_778_103, 8_388_602, 128_839_505_218_696_495_194), WIDE_POINTS),
    ((8_577_370_109, 4_290_778_103, 8_388_602, 27_382_412_813_293_961_306), WIDE_POINTS),
    ((8_577_370_109, 4_290_778_103, 8_388_602, 18_159_040_776_439_185_498), WIDE_POINTS),
    ((8_577_370_109, 4_290_778_103, 8_388_602, 7 << 64), WIDE_POINTS),
    ((8_577_370_109, 4_290_778_103, 8_388_602, 0), WIDE_POINTS),
    ((4_631_689_451, 1_209_566_027, 4_103_578, 18_446_744_364_319_027_249), OVER_POINTS),
    ((4_631_689_451, 1_209_566_027, 4_103_578, 18_446_744_364_319_027_251), OVER_POINTS),
    ((4_631_689_451, 1_209_566_027, 4_103_578, 290_609_475_634), OVER_POINTS),
    ((4_631_689_451, 1_209_566_027, 4_103_578, 1 << 64), OVER_POINTS),
    ((4_631_689_451, 1_209_566_027, 4_103_578, u64::MAX as u128), OVER_POINTS),
    ((6_656_579_637, 2_191_374_377, 4_352_842, 18_446_741_001_380_373_609), UNDER_POINTS),
    ((6_656_579_637, 2_191_374_377, 4_352_842, 18_446_741_001_380_373_611), UNDER_POINTS),
    ((6_656_579_637, 2_191_374_377, 4_352_842, 36_893_485_075_089_925_226), UNDER_POINTS),
    ((6_656_579_637, 2_191_374_377, 4_352_842, 9_223_368_964_525_597_802), UNDER_POINTS),
    ((1024, 512, 1, 2_097_151), &[(0, -512), (2048, 1536)]),
    // X, Y and E
    ((8_577_370_108, 4_290_778_103, 8_388_602, 147_286_249_292_406_046_810), WIDE_POINTS),
    ((8_577_370_110, 4_290_778_103, 8_388_602, 147_286_249_292_406_046_810), WIDE_POINTS),
    ((8_577_370_109, 4_290_778_102, 8_388_602, 147_286_249_292_406_046_810), WIDE_POINTS),
    ((8_577_370_109, 4_290_778_104, 8_388_602, 147_286_249_292_406_046_810), WIDE_POINTS),
    ((8_577_370_109, 4_290_778_103, 8_388_601, 147_286_249_292_406_046_810), WIDE_POINTS),
    ((8_577_370_109, 4_290_778_103, 8_388_603, 147_286_249_292_406_046_810), WIDE_POINTS),
    ((1023, 512, 1, 2_097_152), &[(0, -512), (2048, 1536)]),
    ((1024, 513, 1, 2_097_152), &[(0, -512), (2048, 1536)]),
    // a point
    (WIDE, &[(1, -512), (1, 1536), (2048, -509)]),
    (WIDE, &[(0, -512), (1, 1535), (2048, -509)]),
    (WIDE, &[(0, -512), (1, 1536), (2048, -508)]),
    (BOX, &[(0, -512), (2047, 1536)]),
    (BOX, &[(0, -511), (2048, 1536)]),
];
