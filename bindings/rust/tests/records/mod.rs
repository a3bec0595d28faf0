//! Records of 53 bytes and of 45, and disks with S above 2⁶⁴: what is read and written, and what damage gets, as the reference says.

use super::belonging::{compare_calls, disk_with, Numbers};
use super::{compare_figures, compare_list, compare_reader, compare_writer, ours, widened};
use reference::damage::single_faults;
use reference::engine::{flat, solve, Answer};
use reference::geometry::{Disk as ExpectedDisk, Point as ExpectedPoint};
use reference::limits::{EM, EM_1000};
use reference::random::Random;
use reference::record::{bytes_of, Form, LONG, SHORT};
use reference::{letters, lists};
use volkhidar::*;

const TWO_TO_64: u128 = 1 << 64;

// ---- disks with S above 2⁶⁴

/// Three points near three corners of the em box and up to five in its middle, whose disk has S above 2⁶⁴; and the answer.
fn wide(random: &mut Random) -> (Vec<ExpectedPoint>, Answer) {
    loop {
        let mut points = letters::points(&[(0, -512), (0, 1_536), (2_048, -512), (2_048, 1_536)]);
        random.shuffle(&mut points);
        points.truncate(3);
        for p in &mut points {
            *p = ExpectedPoint::new(inward(p.x, EM.left, random), inward(p.y, EM.foot, random));
        }
        points.extend((0..random.below(6)).map(|_| ExpectedPoint::new(random.coordinate(800, 1_200), random.coordinate(300, 700))));
        random.shuffle(&mut points);
        let answer = solve(&mut flat(&points)).unwrap();
        if answer.disk.s > TWO_TO_64 {
            return (points, answer);
        }
    }
}

/// Up to 99 units from an edge of the em box, where `least` is the least edge of the two.
fn inward(edge: i16, least: i16, random: &mut Random) -> i16 {
    let step = random.coordinate(0, 99);
    if edge == least {
        edge + step
    } else {
        edge - step
    }
}

#[test]
fn disks_with_a_wide_s() {
    for seed in 0..20_000 {
        let (points, answer) = wide(&mut Random::new(seed));
        let name = format!("seed {seed}");
        compare_list(&flat(&points), &name);
        assert_eq!(compare_calls(&answer.disk, &answer.support, &name), Some(0), "{name}");
    }
}

/// The next below and above, and others with the same low or high word.
#[test]
fn a_wide_s_moved() {
    for seed in 0..5_000 {
        let (_, Answer { disk, support, .. }) = wide(&mut Random::new(seed));
        let s = disk.s;
        let (low, high) = (s % TWO_TO_64, s - s % TWO_TO_64);
        let others = [s - 1, s + 1, s - TWO_TO_64, s + TWO_TO_64, low, high, high - 1, high + TWO_TO_64, s << 1, s >> 1, s >> 64];
        for s in others.into_iter().filter(|&other| other != s) {
            let name = format!("S {s}, seed {seed}");
            assert_ne!(compare_calls(&ExpectedDisk { s, ..disk }, &support, &name), Some(0), "{name}");
        }
    }
}

#[test]
fn disks_with_a_wide_s_damaged() {
    let mut times = [0; 16];
    for seed in 0..2_000 {
        let (points, answer) = wide(&mut Random::new(seed));
        for (disk, set) in single_faults(&answer.disk, &answer.support, &points) {
            let name = format!("{disk:?} with {set:?}, seed {seed}");
            if let Some(number) = compare_calls(&disk, &set, &name) {
                times[usize::from(number)] += 1;
            }
        }
    }
    assert!(times[0] == 0 && times[7] > 1_000 && times[15] > 10_000, "{times:?}");
}

/// At the ends of their types, and with E at its limit.
#[test]
fn the_largest_numbers() {
    let set = SupportSet::One(Point { x: 0, y: 0 });
    let squares = [0, 1, 63, 64, 65, 67, 68, 127].map(|bit| 1 << bit);
    let all_squares = squares.iter().flat_map(|&s: &u128| [s - 1, s, s + 1]).chain([u128::MAX, u128::MAX - 1]);
    for (s, e) in all_squares.flat_map(|s| [0, 1, 8_388_608, 8_388_609, 1 << 63, u64::MAX].map(|e| (s, e))) {
        for (x, y) in [(0, 0), (1, 0), (i64::MAX, i64::MIN), (i64::MIN, i64::MAX)] {
            let disk = Disk { x, y, e, s };
            let name = format!("{disk:?}");
            compare_figures(disk, set, &name);
            compare_writer(disk, set, 53, &name);
            compare_writer(disk, set, 52, &name);
        }
    }
}

// ---- records of 45 bytes

/// The answers for drawn lists in the em box of 1,000 units.
fn old_answers(count: u64) -> impl Iterator<Item = (String, Answer)> {
    (0..count).map(|seed| {
        let mut random = Random::new(seed);
        let n = 1 + random.below(16);
        let kind = random.pick(&lists::KINDS);
        let points = lists::draw_in(&EM_1000, kind, n, &mut random);
        (format!("{kind:?}, seed {seed}, {n} points"), solve(&mut flat(&points)).unwrap())
    })
}

/// The disk and points that were written into 45 bytes, and then the 53 bytes of the same.
#[test]
fn old_records_are_read_and_written_again() {
    let mut times = [0; 4];
    for (name, Answer { disk, support, .. }) in old_answers(50_000) {
        let old = bytes_of(&SHORT, &disk, &support);
        assert_eq!((old.len(), widened(&old)), (OLD_RECORD_LENGTH, bytes_of(&LONG, &disk, &support)), "{name}");
        assert!(read_record(&old).is_ok(), "{name}");
        compare_reader(&old, &name);
        times[support.len()] += 1;
    }
    assert!(times[1..].iter().all(|&number| number > 500), "{times:?}");
}

#[test]
fn old_records_with_single_faults() {
    let mut times = [0; 16];
    for (name, Answer { disk, support, .. }) in old_answers(5_000) {
        for (disk, set) in single_faults(&disk, &support, &[]) {
            let old = bytes_of(&SHORT, &disk, &set);
            compare_reader(&old, &format!("{disk:?} with {set:?}, {name}"));
            times[usize::from(ours(read_record(&old)).err().unwrap_or(0))] += 1;
        }
    }
    assert!([7, 15].iter().all(|&number| times[number] > 5_000), "{times:?}");
}

/// What it is; a disk and its points; and the refusal that is due for the record of 45 bytes, then for that of 53, or 0.
type Row = (&'static str, Numbers, &'static [(i16, i16)], [u8; 2]);

#[rustfmt::skip]
const BY_HAND: [Row; 26] = [
    ("letter F", (12, 5, 6, 169), &[(0, 0), (2, 3), (4, 0)], [0, 0]),
    ("letter F with a point left out", (12, 5, 6, 169), &[(0, 0), (4, 0)], [15, 15]),
    ("letter K", (500, 250, 1, 500_000), &[(0, -250), (1000, 750)], [0, 0]),
    ("letter K with S too large for 45 bytes", (500, 250, 1, 500_001), &[(0, -250), (1000, 750)], [7, 15]),
    ("the largest S for 45 bytes", (1, 0, 2_000_000, 2_000_000_000_000_000_000), &[(0, 0)], [15, 15]),
    ("S too large for 45 bytes", (1, 0, 2_000_000, 2_000_000_000_000_000_001), &[(0, 0)], [7, 15]),
    ("S too large for both", (1024, 512, 1, 2_097_153), &[(0, -512), (2048, 1536)], [7, 7]),
    ("the largest E for 45 bytes", (1, 0, 2_000_000, 0), &[(0, 0)], [15, 15]),
    ("E too large for 45 bytes", (1, 0, 2_000_001, 0), &[(0, 0)], [7, 15]),
    ("the largest E for 53 bytes", (1, 0, 8_388_608, 0), &[(0, 0)], [7, 15]),
    ("E too large for both", (1, 0, 8_388_609, 0), &[(0, 0)], [7, 7]),
    ("a corner of 1,000 units", (1000, 750, 1, 0), &[(1000, 750)], [0, 0]),
    ("its lowest corner", (0, -250, 1, 0), &[(0, -250)], [0, 0]),
    ("a point to the right of 1,000 units", (1001, 0, 1, 0), &[(1001, 0)], [7, 0]),
    ("a point below them", (0, -251, 1, 0), &[(0, -251)], [7, 0]),
    ("a point above them", (0, 751, 1, 0), &[(0, 751)], [7, 0]),
    ("a centre in 1,000 units, a point beside them", (1001, 0, 2, 1_002_001), &[(0, 0), (1001, 0)], [7, 0]),
    ("a centre to the right, points in them", (2001, 0, 2, 1), &[(1000, 0)], [7, 15]),
    ("a centre above, points in them", (0, 1501, 2, 1), &[(0, 750)], [7, 15]),
    ("a centre below, points in them", (0, -501, 2, 1), &[(0, -250)], [7, 15]),
    ("a corner of 2,048 units", (2048, 1536, 1, 0), &[(2048, 1536)], [7, 0]),
    ("a point outside both", (2048, 1536, 1, 0), &[(2049, 1536)], [7, 7]),
    ("a centre outside both", (4097, 0, 2, 1), &[(2048, 0)], [7, 7]),
    ("a common divisor", (12, 6, 6, 169), &[(0, 0), (4, 0)], [7, 7]),
    ("falling points", (2, 0, 1, 4), &[(4, 0), (0, 0)], [7, 7]),
    ("no E", (0, 0, 0, 0), &[(0, 0)], [7, 7]),
];

#[test]
fn records_by_hand() {
    for (name, numbers, set, due) in BY_HAND {
        for (form, due) in [SHORT, LONG].into_iter().zip(due) {
            let bytes = bytes_of(&form, &disk_with(numbers), &letters::points(set));
            let name = format!("{name}, {} bytes", bytes.len());
            assert_eq!(ours(read_record(&bytes)).err().unwrap_or(0), due, "{name}");
            compare_reader(&bytes, &name);
        }
    }
}

// ---- both lengths

/// Some records of 45 bytes, of 53, and of 53 with S above 2⁶⁴; all are valid and their points belong.
fn some_records() -> Vec<Vec<u8>> {
    let record = |form: Form, answer: Answer| bytes_of(&form, &answer.disk, &answer.support);
    let old = old_answers(300).map(|(_, answer)| record(SHORT, answer));
    let new = lists::mixed(500, 16).map(|case| record(LONG, solve(&mut flat(&case.points)).unwrap()));
    let with_wide_s = (0..100).map(|seed| record(LONG, wide(&mut Random::new(seed)).1));
    old.chain(new).chain(with_wide_s).collect()
}

/// Nearly all are refused, with 7 or 15; in a few the points are others and belong to the disk all the same.
#[test]
fn every_bit_flipped() {
    let mut times = [[0; 16]; 2];
    for (i, whole) in some_records().iter().enumerate() {
        for bit in 0..8 * whole.len() {
            let mut bytes = whole.clone();
            bytes[bit / 8] ^= 1 << (bit % 8);
            compare_reader(&bytes, &format!("bit {bit} of record {i}"));
            let number = ours(read_record(&bytes)).err().unwrap_or(0);
            times[usize::from(whole.len() == RECORD_LENGTH)][usize::from(number)] += 1;
        }
    }
    assert!(times.iter().all(|times| times[7] > 5_000 && times[15] > 5_000), "{times:?}");
}

/// A record with zeros, ones or another record behind it, cut at every length.
#[test]
fn every_length() {
    let records = some_records();
    for (i, bytes) in records.iter().enumerate() {
        for behind in [&[0; 110][..], &[255; 110], &records[(i + 1) % records.len()], bytes] {
            let long = [bytes, behind, &[1; 110]].concat();
            for length in 0..=110 {
                let name = format!("{length} bytes, record {i}");
                compare_reader(&long[..length], &name);
                let is_read = read_record(&long[..length]).is_ok();
                assert!(is_read == (length == bytes.len()), "{name}");
            }
        }
    }
}
