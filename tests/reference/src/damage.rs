//! Drawn descriptions, point lists, sheets and records, many of them damaged, each by its seed.

pub(crate) mod point_lists;
mod records;

use crate::drawing::DrawnPoint;
use crate::engine;
use crate::geometry::Point;
use crate::inputs::{AppendCase, LoaderCase, PartCase, SheetCase};
use crate::limits::{EM, LIST_LENGTH};
use crate::lists::{self, Kind};
use crate::random::Random;
use crate::sheet;

pub use point_lists::{at_times_faulty, point_list};
pub use records::{any_record, any_writer, record, single_faults, writer};

// ---- descriptions

/// A short description, spaced as document 01 allows, and damaged in three cases of four.
pub fn description(random: &mut Random) -> Vec<u8> {
    let n = random.below(8);
    let mut text = styled(&lists::draw(Kind::Uniform, n, random), random);
    if random.chance(75) {
        for _ in 0..=random.below(2) {
            damage_text(&mut text, random);
        }
    }
    text
}

/// Such a description, and a list that has room, or in one case of ten has not.
pub fn loader(random: &mut Random) -> LoaderCase {
    let room = if random.chance(90) {
        LIST_LENGTH + random.pick(&[0, 1, 8])
    } else {
        random.pick(&[0, LIST_LENGTH - 2, LIST_LENGTH - 1])
    };
    LoaderCase { room, text: description(random) }
}

/// The points in file order with spaces, signs, leading zeros and blank lines wherever they are allowed.
pub fn styled(points: &[Point], random: &mut Random) -> Vec<u8> {
    let mut text = String::new();
    for p in points {
        while random.chance(10) {
            text += &(spaces(0, random) + "\n");
        }
        let (x, y) = (spelled(p.x, random), spelled(p.y, random));
        text += &(spaces(0, random) + &x + &spaces(1, random) + &y + &spaces(0, random) + "\n");
    }
    if random.chance(50) {
        text.pop();
    }
    text.into_bytes()
}

fn spaces(least: usize, random: &mut Random) -> String {
    let more = if random.chance(20) { random.below(4) } else { 0 };
    " ".repeat(least + more)
}

fn spelled(number: i16, random: &mut Random) -> String {
    let width = if random.chance(20) { 1 + random.below(4) } else { 1 };
    let sign = match number {
        ..0 => "-",
        0 => random.pick(&["", "-", "+"]),
        1.. => random.pick(&["", "", "", "+"]),
    };
    format!("{sign}{:0width$}", number.unsigned_abs())
}

/// Bytes that a line may not have, and those that it may have elsewhere.
const BYTES: &[u8] = b"0123456789- \n\n\r\t+.,x\0\x0b\x7f\xa0\xff";

/// Lines that are faulty, or only look so.
const LINES: [&str; 24] = [
    "\n2049 0\n",
    "\n-1 0\n",
    "\n0 1537\n",
    "\n0 -513\n",
    "\n12345 0\n",
    "\n0 00000\n",
    "\n1\n",
    "\n1 2 3\n",
    "\n-\n",
    "\n- 1\n",
    "\n5-3\n",
    "\n-0 -0\n",
    "\n1536 0750\n",
    "\n     \n",
    "\n9999 -9999\n",
    "\n--1 1\n",
    "\n+0 -0\n",
    "\n+2048 +1536\n",
    "\n+\n",
    "\n+ 1\n",
    "\n5+3\n",
    "\n++1 1\n",
    "\n+-1 1\n",
    "\n1 -+1\n",
];

fn damage_text(text: &mut Vec<u8>, random: &mut Random) {
    let at = random.below(text.len() + 1);
    let byte = random.pick(BYTES);
    match random.below(5) {
        0 => text.insert(at, byte),
        1 if at < text.len() => text[at] = byte,
        2 if at < text.len() => drop(text.remove(at)),
        3 => text.truncate(at),
        _ => drop(text.splice(at..at, random.pick(&LINES).bytes())),
    }
}

// ---- points from a drawing program

/// A point and a list with a few points at its front; in about half of the cases a coordinate, the number or the list's length is wrong.
pub fn append(random: &mut Random) -> AppendCase {
    let points = random.below(9);
    let kind = if random.chance(20) { Kind::Wide } else { random.pick(&lists::KINDS) };
    let mut front = engine::flat(&lists::draw(kind, points.max(1), random));
    front.truncate(2 * points);
    let n = if random.chance(90) { points as u64 } else { random.pick(&[0, 1, 20, 4_095, 4_096, 4_097, 1 << 40, u64::MAX]) };
    let room = if random.chance(95) { LIST_LENGTH + random.pick(&[0, 1, 8]) } else { random.pick(&[20, LIST_LENGTH - 1]) };
    let point = if random.chance(35) {
        DrawnPoint::Whole(whole_coordinate(EM.left, EM.right, random), whole_coordinate(EM.foot, EM.top, random))
    } else {
        DrawnPoint::Drawn(float_coordinate(EM.left, EM.right, random), float_coordinate(EM.foot, EM.top, random))
    };
    AppendCase { point, n, room, front }
}

/// Within the em box, or in one case of five at its edges or far from it.
fn whole_coordinate(least: i16, most: i16, random: &mut Random) -> i32 {
    let (least, most) = (i32::from(least), i32::from(most));
    if random.chance(80) {
        return random.between(least.into(), most.into()) as i32;
    }
    let any = random.word() as i32;
    random.pick(&[least, most, least - 1, most + 1, i32::MIN, i32::MAX, 65_536 + least, any])
}

/// Such a whole number, or in one case of three a float with a fraction, of great or small size, or any bits at all.
fn float_coordinate(least: i16, most: i16, random: &mut Random) -> f64 {
    let whole = f64::from(whole_coordinate(least, most, random));
    if random.chance(67) {
        return if whole == 0.0 && random.chance(50) { -whole } else { whole };
    }
    let bits = whole.to_bits();
    let neighbours = [bits.wrapping_add(1), bits.wrapping_sub(1), bits ^ 1 << random.below(64)].map(f64::from_bits);
    let ends = [0.5, 5e-324, 1e300, f64::MAX, f64::INFINITY, f64::NAN, 9_007_199_254_740_992.0, 9_223_372_036_854_775_808.0];
    let sized = f64::from_bits((random.below(2_048) as u64) << 52 | random.word() >> 12);
    match random.below(4) {
        0 => random.pick(&neighbours),
        1 => random.pick(&ends) * random.pick(&[1.0, -1.0]),
        2 => sized,
        _ => f64::from_bits(random.word()),
    }
}

// ---- sheets

/// A sheet of up to five parts with gaps and empty parts, damaged in two cases of three.
pub fn sheet(random: &mut Random) -> SheetCase {
    let count = random.below(6);
    let mut pairs = placed(count, random);
    let mut end = pairs.last().map_or(2, |&(offset, length)| usize::from(offset + length));
    end += random.pick(&[0, 0, 0, 1, 7]);
    let damage = random.below(6);
    match damage {
        0 => damage_pairs(&mut pairs, random),
        1 => end = random.below(end + 1),
        _ => (),
    }
    let directory = sheet::with_directory(&pairs, &[]);
    let mut bytes: Vec<u8> = (0..end.max(directory.len())).map(|i| b'a' + (i % 26) as u8).collect();
    bytes[..directory.len()].copy_from_slice(&directory);
    match damage {
        1 => bytes.truncate(end),
        2 => bytes[1] = random.below(9) as u8,
        3 => {
            let at = random.below(bytes.len());
            bytes[at] = random.word() as u8;
        }
        _ => (),
    }
    let k = if random.chance(75) { random.below(count.max(1)) as u16 } else { random.pick(&[0, 1, 5, 6, 255, 65_535]) };
    SheetCase { k, bytes }
}

/// Parts behind the directory, each at or after the end of the one before.
fn placed(count: usize, random: &mut Random) -> Vec<(u16, u16)> {
    let mut free = 2 + 4 * count as u16;
    let mut pairs = Vec::new();
    for _ in 0..count {
        let offset = free + random.pick(&[0, 0, 0, 1, 5]);
        let length = random.pick(&[0, 1, 2, 9, 30]);
        pairs.push((offset, length));
        free = offset + length;
    }
    pairs
}

/// An overlap, a part in the directory, parts out of order, or a part beyond the end.
pub(crate) fn damage_pairs(pairs: &mut [(u16, u16)], random: &mut Random) {
    if pairs.is_empty() {
        return;
    }
    let (i, j) = (random.below(pairs.len()), random.below(pairs.len()));
    match random.below(4) {
        0 => pairs[i].0 -= 1,
        1 => pairs[i].1 += 1,
        2 => pairs.swap(i, j),
        _ => pairs[i] = (random.word() as u16, random.word() as u16),
    }
}

/// A few bytes, and a place that lies within them, reaches beyond or is none at all.
pub fn part(random: &mut Random) -> PartCase {
    let bytes: Vec<u8> = (0..random.below(9)).map(|i| b'a' + i as u8).collect();
    let far = random.pick(&[usize::MAX, usize::MAX - 8, 1 << 63, 65_536]);
    let place = |random: &mut Random| if random.chance(90) { random.below(bytes.len() + 2) } else { far };
    let (start, length) = (place(random), place(random));
    PartCase { start, length, bytes }
}

#[cfg(test)]
mod tests {
    use super::*;
    use crate::refusal::Refusal;
    use crate::{description::points_of, sheet::glyph};

    /// How often each refusal comes up, with 0 for none, in `count` cases.
    pub(super) fn seen(count: usize, mut refusal: impl FnMut(&mut Random) -> Option<Refusal>) -> [usize; 16] {
        let mut random = Random::new(7);
        let mut times = [0; 16];
        for _ in 0..count {
            times[refusal(&mut random).map_or(0, |r| usize::from(r.number()))] += 1;
        }
        times
    }

    #[test]
    fn styled_descriptions_name_their_points() {
        let mut random = Random::new(1);
        for case in lists::mixed(300, 20) {
            assert_eq!(points_of(&styled(&case.points, &mut random)), Ok(case.points), "{}", case.name);
        }
    }

    #[test]
    fn descriptions_are_refused_for_each_reason() {
        let times = seen(5_000, |random| points_of(&description(random)).err());
        assert!([0, 2, 3, 5].iter().all(|&number| times[number] > 150), "{times:?}");
    }

    #[test]
    fn sheets_are_refused_for_each_reason() {
        let opened = |random: &mut Random| {
            let case = sheet(random);
            glyph(&case.bytes, case.k.into()).err()
        };
        let times = seen(5_000, opened);
        assert!([0, 6, 10].iter().all(|&number| times[number] > 500), "{times:?}");
    }
}
