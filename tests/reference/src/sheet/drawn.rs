//! Drawn sheets to be run or estimated, each by its seed: cheap glyphs, expensive ones and faulty ones in every order, and the lengths of what
//! is lent for them.

use crate::damage::{self, damage_pairs};
use crate::description::{describe, points_of};
use crate::geometry::Point;
use crate::limits::{MOST_BYTES, MOST_POINTS};
use crate::lists::{self, Kind, KINDS};
use crate::random::Random;
use crate::sheet::{laid_out, with_directory};

/// The greatest lengths of a buffer and of a list that are drawn.
pub const MOST_BUFFER: usize = 65_535;
pub const MOST_PLACES: usize = 1_300;

/// Sheets with more glyphs than this have tiny ones only.
const FEW: usize = 40;

/// Descriptions, some of them faulty, or none or all; in one sheet of 200 one has a point too many.
pub fn draw_glyphs(count: usize, random: &mut Random) -> Vec<Vec<u8>> {
    let faulty = random.pick(&[0, 0, 15, 15, 40, 40, 40, 100]);
    let one = |random: &mut Random| match (count <= FEW, random.chance(faulty)) {
        (true, false) => damage::styled(&acceptable(random), random),
        (true, true) => refused(random),
        (false, false) => describe(&cheap(random)),
        (false, true) => random.pick(&["", "\n", "7", "0 -513"]).into(),
    };
    let mut glyphs: Vec<Vec<u8>> = (0..count).map(|_| one(random)).collect();
    if count > 0 && random.below(200) == 0 {
        glyphs[random.below(count)] = b"0 0\n".repeat(MOST_POINTS + 1);
    }
    glyphs
}

/// Cheap, plain or expensive: Welzl's procedure needs many tests for points from the inside out.
fn acceptable(random: &mut Random) -> Vec<Point> {
    let (kinds, n): (&[Kind], usize) = match random.below(10) {
        0..4 => return cheap(random),
        4..8 => (&KINDS, 1 + random.below(12)),
        _ => (&[Kind::Growing, Kind::ByDistance, Kind::Convex], 12 + random.below(40)),
    };
    lists::draw(random.pick(kinds), n, random)
}

/// One to three points of any kind, or one again and again.
fn cheap(random: &mut Random) -> Vec<Point> {
    let n = 1 + random.below(3);
    let points = lists::draw(random.pick(&KINDS), n, random);
    if random.chance(70) {
        points
    } else {
        vec![points[0]; 2 * n - 1]
    }
}

/// A description with no point in one case of five, else one damaged until it is refused.
fn refused(random: &mut Random) -> Vec<u8> {
    if random.chance(20) {
        return random.pick(&["", "", "\n", "  \n "]).into();
    }
    loop {
        let text = damage::description(random);
        if points_of(&text).is_err() {
            return text;
        }
    }
}

/// The lengths of two rows that are lent for so many glyphs: the size of what a glyph needs in each, and the greatest length. At times it is as
/// if faulty glyphs needed no room.
pub fn draw_rooms(rows: [(usize, usize); 2], count: usize, acceptable: usize, random: &mut Random) -> [usize; 2] {
    let lengths = rows.map(|(size, most)| {
        let count = if random.chance(4) { acceptable } else { count };
        draw_length(size, count, random).min(most)
    });
    if random.chance(3) {
        return rows.map(|(size, _)| size * acceptable);
    }
    lengths
}

/// So many places of this size: exactly, with some to spare, or too few by one.
fn draw_length(size: usize, count: usize, random: &mut Random) -> usize {
    let exact = size * count;
    match random.below(40) {
        0..24 => exact,
        24..31 => exact + 1 + random.below(size),
        31..37 => exact + random.below(20 * size),
        37 => exact + MOST_BUFFER,
        _ => exact.saturating_sub(1),
    }
}

/// The sheet's bytes, at times with gaps; in one case of ten damaged, in four of a thousand as long as a sheet may be or a byte longer.
pub fn draw_bytes(glyphs: Vec<Vec<u8>>, random: &mut Random) -> Vec<u8> {
    let gaps = random.pick(&[0, 0, 40]);
    let behind_gaps: Vec<_> = glyphs.into_iter().map(|glyph| (gap(gaps, random), glyph)).collect();
    let (mut pairs, mut body) = laid_out(&behind_gaps);
    body.extend(gap(gaps, random));
    let damage = random.below(1_000);
    if damage < 60 {
        damage_pairs(&mut pairs, random);
    }
    let mut sheet = with_directory(&pairs, &body);
    match damage {
        60..90 => sheet.truncate(random.below(sheet.len())),
        90..100 => sheet[1] ^= 1,
        100..104 => sheet.resize(MOST_BYTES + random.below(2), b'8'),
        _ => (),
    }
    sheet
}

/// In so many of 100 cases a few bytes as descriptions have them, else none.
fn gap(percent: usize, random: &mut Random) -> Vec<u8> {
    let length = if random.chance(percent) { 1 + random.below(5) } else { 0 };
    (0..length).map(|_| random.pick(b"0123456789 -\nx")).collect()
}
