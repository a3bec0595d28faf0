//! Sheets that are run and estimated, and the lists that are lent for them.

use reference::random::Random;
use volkhidar::{MOST_BYTES, MOST_GLYPHS};

/// What stands in a list of numbers before the call.
pub const PLACE: u16 = 0xEEEE;

/// That the places are as before the call.
pub fn assert_untouched(places: &[u16], name: &str) {
    assert!(places.iter().all(|&place| place == PLACE), "a place that was to stay: {name}");
}

/// A point, letter F, two faulty glyphs and an empty one.
pub const GLYPHS: [&[u8]; 5] = [b"7 7", b"0 0\n4 0\n2 3", b"x", b"2049 0", b""];

/// All rows of up to five of these glyphs, each glyph by its place above.
pub fn rows_of_glyphs() -> impl Iterator<Item = Vec<usize>> {
    let row = |length: u32, order: usize| (0..length).map(|place| order / 5_usize.pow(place) % 5).collect();
    (0..=5).flat_map(move |length| (0..5_usize.pow(length)).map(move |order| row(length, order)))
}

/// The parts of a sheet with as many glyphs as it can have that are a point each, and of the same behind an empty one.
pub fn most_points_apart() -> [Vec<Vec<u8>>; 2] {
    let mut parts = vec![b"9 7".to_vec(); (MOST_BYTES - 2) / 7];
    let points = parts.clone();
    parts[0].clear();
    [points, parts]
}

/// The parts of the sheet with the most glyphs: they have no bytes.
pub fn most_glyphs() -> Vec<Vec<u8>> {
    vec![vec![]; MOST_GLYPHS]
}

/// How many glyphs the first bytes of any bytes name, up to 40.
pub fn few_named(bytes: &[u8]) -> usize {
    let named = bytes.get(..2).map_or(0, |count| usize::from(count[0]) * 256 + usize::from(count[1]));
    named.min(40)
}

/// This length, or nearly.
pub fn near(length: usize, random: &mut Random) -> usize {
    (length + random.pick(&[1, 1, 1, 1, 1, 1, 2, 0, 60])).saturating_sub(1)
}
