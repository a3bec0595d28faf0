//! Drawn sheets to be estimated, each by its seed: those that are drawn to be run, at times with a glyph of many points.

use crate::description::{describe, points_of};
use crate::inputs::EstimateCase;
use crate::lists::{self, KINDS};
use crate::random::Random;
use crate::sheet::{draw_bytes, draw_glyphs, draw_rooms, MOST_PLACES};

/// A sheet of up to `most` glyphs, and the lengths of both lists. In about one case of four the call is refused.
pub fn draw(most: usize, random: &mut Random) -> EstimateCase {
    let count = random.below(most + 1);
    let mut glyphs = draw_glyphs(count, random);
    if count > 0 && random.chance(10) {
        glyphs[random.below(count)] = many_points(random);
    }
    let acceptable = glyphs.iter().filter(|text| points_of(text).is_ok()).count();
    let [points, refusals] = draw_rooms([(1, MOST_PLACES); 2], count, acceptable, random);
    EstimateCase { points, refusals, sheet: draw_bytes(glyphs, random) }
}

/// A description of 60 to 179 points.
fn many_points(random: &mut Random) -> Vec<u8> {
    let n = 60 + random.below(120);
    describe(&lists::draw(random.pick(&KINDS), n, random))
}
