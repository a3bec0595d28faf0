//! Drawn sheets to be run, each by its seed, and allowances that end at any of their glyphs.

use crate::inputs::RunCase;
use crate::limits::MOST_ALLOWANCE;
use crate::random::Random;
use crate::record::LONG;
use crate::run::{needs, solve_each};
use crate::sheet::{draw_bytes, draw_glyphs, draw_rooms, MOST_BUFFER, MOST_PLACES};

/// A sheet of up to `most` glyphs, an allowance, and the lengths of buffer and list. In about one case of four the call is refused.
pub fn draw(most: usize, random: &mut Random) -> RunCase {
    let count = random.below(most + 1);
    let glyphs = draw_glyphs(count, random);
    let solved = solve_each(glyphs.iter().map(Vec::as_slice));
    let acceptable = solved.iter().flatten().count();
    let [buffer, numbers] = draw_rooms([(LONG.length(), MOST_BUFFER), (1, MOST_PLACES)], count, acceptable, random);
    RunCase { allowance: draw_allowance(&needs(&solved), random), buffer, numbers, sheet: draw_bytes(glyphs, random) }
}

/// What one of the glyphs needs, one less or one more; anything up to what all need or about it; the ends of what is allowed; numbers of more
/// than 32 bits; and in one case of twenty too much.
fn draw_allowance(needs: &[u64], random: &mut Random) -> u64 {
    let total = needs.last().copied().unwrap_or(0);
    let need = if needs.is_empty() { 0 } else { random.pick(needs) };
    match random.below(20) {
        0 => 0,
        1..5 => need,
        5..8 => need.saturating_sub(1),
        8..10 => need + 1,
        10..13 => random.below(total as usize + 1) as u64,
        13 => total,
        14 => total.saturating_sub(1),
        15..17 => total + random.below(100) as u64,
        17 => need.saturating_sub(1) + (1 << random.pick(&[16, 31, 32, 33, 53, 59])),
        18 => MOST_ALLOWANCE - random.below(2) as u64,
        _ => random.pick(&[1 << 60, (1 << 60) + need, 1 << 61, 1 << 63, u64::MAX]),
    }
}
