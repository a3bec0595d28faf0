//! Disks with their points for the preview.

use crate::edges;
use crate::inputs::WriterCase;
use crate::near_bound;
use crate::random::Random;

/// `count` disks whose preview deviates by nearly the bound.
pub fn near_the_bound(random: &mut Random, count: usize) -> Vec<WriterCase> {
    let drawn = (0..count).map(|_| near_bound::draw(random));
    drawn.map(|(disk, support)| WriterCase { room: 53, disk, support }).collect()
}

/// The edges by hand, and drawn ones.
pub fn stored_previews() -> impl Iterator<Item = WriterCase> {
    edges::previews().into_iter().map(|edge| edge.given).chain(near_the_bound(&mut Random::new(14), 300))
}

#[cfg(test)]
mod tests {
    use super::*;
    use crate::figures::preview;
    use crate::preview_error::{centre_deviations, Deviation};
    use crate::vectors::writer;

    /// In x and in y, too large and too small.
    #[test]
    fn previews_on_every_side_of_the_centre_are_among_the_cases() {
        let by: Vec<[Deviation; 2]> = stored_previews()
            .map(|case| centre_deviations(&case.disk, &preview(&case.disk, &case.support).expect("points that belong")))
            .collect();
        let near = |axis: usize, sign: i128| {
            let is_near = |by: &&[Deviation; 2]| by[axis].n.signum() == sign && by[axis].is_beyond(999, 1_000);
            by.iter().filter(is_near).count()
        };
        let times = [near(0, 1), near(0, -1), near(1, 1), near(1, -1)];
        assert!(times.iter().all(|&number| number >= 50), "{times:?}");
        assert!(by.iter().all(|by| by.iter().all(Deviation::is_within_bound)));
    }

    #[test]
    fn every_one_is_written() {
        assert!(stored_previews().all(|case| writer(&case).printed.contains("\nwritten\n")));
    }
}
