//! What the listing program prints for a description (document 01, "Letters to try").

use crate::description;
use crate::engine::{self, Answer};
use crate::figures;
use crate::geometry::Point;
use crate::limits::LIST_LENGTH;
use crate::refusal::Refusal;

/// The listing's output, to the byte.
pub fn listing(text: &[u8]) -> String {
    match solved(text) {
        Ok((answer, _)) => lines(&answer),
        Err(refusal) => refused(refusal),
    }
}

/// Loader and engine, the engine given the loader's points alone: the answer and the order left.
pub fn solved(text: &[u8]) -> Result<(Answer, Vec<Point>), Refusal> {
    let mut list = vec![0; LIST_LENGTH];
    let count = description::load(text, &mut list)?;
    let given = &mut list[..2 * count];
    let answer = engine::solve(given)?;
    Ok((answer, engine::points_of(given)))
}

/// The four lines of an accepted description.
pub fn lines(answer: &Answer) -> String {
    let disk = &answer.disk;
    let radius = figures::whole_radius(disk, &answer.support).expect("every answer makes a valid record");
    format!(
        "disk {} {} {} {}\nrim{}\nwhole {radius}\ntests {}\n",
        disk.x,
        disk.y,
        disk.e,
        disk.s,
        coordinates(&answer.support),
        answer.tests
    )
}

/// Each number with a space before it.
pub fn coordinates(points: &[Point]) -> String {
    points.iter().map(|p| format!(" {} {}", p.x, p.y)).collect()
}

pub fn refused(refusal: Refusal) -> String {
    format!("refused {}\n", refusal.number())
}

#[cfg(test)]
mod tests {
    use super::*;

    #[test]
    fn letter_f_is_printed_as_document_01_has_it() {
        let expected = "disk 12 5 6 169\nrim 0 0 2 3 4 0\nwhole 3\ntests 7\n";
        assert_eq!(listing(b"0 0\n4 0\n2 3\n"), expected);
    }

    #[test]
    fn refusals_are_one_line() {
        assert_eq!(listing(b"\n"), "refused 5\n");
        assert_eq!(listing(b"12345 0"), "refused 2\n");
        assert_eq!(listing(&[b' '; 65_536]), "refused 1\n");
    }
}
