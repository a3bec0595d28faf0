//! The disk engine: a corner list's checks, then disk, support set, count and order left.

use crate::geometry::{Disk, Point};
use crate::limits::MOST_POINTS;
use crate::procedure::{self, Cover};
use crate::refusal::Refusal;
use crate::smallest::smallest_disk;
use crate::support::{first_support_set, SupportSet};

/// What the engine returns beside the list that it leaves.
#[derive(Clone, PartialEq, Eq, Debug)]
pub struct Answer {
    pub disk: Disk,
    pub support: SupportSet,
    pub tests: u64,
}

/// x and y by turns.
pub fn flat(points: &[Point]) -> Vec<i16> {
    points.iter().flat_map(|p| [p.x, p.y]).collect()
}

pub fn points_of(list: &[i16]) -> Vec<Point> {
    list.chunks_exact(2).map(|pair| Point::new(pair[0], pair[1])).collect()
}

/// The engine on a corner list, x and y by turns: refusals 9, 5, 4, 3, and then the list is unchanged.
pub fn solve(list: &mut [i16]) -> Result<Answer, Refusal> {
    let mut points = accepted_points(list)?;
    let disk = smallest_disk(&points);
    let support = first_support_set(&points, &disk);
    let run = procedure::run(&mut points);
    assert_eq!(run.cover, Cover::Disk(disk), "the procedure and the search for the smallest disk differ");
    list.copy_from_slice(&flat(&points));
    Ok(Answer { disk, support, tests: run.tests })
}

/// The points of a list that keeps to the engine's checks: refusals 9, 5, 4, 3.
pub fn accepted_points(list: &[i16]) -> Result<Vec<Point>, Refusal> {
    if !list.len().is_multiple_of(2) {
        return Err(Refusal::OddLength);
    }
    let points = points_of(list);
    if points.is_empty() {
        return Err(Refusal::NoPoint);
    }
    if points.len() > MOST_POINTS {
        return Err(Refusal::TooMany);
    }
    if !points.iter().all(|p| p.is_in_em_box()) {
        return Err(Refusal::OutsideBox);
    }
    Ok(points)
}

#[cfg(test)]
mod tests {
    use super::*;

    fn refusal_of(mut list: Vec<i16>) -> Option<u8> {
        let before = list.clone();
        let refusal = solve(&mut list).err().map(Refusal::number);
        assert_eq!(list, before);
        refusal
    }

    #[test]
    fn refusals_come_in_their_order() {
        assert_eq!(refusal_of(vec![-1; 9_001]), Some(9));
        assert_eq!(refusal_of(vec![]), Some(5));
        assert_eq!(refusal_of(vec![-1; 8_194]), Some(4));
        assert_eq!(refusal_of(vec![0, 0, 2049, 0]), Some(3));
        assert_eq!(refusal_of(vec![0, 0, 0, -513]), Some(3));
        assert_eq!(refusal_of(vec![0, 1537]), Some(3));
        assert_eq!(refusal_of(vec![i16::MIN, i16::MAX]), Some(3));
    }

    #[test]
    fn edges_of_the_box_and_of_the_number_pass() {
        assert_eq!(refusal_of(vec![2048, -512]), None);
        assert_eq!(refusal_of(vec![0, 1536]), None);
        assert_eq!(refusal_of(vec![7; 8_192]), None);
    }
}
