//! Points from a drawing program's own values (document 02, item 2).

use crate::floats::{self, Binary};
use crate::geometry::Point;
use crate::limits::{EM, LIST_LENGTH, MOST_POINTS};
use crate::refusal::Refusal;

/// A point as the drawing program hands it over.
#[derive(Clone, Copy, Debug)]
pub enum DrawnPoint {
    Whole(i32, i32),
    Drawn(f64, f64),
}

/// Puts the point behind the first n points of the list and returns the new number: refusals 8, 11, 3, 4, and then the list is unchanged.
pub fn append(point: DrawnPoint, list: &mut [i16], n: u64) -> Result<usize, Refusal> {
    if list.len() < LIST_LENGTH {
        return Err(Refusal::NoRoom);
    }
    let (x, y) = place(point).ok_or(Refusal::NotWhole)?;
    let point = in_em_box(x, y).ok_or(Refusal::OutsideBox)?;
    if n >= MOST_POINTS as u64 {
        return Err(Refusal::TooMany);
    }
    let n = n as usize;
    list[2 * n..2 * n + 2].copy_from_slice(&[point.x, point.y]);
    Ok(n + 1)
}

fn place(point: DrawnPoint) -> Option<(i128, i128)> {
    match point {
        DrawnPoint::Whole(x, y) => Some((x.into(), y.into())),
        DrawnPoint::Drawn(x, y) => Some((whole(x)?, whole(y)?)),
    }
}

fn in_em_box(x: i128, y: i128) -> Option<Point> {
    let inside = (EM.left.into()..=EM.right.into()).contains(&x) && (EM.foot.into()..=EM.top.into()).contains(&y);
    inside.then(|| Point::new(x as i16, y as i16))
}

/// The whole number that a float stands for. One of 2^70 or more is given as a number of that size or more: no em box reaches it.
pub fn whole(v: f64) -> Option<i128> {
    let Binary { m, k } = floats::read(v)?;
    (k >= 0).then(|| i128::from(m) << k.min(70))
}

#[cfg(test)]
mod tests {
    use super::*;

    #[test]
    fn floats_of_every_class() {
        for (v, z) in [(0.0, 0), (-0.0, 0), (1.0, 1), (-512.0, -512), (1e15, 1_000_000_000_000_000)] {
            assert_eq!(whole(v), Some(z), "{v}");
        }
        assert_eq!(whole(2f64.powi(63)), Some(1 << 63));
        assert_eq!(whole(4_503_599_627_370_495.5), None);
        for v in [0.5, -1.5, f64::MIN_POSITIVE, 5e-324, f64::NAN, f64::INFINITY, f64::NEG_INFINITY] {
            assert_eq!(whole(v), None, "{v}");
        }
        assert!(whole(1e300) > Some(1 << 100) && whole(-f64::MAX) < Some(-(1 << 100)));
    }

    /// Against the language's own fraction.
    #[test]
    fn whole_is_without_a_fraction() {
        let mut random = crate::random::Random::new(7);
        for _ in 0..200_000 {
            let near = (random.between(-5_000, 5_000) as f64) / random.pick(&[1.0, 2.0, 4.0, 3.0]);
            for v in [near, f64::from_bits(random.word())] {
                assert_eq!(whole(v).is_some(), v.fract() == 0.0, "{v}");
                if v.abs() < 9e15 && v.fract() == 0.0 {
                    assert_eq!(whole(v), Some(v as i128), "{v}");
                }
            }
        }
    }
}
