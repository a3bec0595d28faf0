//! The cutting radius (document 02, item 3) and the preview (document 01, "Cutting radius and preview").

use crate::geometry::{Disk, Point};
use crate::limits::EM;
use crate::record;
use crate::refusal::Refusal;

/// The least whole R with R²E² greater than S (document 01: the cutting radius): refusals 7, 15.
pub fn whole_radius(disk: &Disk, support: &[Point]) -> Result<u64, Refusal> {
    record::check(disk, support, &EM)?;
    Ok(least_radius(disk))
}

/// R·E is above the root of S exactly if it is above the root rounded down.
fn least_radius(disk: &Disk) -> u64 {
    u64::try_from(disk.s.isqrt() / disk.e.unsigned_abs() + 1).expect("a valid disk's radius is at most 1,449")
}

/// The centre and the whole radius as floats.
#[derive(Clone, Copy, PartialEq, Debug)]
pub struct Preview {
    pub x: f64,
    pub y: f64,
    pub radius: f64,
}

/// The preview: refusals 7, 15. The numbers of a valid disk are far below 2⁵³, so the conversions lose nothing.
pub fn preview(disk: &Disk, support: &[Point]) -> Result<Preview, Refusal> {
    let radius = whole_radius(disk, support)?;
    let e = disk.e as f64;
    Ok(Preview { x: disk.x as f64 / e, y: disk.y as f64 / e, radius: radius as f64 })
}

impl Preview {
    /// The bits by which previews are compared.
    pub fn bits(&self) -> [u64; 3] {
        [self.x, self.y, self.radius].map(f64::to_bits)
    }
}

#[cfg(test)]
mod tests {
    use super::*;
    use crate::letters::points;
    use crate::{engine, lists};

    #[test]
    fn the_radius_is_the_least_and_its_circle_keeps_off_every_point() {
        for case in lists::mixed(2_000, 40) {
            let answer = engine::solve(&mut engine::flat(&case.points)).unwrap();
            let r = u128::from(whole_radius(&answer.disk, &answer.support).unwrap());
            let square = |r: u128| (r * answer.disk.e.unsigned_abs()).pow(2);
            let keeps_off = |r: u128| case.points.iter().all(|&p| answer.disk.scaled_square_distance(p) < square(r));
            assert!(square(r) > answer.disk.s && keeps_off(r), "{}", case.name);
            assert!(square(r - 1) <= answer.disk.s && !keeps_off(r - 1), "{}", case.name);
            assert!((1..=1_449).contains(&r), "{}", case.name);
        }
    }

    /// Opposite corners of the em box.
    #[test]
    fn the_largest_radius() {
        let disk = Disk { x: 1024, y: 512, e: 1, s: 2_097_152 };
        assert_eq!(whole_radius(&disk, &points(&[(0, -512), (2048, 1536)])), Ok(1_449));
        assert_eq!(whole_radius(&disk, &points(&[(0, 1536), (2048, -512)])), Ok(1_449));
    }

    #[test]
    fn the_preview_of_letter_f() {
        let disk = Disk { x: 12, y: 5, e: 6, s: 169 };
        let seen = preview(&disk, &points(&[(0, 0), (2, 3), (4, 0)])).unwrap();
        assert_eq!(seen, Preview { x: 2.0, y: 5.0 / 6.0, radius: 3.0 });
    }

    #[test]
    fn zero_is_plus_zero() {
        let disk = Disk { x: 0, y: 0, e: 1, s: 0 };
        assert_eq!(preview(&disk, &[Point::new(0, 0)]).unwrap().bits(), [0, 0, 1f64.to_bits()]);
    }

    #[test]
    fn what_no_record_holds_is_refused() {
        let halved = Disk { x: 0, y: 0, e: 2, s: 0 };
        let around = Disk { x: 0, y: 0, e: 1, s: 1 };
        for (disk, refusal) in [(halved, Refusal::BadRecord), (around, Refusal::PointsDoNotFit)] {
            assert_eq!(whole_radius(&disk, &[Point::new(0, 0)]), Err(refusal));
            assert_eq!(preview(&disk, &[Point::new(0, 0)]), Err(refusal));
        }
    }
}
