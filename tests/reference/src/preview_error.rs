//! How true the preview is (document 02, item 14): by how much a float deviates from the fraction that it shows, exactly.

use crate::figures::Preview;
use crate::floats::{self, power_of_two, Binary};
use crate::geometry::{gcd, Disk};

/// Deviations are counted in 2⁻⁴³ units, the bound of item 14.
const BOUND: i32 = 43;

/// A float less a fraction: n/d times 2⁻⁴³ units, in lowest terms.
#[derive(Clone, Copy, PartialEq, Eq, Debug)]
pub struct Deviation {
    pub n: i128,
    pub d: i128,
}

impl Deviation {
    /// Whether the distance is at most 2⁻⁴³ units.
    pub fn is_within_bound(&self) -> bool {
        !self.is_beyond(1, 1)
    }

    /// Whether it is more than n/d of that.
    pub fn is_beyond(&self, n: i128, d: i128) -> bool {
        d * self.n.abs() > n * self.d
    }
}

/// What a float stands for less z/e, e above 0: none where it stands for no number. A float with too small a last digit for 128 bits is an
/// error.
pub fn deviation(v: f64, z: i128, e: i128) -> Option<Deviation> {
    let Binary { m, k } = floats::read(v)?;
    // m·2^k and z/e, both times e·2^h
    let h = (-k).max(0);
    let apart = i128::from(m) * e * power_of_two(k + h) - z * power_of_two(h);
    let (n, d) = (apart * power_of_two((BOUND - h).max(0)), e * power_of_two((h - BOUND).max(0)));
    let divisor = gcd(n, d);
    Some(Deviation { n: n / divisor, d: d / divisor })
}

/// By how much a preview deviates from X/E, and from Y/E.
pub fn centre_deviations(disk: &Disk, seen: &Preview) -> [Deviation; 2] {
    [(seen.x, disk.x), (seen.y, disk.y)].map(|(v, z)| deviation(v, z, disk.e).expect("a centre is finite"))
}

#[cfg(test)]
mod tests {
    use super::*;
    use crate::damage::point_lists::tests::{assert_kinds, KindOfList};
    use crate::drawing::whole;
    use crate::engine::{flat, solve, Answer};
    use crate::figures::{preview, whole_radius};
    use crate::geometry::Point;
    use crate::letters::{points, LETTERS};
    use crate::near_bound;
    use crate::random::Random;
    use crate::{edges, lists};

    /// A coordinate z/e of a centre, its float, and the float's deviation.
    struct Shown {
        z: i128,
        e: i128,
        v: f64,
        by: Deviation,
    }

    impl Shown {
        /// Whether the size of z/e is from a on and below b.
        fn is_between(&self, a: i128, b: i128) -> bool {
            (a * self.e..b * self.e).contains(&self.z.abs())
        }

        /// Whether it is below a power of two by less than a 64th of it.
        fn is_below_a_power(&self) -> bool {
            let size = 64 * self.z.abs();
            (0..=11).map(power_of_two).any(|power| (63 * power * self.e + 1..64 * power * self.e).contains(&size))
        }

        /// Whether it is less than a thousandth away from a whole number, and not whole.
        fn is_beside_a_whole(&self) -> bool {
            let rest = self.z.rem_euclid(self.e);
            rest > 0 && 1_000 * rest.min(self.e - rest) < self.e
        }
    }

    /// The preview of a disk, which must be accepted. The centre's floats are the nearest to X/E and Y/E: by their bits, and as those beside
    /// them are farther away; they are within the bound and not at it. The radius is R.
    fn shown(disk: &Disk, support: &[Point], name: &str) -> [Shown; 2] {
        let seen = preview(disk, support).unwrap_or_else(|refusal| panic!("{refusal:?}: {name}"));
        assert_eq!(whole(seen.radius), whole_radius(disk, support).ok().map(i128::from), "radius: {name}");
        let [by_x, by_y] = centre_deviations(disk, &seen);
        [(disk.x, seen.x, by_x), (disk.y, seen.y, by_y)].map(|(z, v, by)| {
            assert_eq!(v.to_bits(), floats::nearest(z, disk.e).to_bits(), "{z}/{}: {name}", disk.e);
            assert!(by.is_within_bound() && by.n.abs() < by.d, "{by:?}: {name}");
            let beside = [v.next_down(), v.next_up()].into_iter().filter(|_| z != 0);
            for other in beside.map(|w| deviation(w, z, disk.e).unwrap()) {
                assert!(by.n.abs() * other.d < other.n.abs() * by.d, "{by:?}, {other:?}: {name}");
            }
            Shown { z, e: disk.e, v, by }
        })
    }

    fn shown_for(list: &[Point], name: &str) -> [Shown; 2] {
        let Answer { disk, support, .. } = solve(&mut flat(list)).unwrap();
        shown(&disk, &support, name)
    }

    /// How many coordinates of the disks of 20,000 drawn lists are such at least.
    const KINDS: [KindOfList<Shown>; 28] = [
        ("0", 15, |s| s.z == 0 && s.v.to_bits() == 0),
        ("2048", 8, |s| s.z == 2048 * s.e),
        ("below 0", 800, |s| s.z < 0),
        ("below 0, too large", 30, |s| s.z < 0 && s.by.n > 0),
        ("below 0, too small", 30, |s| s.z < 0 && s.by.n < 0),
        ("above 0, too large", 4_000, |s| s.z > 0 && s.by.n > 0),
        ("above 0, too small", 4_000, |s| s.z > 0 && s.by.n < 0),
        ("exact", 10_000, |s| s.by.n == 0),
        ("exact, with a fraction", 4_000, |s| s.by.n == 0 && s.z % s.e != 0),
        ("beyond half the bound", 800, |s| s.by.is_beyond(1, 2)),
        ("beyond half the bound, too large", 400, |s| s.by.is_beyond(1, 2) && s.by.n > 0),
        ("beyond nine tenths of it", 150, |s| s.by.is_beyond(9, 10)),
        ("beyond 99 hundredths of it", 20, |s| s.by.is_beyond(99, 100)),
        ("below 1", 6, |s| s.z != 0 && s.is_between(0, 1)),
        ("from 1", 7, |s| s.is_between(1, 2)),
        ("from 2", 15, |s| s.is_between(2, 4)),
        ("from 4", 30, |s| s.is_between(4, 8)),
        ("from 8", 50, |s| s.is_between(8, 16)),
        ("from 16", 100, |s| s.is_between(16, 32)),
        ("from 32", 200, |s| s.is_between(32, 64)),
        ("from 64", 400, |s| s.is_between(64, 128)),
        ("from 128", 2_000, |s| s.is_between(128, 256)),
        ("from 256", 5_000, |s| s.is_between(256, 512)),
        ("from 512", 7_000, |s| s.is_between(512, 1024)),
        ("from 1024", 5_000, |s| s.is_between(1024, 2048)),
        ("below a power of two", 1_000, Shown::is_below_a_power),
        ("beside a whole number", 70, Shown::is_beside_a_whole),
        ("a large E", 500, |s| s.e > 4_000_000),
    ];

    #[test]
    fn every_kind_of_centre_is_shown_within_the_bound() {
        let all: Vec<Shown> = lists::mixed(20_000, 24).flat_map(|case| shown_for(&case.points, &case.name)).collect();
        assert_kinds(&all, &KINDS);
    }

    #[test]
    fn letters_long_lists_and_edges_are_shown_within_the_bound() {
        for letter in &LETTERS {
            shown_for(&points(letter.list), letter.name);
        }
        for case in lists::long() {
            shown_for(&case.points, &case.name);
        }
        let accepted = edges::writings().into_iter().filter(|edge| edge.gives.radius.is_ok());
        let all: Vec<Shown> = accepted.flat_map(|edge| shown(&edge.given.disk, &edge.given.support, edge.says)).collect();
        let far = all.iter().filter(|s| s.by.is_beyond(1, 2)).count();
        assert!(all.len() >= 6_000 && far >= 5, "{far} of {}", all.len());
    }

    /// In x and in y, too large and too small.
    #[test]
    fn drawn_disks_come_near_the_bound_and_stay_within() {
        let mut random = Random::new(14);
        let mut times = [[0; 2]; 2];
        for i in 0..400 {
            let (disk, support) = near_bound::draw(&mut random);
            let near = shown(&disk, &support, &format!("disk {i}")).map(|s| s.by.is_beyond(999, 1_000).then_some(s.by.n > 0));
            assert_ne!(near, [None, None], "disk {i}");
            for (axis, is_larger) in near.into_iter().enumerate() {
                times[axis][0] += usize::from(is_larger == Some(false));
                times[axis][1] += usize::from(is_larger == Some(true));
            }
        }
        assert!(times.iter().flatten().all(|&number| number >= 50), "{times:?}");
    }

    #[test]
    #[rustfmt::skip]
    fn deviations_by_hand() {
        let rows = [
            (0x0000_0000_0000_0000, 0, 5, Some((0, 1))),
            (0x3FE0_0000_0000_0000, 1, 2, Some((0, 1))),          // 1/2
            (0x3FF0_0000_0000_0000, 1, 2, Some((1 << 42, 1))),    // 1, which is larger than that
            (0xBFF0_0000_0000_0000, 1, 2, Some((-(3 << 42), 1))), // −1, which is smaller
            (0x3FD5_5555_5555_5555, 1, 3, Some((-1, 6_144))),     // 1/3
            (0xBFD5_5555_5555_5555, -1, 3, Some((1, 6_144))),     // −1/3
            (0x4090_0155_5555_5555, 3_073, 3, Some((-2, 3))),     // 1024 + 1/3
            (0x4090_0155_5555_5556, 3_073, 3, Some((4, 3))),      // the float above it
            (0x40A0_0000_0000_0000, 2_048, 1, Some((0, 1))),      // 2048
            (0x409F_FFFF_FFFF_FFFF, 2_048, 1, Some((-2, 1))),     // the float below it
            (0x43E0_0000_0000_0000, 1 << 63, 1, Some((0, 1))),    // 2⁶³
            (0x7FF0_0000_0000_0000, 1, 1, None),
            (0x7FF8_0000_0000_0000, 1, 1, None),
        ];
        for (bits, z, e, gives) in rows {
            let seen = deviation(f64::from_bits(bits), z, e);
            assert_eq!(seen, gives.map(|(n, d)| Deviation { n, d }), "{bits:016x} and {z}/{e}");
        }
        let is_within = |n: i128| Deviation { n, d: 3 }.is_within_bound();
        assert!(is_within(3) && is_within(-3) && !is_within(4) && !is_within(-4));
    }

    /// Nothing wraps.
    #[test]
    #[should_panic(expected = "overflow")]
    fn a_float_with_too_small_a_digit_is_an_error() {
        let _ = deviation(f64::from_bits(1), 1, 3);
    }
}
