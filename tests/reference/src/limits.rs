//! The limits of documents 01 and 02, each in one place. The edges by hand and the letters have figures of their own, which are not computed
//! from these.

/// The limits that go with an em.
#[derive(Clone, Copy, PartialEq, Eq, Debug)]
pub struct Limits {
    /// The em box: x from left to right, y from foot to top.
    pub left: i16,
    pub right: i16,
    pub foot: i16,
    pub top: i16,
    /// E of a disk, and its squared radius S/E², are at most these.
    pub most_e: i128,
    pub most_square: i128,
}

/// The em of 2,048 units, which every call goes by (document 02, item 10).
pub const EM: Limits = Limits { left: 0, right: 2048, foot: -512, top: 1536, most_e: 8_388_608, most_square: 2_097_152 };

/// The em of 1,000 units, which records of 45 bytes go by (document 01).
pub const EM_1000: Limits = Limits { left: 0, right: 1000, foot: -250, top: 750, most_e: 2_000_000, most_square: 500_000 };

impl Limits {
    /// How wide the em box is, and how high.
    pub const fn side(&self) -> i16 {
        self.right - self.left
    }
}

/// A description or sheet has at most this many bytes.
pub const MOST_BYTES: usize = 65_535;

/// A list has at most this many points.
pub const MOST_POINTS: usize = 4_096;

/// A list of traced points has at most this many, and a tolerance is at most this large (document 02, item 7).
pub const MOST_TRACED: usize = 1_024;
pub const MOST_TOLERANCE: i16 = 50;

/// A sheet is run with at most this many tests (document 02, item 12).
pub const MOST_ALLOWANCE: u64 = (1 << 60) - 1;

/// The numbers that the loader's list must have room for.
pub const LIST_LENGTH: usize = 2 * MOST_POINTS;

#[cfg(test)]
mod tests {
    use super::*;

    /// Twice the greatest cross product of two steps in the box, and a quarter of its diagonal's square.
    #[test]
    fn e_and_the_radius_follow_from_the_side() {
        for em in [EM, EM_1000] {
            let side = i128::from(em.side());
            assert_eq!(em.top - em.foot, em.side());
            assert_eq!((em.most_e, em.most_square), (2 * side * side, side * side / 2));
        }
    }
}
