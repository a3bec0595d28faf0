use crate::raw::{self, Point};

/// Centre (x/e, y/e), squared radius s/e². A disk that a call returns is in lowest terms, so equal disks have equal numbers: e is from 1
/// to 8,388,608, the centre in the em box and s at most 2,097,152 e², except that a disk of
/// [`smallest_disk_through`](crate::smallest_disk_through) may lie and reach anywhere. s may be above 2⁶⁴.
#[derive(Clone, Copy, PartialEq, Eq, Hash, Debug)]
pub struct Disk {
    pub x: i64,
    pub y: i64,
    pub e: u64,
    pub s: u128,
}

impl From<Disk> for raw::Disk {
    fn from(disk: Disk) -> raw::Disk {
        let Disk { x, y, e, s } = disk;
        raw::Disk { x, y, e, s: raw::Wide { hi: (s >> 64) as u64, lo: s as u64 } }
    }
}

impl From<raw::Disk> for Disk {
    fn from(disk: raw::Disk) -> Disk {
        let raw::Disk { x, y, e, s } = disk;
        Disk { x, y, e, s: u128::from(s.hi) << 64 | u128::from(s.lo) }
    }
}

/// One to three points whose own smallest disk is that of the whole list, in rising order.
///
/// # Belonging
///
/// The points of a set belong to a disk if their smallest disk is this disk, and with any one of them left out it is another, or there is
/// none because no point is left. So one point belongs to the disk of radius 0 that it is itself; two belong to the disk of which they
/// are the ends of a diameter; three belong to the disk that has them all on its boundary if their triangle is acute (a right angle's
/// point is one too many); and to no other disk.
///
/// [`whole_radius`](crate::whole_radius), [`preview`](crate::preview), [`write_record`](crate::write_record) and
/// [`read_record`](crate::read_record) test this, after all else, and refuse with
/// [`Refusal::PointsDoNotFit`](crate::Refusal::PointsDoNotFit). So a disk and set that one of them takes, and a record that is read, are
/// what [`smallest_disk`](crate::smallest_disk) gives for the named points alone; and whatever that gives, they take.
#[derive(Clone, Copy, PartialEq, Eq, Hash, Debug)]
pub enum SupportSet {
    One(Point),
    Two(Point, Point),
    Three(Point, Point, Point),
}

impl SupportSet {
    /// Its points.
    ///
    /// ```
    /// use volkhidar::{Point, SupportSet};
    ///
    /// let (a, b) = (Point { x: 0, y: 0 }, Point { x: 3, y: 0 });
    /// assert_eq!(SupportSet::Two(a, b).points(), [a, b]);
    /// ```
    pub fn points(&self) -> Vec<Point> {
        match *self {
            SupportSet::One(a) => vec![a],
            SupportSet::Two(a, b) => vec![a, b],
            SupportSet::Three(a, b, c) => vec![a, b, c],
        }
    }
}

impl From<SupportSet> for raw::Support {
    fn from(set: SupportSet) -> raw::Support {
        match set {
            SupportSet::One(a) => raw::Support { size: 1, points: [a, a, a] },
            SupportSet::Two(a, b) => raw::Support { size: 2, points: [a, b, b] },
            SupportSet::Three(a, b, c) => raw::Support { size: 3, points: [a, b, c] },
        }
    }
}

/// Of a set that a call returned: its size is 1, 2 or 3.
impl From<raw::Support> for SupportSet {
    fn from(support: raw::Support) -> SupportSet {
        let [a, b, c] = support.points;
        match support.size {
            1 => SupportSet::One(a),
            2 => SupportSet::Two(a, b),
            _ => SupportSet::Three(a, b, c),
        }
    }
}

/// A point as a drawing program has it.
#[derive(Clone, Copy, PartialEq, Debug)]
pub enum DrawnPoint {
    Whole(i32, i32),
    Drawn(f64, f64),
}

impl From<DrawnPoint> for raw::DrawnPoint {
    fn from(point: DrawnPoint) -> raw::DrawnPoint {
        match point {
            DrawnPoint::Whole(whole_x, whole_y) => raw::DrawnPoint { kind: 1, whole_x, whole_y, drawn_x: 0.0, drawn_y: 0.0 },
            DrawnPoint::Drawn(drawn_x, drawn_y) => raw::DrawnPoint { kind: 2, whole_x: 0, whole_y: 0, drawn_x, drawn_y },
        }
    }
}

/// The points of a list that [`smallest_disk_through`](crate::smallest_disk_through) has on the boundary. One point as both of `Two` is
/// chosen once.
#[derive(Clone, Copy, PartialEq, Eq, Hash, Debug)]
pub enum Chosen {
    One(Point),
    Two(Point, Point),
}

impl Chosen {
    /// As the C interface is passed them: one point twice.
    pub(crate) fn pair(self) -> (Point, Point) {
        match self {
            Chosen::One(a) => (a, a),
            Chosen::Two(a, b) => (a, b),
        }
    }
}

/// What [`smallest_disk`](crate::smallest_disk) finds.
#[derive(Clone, Copy, PartialEq, Eq, Hash, Debug)]
pub struct Enclosed {
    pub disk: Disk,
    /// The first support set: the one with the fewest points, and of those the least.
    pub support: SupportSet,
    /// The count of containment tests; at most (n³ + 5n) / 6 for n points.
    pub tests: u64,
}

/// What [`widest_stretch`](crate::widest_stretch) finds.
#[derive(Clone, Copy, PartialEq, Eq, Hash, Debug)]
pub struct Stretch {
    /// The two points that are farthest apart, a before b in rising order.
    pub a: Point,
    pub b: Point,
    /// The square of their distance, at most 8,388,608.
    pub w: u64,
}

/// What [`run_sheet`](crate::run_sheet) answers beside the records and numbers that it writes.
#[derive(Clone, Copy, PartialEq, Eq, Hash, Debug)]
pub struct SheetRun {
    /// How many glyphs were worked: so many records are at the front of the buffer.
    pub worked: usize,
    /// What is left of the allowance.
    pub left: u64,
}

/// What [`estimate_sheet`](crate::estimate_sheet) answers beside the lists that it fills.
#[derive(Clone, Copy, PartialEq, Eq, Hash, Debug)]
pub struct SheetEstimate {
    /// How many bytes the records of all acceptable descriptions make.
    pub bytes: usize,
    /// An allowance of tests that is enough for all of them: the sum of (n³ + 5n) / 6 for n points, always below 2⁶⁰.
    pub tests: u64,
}

/// The centre and the whole radius as floats: x and y at most 2⁻⁴³ units (about 1.1 × 10⁻¹³) from the disk's own centre, each on its axis, and
/// the radius exact.
#[derive(Clone, Copy, PartialEq, Debug)]
pub struct Preview {
    pub x: f64,
    pub y: f64,
    pub radius: f64,
}

#[cfg(test)]
mod tests {
    use super::*;

    #[test]
    fn the_words_of_s() {
        assert_eq!(size_of::<raw::Disk>(), 40);
        for (s, hi, lo) in [(0, 0, 0), (u128::from(u64::MAX), 0, u64::MAX), (7 << 64 | 5, 7, 5), (u128::MAX, u64::MAX, u64::MAX)] {
            let disk = Disk { x: -1, y: 2, e: 3, s };
            let words = raw::Disk { x: -1, y: 2, e: 3, s: raw::Wide { hi, lo } };
            assert_eq!((raw::Disk::from(disk), Disk::from(words)), (words, disk));
        }
    }
}
