//! Points, disks and containment (document 01, "Disk and rim").

use crate::limits::{Limits, EM};

/// A point (document 01: a corner). Points are ordered by x, then y.
#[derive(Clone, Copy, PartialEq, Eq, PartialOrd, Ord, Hash, Debug)]
pub struct Point {
    pub x: i16,
    pub y: i16,
}

impl Point {
    pub fn new(x: i16, y: i16) -> Point {
        Point { x, y }
    }

    /// Whether it is in the em box of 2,048 units.
    pub fn is_in_em_box(self) -> bool {
        self.is_in(&EM)
    }

    pub fn is_in(self, em: &Limits) -> bool {
        (em.left..=em.right).contains(&self.x) && (em.foot..=em.top).contains(&self.y)
    }

    pub fn wide(self) -> (i128, i128) {
        (i128::from(self.x), i128::from(self.y))
    }

    fn norm(self) -> i128 {
        let (x, y) = self.wide();
        x * x + y * y
    }
}

/// Centre (x/e, y/e), squared radius s/e² (document 01: X, Y, E, S). A caller's S is any number of 128 bits.
#[derive(Clone, Copy, PartialEq, Eq, Debug)]
pub struct Disk {
    pub x: i128,
    pub y: i128,
    pub e: i128,
    pub s: u128,
}

pub fn gcd(a: i128, b: i128) -> i128 {
    if b == 0 {
        a.abs()
    } else {
        gcd(b, a % b)
    }
}

/// (b − a) × (p − a): above 0 where p is to the left of the way from a to b, 0 where the three are in a row.
pub fn cross(a: Point, b: Point, p: Point) -> i128 {
    let ((ax, ay), (bx, by), (px, py)) = (a.wide(), b.wide(), p.wide());
    (bx - ax) * (py - ay) - (by - ay) * (px - ax)
}

/// (p − a) · (p − b)
pub fn scalar(a: Point, b: Point, p: Point) -> i128 {
    let ((ax, ay), (bx, by), (px, py)) = (a.wide(), b.wide(), p.wide());
    (px - ax) * (px - bx) + (py - ay) * (py - by)
}

/// The centre (x/e, y/e) of the circle through a, b and c, in any terms and with e of either sign; e is 0 where they lie in a row.
pub fn centre_of_three(a: Point, b: Point, c: Point) -> (i128, i128, i128) {
    let ((ax, ay), (bx, by), (cx, cy)) = (a.wide(), b.wide(), c.wide());
    let (aa, bb, cc) = (a.norm(), b.norm(), c.norm());
    let e = 2 * (ax * (by - cy) + bx * (cy - ay) + cx * (ay - by));
    let x = aa * (by - cy) + bb * (cy - ay) + cc * (ay - by);
    let y = aa * (cx - bx) + bb * (ax - cx) + cc * (bx - ax);
    (x, y, e)
}

impl Disk {
    /// The disk with centre (x/e, y/e), e other than 0, and `through` on its boundary: written with e at least 1 and no common
    /// divisor of x, y and e.
    pub fn about(x: i128, y: i128, e: i128, through: Point) -> Disk {
        let divisor = gcd(gcd(x, y), e) * e.signum();
        let (x, y, e) = (x / divisor, y / divisor, e / divisor);
        let mut disk = Disk { x, y, e, s: 0 };
        disk.s = disk.scaled_square_distance(through);
        disk
    }

    pub fn of_one(a: Point) -> Disk {
        let (x, y) = a.wide();
        Disk::about(x, y, 1, a)
    }

    /// The disk whose diameter is a b.
    pub fn of_two(a: Point, b: Point) -> Disk {
        let ((ax, ay), (bx, by)) = (a.wide(), b.wide());
        Disk::about(ax + bx, ay + by, 2, a)
    }

    /// The disk with a, b and c on its boundary: none if they lie in a row.
    pub fn of_three(a: Point, b: Point, c: Point) -> Option<Disk> {
        let (x, y, e) = centre_of_three(a, b, c);
        (e != 0).then(|| Disk::about(x, y, e, a))
    }

    /// (xE − X)² + (yE − Y)², to be compared with S.
    pub fn scaled_square_distance(&self, p: Point) -> u128 {
        let (x, y) = p.wide();
        square_of(x * self.e - self.x, y * self.e - self.y)
    }

    pub fn holds(&self, p: Point) -> bool {
        self.scaled_square_distance(p) <= self.s
    }

    /// Whether p is on the boundary (document 01: on the rim).
    pub fn has_on_boundary(&self, p: Point) -> bool {
        self.scaled_square_distance(p) == self.s
    }

    pub fn holds_all(&self, points: &[Point]) -> bool {
        points.iter().all(|&p| self.holds(p))
    }

    /// Whether E, the centre and the radius are within the limits of every smallest disk of the em box. E comes first: with a larger one
    /// the products could overflow.
    pub fn is_within(&self, em: &Limits) -> bool {
        let scaled = |least: i16, most: i16| i128::from(least) * self.e..=i128::from(most) * self.e;
        (1..=em.most_e).contains(&self.e)
            && scaled(em.left, em.right).contains(&self.x)
            && scaled(em.foot, em.top).contains(&self.y)
            && self.s <= (em.most_square * self.e * self.e).unsigned_abs()
    }

    /// Whether the radius is below the other's.
    pub fn is_smaller_than(&self, other: &Disk) -> bool {
        self.s * (other.e * other.e).unsigned_abs() < other.s * (self.e * self.e).unsigned_abs()
    }
}

/// dx² + dy²
pub fn square_of(dx: i128, dy: i128) -> u128 {
    (dx * dx + dy * dy).unsigned_abs()
}

#[cfg(test)]
mod tests {
    use super::*;

    #[test]
    fn three_points_in_a_row_have_no_circle() {
        let [a, b, c] = [Point::new(0, 0), Point::new(1, 2), Point::new(3, 6)];
        assert_eq!(Disk::of_three(a, b, c), None);
        assert_eq!(Disk::of_three(a, a, c), None);
    }

    #[test]
    fn the_circle_does_not_depend_on_the_order() {
        let [a, b, c] = [Point::new(0, -512), Point::new(2048, -509), Point::new(1, 1536)];
        let disk = Disk::of_three(a, b, c).unwrap();
        assert_eq!(disk.e, 8_388_602);
        for other in [Disk::of_three(b, a, c), Disk::of_three(c, b, a), Disk::of_three(b, c, a)] {
            assert_eq!(other, Some(disk));
        }
        assert!([a, b, c].iter().all(|&p| disk.has_on_boundary(p)));
    }

    #[test]
    fn disks_are_in_lowest_terms() {
        let disk = Disk::of_two(Point::new(0, 0), Point::new(4, 0));
        assert_eq!(disk, Disk { x: 2, y: 0, e: 1, s: 4 });
    }
}
