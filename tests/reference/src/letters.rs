//! The letters A to K of document 01, with R by document 02, item 3. Where no count or order is given, the value is that of an
//! earlier exact implementation, of which this one is independent.

use crate::geometry::Point;

/// A letter with everything that is known of it.
pub struct Letter {
    pub name: &'static str,
    pub list: &'static [(i16, i16)],
    /// X, Y, E, S.
    pub disk: (i128, i128, i128, u128),
    pub support: &'static [(i16, i16)],
    pub radius: u64,
    pub tests: u64,
    pub left: &'static [(i16, i16)],
}

pub fn points(pairs: &[(i16, i16)]) -> Vec<Point> {
    pairs.iter().map(|&(x, y)| Point::new(x, y)).collect()
}

#[rustfmt::skip]
pub const LETTERS: [Letter; 11] = [
    Letter { name: "A", list: &[(0, 0)], disk: (0, 0, 1, 0), support: &[(0, 0)], radius: 1, tests: 1, left: &[(0, 0)] },
    Letter { name: "B", list: &[(0, 0), (3, 0)], disk: (3, 0, 2, 9), support: &[(0, 0), (3, 0)], radius: 2, tests: 3, left: &[(3, 0), (0, 0)] },
    Letter { name: "C", list: &[(0, 0), (4, 0)], disk: (2, 0, 1, 4), support: &[(0, 0), (4, 0)], radius: 3, tests: 3, left: &[(4, 0), (0, 0)] },
    Letter { name: "D", list: &[(0, 0), (10, 0), (0, 10), (10, 10)], disk: (5, 5, 1, 50), support: &[(0, 0), (10, 10)], radius: 8, tests: 7, left: &[(0, 10), (10, 0), (0, 0), (10, 10)] },
    Letter { name: "E", list: &[(0, 0), (6, 0), (0, 8)], disk: (3, 4, 1, 25), support: &[(0, 8), (6, 0)], radius: 6, tests: 6, left: &[(0, 8), (6, 0), (0, 0)] },
    Letter { name: "F", list: &[(0, 0), (4, 0), (2, 3)], disk: (12, 5, 6, 169), support: &[(0, 0), (2, 3), (4, 0)], radius: 3, tests: 7, left: &[(2, 3), (0, 0), (4, 0)] },
    Letter { name: "G", list: &[(0, 0), (10, 0), (5, 1)], disk: (5, 0, 1, 25), support: &[(0, 0), (10, 0)], radius: 6, tests: 4, left: &[(10, 0), (0, 0), (5, 1)] },
    Letter { name: "H", list: &[(7, 7), (7, 7), (7, 7)], disk: (7, 7, 1, 0), support: &[(7, 7)], radius: 1, tests: 3, left: &[(7, 7), (7, 7), (7, 7)] },
    Letter { name: "I", list: &[(0, 0), (1, 1), (2, 2)], disk: (1, 1, 1, 2), support: &[(0, 0), (2, 2)], radius: 2, tests: 7, left: &[(2, 2), (0, 0), (1, 1)] },
    Letter { name: "J", list: &[(0, 0), (2, 0), (4, 0)], disk: (2, 0, 1, 4), support: &[(0, 0), (4, 0)], radius: 3, tests: 7, left: &[(4, 0), (0, 0), (2, 0)] },
    Letter { name: "K", list: &[(0, -250), (1000, -250), (0, 750), (1000, 750)], disk: (500, 250, 1, 500_000), support: &[(0, -250), (1000, 750)], radius: 708, tests: 7, left: &[(0, 750), (1000, -250), (0, -250), (1000, 750)] },
];

#[cfg(test)]
mod tests {
    use super::*;
    use crate::geometry::Disk;
    use crate::{description, engine, figures, listing};

    #[test]
    fn every_letter_comes_out_as_given() {
        for letter in &LETTERS {
            let mut list = engine::flat(&points(letter.list));
            let answer = engine::solve(&mut list).unwrap();
            let (x, y, e, s) = letter.disk;
            assert_eq!(answer.disk, Disk { x, y, e, s }, "{}", letter.name);
            assert_eq!(answer.support, points(letter.support), "{}", letter.name);
            assert_eq!(answer.tests, letter.tests, "{}", letter.name);
            assert_eq!(engine::points_of(&list), points(letter.left), "{}", letter.name);
            assert_eq!(figures::whole_radius(&answer.disk, &answer.support), Ok(letter.radius), "{}", letter.name);
        }
    }

    #[test]
    fn a_description_of_a_letter_leads_to_the_same() {
        for letter in &LETTERS {
            let text = description::describe(&points(letter.list));
            let (answer, left) = listing::solved(&text).unwrap();
            assert_eq!(answer.tests, letter.tests, "{}", letter.name);
            assert_eq!(left, points(letter.left), "{}", letter.name);
        }
    }

    #[test]
    fn the_order_does_not_change_the_support_set_of_d() {
        for list in [[(10, 10), (0, 10), (10, 0), (0, 0)], [(10, 0), (0, 10), (0, 0), (10, 10)]] {
            let answer = engine::solve(&mut engine::flat(&points(&list))).unwrap();
            assert_eq!(answer.support, points(&[(0, 0), (10, 10)]));
        }
    }
}
