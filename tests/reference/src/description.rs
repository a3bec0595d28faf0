//! The description loader (document 01, "Description, sheet, record").

use crate::geometry::Point;
use crate::limits::{LIST_LENGTH, MOST_BYTES, MOST_POINTS};
use crate::refusal::Refusal;

/// Writes the points at the front of the list and returns how many: refusals 8, 1, then by line 2, 3, 4, at the end 5, and then
/// the list is unchanged.
pub fn load(text: &[u8], list: &mut [i16]) -> Result<usize, Refusal> {
    if list.len() < LIST_LENGTH {
        return Err(Refusal::NoRoom);
    }
    let points = points_of(text)?;
    for (place, p) in list.chunks_exact_mut(2).zip(&points) {
        place.copy_from_slice(&[p.x, p.y]);
    }
    Ok(points.len())
}

/// The points that a description names, in file order.
pub fn points_of(text: &[u8]) -> Result<Vec<Point>, Refusal> {
    if text.len() > MOST_BYTES {
        return Err(Refusal::TooLong);
    }
    let mut points = Vec::new();
    for line in text.split(|&byte| byte == b'\n') {
        if line.iter().all(|&byte| byte == b' ') {
            continue;
        }
        let p = point_on(line)?;
        if points.len() == MOST_POINTS {
            return Err(Refusal::TooMany);
        }
        points.push(p);
    }
    if points.is_empty() {
        return Err(Refusal::NoPoint);
    }
    Ok(points)
}

/// The point on a line that is not blank: its form first, then the em box.
fn point_on(line: &[u8]) -> Result<Point, Refusal> {
    let mut words = line.split(|&byte| byte == b' ').filter(|word| !word.is_empty());
    let numbers = (words.next(), words.next(), words.next());
    let (Some(x), Some(y), None) = numbers else {
        return Err(Refusal::BadLine);
    };
    let (Some(x), Some(y)) = (number(x), number(y)) else {
        return Err(Refusal::BadLine);
    };
    let p = Point::new(x, y);
    if p.is_in_em_box() {
        Ok(p)
    } else {
        Err(Refusal::OutsideBox)
    }
}

/// One plus, one minus or neither, then 1 to 4 decimal digits.
fn number(word: &[u8]) -> Option<i16> {
    let (sign, digits) = match word {
        [b'+', digits @ ..] => (1, digits),
        [b'-', digits @ ..] => (-1, digits),
        digits => (1, digits),
    };
    let is_number = (1..=4).contains(&digits.len()) && digits.iter().all(u8::is_ascii_digit);
    is_number.then(|| sign * digits.iter().fold(0, |value, digit| 10 * value + i16::from(digit - b'0')))
}

/// A description that names the points, one to a line.
pub fn describe(points: &[Point]) -> Vec<u8> {
    let lines: Vec<String> = points.iter().map(|p| format!("{} {}\n", p.x, p.y)).collect();
    lines.concat().into_bytes()
}

#[cfg(test)]
mod tests {
    use super::*;

    const MARK: i16 = 12_321;

    /// The points loaded, or the number of the refusal; what must stay unchanged is checked.
    fn loaded(text: &[u8]) -> Result<Vec<(i16, i16)>, u8> {
        let mut list = vec![MARK; LIST_LENGTH + 3];
        let result = load(text, &mut list);
        let written = 2 * result.unwrap_or(0);
        assert!(list[written..].iter().all(|&number| number == MARK));
        result.map_err(Refusal::number)?;
        Ok(list[..written].chunks(2).map(|pair| (pair[0], pair[1])).collect())
    }

    #[test]
    fn lines_of_every_form() {
        assert_eq!(loaded(b"0 0"), Ok(vec![(0, 0)]));
        assert_eq!(loaded(b"\n  \n 1   -2  \n\n0003 -0\n"), Ok(vec![(1, -2), (3, 0)]));
        assert_eq!(loaded(b"-0 0750"), Ok(vec![(0, 750)]));
        assert_eq!(loaded(b"+12 -7\n+0 +0750"), Ok(vec![(12, -7), (0, 750)]));
        assert_eq!(loaded(b"2048 -512\n2048 1536\n  "), Ok(vec![(2048, -512), (2048, 1536)]));
    }

    #[test]
    fn faulty_lines() {
        let faulty: [&[u8]; 26] = [
            b"12345 0", b"02048 0", b"1", b"1 2 3", b"-", b"- 1", b"5-3", b"1 -", b"--1 2", b"1 2\r\n", b"1\t2", b"1 2\0",
            b"1,2", b"1.0 2", b"a 1", b"\r\n", b"\t", b"1 2-", b"1\x0b2", b"+", b"+ 1", b"5+3", b"1 +", b"++1 2", b"+-1 2",
            b"-+1 2",
        ];
        for line in faulty {
            assert_eq!(loaded(line), Err(2), "{line:?}");
        }
    }

    #[test]
    fn edges_of_the_box() {
        for outside in ["2049 0", "-1 0", "0 -513", "0 1537", "9999 -9999"] {
            assert_eq!(loaded(outside.as_bytes()), Err(3), "{outside}");
        }
    }

    #[test]
    fn no_point() {
        for blank in ["", "\n", "   ", " \n\n  \n"] {
            assert_eq!(loaded(blank.as_bytes()), Err(5), "{blank:?}");
        }
    }

    #[test]
    fn the_first_faulty_line_decides() {
        assert_eq!(loaded(b"1 1\n2049 0\nx"), Err(3));
        assert_eq!(loaded(b"1 1\nx\n2049 0"), Err(2));
    }

    #[test]
    fn the_most_points() {
        let most = b"1 2\n".repeat(MOST_POINTS);
        assert_eq!(loaded(&most).unwrap().len(), MOST_POINTS);
        let and = |more: &[u8]| loaded(&[&most, more].concat()).map(|points| points.len());
        assert_eq!(and(b"  \n\n "), Ok(MOST_POINTS));
        assert_eq!(and(b"3 4"), Err(4));
        assert_eq!(and(b"3 4 5"), Err(2));
        assert_eq!(and(b"3 1537"), Err(3));
        assert_eq!(and(b"3 4\nx"), Err(4));
    }

    #[test]
    fn length_and_room() {
        let mut text = b"1 2\n".to_vec();
        text.resize(MOST_BYTES, b' ');
        assert_eq!(loaded(&text), Ok(vec![(1, 2)]));
        text.push(b' ');
        assert_eq!(loaded(&text), Err(1));
        let mut short = vec![MARK; LIST_LENGTH - 1];
        assert_eq!(load(&text, &mut short), Err(Refusal::NoRoom));
        assert!(short.iter().all(|&number| number == MARK));
    }
}
