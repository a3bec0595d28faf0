//! Sheets for the edges, written as a row of names, one for each glyph: a letter of document 01 stands for its description, and others as
//! [`text`] has them.

use crate::description::describe;
use crate::letters::{points, LETTERS};
use crate::sheet::{laid_out, with_directory};

/// The bytes of a glyph by its name. A digit is the number that its description is refused with.
fn text(name: char) -> Vec<u8> {
    match name {
        'a' => b"0 0".to_vec(),
        'h' => again(100),
        'm' => b"0 0\n".repeat(4_096),
        's' => [&b"0 0\n"[..], &[b' '; 65_525]].concat(),
        '2' => b"0 0\n1\n".to_vec(),
        '3' => b"2049 0".to_vec(),
        '4' => b"0 0\n".repeat(4_097),
        '5' => b" \n".to_vec(),
        '_' => vec![],
        _ => describe(&points(LETTERS[place_of(name)].list)),
    }
}

/// A description of one point named n times, with no line feed at its end.
pub fn again(n: usize) -> Vec<u8> {
    vec!["0 0"; n].join("\n").into()
}

/// Which of the letters of document 01 has the disk and rim set of the glyph.
pub fn place_of(name: char) -> usize {
    if name.is_lowercase() {
        0
    } else {
        name as usize - 'A' as usize
    }
}

/// The sheet of these glyphs; a dot is a byte of a gap, the digit 9.
pub fn sheet_of(names: &str) -> Vec<u8> {
    let mut behind_gaps = Vec::new();
    let mut gap = Vec::new();
    for name in names.chars() {
        match name {
            '.' => gap.push(b'9'),
            _ => behind_gaps.push((std::mem::take(&mut gap), text(name))),
        }
    }
    let (pairs, body) = laid_out(&behind_gaps);
    [with_directory(&pairs, &body), gap].concat()
}

pub fn glyphs_of(names: &str) -> impl Iterator<Item = char> + '_ {
    names.chars().filter(|&name| name != '.')
}
