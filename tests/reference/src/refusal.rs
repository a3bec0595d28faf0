//! Why a call turns its input down (document 01, "What a refused call hands back"; from 11 on, document 02).

/// A refusal; its number is the one that the papers give.
#[derive(Clone, Copy, PartialEq, Eq, Debug)]
pub enum Refusal {
    TooLong = 1,
    BadLine = 2,
    OutsideBox = 3,
    TooMany = 4,
    NoPoint = 5,
    BadSheet = 6,
    BadRecord = 7,
    NoRoom = 8,
    OddLength = 9,
    NoGlyph = 10,
    NotWhole = 11,
    NotInList = 12,
    NoDisk = 13,
    BadTolerance = 14,
    PointsDoNotFit = 15,
    NotAllowed = 16,
    TooMuch = 17,
}

impl Refusal {
    pub fn number(self) -> u8 {
        self as u8
    }
}

/// What a glyph's place in a list of numbers gets: 0, or the number of its refusal.
pub fn number_or_0<T>(glyph: &Result<T, Refusal>) -> u16 {
    glyph.as_ref().err().map_or(0, |refusal| refusal.number().into())
}
