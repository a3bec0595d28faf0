use std::error::Error;
use std::fmt;

/// Why a call turns its input down: the first rule that the input breaks.
#[derive(Clone, Copy, PartialEq, Eq, Hash, Debug)]
pub enum Refusal {
    /// A description or sheet over 65,535 bytes.
    TooLong = 1,
    /// A line that is neither blank nor a point.
    BadLine = 2,
    /// A point outside the em box; a traced point whose square leaves it.
    OutsideBox = 3,
    /// More than 4,096 points; more than 1,024 traced points.
    TooMany = 4,
    /// No point; no traced point.
    NoPoint = 5,
    /// A sheet shorter than its directory, or whose pairs break the rules.
    BadSheet = 6,
    /// A record of another length than 53 or 45 bytes, with a count that disagrees with its repeats, or not valid; a disk and
    /// support set that a valid record of 53 bytes could not hold.
    BadRecord = 7,
    /// A list under 8,192 numbers given to [`load`](crate::load) or [`append_point`](crate::append_point); a buffer under 53 bytes given to
    /// [`write_record`](crate::write_record) or [`record_of`](crate::record_of); for [`run_sheet`](crate::run_sheet), a buffer under 53
    /// bytes for each glyph or a list with fewer places than glyphs; for [`estimate_sheet`](crate::estimate_sheet), such a list.
    NoRoom = 8,
    /// A point list of odd length; a list of traced points whose length is not a multiple of three.
    OddLength = 9,
    /// Glyph k not below the count.
    NoGlyph = 10,
    /// A NaN, an infinity or a float with a fraction in x or y of a drawing program's point.
    NotWhole = 11,
    /// A chosen point that is not in the list.
    NotInList = 12,
    /// No disk holds the list with the chosen points on its boundary.
    NoDisk = 13,
    /// A traced point whose t is outside 0 to 50.
    BadTolerance = 14,
    /// Points that do not [belong](crate::SupportSet#belonging) to their disk, in a record or beside it.
    PointsDoNotFit = 15,
    /// Only in the list that [`run_sheet`](crate::run_sheet) fills: a glyph that needs more tests than are left, or comes behind one that
    /// does.
    NotAllowed = 16,
    /// An allowance of 2⁶⁰ tests or more.
    TooMuch = 17,
}

impl Refusal {
    const ALL: [Refusal; 17] = [
        Refusal::TooLong,
        Refusal::BadLine,
        Refusal::OutsideBox,
        Refusal::TooMany,
        Refusal::NoPoint,
        Refusal::BadSheet,
        Refusal::BadRecord,
        Refusal::NoRoom,
        Refusal::OddLength,
        Refusal::NoGlyph,
        Refusal::NotWhole,
        Refusal::NotInList,
        Refusal::NoDisk,
        Refusal::BadTolerance,
        Refusal::PointsDoNotFit,
        Refusal::NotAllowed,
        Refusal::TooMuch,
    ];

    /// The number that the C interface and the listing program give it.
    pub fn number(self) -> u8 {
        self as u8
    }

    /// The refusal of a number, as [`run_sheet`](crate::run_sheet) and [`estimate_sheet`](crate::estimate_sheet) put it into a list; none of
    /// 0 and of numbers that no refusal has.
    ///
    /// ```
    /// use volkhidar::Refusal;
    ///
    /// assert_eq!(Refusal::from_number(16), Some(Refusal::NotAllowed));
    /// assert_eq!(Refusal::from_number(0), None);
    /// ```
    pub fn from_number(number: u16) -> Option<Refusal> {
        let place = usize::from(number).checked_sub(1)?;
        Refusal::ALL.get(place).copied()
    }
}

impl fmt::Display for Refusal {
    fn fmt(&self, f: &mut fmt::Formatter) -> fmt::Result {
        f.write_str(match self {
            Refusal::TooLong => "description or sheet over 65,535 bytes",
            Refusal::BadLine => "a line that is neither blank nor a point",
            Refusal::OutsideBox => "a point outside the em box, or a traced point whose square leaves it",
            Refusal::TooMany => "more than 4,096 points, or 1,024 traced points",
            Refusal::NoPoint => "no point or no traced point",
            Refusal::BadSheet => "sheet shorter than its directory, or its pairs break the rules",
            Refusal::BadRecord => "a record, or a disk and support set, that is not valid",
            Refusal::NoRoom => "the list or buffer is too short",
            Refusal::OddLength => "a point list of odd length, or one of traced points whose length is not a multiple of three",
            Refusal::NoGlyph => "glyph number not below the count",
            Refusal::NotWhole => "a NaN, an infinity or a float with a fraction in a point's x or y",
            Refusal::NotInList => "a chosen point that is not in the list",
            Refusal::NoDisk => "no disk holds the list with the chosen points on its boundary",
            Refusal::BadTolerance => "a tolerance t outside 0 to 50",
            Refusal::PointsDoNotFit => "points that do not belong to their disk",
            Refusal::NotAllowed => "a glyph that needs more tests than are left, or comes behind one that does",
            Refusal::TooMuch => "an allowance of 2⁶⁰ tests or more",
        })
    }
}

impl Error for Refusal {}

/// The refusal of a number that a call returned; 0 is none.
pub(crate) fn checked(number: u64) -> Result<(), Refusal> {
    match number {
        0 => Ok(()),
        n => Err(Refusal::ALL[n as usize - 1]),
    }
}

#[cfg(test)]
mod tests {
    use super::*;

    #[test]
    fn numbers_go_round() {
        assert_eq!(checked(0), Ok(()));
        for number in 1..=17 {
            assert_eq!(checked(number).map_err(|refusal| u64::from(refusal.number())), Err(number));
        }
        for number in 0..=u16::MAX {
            let refusal = Refusal::from_number(number);
            assert_eq!(refusal.map(|refusal| refusal.number().into()), (1..=17).contains(&number).then_some(number));
        }
    }
}
