//! What a call is given, where it is given more than one thing.

use crate::chosen::Chosen;
use crate::drawing::DrawnPoint;
use crate::geometry::{Disk, Point};
use crate::support::SupportSet;

/// The length of the list lent to the loader, and a description.
pub struct LoaderCase {
    pub room: usize,
    pub text: Vec<u8>,
}

/// A drawing program's point, how many points are there, and the lent list: its length and the numbers at its front.
#[derive(Clone)]
pub struct AppendCase {
    pub point: DrawnPoint,
    pub n: u64,
    pub room: usize,
    pub front: Vec<i16>,
}

impl AppendCase {
    /// The lent list: behind the numbers at its front 12,321, which no point of the em box has.
    pub fn list(&self) -> Vec<i16> {
        let mut list = self.front.clone();
        list.resize(self.room, 12_321);
        list
    }
}

/// Two different points to fix on the boundary, and a list.
#[derive(Clone, Debug)]
pub struct FixedCase {
    pub a: Point,
    pub b: Point,
    pub points: Vec<Point>,
}

/// The points chosen for the boundary; what stands in the second's place where one is chosen, and is not used; and a list of numbers.
#[derive(Clone, Debug)]
pub struct ChosenCase {
    pub chosen: Chosen,
    pub unused: Point,
    pub list: Vec<i16>,
}

/// A glyph number and a sheet.
pub struct SheetCase {
    pub k: u16,
    pub bytes: Vec<u8>,
}

/// The tests allowed, the lengths of the buffer and of the list of numbers that are lent, and a sheet.
#[derive(Clone, Debug)]
pub struct RunCase {
    pub allowance: u64,
    pub buffer: usize,
    pub numbers: usize,
    pub sheet: Vec<u8>,
}

impl RunCase {
    /// The lent buffer, 238 everywhere, and the lent list, 12,321 everywhere.
    pub fn lent(&self) -> (Vec<u8>, Vec<u16>) {
        (vec![238; self.buffer], vec![12_321; self.numbers])
    }
}

/// The lengths of the lists of points and of refusals that are lent, and a sheet.
#[derive(Clone, Debug)]
pub struct EstimateCase {
    pub points: usize,
    pub refusals: usize,
    pub sheet: Vec<u8>,
}

impl EstimateCase {
    /// The lent lists, 12,321 everywhere.
    pub fn lent(&self) -> [Vec<u16>; 2] {
        [self.points, self.refusals].map(|places| vec![12_321; places])
    }
}

/// Where a part lies, and a sheet.
pub struct PartCase {
    pub start: usize,
    pub length: usize,
    pub bytes: Vec<u8>,
}

/// The length of the buffer lent to the writer; a disk and support set, valid or not.
pub struct WriterCase {
    pub room: u8,
    pub disk: Disk,
    pub support: SupportSet,
}
