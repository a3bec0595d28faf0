//! Looks for disks whose preview is off by nearly 2⁻⁴³ units: the nearest in x, those with E odd among them, and in y, with which part is missing.
//! The nearest of these are rows of `edges/previews.rs`.

use reference::geometry::Disk;
use reference::near_bound::{nearness, search, Axis};
use reference::support::SupportSet;

fn print(axis: Axis, (Disk { x, y, e, s }, support): &(Disk, SupportSet)) {
    let three = [0, 1, 2].map(|i| support[i]);
    let points = three.map(|p| (p.x, p.y));
    println!("{axis:?}: one part in {} is missing: ({x}, {y}, {e}, {s}), &{points:?}", nearness(axis, three));
}

fn main() {
    for (axis, reach) in [(Axis::X, 32), (Axis::Y, 40)] {
        let found = search(axis, reach, 1_000_000);
        let odd = found.iter().filter(|(disk, _)| disk.e % 2 == 1);
        found.iter().take(8).chain(odd.take(2)).for_each(|disk| print(axis, disk));
    }
}
