//! The listing program for sheets: a sheet from standard input, its listing to standard output. The allowance of tests may be given as an
//! argument; where it is not, it is the most that a run is allowed. The argument `estimate` asks what the sheet will take.

use reference::limits::MOST_ALLOWANCE;
use reference::sheet_listing::{estimate_listing, sheet_listing};
use std::io::{self, Read, Write};

fn main() -> io::Result<()> {
    let mut sheet = Vec::new();
    io::stdin().read_to_end(&mut sheet)?;
    let listing = match std::env::args().nth(1).as_deref() {
        None => sheet_listing(&sheet, MOST_ALLOWANCE),
        Some("estimate") => estimate_listing(&sheet),
        Some(word) => sheet_listing(&sheet, word.parse().expect("an allowance is a number of 64 bits")),
    };
    io::stdout().write_all(listing.as_bytes())
}
