//! The listing program of document 01: a description from standard input, its listing to standard output.

use std::io::{self, Read, Write};

fn main() -> io::Result<()> {
    let mut text = Vec::new();
    io::stdin().read_to_end(&mut text)?;
    io::stdout().write_all(reference::listing::listing(&text).as_bytes())
}
