//! Reads a description from standard input and prints its smallest disk, support set, whole radius, count and record.
//!
//!     printf '0 0\n4 0\n2 3\n' | cargo run --example letter

use std::io::Read;
use volkhidar::{load, smallest_disk, whole_radius, write_record, Refusal, LIST_LENGTH, RECORD_LENGTH};

fn report(text: &[u8]) -> Result<String, Refusal> {
    let mut list = [0; LIST_LENGTH];
    let count = load(text, &mut list)?;
    let found = smallest_disk(&mut list[..2 * count])?;
    let radius = whole_radius(found.disk, found.support)?;
    let mut record = [0; RECORD_LENGTH];
    write_record(found.disk, found.support, &mut record)?;

    let disk = found.disk;
    let rim: String = found.support.points().iter().map(|p| format!(" {} {}", p.x, p.y)).collect();
    let bytes: String = record.iter().map(|byte| format!("{byte:02x}")).collect();
    let lines = [
        format!("disk {} {} {} {}", disk.x, disk.y, disk.e, disk.s),
        format!("rim{rim}"),
        format!("whole {radius}"),
        format!("tests {}", found.tests),
        format!("record {bytes}"),
    ];
    Ok(lines.join("\n"))
}

fn main() -> std::io::Result<()> {
    let mut text = Vec::new();
    std::io::stdin().read_to_end(&mut text)?;
    match report(&text) {
        Ok(lines) => println!("{lines}"),
        Err(refusal) => println!("refused {} ({refusal})", refusal.number()),
    }
    Ok(())
}
