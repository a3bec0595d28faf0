//! Runs a built test program on fresh drawn cases and compares what it prints with the reference:
//!
//!     cargo run --offline --release --bin differential -- PROGRAM FIRST_SEED LAST_SEED
//!
//! PROGRAM is the built `crates/vectors` (`crates/vectors/out/vectors` of the repository). Each seed is a run of 1,000 cases for each call,
//! and 100 for previews near their bound.

use reference::stored::drawn;
use reference::vectors::{input, output, Vector};
use std::io::{self, Read, Write};
use std::process::{Command, Stdio};

/// What the program prints for the input.
fn printed(program: &str, input: Vec<u8>) -> io::Result<Vec<u8>> {
    let mut child = Command::new(program).stdin(Stdio::piped()).stdout(Stdio::piped()).spawn()?;
    let mut stdin = child.stdin.take().expect("the input is piped");
    let writer = std::thread::spawn(move || stdin.write_all(&input));
    let mut printed = Vec::new();
    child.stdout.take().expect("the output is piped").read_to_end(&mut printed)?;
    child.wait()?;
    writer.join().expect("the input is written")?;
    Ok(printed)
}

/// The first case for which something else is printed.
fn first_difference<'a>(vectors: &'a [Vector], printed: &[u8]) -> Option<&'a Vector> {
    let mut rest = printed;
    for vector in vectors {
        match rest.strip_prefix(vector.printed.as_bytes()) {
            Some(behind) => rest = behind,
            None => return Some(vector),
        }
    }
    None
}

fn run(program: &str, seed: u64) -> io::Result<bool> {
    let vectors = drawn(seed, 1_000);
    let found = printed(program, input(&vectors))?;
    let is_same = found == output(&vectors).as_bytes();
    if let Some(vector) = first_difference(&vectors, &found) {
        println!("seed {seed}: {:?} on {:?}", vector.call, String::from_utf8_lossy(&vector.bytes));
        println!("expected:\n{}", vector.printed);
    }
    Ok(is_same)
}

fn main() -> io::Result<()> {
    let words: Vec<String> = std::env::args().skip(1).collect();
    let [program, first, last] = words.as_slice() else {
        panic!("PROGRAM FIRST_SEED LAST_SEED");
    };
    let seed = |word: &String| word.parse::<u64>().expect("a seed is a number");
    let mut faults = 0;
    for seed in seed(first)..=seed(last) {
        faults += u64::from(!run(program, seed)?);
    }
    println!("{faults} of the runs differ");
    std::process::exit(i32::from(faults > 0));
}
