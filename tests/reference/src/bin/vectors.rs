//! Writes the stored cases, `stdin` and `stdout` of `crates/vectors`: `cargo run --offline --release --bin vectors`, in
//! `tests/reference`. The files are the same on every run.

use reference::stored::stored;
use reference::vectors::{input, output};
use std::io;
use std::path::Path;

fn main() -> io::Result<()> {
    let folder = Path::new(env!("CARGO_MANIFEST_DIR")).join("../../crates/vectors");
    let vectors = stored();
    let (input, output) = (input(&vectors), output(&vectors));
    std::fs::create_dir_all(&folder)?;
    std::fs::write(folder.join("stdin"), &input)?;
    std::fs::write(folder.join("stdout"), &output)?;
    println!("{} cases, {} bytes in, {} bytes out", vectors.len(), input.len(), output.len());
    Ok(())
}
