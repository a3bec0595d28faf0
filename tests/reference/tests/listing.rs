//! The reference's listing program on the inputs that the product's is run on: `tests/listing/run` expects of both the same.

use std::process::Command;

#[test]
fn every_input_of_the_listing_prints_what_is_expected() {
    let run = concat!(env!("CARGO_MANIFEST_DIR"), "/../listing/run");
    let ended = Command::new(run).arg(env!("CARGO_BIN_EXE_listing")).status().expect("the script starts");
    assert!(ended.success());
}
