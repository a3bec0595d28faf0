//! The reference's listing program for sheets as it is run: the sheet on standard input, the allowance or `estimate` as an argument or none.

use std::io::Write;
use std::process::{Command, Stdio};

/// Letter F and an empty part.
const SHEET: &[u8] = b"\x00\x02\x00\x0a\x00\x0c\x00\x16\x00\x000 0\n4 0\n2 3\n";

fn printed(arguments: &[&str]) -> String {
    let mut child = Command::new(env!("CARGO_BIN_EXE_sheet_listing"))
        .args(arguments)
        .stdin(Stdio::piped())
        .stdout(Stdio::piped())
        .spawn()
        .expect("the program starts");
    child.stdin.take().expect("the input is piped").write_all(SHEET).expect("the sheet is written");
    let ended = child.wait_with_output().expect("the program ends");
    assert!(ended.status.success());
    String::from_utf8(ended.stdout).expect("the listing is text")
}

#[test]
fn the_allowance_is_the_argument_or_the_most() {
    let worked = "glyph 0 disk 12 5 6 169 rim 0 0 2 3 4 0 whole 3 tests 7\nglyph 1 refused 5\nworked 1 left";
    assert_eq!(printed(&[]), format!("{worked} 1152921504606846968\n"));
    assert_eq!(printed(&["7"]), format!("{worked} 0\n"));
    assert_eq!(printed(&["6"]), "glyph 0 refused 16\nglyph 1 refused 5\nworked 0 left 6\n");
    assert_eq!(printed(&["1152921504606846976"]), "refused 17\n");
}

#[test]
fn the_argument_may_ask_what_the_sheet_will_take() {
    assert_eq!(printed(&["estimate"]), "glyph 0 points 3\nglyph 1 refused 5\nbytes 53 tests 7\n");
}

/// `tests/listing/sheets` expects the same of the product's program.
#[test]
fn every_sheet_of_the_listing_prints_what_is_expected() {
    let sheets = concat!(env!("CARGO_MANIFEST_DIR"), "/../listing/sheets");
    let ended = Command::new(sheets).arg(env!("CARGO_BIN_EXE_sheet_listing")).status().expect("the script starts");
    assert!(ended.success());
}
