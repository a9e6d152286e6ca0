//! The small comparisons: each command holds the model to the unchanged Rust, and ends with 0 where nothing differs and every
//! answer came that must.

mod program;

use program::output;

#[test]
fn leb128() {
    same(&["leb128"]);
}

#[test]
fn utf8() {
    same(&["utf8"]);
}

#[test]
fn card() {
    same(&["card"]);
}

#[test]
fn device() {
    same(&["device"]);
}

#[test]
fn queued() {
    same(&["queued"]);
}

#[test]
fn courier() {
    same(&["courier"]);
}

#[test]
fn contact() {
    same(&["contact"]);
}

#[test]
fn received() {
    same(&["received"]);
}

#[test]
fn stores() {
    same(&["stores"]);
}

/// A thousand lists of calls; and every small set of numbers with every range, in `every_small_set`.
#[test]
fn lists_of_calls() {
    same(&["scripts-rust", "1", "1"]);
}

/// Two thousand sheets.
#[test]
fn sheets() {
    same(&["sheets-rust", "1", "1"]);
}

fn same(words: &[&str]) {
    let printed = String::from_utf8_lossy(&output(words, b"")).into_owned();
    let nothing = printed.contains(" 0 different");
    assert!(nothing, "{words:?} compared nothing:\n{printed}");
}
