//! How long `statement` takes: a program and the plain Rust (`oracle statement`), each started anew and fed a sheet.
//!
//! A start takes as long as reading a small sheet, so there are sheets at the limits too, and a line far beyond them, which
//! has to be read to its end before it is refused.

use crate::generate::inputs::Random;
use crate::generate::script_stores;
use crate::model::sheet;
use crate::original::statement;
use crate::programs::program::Program;
use crate::samples::sheet_samples;
use crate::speed::clock::median;
use std::time::Instant;

const RUNS: usize = 21;
/// Bytes of the blob in the long line.
const LONG: usize = 25_000_000;

/// What is read, by its description.
fn sheets() -> Vec<(&'static str, Vec<u8>)> {
    let mut sheets: Vec<(&str, Vec<u8>)> = sheet_samples::sheets()
        .into_iter()
        .filter(|(name, _)| ["port", "agency"].contains(name))
        .map(|(name, sheet)| (name, sheet.into_bytes()))
        .collect();
    let mut random = Random::new(1);
    for (name, rows) in [("61,440 bytes", 14), ("512 lines", 512)] {
        let lines = script_stores::largest(&mut random, rows);
        sheets.push((name, sheet::text_of(&lines).into_bytes()));
    }
    let long = [b"D,3,".to_vec(), b"0a".repeat(LONG), b"\n".to_vec()].concat();
    sheets.push(("one line of 50 MB", long));
    sheets
}

pub fn run(program: Program) {
    let this = std::env::current_exe().expect("this program has a path");
    let this = this.to_string_lossy();
    let rust = Program {
        words: &[&this, "statement"],
    };
    println!("| Sheet | Bytes | Program, µs | Rust, µs | Ratio | Rust in one process, µs |");
    println!("|---|---|---|---|---|---|");
    for (name, sheet) in sheets() {
        let run = |program: Program| drop(program.run(&sheet));
        let (one, other) = (time(|| run(program)), time(|| run(rust)));
        let inside = time(|| drop(statement::statement(&sheet)));
        let (bytes, ratio) = (sheet.len(), other / one);
        println!("| {name} | {bytes} | {one:.0} | {other:.0} | {ratio:.1} | {inside:.0} |");
    }
}

/// The median in microseconds, by the clock.
fn time(mut run: impl FnMut()) -> f64 {
    let times = (0..RUNS).map(|_| {
        let start = Instant::now();
        run();
        start.elapsed().as_secs_f64() * 1e6
    });
    median(times.collect())
}
