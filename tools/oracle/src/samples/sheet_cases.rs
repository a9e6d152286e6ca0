//! Sheets for a replay without Rust, with what `statement` is to print: those of samples/ that are short, and of the random
//! ones the first few short ones of each answer.

use crate::hex::hex;
use crate::model::sheet;
use crate::programs::sheets::{self, class};
use crate::samples::sheet_samples;
use std::collections::BTreeMap;
use std::path::Path;

/// Fixed: the same sheets every time.
const SEED: u64 = 1;
const TIMES: u64 = 2;
/// Of the random ones so many of each answer are taken.
const EACH: usize = 6;
/// The most bytes of a random sheet, and of one of samples/.
const LONGEST: usize = 900;
const LONGEST_SAMPLE: usize = 8_000;

#[derive(Default)]
struct Cases {
    lines: Vec<String>,
    answers: BTreeMap<String, usize>,
}

impl Cases {
    fn add(&mut self, sheet: &[u8], due: &str) {
        let line = format!("T {} {}\n", hex(sheet), hex(due.as_bytes()));
        if !self.lines.contains(&line) {
            *self.answers.entry(class(due)).or_default() += 1;
            self.lines.push(line);
        }
    }
}

pub fn write(folder: &Path) -> Result<(), Box<dyn std::error::Error>> {
    let mut cases = Cases::default();
    for (_, sheet) in sheet_samples::sheets() {
        if sheet.len() <= LONGEST_SAMPLE {
            cases.add(sheet.as_bytes(), &sheet::statement(sheet.as_bytes()));
        }
    }
    let mut taken: BTreeMap<String, usize> = BTreeMap::new();
    sheets::each(SEED, TIMES, |made| {
        let due = sheet::statement(&made.sheet);
        let count = taken.entry(class(&due)).or_default();
        if made.sheet.len() <= LONGEST && *count < EACH {
            *count += 1;
            cases.add(&made.sheet, &due);
        }
    });
    let text = cases.lines.concat();
    println!(
        "sheets.txt: {} sheets in {} bytes; answers {:?}",
        cases.lines.len(),
        text.len(),
        cases.answers
    );
    std::fs::create_dir_all(folder)?;
    std::fs::write(folder.join("sheets.txt"), text)?;
    Ok(())
}
