//! Sheets: printed with what `statement` is to print, and compared with the Rust and with a program.

use crate::generate::inputs::Random;
use crate::generate::sheet_build::{self, Made};
use crate::model::questions;
use crate::model::sheet;
use crate::original::statement;
use crate::programs::expired::Ways;
use crate::programs::program::Program;
use crate::programs::script_shrink;
use std::collections::BTreeMap;
use std::io::Write;

/// A sheet is handed to the program in at most so many pieces, and what is left.
const PIECES: usize = 8;

/// So many sheets for each of TIMES.
const SHEETS: usize = 2_000;
const SHOWN: usize = 3;
/// The program is run so often at most for one that differs.
const RUNS: usize = 2_000;

pub fn each(seed: u64, times: u64, mut visit: impl FnMut(Made)) {
    let mut random = Random::new(seed);
    for index in 0..SHEETS * times as usize {
        visit(sheet_build::sheet(&mut random, index));
    }
}

/// Each sheet behind a line with its length, and what is due likewise.
pub fn print(seed: u64, times: u64) -> std::io::Result<bool> {
    let mut out = std::io::stdout().lock();
    let mut done = Ok(());
    each(seed, times, |made| {
        let due = sheet::statement(&made.sheet);
        let head = format!("sheet {}\n", made.sheet.len());
        let middle = format!("output {}\n", due.len());
        let parts = [
            head.as_bytes(),
            &made.sheet,
            middle.as_bytes(),
            due.as_bytes(),
        ];
        if done.is_ok() {
            done = out.write_all(&parts.concat());
        }
    });
    done.map(|()| true)
}

/// A refusal's letter and number; all else is granted.
pub fn class(due: &str) -> String {
    let words: Vec<&str> = due.split(',').collect();
    match words[0] {
        "R" | "X" => format!("{} {}", words[0], words[1]),
        _ => "granted".into(),
    }
}

/// How often each answer was due.
#[derive(Default)]
struct Due {
    sheets: u64,
    lines: u64,
    answers: BTreeMap<String, u64>,
    ways: Ways,
}

impl Due {
    fn count(&mut self, sheet: &[u8], due: &str) {
        self.sheets += 1;
        *self.answers.entry(class(due)).or_default() += 1;
        let lines: Vec<&str> = due.lines().filter(|line| line.starts_with('S')).collect();
        self.lines += lines.len() as u64;
        if let (false, Ok(rows)) = (lines.is_empty(), sheet::read(sheet)) {
            let store = sheet::store_of(&rows);
            lines.iter().for_each(|line| self.ways.count(&store, line));
        }
    }

    /// Whether every answer came: granted, R with each number of restore but 2, X with 41 to 44.
    fn print(&self) -> bool {
        println!(
            "{} sheets, {} S lines: {:?}",
            self.sheets, self.lines, self.answers
        );
        let refusals = questions::OF_RESTORE.into_iter();
        let refusals = refusals.filter(|number| *number != questions::IN_RUN);
        let mut all: Vec<String> = refusals.map(|number| format!("R {number}")).collect();
        all.extend((41..=44).map(|number| format!("X {number}")));
        all.push("granted".into());
        let missing: Vec<&String> = all
            .iter()
            .filter(|answer| !self.answers.contains_key(*answer))
            .collect();
        if !missing.is_empty() {
            println!("  never due: {missing:?}");
        }
        self.ways.print() && missing.is_empty()
    }
}

/// The model beside the Rust, and beside what is known beforehand.
pub fn compare_rust(seed: u64, times: u64) -> bool {
    let mut due = Due::default();
    let (mut known, mut faults) = (0, Vec::new());
    each(seed, times, |made| {
        let model = sheet::statement(&made.sheet);
        due.count(&made.sheet, &model);
        if let Some(before) = &made.due {
            known += 1;
            if *before != model {
                faults.push(shown(&made.sheet, &format!("made to be {before}"), &model));
            }
        }
        let rust = statement::statement(&made.sheet);
        if !same(&model, &rust) {
            faults.push(shown(&made.sheet, &rust, &model));
        }
    });
    let all = due.print();
    for fault in faults.iter().take(SHOWN) {
        println!("{fault}");
    }
    println!(
        "sheets: {known} known beforehand, {} different",
        faults.len()
    );
    faults.is_empty() && all
}

/// The Rust refuses without number and place, and some refusals it is not held to.
pub fn same(model: &str, rust: &str) -> bool {
    let unnumbered = model.starts_with("R,") && rust == "R,?,?\n";
    let aside = |number: u32| model.starts_with(&format!("R,{number},"));
    model == rust || unnumbered || questions::NOT_IN_RUST.into_iter().any(aside)
}

/// A sheet in some pieces, of a byte up to all of it.
fn pieces<'a>(random: &mut Random, sheet: &'a [u8]) -> Vec<&'a [u8]> {
    let mut rest = sheet;
    let mut all = Vec::new();
    while !rest.is_empty() && all.len() < PIECES {
        let (piece, behind) = rest.split_at(1 + random.below(rest.len()));
        all.push(piece);
        rest = behind;
    }
    all.push(rest);
    all
}

fn shown(sheet: &[u8], other: &str, due: &str) -> String {
    let sheet = String::from_utf8_lossy(sheet);
    format!("{sheet}\n# due:\n{due}# but:\n{other}")
}

/// One run of the program for each sheet, which it is handed in pieces.
pub fn check(seed: u64, times: u64, program: Program) -> bool {
    let mut random = Random::new(seed);
    let mut due = Due::default();
    let mut different = 0;
    each(seed, times, |made| {
        let model = sheet::statement(&made.sheet);
        due.count(&made.sheet, &model);
        if program.run_in(&pieces(&mut random, &made.sheet)) != model.as_bytes() {
            different += 1;
            if different <= SHOWN {
                show(program, made.sheet);
            }
        }
    });
    let all = due.print();
    println!("sheets: {different} different");
    different == 0 && all
}

/// Prints a sheet that differs, with as few lines and then bytes as can be.
fn show(program: Program, sheet: Vec<u8>) {
    let mut runs = 0;
    let mut still = |sheet: &[u8]| {
        runs += 1;
        runs <= RUNS && program.run(sheet) != sheet::statement(sheet).as_bytes()
    };
    let lines = sheet.split_inclusive(|byte| *byte == b'\n').collect();
    let lines = script_shrink::without(lines, 0, &mut |lines| still(&lines.concat()));
    let sheet = script_shrink::without(lines.concat(), 0, &mut still);
    let printed = program.run(&sheet);
    let due = sheet::statement(&sheet);
    println!(
        "{}",
        shown(&sheet, &String::from_utf8_lossy(&printed), &due)
    );
}
