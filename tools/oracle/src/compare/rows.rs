//! Rows of all four kinds: what is compared of each, and what is done to a row in every kind.

use crate::compare::sides::{self, Row};
use crate::compare::tally::Tally;
use crate::generate::inputs::{BYTES, Random};
use crate::hex::hex;
use crate::model::questions;
use crate::model::rows::{self, Reading};
use crate::original::rows::Store;
use std::marker::PhantomData;

const FILL: u8 = 0xa5;
/// How many places of the output lie behind a row that is written.
const BEHIND: usize = 8;
/// What is shown of a long row.
const SHOWN: usize = 1600;

/// The comparisons of one kind of row.
pub struct Compare<T> {
    store: Store,
    tally: Tally,
    /// Rows that the Rust is not held to, and how many of these it accepts.
    aside: u64,
    aside_accepted: u64,
    kind: PhantomData<T>,
}

impl<T: Row> Compare<T> {
    pub fn new(random: &mut Random) -> Self {
        Self {
            store: sides::store(random),
            tally: Tally::new(T::NAME, "rows"),
            aside: 0,
            aside_accepted: 0,
            kind: PhantomData,
        }
    }

    /// A row of version 3.
    pub fn visit(&mut self, row: &[u8]) {
        self.versioned(3, row);
    }

    /// A row of any version, all sides.
    pub fn versioned(&mut self, version: u32, row: &[u8]) {
        let reading = T::model(version, row);
        let due = number(&reading);
        let mut faults = model_faults(version, row, &reading);
        if questions::NOT_IN_RUST.contains(&due) {
            self.aside += 1;
            self.aside_accepted += u64::from(T::rust(&self.store, version, row).is_some());
        } else {
            faults.extend(self.rust_faults(version, row, &reading));
        }
        faults.extend(rattle_faults("row", T::rattle, version, row, row, due));
        let veiled = rows::blanked(row, &reading.veiled);
        faults.extend(rattle_faults(
            "veiled",
            T::rattle_veil,
            version,
            row,
            &veiled,
            due,
        ));
        faults.extend(T::more_faults(&reading.answer, version, row));
        self.tally.count(due, faults.is_empty(), || {
            let shown = hex(&row[..row.len().min(SHOWN)]);
            let faults = faults.join(", ");
            format!("version {version}, {shown}, 01 {due}: {faults}")
        });
    }

    /// The Rust accepts what the model does, with the same value, and writes the same row; and it does not tell a row
    /// from the one with its veiled bytes zero.
    fn rust_faults(&self, version: u32, row: &[u8], reading: &Reading<T>) -> Vec<String> {
        let mut faults = Vec::new();
        let rust = T::rust(&self.store, version, row);
        let accepted = reading.answer.as_ref().is_ok_and(T::taken);
        if rust.is_some() != accepted {
            faults.push(format!("Rust accepts: {}", rust.is_some()));
        }
        if let (Some((value, again)), Ok(model)) = (&rust, &reading.answer) {
            if value != model {
                faults.push("Rust has another value".into());
            }
            if again != row {
                faults.push("Rust writes another row".into());
            }
        }
        let blanked = rows::blanked(row, &reading.veiled);
        if T::rust(&self.store, version, &blanked).is_some() != rust.is_some() {
            faults.push("Rust minds a veiled byte".into());
        }
        faults
    }

    /// Prints what was counted; whether nothing differed, every answer was due at least once, and the Rust accepts some of the
    /// rows that it is not held to.
    pub fn finish(self) -> bool {
        let same = self.tally.print_all(T::ANSWERS);
        if self.aside > 0 {
            println!(
                "{}: {} rows that the Rust is not held to, of which it accepts {}",
                T::NAME,
                self.aside,
                self.aside_accepted
            );
        }
        same && (self.aside == 0 || self.aside_accepted > 0)
    }

    /// The row, longer by a byte or two, of other versions, and cut at every length.
    pub fn around(&mut self, row: &[u8]) {
        self.visit(row);
        for version in [0, 1, 2, 4, 259, u32::MAX] {
            self.versioned(version, row);
            self.versioned(version, &[]);
        }
        for more in [&[0x00][..], &[0x01], &[0x80], &[0xff], &[0xff, 0x00]] {
            self.visit(&[row, more].concat());
        }
        for size in 0..row.len() {
            self.visit(&row[..size]);
        }
    }

    /// Each of `places` set to each of `values`.
    pub fn set(&mut self, row: &[u8], places: std::ops::Range<usize>, values: &[u8]) {
        let mut changed = row.to_vec();
        for at in places {
            for value in values {
                changed[at] = *value;
                self.visit(&changed);
            }
            changed[at] = row[at];
        }
    }

    /// Every byte damaged, in the first `all` bytes to every value there is, behind them to a few.
    pub fn damaged(&mut self, row: &[u8], all: usize) {
        let all = all.min(row.len());
        self.set(row, 0..all, &BYTES);
        for at in all..row.len() {
            let byte = row[at];
            let values = [byte ^ 0x01, byte ^ 0x80, 0x00, 0x01, 0xff];
            self.set(row, at..at + 1, &values);
        }
    }
}

/// The model writes an accepted row again, and does not tell a row from the one with its veiled bytes zero.
fn model_faults<T: Row>(version: u32, row: &[u8], reading: &Reading<T>) -> Vec<String> {
    let mut faults = Vec::new();
    if let Ok(value) = &reading.answer
        && value.written() != row
    {
        faults.push("the model writes another row".into());
    }
    let blind = T::model(version, &rows::blanked(row, &reading.veiled));
    if number(&blind) != number(reading) || blind.veiled != reading.veiled {
        faults.push("the model minds a veiled byte".into());
    }
    faults
}

type Copy = fn(u32, &[u8], &mut [u8]) -> u32;

/// The Rattle answers the model's number and writes what is due of an accepted row, and nothing behind it; into an output
/// that is one byte too short it writes nothing and answers 40.
fn rattle_faults(
    name: &str,
    copy: Copy,
    version: u32,
    row: &[u8],
    written: &[u8],
    due: u32,
) -> Vec<String> {
    let mut faults = Vec::new();
    for (room, due) in [
        (row.len() + BEHIND, due),
        (row.len().saturating_sub(1), short(row, due)),
    ] {
        let mut out = vec![FILL; room];
        let number = copy(version, row, &mut out);
        let mut due_out = vec![FILL; room];
        if due == 0 {
            due_out[..row.len()].copy_from_slice(written);
        }
        if number != due {
            faults.push(format!("Rattle's {name}: {number} with room for {room}"));
        }
        if out != due_out {
            faults.push(format!("Rattle's {name}: output, with room for {room}"));
        }
    }
    faults
}

fn number<T>(reading: &Reading<T>) -> u32 {
    *reading.answer.as_ref().err().unwrap_or(&0)
}

/// The number that is due where the output is one byte too short for the row.
fn short(row: &[u8], due: u32) -> u32 {
    if due == 0 && !row.is_empty() {
        questions::OUTPUT
    } else {
        due
    }
}

/// One to three random changes: a byte set, flipped, put in, taken out; cut; longer.
pub fn changed(random: &mut Random, row: &mut Vec<u8>) {
    for _ in 0..=random.below(3) {
        let at = random.below(row.len().max(1));
        match random.below(8) {
            0 => row.truncate(at),
            1 => row.push(random.byte()),
            2 => row.insert(at, random.byte()),
            3 if at < row.len() => drop(row.remove(at)),
            4 if at < row.len() => row[at] ^= 1 << random.below(8),
            5 if at < row.len() => row[at] = random.pick(&[0, 1, 2, 3, 0x49, 0x52, 0xff]),
            _ if at < row.len() => row[at] = random.byte(),
            _ => {}
        }
    }
}
