//! Runs a list of calls by the model: what `replay` is to print for each of its lines.

use crate::hex::hex;
use crate::model::calls::{Call, Granted, Ledger};
use crate::model::memory::{HAS, Lengths, Memory};
use crate::model::questions::{self, ask};
use crate::model::rows::{self, Reading};
use crate::model::script::{Step, Steps};
use crate::model::sheet;
use crate::model::store::{CONTACT, COURIER, DEVICE, QUEUED, Store};

pub struct Runner {
    pub ledger: Ledger,
    memory: Memory,
    lengths: Lengths,
    /// So many pairs of the list above contiguous were written.
    written: usize,
}

impl Runner {
    pub fn new() -> Self {
        Self::with(HAS)
    }

    /// With so much to be lent.
    pub fn with(has: Lengths) -> Self {
        Self {
            ledger: Ledger::default(),
            memory: Memory::of(has),
            lengths: has,
            written: 0,
        }
    }

    /// The line that is printed, if one is.
    pub fn step(&mut self, step: &Step) -> Option<String> {
        let answer = match step {
            Step::Script(_) => {
                self.ledger = Ledger::default();
                self.lengths = self.memory.has;
                self.written = 0;
                return None;
            }
            Step::Lend(lengths) => {
                self.lengths = *lengths;
                return None;
            }
            Step::Restore(lines) => self.restore(&sheet::store_of(lines)),
            Step::RawRestore(store) => self.restore(store),
            Step::Call(call) => self.call(*call),
            Step::Veil {
                kind,
                version,
                out,
                row,
            } => answer(veil(*kind, *version, row, (*out).min(self.memory.has[5]))),
            Step::Read {
                kind,
                version,
                lent,
                row,
            } => answer(read(*kind, *version, row, lent.as_ref())),
            Step::State => self.state(),
        };
        Some(format!("= {answer}"))
    }

    fn restore(&mut self, store: &Store) -> String {
        match self.ledger.restore(store) {
            Ok(()) => "yes".into(),
            Err(refusal) => format!("no {} {}", refusal.number, refusal.index),
        }
    }

    fn call(&mut self, call: Call) -> String {
        let mut lent = self.memory.lent(&self.lengths);
        let granted = match self.ledger.call(call, &mut lent) {
            Ok(granted) => granted,
            Err(number) => return format!("no {number}"),
        };
        if let Some(opened) = self.ledger.opened() {
            self.written = self.written.max(opened.covered().above().len());
        }
        match granted {
            Granted::Yes => "yes".into(),
            Granted::Is(truth) => truth.to_string(),
            Granted::Covered(moved, added) => format!("{moved} {added}"),
            Granted::Number(number) => number.to_string(),
            Granted::Wrote(size) if call == Call::Statement => {
                let line = str::from_utf8(&self.memory.out[..size]).expect("a line is of digits");
                line.trim_end_matches('\n').into()
            }
            Granted::Wrote(size) => hex(&self.memory.out[..size]),
        }
    }

    /// The open contact, its fields as a row, and the places of the list above contiguous.
    fn state(&self) -> String {
        let Some(opened) = self.ledger.opened() else {
            return "none".into();
        };
        let places: Vec<String> = self.memory.above[..2 * self.written]
            .chunks(2)
            .map(|pair| format!("{}-{}", pair[0], pair[1]))
            .collect();
        let places = match places.is_empty() {
            true => "-".into(),
            false => places.join(";"),
        };
        format!("{} {} {places}", opened.id, hex(&opened.fields().row()))
    }
}

fn answer(bytes: Result<Vec<u8>, u32>) -> String {
    bytes.map_or_else(|number| format!("no {number}"), |bytes| hex(&bytes))
}

/// A row with its veiled bytes zero: 6 of the kind, the row's questions, 40.
fn veil(kind: u32, version: u32, row: &[u8], room: usize) -> Result<Vec<u8>, u32> {
    fn blanked<T>(row: &[u8], reading: Reading<T>) -> Result<Vec<u8>, u32> {
        reading.answer?;
        Ok(rows::blanked(row, &reading.veiled))
    }
    let blank = match kind {
        DEVICE => blanked(row, rows::device(version, row)),
        CONTACT => blanked(row, rows::contact(version, row)),
        QUEUED => blanked(row, rows::queued(version, row)),
        COURIER => blanked(row, rows::courier(version, row)),
        _ => Err(questions::CODE),
    }?;
    ask(questions::OUTPUT, blank.len() <= room)?;
    Ok(blank)
}

/// A row read, and written again: so that what was read is seen. 36 is asked of a contact's lists.
fn read(kind: u32, version: u32, row: &[u8], lent: Option<&[usize; 5]>) -> Result<Vec<u8>, u32> {
    match kind {
        DEVICE => rows::device(version, row).answer.map(|row| row.row()),
        QUEUED => rows::queued(version, row).answer.map(|row| row.row()),
        COURIER => rows::courier(version, row).answer.map(|row| row.row()),
        CONTACT => {
            let contact = rows::contact(version, row).answer?;
            let counts = [
                contact.chains.len(),
                contact.skipped.len(),
                contact.above.len(),
                contact.unacked.len(),
                contact.expired.len(),
            ];
            let lent = lent.expect("a contact is read into lists");
            let has = |at: usize| lent[at].min(HAS[at]);
            let long_enough = (0..5).all(|at| counts[at] <= has(at));
            ask(questions::LISTS, long_enough)?;
            Ok(contact.row())
        }
        _ => Err(questions::CODE),
    }
}

/// What is printed for a whole text; a line that is none ends it.
pub fn replay(text: &str) -> String {
    let mut runner = Runner::new();
    let mut printed = String::new();
    for step in Steps::of(text) {
        let line = match &step {
            Ok(step) => runner.step(step),
            Err(line) => Some(format!("= ? {line}")),
        };
        if let Some(line) = line {
            printed += &line;
            printed.push('\n');
        }
        if step.is_err() {
            break;
        }
    }
    printed
}
