//! A model of the sheet, questions 41 to 44, and of all that the program `statement` prints.
//!
//! How it was made: from document 01 ("the sheet") and the list of how its open points are read, with no Rattle of the
//! sheet read. It parts the whole sheet at LF and each line at commas, and knows nothing of chunks or of a machine. Behind
//! it are the model of restore (store.rs) and that of the calls (calls.rs), which makes the `S` lines.

use crate::model::calls::{Call, Granted, Ledger};
use crate::model::memory::Memory;
use crate::model::questions::{self, ask};
use crate::model::store::{CONTACT, COURIER, DEVICE, Entry, QUEUED, Refusal, Store};

/// 44.
pub const BLOB_BYTES: usize = 61_440;
pub const LINES: usize = 512;

/// What one line says; what its kind has no use for is 0.
#[derive(Debug, Clone, PartialEq)]
pub struct Line {
    pub kind: u32,
    pub id: u64,
    pub msgno: u32,
    pub version: u32,
    pub blob: Vec<u8>,
}

/// The first no of 41 to 44, and its line, from 1.
#[derive(Debug, Clone, Copy, PartialEq)]
pub struct Unreadable {
    pub number: u32,
    pub line: usize,
}

/// The widths of a line's decimals, in order.
#[derive(Clone, Copy)]
enum Width {
    U32,
    U64,
}

/// Each letter's kind and decimals; a blob comes after them.
const LETTERS: [(&[u8], u32, &[Width]); 4] = [
    (b"D", DEVICE, &[Width::U32]),
    (b"C", CONTACT, &[Width::U64, Width::U32]),
    (b"Q", QUEUED, &[Width::U64, Width::U32, Width::U32]),
    (b"K", COURIER, &[Width::U64, Width::U32]),
];

/// The lines of a sheet, or its refusal.
pub fn read(sheet: &[u8]) -> Result<Vec<Line>, Unreadable> {
    let mut lines: Vec<Line> = Vec::new();
    let mut bytes = 0;
    for (at, text) in sheet.split_inclusive(|byte| *byte == b'\n').enumerate() {
        let refused = |number| Unreadable {
            number,
            line: at + 1,
        };
        let line = line(text).map_err(refused)?;
        bytes += line.blob.len();
        let fits = bytes <= BLOB_BYTES && at < LINES;
        ask(questions::SHEET_ROOM, fits).map_err(refused)?;
        lines.push(line);
    }
    Ok(lines)
}

/// 41 to 43 of one line with its LF, if it has one.
fn line(text: &[u8]) -> Result<Line, u32> {
    let (last, line) = text.split_last().expect("no line is without a byte");
    ask(questions::LINE, *last == b'\n')?;
    let fields: Vec<&[u8]> = line.split(|byte| *byte == b',').collect();
    let letter = LETTERS.iter().find(|(letter, _, _)| *letter == fields[0]);
    let (_, kind, widths) = letter.ok_or(questions::LINE)?;
    ask(questions::LINE, fields.len() == widths.len() + 2)?;
    let mut numbers = Vec::new();
    for (digits, width) in fields[1..].iter().zip(*widths) {
        numbers.push(decimal(digits, *width).ok_or(questions::DECIMAL)?);
    }
    let blob = blob(fields[fields.len() - 1]).ok_or(questions::BLOB)?;
    let version = numbers.pop().expect("every line has a version") as u32;
    let mut numbers = numbers.into_iter();
    Ok(Line {
        kind: *kind,
        id: numbers.next().unwrap_or(0),
        msgno: numbers.next().unwrap_or(0) as u32,
        version,
        blob,
    })
}

/// A decimal without leading zeros, within its width: counted in 128 bits, as far as 20 digits go.
fn decimal(digits: &[u8], width: Width) -> Option<u64> {
    let highest = match width {
        Width::U32 => u64::from(u32::MAX),
        Width::U64 => u64::MAX,
    };
    let plain = !digits.is_empty() && digits.iter().all(u8::is_ascii_digit);
    if !plain || digits.len() > 20 || (digits[0] == b'0' && digits.len() > 1) {
        return None;
    }
    let add = |value: u128, digit: &u8| 10 * value + u128::from(digit - b'0');
    let value = digits.iter().fold(0, add);
    u64::try_from(value).ok().filter(|value| *value <= highest)
}

/// Pairs of lowercase hexadecimal digits.
fn blob(digits: &[u8]) -> Option<Vec<u8>> {
    let value = |digit: u8| b"0123456789abcdef".iter().position(|one| *one == digit);
    let pair = |pair: &[u8]| match pair {
        [high, low] => Some((16 * value(*high)? + value(*low)?) as u8),
        _ => None,
    };
    digits.chunks(2).map(pair).collect()
}

impl Line {
    /// The line as it stands in a sheet, with its LF.
    pub fn text(&self) -> String {
        let Self {
            kind,
            id,
            msgno,
            version,
            blob,
        } = self;
        let blob: String = blob.iter().map(|byte| format!("{byte:02x}")).collect();
        match *kind {
            DEVICE => format!("D,{version},{blob}\n"),
            CONTACT => format!("C,{id},{version},{blob}\n"),
            QUEUED => format!("Q,{id},{msgno},{version},{blob}\n"),
            COURIER => format!("K,{id},{version},{blob}\n"),
            _ => panic!("a sheet has no line of kind {kind}"),
        }
    }

    /// What a line of this kind would say of an entry and its row.
    pub fn of(entry: &Entry, row: &[u8]) -> Self {
        let Entry {
            id,
            msgno,
            version,
            kind,
            ..
        } = *entry;
        Self {
            kind,
            id: if kind == DEVICE { 0 } else { id },
            msgno: if kind == QUEUED { msgno } else { 0 },
            version,
            blob: row.to_vec(),
        }
    }
}

/// The lines of a store, unless a kind has no letter or a row is not in the run.
pub fn lines_of(store: &Store) -> Option<Vec<Line>> {
    let line = |(at, entry): (usize, &Entry)| {
        let row = store.row(at).filter(|_| entry.kind <= COURIER)?;
        Some(Line::of(entry, row))
    };
    store.entries.iter().enumerate().map(line).collect()
}

/// The run and the entries: rows one behind the other.
pub fn store_of(lines: &[Line]) -> Store {
    let mut store = Store {
        run: Vec::new(),
        entries: Vec::new(),
    };
    for line in lines {
        store.entries.push(Entry {
            id: line.id,
            start: store.run.len(),
            len: line.blob.len(),
            msgno: line.msgno,
            version: line.version,
            kind: line.kind,
        });
        store.run.extend(&line.blob);
    }
    store
}

pub fn text_of(lines: &[Line]) -> String {
    lines.iter().map(Line::text).collect()
}

/// All that `statement` prints.
pub fn statement(sheet: &[u8]) -> String {
    match read(sheet) {
        Err(Unreadable { number, line }) => format!("X,{number},{line}\n"),
        Ok(lines) => match printed(&store_of(&lines)) {
            Ok(text) => text,
            Err(Refusal { number, index }) => format!("R,{number},{index}\n"),
        },
    }
}

/// The `S` line of each contact in order, and the `T` line.
fn printed(store: &Store) -> Result<String, Refusal> {
    let next_slot = store.restore()?.next_slot;
    let mut ledger = Ledger::default();
    ledger.restore(store)?;
    let mut memory = Memory::new();
    let mut text = String::new();
    for entry in store.entries.iter().filter(|entry| entry.kind == CONTACT) {
        let opened = ledger.call(Call::Open(entry.id), &mut memory.whole());
        assert_eq!(opened, Ok(Granted::Yes), "lists are long enough");
        let line = ledger.call(Call::Statement, &mut memory.whole());
        let Ok(Granted::Wrote(size)) = line else {
            panic!("a line fits: {line:?}");
        };
        text += str::from_utf8(&memory.out[..size]).expect("a line is of digits");
    }
    let count = |kind| {
        let of_kind = |entry: &&Entry| entry.kind == kind;
        store.entries.iter().filter(of_kind).count()
    };
    let [contacts, queued, held] = [CONTACT, QUEUED, COURIER].map(count);
    Ok(format!("{text}T,{contacts},{queued},{held},{next_slot}\n"))
}
