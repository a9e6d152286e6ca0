//! The text of a list of calls, as the program `replay` reads it: `tools/oracle/README.md` has its lines.

use crate::hex::hex;
use crate::model::calls::Call;
use crate::model::memory::Lengths;
use crate::model::sheet::{self, BLOB_BYTES, LINES, Line};
use crate::model::store::{Entry, Store};
use std::fmt;

#[derive(Debug, Clone, PartialEq)]
pub enum Step {
    /// `script K`: nothing is restored, everything is lent.
    Script(u64),
    Restore(Vec<Line>),
    RawRestore(Store),
    Lend(Lengths),
    Call(Call),
    Veil {
        kind: u32,
        version: u32,
        out: usize,
        row: Vec<u8>,
    },
    /// The lent lengths of a contact's five lists; of other rows none.
    Read {
        kind: u32,
        version: u32,
        lent: Option<[usize; 5]>,
        row: Vec<u8>,
    },
    State,
}

impl fmt::Display for Step {
    /// The step's lines, the last without its LF.
    fn fmt(&self, out: &mut fmt::Formatter) -> fmt::Result {
        match self {
            Self::Script(number) => write!(out, "script {number}"),
            Self::Restore(lines) => {
                let text = sheet::text_of(lines);
                let text = format!("restore {}\n{text}", lines.len());
                write!(out, "{}", text.trim_end_matches('\n'))
            }
            Self::RawRestore(store) => {
                write!(
                    out,
                    "rawrestore {} {}",
                    store.entries.len(),
                    hex(&store.run)
                )?;
                let mut entries = store.entries.iter();
                entries.try_for_each(|entry| write!(out, "\n{}", entry_line(entry)))
            }
            Self::Lend(lengths) => write!(out, "lend {}", joined(lengths, " ")),
            Self::Call(call) => write!(out, "{}", call_line(*call)),
            Self::Veil {
                kind,
                version,
                out: room,
                row,
            } => write!(out, "veil {kind} {version} {room} {}", hex(row)),
            Self::Read {
                kind,
                version,
                lent,
                row,
            } => {
                let lent = lent.map_or("-".into(), |lent| joined(&lent, ","));
                write!(out, "read {kind} {version} {lent} {}", hex(row))
            }
            Self::State => write!(out, "state"),
        }
    }
}

fn joined(lengths: &[usize], between: &str) -> String {
    let words: Vec<String> = lengths.iter().map(usize::to_string).collect();
    words.join(between)
}

fn entry_line(entry: &Entry) -> String {
    let Entry {
        id,
        start,
        len,
        msgno,
        version,
        kind,
    } = entry;
    format!("{kind} {id} {msgno} {version} {start} {len}")
}

fn call_line(call: Call) -> String {
    match call {
        Call::Open(id) => format!("open {id}"),
        Call::Cover(from, to) => format!("cover {from} {to}"),
        Call::Contains(number) => format!("contains {number}"),
        Call::Covers(from, to) => format!("covers {from} {to}"),
        Call::Take => "take".into(),
        Call::Statement => "statement".into(),
        Call::Write => "write".into(),
    }
}

impl Step {
    /// The first word, for counting.
    pub fn name(&self) -> String {
        let text = self.to_string();
        let word = text.split([' ', '\n']).next();
        word.expect("every step has a word").into()
    }

    /// Whether a line is printed for it.
    pub fn answers(&self) -> bool {
        !matches!(self, Self::Script(_) | Self::Lend(_))
    }
}

/// Steps from the lines of a script; a line that is none ends them with its number, from 1.
pub struct Steps<'a> {
    lines: std::str::Split<'a, char>,
    line: usize,
}

impl<'a> Steps<'a> {
    pub fn of(text: &'a str) -> Self {
        Self {
            lines: text.strip_suffix('\n').unwrap_or(text).split('\n'),
            line: 0,
        }
    }

    fn line(&mut self) -> Option<&'a str> {
        self.line += 1;
        self.lines.next()
    }

    /// The lines that a restore is followed by, each as `part` reads it.
    fn follow<T>(
        &mut self,
        count: usize,
        mut part: impl FnMut(&str) -> Option<T>,
    ) -> Option<Vec<T>> {
        if count > LINES {
            return None;
        }
        (0..count).map(|_| part(self.line()?)).collect()
    }

    /// The step that begins with this line.
    fn step(&mut self, line: &str) -> Option<Step> {
        let words: Vec<&str> = line.split(' ').collect();
        Some(match *words.as_slice() {
            ["script", number] => Step::Script(decimal(number)?),
            ["restore", count] => {
                let mut room = BLOB_BYTES;
                Step::Restore(self.follow(decimal(count)?, |line| {
                    let line = sheet_line(line)?;
                    room = room.checked_sub(line.blob.len())?;
                    Some(line)
                })?)
            }
            ["rawrestore", count, run] => {
                let run = bytes(run)?;
                let entries = self.follow(decimal(count)?, entry)?;
                Step::RawRestore(Store { run, entries })
            }
            ["lend", ref lengths @ ..] => Step::Lend(numbers(lengths)?),
            ["veil", kind, version, out, row] => Step::Veil {
                kind: decimal(kind)?,
                version: decimal(version)?,
                out: decimal(out)?,
                row: bytes(row)?,
            },
            ["read", kind, version, lent, row] => read(kind, version, lent, row)?,
            ["state"] => Step::State,
            _ => Step::Call(call(&words)?),
        })
    }
}

impl Iterator for Steps<'_> {
    type Item = Result<Step, usize>;

    fn next(&mut self) -> Option<Self::Item> {
        loop {
            let line = self.line()?;
            if !line.is_empty() && !line.starts_with(['#', '=']) {
                return Some(self.step(line).ok_or(self.line));
            }
        }
    }
}

fn call(words: &[&str]) -> Option<Call> {
    Some(match *words {
        ["open", id] => Call::Open(decimal(id)?),
        ["cover", from, to] => Call::Cover(decimal(from)?, decimal(to)?),
        ["contains", number] => Call::Contains(decimal(number)?),
        ["covers", from, to] => Call::Covers(decimal(from)?, decimal(to)?),
        ["take"] => Call::Take,
        ["statement"] => Call::Statement,
        ["write"] => Call::Write,
        _ => return None,
    })
}

/// A contact is read into five lists, another row into none.
fn read(kind: &str, version: &str, lent: &str, row: &str) -> Option<Step> {
    let lent = match lent {
        "-" => None,
        lent => {
            let lengths: Vec<&str> = lent.split(',').collect();
            Some(numbers(&lengths)?)
        }
    };
    let kind: u32 = decimal(kind)?;
    let fits = kind <= 3 && lent.is_some() == (kind == 1);
    fits.then_some(Step::Read {
        kind,
        version: decimal(version)?,
        lent,
        row: bytes(row)?,
    })
}

/// As in the sheet: without leading zeros.
fn decimal<T: std::str::FromStr>(word: &str) -> Option<T> {
    let plain = word.bytes().all(|byte| byte.is_ascii_digit());
    let leading = word.len() > 1 && word.starts_with('0');
    if plain && !leading {
        word.parse().ok()
    } else {
        None
    }
}

fn numbers<const COUNT: usize>(words: &[&str]) -> Option<[usize; COUNT]> {
    let numbers: Option<Vec<usize>> = words.iter().map(|word| decimal(word)).collect();
    numbers?.try_into().ok()
}

/// Lowercase hexadecimal, `-` for nothing; no more than a run may have.
pub fn bytes(word: &str) -> Option<Vec<u8>> {
    let word = match word {
        "" => return None,
        "-" => "",
        word => word,
    };
    let line = format!("D,3,{word}\n");
    let lines = sheet::read(line.as_bytes()).ok()?;
    Some(lines[0].blob.clone())
}

/// 41 to 43 are right.
fn sheet_line(line: &str) -> Option<Line> {
    let lines = sheet::read(format!("{line}\n").as_bytes()).ok()?;
    lines.into_iter().next()
}

fn entry(line: &str) -> Option<Entry> {
    let words: Vec<&str> = line.split(' ').collect();
    let [kind, id, msgno, version, start, len] = *words.as_slice() else {
        return None;
    };
    Some(Entry {
        id: decimal(id)?,
        start: decimal(start)?,
        len: decimal(len)?,
        msgno: decimal(msgno)?,
        version: decimal(version)?,
        kind: decimal(kind)?,
    })
}
