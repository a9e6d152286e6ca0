//! Random lists of calls, made with the model's state in view, so that ranges meet what is covered, lent lengths are just
//! long enough or one too short, and every refusal comes.

use crate::generate::inputs::Random;
use crate::generate::row_build::{self, SMALL, Size};
use crate::generate::script_stores;
use crate::model::calls::Call;
use crate::model::memory::{HAS, Lengths};
use crate::model::rows::{self, Contact, Range};
use crate::model::runner::Runner;
use crate::model::script::Step;
use crate::model::sheet::{self, Line};
use crate::model::store::{CONTACT, Store};

struct Builder<'a> {
    random: &'a mut Random,
    runner: Runner,
    steps: Vec<Step>,
    /// The last answer was a refusal by 34.
    stuck: bool,
}

/// One list of calls, from `script` on.
pub fn script(random: &mut Random, number: u64) -> Vec<Step> {
    let mut builder = Builder {
        random,
        runner: Runner::new(),
        steps: Vec::new(),
        stuck: false,
    };
    builder.push(Step::Script(number));
    if builder.one_in(6) {
        builder.calls(4);
    }
    for _ in 0..1 + builder.random.below(2) {
        if builder.one_in(5) {
            builder.refused_restore();
            builder.calls(3);
        }
        let store = script_stores::granted(builder.random);
        builder.push(store);
        if builder.one_in(6) {
            builder.calls(2);
        }
        for _ in 0..1 + builder.random.below(2) {
            builder.open_call();
            builder.calls(20);
        }
    }
    builder.steps
}

/// A number near an end of these ranges, near the first or the last, or any.
fn number_near(random: &mut Random, runs: &[Range]) -> u32 {
    let near = match random.below(8) {
        0 => 1,
        1 => u32::MAX,
        2 => random.number(),
        _ if runs.is_empty() => 4,
        _ => {
            let (from, to) = random.pick(runs);
            if random.flag() { from } else { to }
        }
    };
    let number = i64::from(near) + random.below(7) as i64 - 3;
    number.clamp(0, u32::MAX.into()) as u32
}

/// Mostly 1 <= from <= to: two such numbers, or one and a few behind it.
pub fn range_near(random: &mut Random, runs: &[Range]) -> Range {
    let (one, other) = (number_near(random, runs), number_near(random, runs));
    match random.below(20) {
        0 => (one, other),
        1 => (0, other),
        2..11 => {
            let from = one.max(1);
            (from, from.saturating_add(random.below(3) as u32))
        }
        _ => (one.min(other).max(1), one.max(other).max(1)),
    }
}

impl Builder<'_> {
    fn one_in(&mut self, count: usize) -> bool {
        self.random.below(count) == 0
    }

    fn push(&mut self, step: Step) {
        let answer = self.runner.step(&step);
        self.stuck = answer.is_some_and(|answer| answer == "= no 34");
        self.steps.push(step);
    }

    fn refused_restore(&mut self) {
        let step = script_stores::refused(self.random);
        self.push(step);
    }

    /// Up to so many calls of any kind.
    fn calls(&mut self, most: usize) {
        for _ in 0..1 + self.random.below(most) {
            if self.stuck && self.one_in(3) {
                self.push(Step::Lend([1_000_000; 6]));
            }
            self.any_call();
        }
    }

    fn any_call(&mut self) {
        let step = match self.random.below(100) {
            0..34 => {
                let (from, to) = self.range();
                Step::Call(Call::Cover(from, to))
            }
            34..44 => Step::Call(Call::Contains(self.number())),
            44..54 => {
                let (from, to) = self.range();
                Step::Call(Call::Covers(from, to))
            }
            54..62 => Step::Call(Call::Take),
            62..68 => Step::Call(Call::Statement),
            68..74 => Step::Call(Call::Write),
            74..82 => Step::State,
            82..91 => Step::Lend(self.lengths()),
            91..94 => return self.open_call(),
            94 => return self.refused_restore(),
            95..99 => self.veil_or_read(),
            _ => self.open_missing(),
        };
        self.push(step);
    }

    fn contact_ids(&self) -> Vec<u64> {
        let entries = self.runner.ledger.store().map(|store| &store.entries);
        let contacts = entries.into_iter().flatten();
        contacts
            .filter(|entry| entry.kind == CONTACT)
            .map(|entry| entry.id)
            .collect()
    }

    /// Opens a contact of the store, mostly; now and then with lists that are just long enough, or not.
    fn open_call(&mut self) {
        let ids = self.contact_ids();
        if ids.is_empty() {
            let missing = self.open_missing();
            return self.push(missing);
        }
        let id = self.random.pick(&ids);
        if self.one_in(4) {
            let lengths = self.lengths_for(self.stored(id).as_ref());
            self.push(Step::Lend(lengths));
        }
        self.push(Step::Call(Call::Open(id)));
    }

    fn open_missing(&mut self) -> Step {
        let id = match self.contact_ids().first() {
            Some(id) if self.random.flag() => id.wrapping_add(1 << self.random.below(40)),
            _ => self.random.pick(&[0, 1, 2, u64::MAX]),
        };
        Step::Call(Call::Open(id))
    }

    fn stored(&self, id: u64) -> Option<Contact> {
        let store: &Store = self.runner.ledger.store()?;
        let entries = store.entries.iter();
        let at = entries
            .clone()
            .position(|entry| entry.kind == CONTACT && entry.id == id)?;
        rows::contact(3, store.row(at)?).answer.ok()
    }

    fn runs(&self) -> Vec<Range> {
        let opened = self.runner.ledger.opened();
        opened.map_or(Vec::new(), |opened| opened.covered().runs())
    }

    fn number(&mut self) -> u32 {
        number_near(self.random, &self.runs())
    }

    fn range(&mut self) -> (u32, u32) {
        range_near(self.random, &self.runs())
    }

    fn lengths(&mut self) -> Lengths {
        let fields = self.runner.ledger.opened().map(|opened| opened.fields());
        self.lengths_for(fields.as_ref())
    }

    /// Each length is what there is, or close to what this contact needs; the output close to its row or its line.
    fn lengths_for(&mut self, contact: Option<&Contact>) -> Lengths {
        let counts = contact.map_or([0; 5], |contact| {
            [
                contact.chains.len(),
                contact.skipped.len(),
                contact.above.len(),
                contact.unacked.len(),
                contact.expired.len(),
            ]
        });
        let short = self.random.below(40);
        let mut lengths = HAS;
        for at in 0..5 {
            let more = self.random.pick(&[0, 0, 0, 1, 1, 2]);
            lengths[at] = match self.random.below(4) {
                _ if short == at => counts[at].saturating_sub(1),
                0 => self.random.pick(&[HAS[at], 1_000_000, usize::MAX]),
                _ => counts[at] + more,
            };
        }
        lengths[5] = self.output(contact);
        lengths
    }

    fn output(&mut self, contact: Option<&Contact>) -> usize {
        let row = contact.map_or(0, |contact| contact.row().len());
        let ledger = &self.runner.ledger;
        let line = match (ledger.store(), ledger.opened()) {
            (Some(store), Some(opened)) => opened.line(store).len(),
            _ => 0,
        };
        let near = self.random.pick(&[HAS[5], HAS[5], row, row, line, line, 0]);
        (near + self.random.below(3)).saturating_sub(1)
    }

    /// A row of the store or a new one, whole or with a byte changed, cut or added.
    fn veil_or_read(&mut self) -> Step {
        let Line {
            mut kind,
            version,
            blob: mut row,
            ..
        } = self.some_row();
        let at = self.random.below(row.len().max(1));
        match self.random.below(6) {
            0 => row.truncate(at),
            1 => row.push(self.random.byte()),
            2 if !row.is_empty() => row[at] = self.random.byte(),
            _ => {}
        }
        let version = if self.one_in(12) { 4 } else { version };
        if self.random.flag() {
            let room = row.len() + self.random.below(3);
            if self.one_in(8) {
                kind = self.random.pick(&[4, 255, u32::MAX]);
            }
            return Step::Veil {
                kind,
                version,
                out: room.saturating_sub(1),
                row,
            };
        }
        let contact = rows::contact(version, &row).answer.ok();
        let lengths = self.lengths_for(contact.as_ref());
        let five = lengths.first_chunk().copied();
        Step::Read {
            kind,
            version,
            lent: five.filter(|_| kind == CONTACT),
            row,
        }
    }

    fn some_row(&mut self) -> Line {
        if self.one_in(12) {
            return self.chained_row();
        }
        let lines = self.runner.ledger.store().and_then(sheet::lines_of);
        match lines {
            Some(lines) if !lines.is_empty() => lines[self.random.below(lines.len())].clone(),
            _ => Line {
                kind: 0,
                id: 0,
                msgno: 0,
                version: 3,
                blob: row_build::device(self.random).row(),
            },
        }
    }

    /// A contact's row with as many chains as there may be, or one more.
    fn chained_row(&mut self) -> Line {
        let chains = self.random.pick(&[8, 9]);
        let contact = row_build::contact(self.random, Size { chains, ..SMALL });
        Line {
            kind: CONTACT,
            id: 1,
            msgno: 0,
            version: 3,
            blob: contact.row(),
        }
    }
}
