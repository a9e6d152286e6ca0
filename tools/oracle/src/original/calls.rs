//! The unchanged Rust beside the model: what of a list of calls it has too.
//!
//! Granted or refused with 3 to 32, but for 54, a store is one that `Device::restore` accepts or refuses. Of an open contact there are
//! `Received::contains`, `covers` and `insert`, `next_msgno` with 39, `row`, and the fields that the `S` line counts. The
//! Rust has neither lent lengths nor a mark: where the model refuses by 34, 36, 37, 38 or 40 it is not asked.

use crate::hex::hex;
use crate::model::calls::{Call, Ledger};
use crate::model::number_set::{NumberSet, numbers_in};
use crate::model::questions;
use crate::model::rows::Range;
use crate::model::script::Step;
use crate::model::sheet;
use crate::model::store::{self, Store};
use crate::original::parts::core::ContactId;
use crate::original::stores::Rows;
use crate::state;
use std::collections::BTreeMap;

#[derive(Default)]
pub struct Shadow {
    contact: Option<state::Contact>,
    /// How often each function was compared.
    pub compared: BTreeMap<&'static str, u64>,
}

impl Shadow {
    /// What differs after a step that the model has answered so.
    pub fn follow(&mut self, step: &Step, answer: &str, ledger: &Ledger) -> Vec<String> {
        match step {
            Step::Script(_) => {
                self.contact = None;
                Vec::new()
            }
            Step::Restore(lines) => self.restore(&sheet::store_of(lines)),
            Step::RawRestore(store) => self.restore(store),
            Step::Call(call) => self.call(*call, answer, ledger),
            _ => Vec::new(),
        }
    }

    fn compare<T: PartialEq + std::fmt::Debug>(
        &mut self,
        name: &'static str,
        rust: T,
        model: T,
    ) -> Vec<String> {
        *self.compared.entry(name).or_default() += 1;
        match rust == model {
            true => Vec::new(),
            false => vec![format!("{name}: Rust {rust:?}, model {model:?}")],
        }
    }

    fn restore(&mut self, store: &Store) -> Vec<String> {
        let answer = store.restore();
        let number = store::number(&answer);
        let not_asked = [questions::KINDS, questions::IN_RUN];
        if not_asked.contains(&number) || questions::NOT_IN_RUST.contains(&number) {
            return Vec::new();
        }
        if answer.is_ok() {
            self.contact = None;
        }
        let rust = Rows::of(store).restore();
        self.compare("restore", rust.is_some(), answer.is_ok())
    }

    fn call(&mut self, call: Call, answer: &str, ledger: &Ledger) -> Vec<String> {
        let mut faults = match call {
            Call::Open(id) => self.open(id, answer, ledger),
            _ if self.contact.is_none() => Vec::new(),
            _ => self.of_open(call, answer),
        };
        let changed = matches!(
            call,
            Call::Open(_) | Call::Cover(..) | Call::Take | Call::Write
        );
        if let (true, Some(contact), Some(opened)) = (changed, &self.contact, ledger.opened()) {
            let rust = hex(&contact.row().state.blob);
            faults.extend(self.compare("row", rust, hex(&opened.fields().row())));
        }
        faults
    }

    /// 35, and the contact that is open from then on.
    fn open(&mut self, id: u64, answer: &str, ledger: &Ledger) -> Vec<String> {
        let Some(store) = ledger.store().filter(|_| answer != "= no 36") else {
            return Vec::new();
        };
        let device = Rows::of(store).restore();
        let contacts = device.map_or(Vec::new(), |device| device.contacts);
        let mut found = contacts.into_iter().filter(|one| one.id == ContactId(id));
        let found = found.next();
        let faults = self.compare("contact found", found.is_some(), answer == "= yes");
        if found.is_some() {
            self.contact = found;
        }
        faults
    }

    fn of_open(&mut self, call: Call, answer: &str) -> Vec<String> {
        let contact = self.contact.as_mut().expect("a contact is open");
        let granted = !answer.starts_with("= no");
        let model = answer[2..].to_string();
        match call {
            Call::Cover(from, to) if granted => {
                let moved = contact.received.insert(from, to).to_string();
                let of_model = model.split(' ').next().unwrap_or_default();
                self.compare("insert", moved, of_model.to_string())
            }
            Call::Contains(number) if granted => {
                let rust = contact.received.contains(number);
                self.compare("contains", rust.to_string(), model)
            }
            Call::Covers(from, to) if granted => {
                let rust = contact.received.covers(from, to);
                self.compare("covers", rust.to_string(), model)
            }
            Call::Take if granted || answer == "= no 39" => {
                let next = contact.next_msgno();
                contact.sent_msgno = next.unwrap_or(contact.sent_msgno);
                let rust = next.map_or("no 39".into(), |next| next.to_string());
                self.compare("next_msgno", rust, model)
            }
            Call::Statement if granted => {
                let rust = line(contact);
                self.compare("statement", rust, model)
            }
            Call::Write if granted => {
                let rust = hex(&contact.row().state.blob);
                self.compare("written row", rust, model)
            }
            _ => Vec::new(),
        }
    }
}

/// The `S` line of the Rust's fields.
pub fn line(contact: &state::Contact) -> String {
    let state::Received { contiguous, above } = &contact.received;
    format!(
        "S,{},{},{},{contiguous},{},{},{}",
        contact.id.0,
        contact.sent_msgno,
        contact.peer_acked,
        numbers_in(above),
        contact.queued.len(),
        numbers_above(contact.peer_acked, &contact.expired)
    )
}

/// How many numbers of these ranges, which do not overlap, are above `acked`.
fn numbers_above(acked: u32, ranges: &[Range]) -> u64 {
    let above = |(from, to): &Range| to.saturating_sub(acked.max(from - 1));
    ranges.iter().map(|range| u64::from(above(range))).sum()
}

/// Every set of numbers up to this one.
const HIGHEST: u32 = 9;

/// Every small set with every range that goes a little further: what differs between the model's and the Rust's, each
/// insertion, number and range counted.
pub fn every_small_set(shadow: &mut Shadow) -> Vec<String> {
    let mut faults = Vec::new();
    for bits in 0..1u32 << HIGHEST {
        let numbers = (1..=HIGHEST).filter(|number| bits >> (number - 1) & 1 == 1);
        let single: Vec<Range> = numbers.map(|number| (number, number)).collect();
        let set = NumberSet::of(&single);
        let rust = received(&set);
        for number in 0..=HIGHEST + 2 {
            let (one, other) = (rust.contains(number), set.contains(number));
            faults.extend(shadow.compare("contains", one, other));
        }
        for to in 1..=HIGHEST + 2 {
            for from in 1..=to {
                let (one, other) = (rust.covers(from, to), set.covers(from, to));
                faults.extend(shadow.compare("covers", one, other));
                let after = set.with(from, to);
                let mut inserted = rust.clone();
                let moved = inserted.insert(from, to);
                let due = (after.contiguous() != set.contiguous(), received(&after));
                faults.extend(shadow.compare("insert", (moved, inserted), due));
            }
        }
    }
    faults
}

fn received(set: &NumberSet) -> state::Received {
    state::Received {
        contiguous: set.contiguous(),
        above: set.above(),
    }
}
