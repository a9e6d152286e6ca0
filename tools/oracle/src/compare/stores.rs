//! Whole stores: restore.

use super::small_stores;
use crate::compare::store_shrink;
use crate::compare::tally::Tally;
use crate::generate::inputs::Random;
use crate::generate::row_build::FULL;
use crate::generate::store_break;
use crate::generate::store_build::{self, Counts};
use crate::generate::store_damage;
use crate::hex::hex;
use crate::model::questions;
use crate::model::store::{self, Answer, CONTACT, COURIER, DEVICE, Entry, Refusal, Store};
use crate::original::stores::{Rows, fitting};
use crate::rattle::{self, RestoreAnswer};

/// Random stores for each of `times`.
const GENERATED: usize = 60_000;
const HUNDRED: usize = 100;
/// How many numbers restore can answer.
const NUMBERS: usize = questions::OF_RESTORE.len();
/// Every so many random stores one is large.
const LARGE_EVERY: usize = 500;
const LARGE: Counts = Counts {
    contacts: 60,
    queued: 300,
    courier: 300,
};
/// So many that restore takes its large filter and index.
const VERY_LARGE: Counts = Counts {
    contacts: 150,
    queued: 600,
    courier: 600,
};
/// What is shown of a long run.
const SHOWN: usize = 1600;

pub fn run(seed: u64, times: usize) -> bool {
    let mut random = Random::new(seed);
    let mut compare = Compare::new();
    let mut pairs = Random::new(seed ^ 1);
    small_stores::every(&mut random, &mut |store, due| {
        compare.visit(&store, due, pairs.next());
    });
    for index in 0..GENERATED * times {
        let (store, due) = generated(&mut random, index);
        compare.visit(&store, due, random.next());
    }
    compare.finish()
}

/// Of a hundred, 34 have one question broken on purpose, each another, and 25 several; 20 are valid, and 21 damaged.
fn generated(random: &mut Random, index: usize) -> (Store, Option<Refusal>) {
    if index % LARGE_EVERY == LARGE_EVERY - 1 {
        return large(random);
    }
    let place = index % HUNDRED;
    match place {
        0..NUMBERS => {
            let number = questions::OF_RESTORE[place];
            let plan = store_build::rich(random);
            let (store, refusal) = store_break::aimed(random, plan, number);
            (store, Some(refusal))
        }
        NUMBERS..59 => {
            let count = 2 + random.below(3);
            let numbers: Vec<u32> = (0..count).map(|_| several(random)).collect();
            let plan = store_build::rich(random);
            let (mut store, _) = store_break::broken(random, plan, &numbers);
            if random.below(4) == 0 {
                store_damage::damaged(random, &mut store);
            }
            (store, None)
        }
        _ => {
            let plan = store_build::any(random);
            let items = plan.items(random);
            let mut store = store_build::laid(random, items);
            if place >= 79 {
                store_damage::damaged(random, &mut store);
            }
            (store, None)
        }
    }
}

/// A number to break beside others: those that are asked late more often, and 20, which is long, never.
fn several(random: &mut Random) -> u32 {
    let number = match random.below(3) {
        0 => questions::OF_RESTORE[random.below(25)],
        _ => 25 + random.below(9) as u32,
    };
    if number == questions::SKIPPED_COUNT {
        questions::SKIPPED
    } else {
        number
    }
}

/// Many rows: what is new, and whose a queued row is, must be found far back. Half of them have a no of 25 to 33.
fn large(random: &mut Random) -> (Store, Option<Refusal>) {
    let counts = random.pick(&[LARGE, VERY_LARGE]);
    let plan = store_build::plan(random, counts, FULL);
    if random.flag() {
        let number = 25 + random.below(9) as u32;
        let (store, refusal) = store_break::aimed(random, plan, number);
        return (store, Some(refusal));
    }
    let items = plan.items(random);
    (store_build::laid(random, items), None)
}

/// What is counted beside the answers.
struct Compare {
    tally: Tally,
    accepted: u64,
    known: u64,
    rust_asked: u64,
    rust_accepted: u64,
}

impl Compare {
    fn new() -> Self {
        Self {
            tally: Tally::new("stores", "stores"),
            accepted: 0,
            known: 0,
            rust_asked: 0,
            rust_accepted: 0,
        }
    }

    /// A store, its refusal where that is known beforehand, and a seed for what is changed unnoticed.
    fn visit(&mut self, store: &Store, known: Option<Refusal>, seed: u64) {
        let Found {
            due,
            mut faults,
            rust,
        } = found(store, seed);
        self.accepted += u64::from(due.is_ok());
        self.rust_asked += u64::from(rust.is_some());
        self.rust_accepted += u64::from(rust == Some(true));
        let differs = !faults.is_empty();
        if let Some(known) = known {
            self.known += 1;
            if due != Err(known) {
                faults.push(format!("made to be {known:?}"));
            }
        }
        let number = store::number(&due);
        self.tally.count(number, faults.is_empty(), || {
            if !differs {
                return described(store, &due, &faults);
            }
            let smallest =
                store_shrink::smallest(store, |store| !found(store, seed).faults.is_empty());
            let Found { due, faults, .. } = found(&smallest, seed);
            described(&smallest, &due, &faults)
        });
    }

    /// Prints what was counted; whether nothing differed and every answer was due at least once.
    fn finish(self) -> bool {
        let mut all = questions::OF_RESTORE.to_vec();
        all.push(0);
        all.sort();
        let same = self.tally.print_all(&all);
        println!(
            "stores: {} accepted; {} with a refusal known beforehand; the Rust was asked about {} and accepts {}",
            self.accepted, self.known, self.rust_asked, self.rust_accepted
        );
        same
    }
}

/// What is due, what differs, and whether the Rust accepts where it can be asked.
struct Found {
    due: Answer,
    faults: Vec<String>,
    rust: Option<bool>,
}

fn found(store: &Store, seed: u64) -> Found {
    let due = store.restore();
    let mut faults = rattle_faults(store, &due);
    let (rust, rust_faults) = rust_faults(store, &due);
    faults.extend(rust_faults);
    let other = changed_unnoticed(store, seed);
    let other_due = other.restore();
    if other_due != due {
        faults.push(format!(
            "the model notices a veiled byte or an unused field: {other_due:?}"
        ));
    }
    let noticed = [
        rattle_faults(&other, &due),
        rust_faults_of(&other, &other_due),
    ]
    .concat();
    faults.extend(
        noticed
            .iter()
            .map(|fault| format!("changed unnoticed: {fault}")),
    );
    Found { due, faults, rust }
}

/// The Rattle answers the model's number and place, or next_contact and next_slot, and writes nothing.
fn rattle_faults(store: &Store, due: &Answer) -> Vec<String> {
    let before = store.clone();
    let mut faults = Vec::new();
    let answer = rattle::restore(store);
    if answer != RestoreAnswer::from(*due) {
        faults.push(format!("Rattle {answer:?}"));
    }
    if *store != before {
        faults.push("Rattle writes to the store".into());
    }
    faults
}

/// Whether the Rust accepts what it can be asked about, and what differs: acceptance, and on acceptance every row written
/// again, next_contact and next_slot. 33 and 54 are left out.
fn rust_faults(store: &Store, due: &Answer) -> (Option<bool>, Vec<String>) {
    let mut fit = None;
    let mut due = *due;
    if [questions::KINDS, questions::IN_RUN].contains(&store::number(&due)) {
        fit = fitting(store);
        match &fit {
            Some(fit) => due = fit.restore(),
            None => return (None, Vec::new()),
        }
    }
    if questions::NOT_IN_RUST.contains(&store::number(&due)) {
        return (None, Vec::new());
    }
    let rows = Rows::of(fit.as_ref().unwrap_or(store));
    let rust = rows.restore();
    let accepted = rust.is_some();
    let faults = match (&rust, due) {
        (Some(device), Ok(granted)) => rows
            .faults(device, granted)
            .iter()
            .map(|what| format!("Rust has other {what}"))
            .collect(),
        (None, Err(_)) => Vec::new(),
        _ => vec![format!("Rust accepts: {accepted}, where {due:?} is due")],
    };
    (Some(accepted), faults)
}

/// What differs on one store.
pub fn store_faults(store: &Store) -> Vec<String> {
    found(store, 1).faults
}

fn rust_faults_of(store: &Store, due: &Answer) -> Vec<String> {
    rust_faults(store, due).1
}

/// The same store but for bytes that every row holding them veils, bytes in no row, and fields that a kind has no use for.
fn changed_unnoticed(store: &Store, seed: u64) -> Store {
    let mut random = Random::new(seed);
    let blank = random.flag();
    let mut other = store.clone();
    for (byte, unnoticed) in other.run.iter_mut().zip(store.unnoticed()) {
        if unnoticed {
            *byte = if blank { 0 } else { random.byte() };
        }
    }
    for entry in &mut other.entries {
        if entry.kind == DEVICE {
            entry.id = random.next();
        }
        if [DEVICE, CONTACT, COURIER].contains(&entry.kind) {
            entry.msgno = random.number();
        }
    }
    other
}

fn described(store: &Store, due: &Answer, faults: &[String]) -> String {
    let entry = |entry: &Entry| {
        let Entry {
            id,
            start,
            len,
            msgno,
            version,
            kind,
        } = entry;
        format!("kind {kind} id {id} msgno {msgno} version {version} start {start} length {len}")
    };
    let entries: Vec<String> = store.entries.iter().map(entry).collect();
    let shown = hex(&store.run[..store.run.len().min(SHOWN)]);
    format!(
        "{}\n  due {due:?}\n  entries: {}\n  run of {}: {shown}",
        faults.join(", "),
        entries.join("; "),
        store.run.len()
    )
}
