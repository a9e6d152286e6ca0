//! How long restore takes: the Rattle's and the Rust's on the same stores, in the same program.
//!
//! Rattle: one call of the C function with the run and the entries. Rust: one call of `Device::restore` with a copy of each
//! row, made before time is taken; what it returns is dropped after time was taken. So of the Rust's memory only that which
//! restore itself asks for counts. One pass: the time in which run and entries are read once and summed.

use crate::generate::inputs::Random;
use crate::generate::row_build::{self, FULL, Size};
use crate::generate::store_build::{self, Counts, Plan, shuffle};
use crate::model::rows::Device;
use crate::model::store::{Entry, Store};
use crate::original::stores::Rows;
use crate::rattle::{self, RestoreAnswer};
use crate::speed::clock::{median, processor_time};
use std::hint::black_box;

/// The median of so many runs is taken, each of at least so many nanoseconds; of a slow call fewer, of a very slow one one.
const RUNS: usize = 21;
const FEWER_RUNS: usize = 5;
const RUN: f64 = 1e7;
const SLOW: f64 = 1e8;
const VERY_SLOW: f64 = 3e9;
/// So many results of calls are kept at a time, and dropped while no time is taken.
const KEPT: u32 = 256;

/// Queued numbers start here: above every unacked one, and below every sent_msgno.
const FIRST_QUEUED: u32 = 100_000;

const ONE: Counts = Counts {
    contacts: 1,
    queued: 0,
    courier: 0,
};
const SMALL: Counts = Counts {
    contacts: 50,
    queued: 200,
    courier: 200,
};
const LARGE: Counts = Counts {
    contacts: 1_000,
    queued: 10_000,
    courier: 10_000,
};
const TWICE: Counts = Counts {
    contacts: 2_000,
    queued: 20_000,
    courier: 20_000,
};
const FIVE_TIMES: Counts = Counts {
    contacts: 5_000,
    queued: 50_000,
    courier: 50_000,
};
const MILLION: Counts = Counts {
    contacts: 47_619,
    queued: 476_190,
    courier: 476_190,
};

pub fn run() {
    let mut random = Random::new(1);
    head();
    let plan = ascending(&mut random, ONE);
    line(&mut random, &plan, "ascending");
    both_orders(&mut random, SMALL);
    let [once, twice] = [LARGE, TWICE].map(|counts| both_orders(&mut random, counts));
    for (order, at) in [("ascending", 0), ("shuffled", 1)] {
        println!(
            "twice the rows, {order}: {:.1} times the Rattle's time, {:.1} times the Rust's",
            twice[at].0 / once[at].0,
            twice[at].1 / once[at].1
        );
    }
}

/// The same of larger stores; the last takes a gigabyte.
pub fn run_large() {
    let mut random = Random::new(1);
    head();
    for counts in [FIVE_TIMES, MILLION] {
        both_orders(&mut random, counts);
    }
}

fn head() {
    if cfg!(not(feature = "rattle")) {
        println!("no Rattle library: its side is the model");
    }
    println!(
        "| Contacts | Queued | Courier | Order | Bytes | One pass, µs | Rattle, µs | Rust, µs | Ratio |"
    );
    println!("|---|---|---|---|---|---|---|---|---|");
}

/// A line for the rows in ascending order, and one for the same, shuffled within each kind.
fn both_orders(random: &mut Random, counts: Counts) -> [(f64, f64); 2] {
    let mut plan = ascending(random, counts);
    let ascending = line(random, &plan, "ascending");
    shuffle(random, &mut plan.contacts);
    shuffle(random, &mut plan.queued);
    shuffle(random, &mut plan.courier);
    [ascending, line(random, &plan, "shuffled")]
}

/// One line of the table: microseconds for one restore, and how many times the Rattle's the Rust's are. The run has the rows
/// in the order of their entries.
fn line(random: &mut Random, plan: &Plan, order: &str) -> (f64, f64) {
    let store = store_build::packed(plan.items(random));
    let rows = Rows::of(&store);
    assert_granted(&store, &rows);
    let pass = each(|| black_box(sum(black_box(&store)))) / 1e3;
    let rattle = each(|| black_box(rattle::restore(black_box(&store)))) / 1e3;
    let rust = each(|| black_box(black_box(&rows).restore())) / 1e3;
    let (contacts, queued, courier) = (plan.contacts.len(), plan.queued.len(), plan.courier.len());
    println!(
        "| {contacts} | {queued} | {courier} | {order} | {} | {pass:.2} | {rattle:.2} | {rust:.1} | {:.2} |",
        store.run.len(),
        rust / rattle
    );
    (rattle, rust)
}

/// All that restore is handed, read once.
fn sum(store: &Store) -> u64 {
    let words = store.run.chunks_exact(8);
    let word = |bytes: &[u8]| u64::from_le_bytes(bytes.try_into().expect("eight bytes"));
    let run = words.map(word).fold(0, u64::wrapping_add);
    let entry = |e: &Entry| {
        let numbers = [e.id, e.start as u64, e.len as u64];
        let fields = [e.msgno, e.version, e.kind].map(u64::from);
        numbers.into_iter().chain(fields).fold(0, u64::wrapping_add)
    };
    store.entries.iter().map(entry).fold(run, u64::wrapping_add)
}

/// Both sides restore the store, to the same numbers.
fn assert_granted(store: &Store, rows: &Rows) {
    let granted = store.restore().expect("a valid store");
    let rust = rows.restore().expect("a valid store");
    assert!(
        rows.faults(&rust, granted).is_empty(),
        "the Rust restores the same"
    );
    assert_eq!(
        rattle::restore(store),
        RestoreAnswer::from(Ok(granted)),
        "the Rattle answers the same"
    );
}

/// Ids, (contact, msgno) and slots rise.
fn ascending(random: &mut Random, counts: Counts) -> Plan {
    let ids = 0..counts.contacts as u64;
    let size = Size { unacked: 8, ..FULL };
    let contact = |id| (id, row_build::contact(random, size));
    let contacts = ids.clone().map(contact).collect();
    let each = counts.queued / counts.contacts;
    let numbers = |id| (FIRST_QUEUED..).take(each).map(move |msgno| (id, msgno));
    let mut queued = Vec::new();
    for (id, msgno) in ids.flat_map(numbers) {
        let (own, bucket) = (random.flag(), random.below(5));
        queued.push((id, msgno, row_build::queued(random, own, bucket)));
    }
    let mut courier = Vec::new();
    for slot in 0..counts.courier as u64 {
        let depositor = random.below(counts.contacts) as u64;
        let row = match slot % 2 {
            0 => row_build::tombstone(random),
            _ => store_build::carried(random, depositor),
        };
        courier.push((slot, row));
    }
    let device = Device {
        next_contact: counts.contacts as u64,
        ..row_build::device(random)
    };
    Plan {
        device,
        contacts,
        queued,
        courier,
    }
}

/// Nanoseconds of one call.
fn each<T>(mut call: impl FnMut() -> T) -> f64 {
    let mut calls = 1;
    let mut time = timed(&mut call, calls);
    while time < RUN {
        calls *= 2;
        time = timed(&mut call, calls);
    }
    let runs = match time {
        _ if time < SLOW => RUNS,
        _ if time < VERY_SLOW => FEWER_RUNS,
        _ => return time,
    };
    median((0..runs).map(|_| timed(&mut call, calls)).collect()) / f64::from(calls)
}

/// Nanoseconds that so many calls take, without the dropping of what they return.
fn timed<T>(call: &mut impl FnMut() -> T, calls: u32) -> f64 {
    let mut kept = Vec::with_capacity(KEPT as usize);
    let mut time = 0.0;
    for first in (0..calls).step_by(KEPT as usize) {
        let start = processor_time();
        for _ in first..calls.min(first + KEPT) {
            kept.push(call());
        }
        time += processor_time() - start;
        kept.clear();
    }
    time
}
