//! Random damage of a store: its run's bytes and length, and its entries' fields, number and order.

use crate::generate::inputs::Random;
use crate::generate::store_build;
use crate::model::store::{Entry, Store};

/// One to three things, or one of every kind.
pub fn damaged(random: &mut Random, store: &mut Store) {
    if random.below(16) == 0 {
        (0..4).for_each(|kind| damage(random, store, kind));
    }
    for _ in 0..=random.below(3) {
        let kind = random.below(4);
        damage(random, store, kind);
    }
}

fn damage(random: &mut Random, store: &mut Store, kind: usize) {
    match kind {
        0 => bytes(random, &mut store.run),
        1 => length(random, store),
        2 => order(random, &mut store.entries),
        _ => field(random, store),
    }
}

/// One to eight bytes, anywhere.
fn bytes(random: &mut Random, run: &mut [u8]) {
    if run.is_empty() {
        return;
    }
    for _ in 0..=random.below(8) {
        let at = random.below(run.len());
        run[at] = match random.below(3) {
            0 => random.byte(),
            1 => run[at] ^ 1 << random.below(8),
            _ => random.pick(&[0, 1, 2, 3, 0x49, 0x52, 0xff]),
        };
    }
}

/// The run cut, longer, or with a byte more or less before some row.
fn length(random: &mut Random, store: &mut Store) {
    let run = &mut store.run;
    let at = random.below(run.len().max(1));
    match random.below(8) {
        0 => run.clear(),
        1 => run.truncate(at),
        2 | 3 => run.truncate(run.len().saturating_sub(1 + random.below(3))),
        4 | 5 => {
            let size = 1 + random.below(40);
            run.extend(random.bytes(size));
        }
        6 => run.insert(at.min(run.len()), random.byte()),
        _ if at < run.len() => drop(run.remove(at)),
        _ => {}
    }
}

/// Two entries exchanged, one moved, repeated or left out; or more of them.
fn order(random: &mut Random, entries: &mut Vec<Entry>) {
    if entries.is_empty() {
        return;
    }
    let (one, other) = (random.below(entries.len()), random.below(entries.len()));
    match random.below(10) {
        0 => entries.clear(),
        1 | 2 => entries.swap(one, other),
        3 => {
            let entry = entries.remove(one);
            entries.insert(other.min(entries.len()), entry);
        }
        4 | 5 => entries.insert(other, entries[one]),
        6 | 7 => drop(entries.remove(one)),
        8 => entries.truncate(one),
        _ => store_build::shuffle(random, entries),
    }
}

/// A field of one entry: as another entry has it, a little more or less, at an end of its numbers, or any.
fn field(random: &mut Random, store: &mut Store) {
    if store.entries.is_empty() {
        return;
    }
    let end = store.run.len();
    let count = store.entries.len();
    let other = store.entries[random.below(count)];
    let entry = &mut store.entries[random.below(count)];
    match random.below(8) {
        0 | 1 => entry.id = number(random, entry.id, other.id),
        2 => entry.msgno = number(random, entry.msgno.into(), other.msgno.into()) as u32,
        3 => entry.version = number(random, entry.version.into(), other.version.into()) as u32,
        4 => entry.kind = random.pick(&[0, 1, 2, 3, 3, 4, 256, u32::MAX]),
        5 => (entry.start, entry.len) = (other.start, other.len),
        6 => entry.start = place(random, entry.start, end),
        _ => entry.len = place(random, entry.len, end - entry.start.min(end)),
    }
}

fn number(random: &mut Random, before: u64, other: u64) -> u64 {
    match random.below(6) {
        0 => other,
        1 => before.wrapping_add(1),
        2 => before.wrapping_sub(1),
        3 => random.pick(&[0, 1, u64::MAX - 1, u64::MAX]),
        4 => before ^ 1 << random.below(64),
        _ => random.next(),
    }
}

fn place(random: &mut Random, before: usize, end: usize) -> usize {
    match random.below(8) {
        0 => before.wrapping_add(1 + random.below(3)),
        1 => before.wrapping_sub(1 + random.below(3)),
        2 => random.below(end + 2),
        3 => end,
        4 => end + 1,
        5 => 0,
        6 => usize::MAX - random.below(60),
        _ => random.next() as usize,
    }
}
