//! Stores for lists of calls: contacts whose numbers are worth covering, and stores that restore refuses.

use crate::generate::inputs::Random;
use crate::generate::row_build::{self, EMPTY, FULL, LARGE, MIDDLE, SMALL, Size};
use crate::generate::store_break;
use crate::generate::store_build::{self, Counts, Plan};
use crate::generate::store_damage;
use crate::model::number_set::NumberSet;
use crate::model::questions;
use crate::model::rows::{Contact, Range};
use crate::model::script::Step;
use crate::model::sheet::{self, BLOB_BYTES, LINES, Line};
use crate::model::store::Store;
use std::collections::BTreeSet;

/// About 40 KB.
const LONG: Size = Size {
    above: 1500,
    unacked: 2000,
    expired: 400,
    skipped: 300,
    ..LARGE
};

/// A granted store; one in so many is long, or as large as a program surely has room for.
pub fn granted(random: &mut Random) -> Step {
    loop {
        let plan = match random.below(400) {
            0 => {
                let rows = random.pick(&[LINES, 14]);
                full(random, rows)
            }
            1 => plan(random, true),
            _ => plan(random, false),
        };
        let items = plan.items(random);
        let store = match random.below(3) {
            0 => store_build::laid(random, items),
            _ => store_build::packed(items),
        };
        if fits(&store) {
            return restoring(random, store);
        }
    }
}

/// A store that is broken on purpose or damaged; now and then damage does nothing.
pub fn refused(random: &mut Random) -> Step {
    loop {
        let store = match random.below(3) {
            0 => {
                let plan = plan(random, false);
                let items = plan.items(random);
                let mut store = store_build::packed(items);
                store_damage::damaged(random, &mut store);
                store
            }
            _ => {
                let number = random.pick(&questions::OF_RESTORE);
                let seldom = number == questions::SKIPPED_COUNT && random.below(10) > 0;
                let number = if seldom { questions::SKIPPED } else { number };
                let plan = store_build::rich(random);
                store_break::aimed(random, plan, number).0
            }
        };
        if fits(&store) {
            return restoring(random, store);
        }
    }
}

/// Whether a program surely has room for it.
fn fits(store: &Store) -> bool {
    store.run.len() <= BLOB_BYTES && store.entries.len() <= LINES
}

/// As sheet lines, where they can say it, or as run and entries.
fn restoring(random: &mut Random, store: Store) -> Step {
    match sheet::lines_of(&store) {
        Some(lines) if random.below(4) > 0 && fits(&sheet::store_of(&lines)) => {
            Step::Restore(lines)
        }
        _ => Step::RawRestore(store),
    }
}

fn plan(random: &mut Random, long: bool) -> Plan {
    let counts = Counts {
        contacts: random.pick(&[0, 1, 1, 1, 2, 2, 2, 3, 4]),
        queued: random.below(5),
        courier: random.below(4),
    };
    let size = match random.below(40) {
        _ if long => LONG,
        0..16 => EMPTY,
        16..24 => SMALL,
        24..36 => FULL,
        // As many chains as there may be.
        36..39 => Size { chains: 8, ..FULL },
        _ => MIDDLE,
    };
    let counts = Counts {
        contacts: if long { 1 } else { counts.contacts },
        ..counts
    };
    let mut plan = store_build::plan(random, counts, size);
    if !long {
        for (_, contact) in &mut plan.contacts {
            renumber(random, contact);
        }
        plan.queued = store_build::queued(random, &plan.contacts, counts.queued);
    }
    plan
}

/// The lines of a store with so many rows, 512 or 14, that is as large as may be.
pub fn largest(random: &mut Random, rows: usize) -> Vec<Line> {
    let plan = full(random, rows);
    let store = store_build::packed(plan.items(random));
    sheet::lines_of(&store).expect("rows of known kinds")
}

/// 512 rows; or 14 of exactly 61,440 bytes, most of them unacked numbers of one contact.
fn full(random: &mut Random, rows: usize) -> Plan {
    let mut plan = plan(random, true);
    plan.queued.clear();
    let contact = &mut plan.contacts[0].1;
    *contact = row_build::contact(random, EMPTY);
    contact.card.name.clear();
    renumber(random, contact);
    let mut tombstone = || row_build::tombstone(random);
    plan.courier = (2..rows as u64).map(|slot| (slot, tombstone())).collect();
    if rows == LINES {
        return plan;
    }
    contact.unacked.clear();
    contact.sent_msgno = contact.sent_msgno.max(BLOB_BYTES as u32);
    let courier = plan.courier.iter().map(|(_, row)| row.row().len());
    let size = plan.device.row().len() + contact.row().len() + courier.sum::<usize>();
    let rest = BLOB_BYTES - size;
    contact.card.name = vec![b'n'; rest % 4];
    contact.unacked = (1..=rest as u32 / 4).collect();
    plan
}

/// Other numbers: few and small, or up to the highest, with ranges near the ends of what there is.
fn renumber(random: &mut Random, contact: &mut Contact) {
    let sent = match random.below(6) {
        0 => u32::MAX - random.below(4) as u32,
        1 => random.number(),
        _ => random.below(16) as u32,
    };
    contact.sent_msgno = sent;
    let covered = NumberSet::of(&ranges(random, u32::MAX));
    contact.contiguous = covered.contiguous();
    contact.above = covered.above();
    contact.expired = NumberSet::of(&ranges(random, sent)).runs();
    contact.peer_acked = acked(random, sent, &contact.expired);
    let unacked: BTreeSet<u32> = (0..random.below(5))
        .filter_map(|_| near_end(random, sent))
        .collect();
    contact.unacked = unacked.into_iter().collect();
}

/// None, all, or any of the numbers sent; or one next to an end of an expired range.
fn acked(random: &mut Random, sent: u32, expired: &[Range]) -> u32 {
    let any = (random.next() % (u64::from(sent) + 1)) as u32;
    let near = match expired {
        [] => any,
        _ => {
            let (from, to) = expired[random.below(expired.len())];
            random.pick(&[from - 1, from, to - 1, to, to.saturating_add(1).min(sent)])
        }
    };
    random.pick(&[0, sent, any, near, near])
}

/// A few ranges from 1 to `highest`: short ones near either end, and seldom a wide one.
fn ranges(random: &mut Random, highest: u32) -> Vec<Range> {
    let count = random.pick(&[0, 1, 2, 3, 4, 6, 9]);
    let mut ranges = Vec::new();
    for _ in 0..count {
        let Some(from) = near_end(random, highest) else {
            break;
        };
        let size = match random.below(12) {
            0 => random.number(),
            _ => random.below(4) as u32,
        };
        ranges.push((from, from.saturating_add(size).min(highest)));
    }
    ranges
}

/// A number from 1 to `highest`, if there is one: near 1, near the highest, or any.
fn near_end(random: &mut Random, highest: u32) -> Option<u32> {
    let near = random.below(24) as u32;
    let number = match random.below(8) {
        0 => random.number(),
        1..3 => highest - near.min(highest),
        _ => 1 + near,
    };
    (1..=highest).contains(&number).then_some(number)
}
