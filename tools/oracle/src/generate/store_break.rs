//! Stores in which a question is broken on purpose, and the place of the no that this makes.
//!
//! A plan must be one in which every question can be broken: see `store_build::rich`.
//! Values are broken in the plan (17 to 33, and 54), rows and kinds in the items (1, 3 to 16), places in the laid store (2); so
//! several breaks are made in this order.

use crate::generate::inputs::Random;
use crate::generate::row_build;
use crate::generate::store_build::{self, Item, Plan};
use crate::model::questions;
use crate::model::rows::{Chain, Contact, Courier, I, R, Range, Skipped};
use crate::model::store::{CONTACT, COURIER, DEVICE, Entry, QUEUED, Refusal, Store};

/// Where the card's length stands in a contact row, and the card; in the card, the name's length and the name.
const CARD_LENGTH_AT: usize = 3 + 16 + 48 + 16;
const CARD_AT: usize = CARD_LENGTH_AT + 2;
const NAME_LENGTH_AT: usize = CARD_AT + 37;
/// From the card's end to the flag of what is pending.
const KEYS: usize = 3 * 32 + 8 + 32 + 4;

/// A store of this plan that is valid but for one thing, and its refusal.
pub fn aimed(random: &mut Random, plan: Plan, number: u32) -> (Store, Refusal) {
    let (store, places) = broken(random, plan, &[number]);
    let index = places[0];
    (store, Refusal { number, index })
}

/// A store of this plan in which each of these is broken; with more than one, the places are those of each alone.
pub fn broken(random: &mut Random, mut plan: Plan, numbers: &[u32]) -> (Store, Vec<usize>) {
    let mut places = Vec::new();
    for number in numbers.iter().filter(|number| **number >= 17) {
        places.push(in_plan(random, &mut plan, *number));
    }
    let mut items = plan.items(random);
    for number in numbers.iter().filter(|number| (3..17).contains(*number)) {
        places.push(in_items(random, &mut items, *number));
    }
    if numbers.contains(&1) {
        places.push(in_order(random, &mut items));
    }
    let mut store = store_build::laid(random, items);
    if numbers.contains(&2) {
        places.push(in_places(random, &mut store));
    }
    (store, places)
}

/// 17 to 33, and 54.
fn in_plan(random: &mut Random, plan: &mut Plan, number: u32) -> usize {
    match number {
        17..25 | questions::CHAIN_COUNT => {
            let at = random.below(plan.contacts.len());
            in_contact(random, &mut plan.contacts[at].1, number);
            1 + at
        }
        25 | 26 => 1 + in_contacts(random, plan, number),
        27..31 => 1 + plan.contacts.len() + in_queued(random, plan, number),
        _ => 1 + plan.contacts.len() + plan.queued.len() + in_courier(random, plan, number),
    }
}

/// 17 to 24, and 54: of a contact in which all before holds.
fn in_contact(random: &mut Random, contact: &mut Contact, number: u32) {
    let sent = contact.sent_msgno;
    match number {
        questions::CHAIN_COUNT => {
            let count = random.pick(&[9, 10]);
            contact.chains = row_build::chains(random, count);
            if random.flag() {
                // What is asked later is broken too.
                contact.chains[0].superseded_s = None;
            }
        }
        17 => contact.chains = [None, None].map(|at| chain(random, at)).to_vec(),
        18 => {
            let current = random.flag().then(|| random.next());
            contact.chains = [Some(7), current].map(|at| chain(random, at)).to_vec();
            contact.chains[0].gen_ = contact.chains[1].gen_;
        }
        19 => {
            let first = contact.skipped[0].clone();
            contact.skipped.push(Skipped {
                dir: random.pick(&[I, R]),
                key: random.array(),
                ..first
            });
        }
        20 => {
            let count = random.pick(&[501, 502]);
            contact.skipped = row_build::skipped(random, count);
        }
        21 => contact.peer_acked = random.pick(&[sent + 1, sent + 2, u32::MAX]),
        22 => {
            let lists = [vec![0], vec![0, 1], vec![1, 1], vec![2, 1], vec![sent + 1]];
            contact.unacked = lists[random.below(lists.len())].clone();
        }
        23 => contact.above = not_above(random, contact.contiguous),
        _ => contact.expired = not_expired(random, sent),
    }
}

fn not_above(random: &mut Random, contiguous: u32) -> Vec<Range> {
    let beyond = |more: u32| (contiguous + more, contiguous + more);
    let lists = [
        vec![(contiguous, contiguous + 4)],
        vec![beyond(1)],
        vec![(contiguous + 3, contiguous + 2)],
        vec![beyond(2), beyond(3)],
        vec![beyond(6), beyond(2)],
    ];
    lists[random.below(lists.len())].clone()
}

fn not_expired(random: &mut Random, sent: u32) -> Vec<Range> {
    let lists = [
        vec![(0, 0)],
        vec![(2, 1)],
        vec![(1, 1), (2, 2)],
        vec![(1, sent + 1)],
        vec![(sent + 1, sent + 1)],
    ];
    lists[random.below(lists.len())].clone()
}

fn chain(random: &mut Random, superseded_s: Option<u64>) -> Chain {
    Chain {
        gen_: random.byte(),
        dir: random.pick(&[I, R]),
        next: random.next(),
        key: random.array(),
        superseded_s,
    }
}

/// 25, 26: the index among the contacts.
fn in_contacts(random: &mut Random, plan: &mut Plan, number: u32) -> usize {
    let at = random.below(plan.contacts.len());
    if number == 26 {
        let other = (at + 1 + random.below(plan.contacts.len() - 1)) % plan.contacts.len();
        plan.contacts[at].0 = plan.contacts[other].0;
        return at.max(other);
    }
    if random.flag() {
        plan.contacts[at].0 = beyond(random, plan.device.next_contact);
        return at;
    }
    plan.device.next_contact = plan.contacts[at].0;
    let below = |contact: &(u64, Contact)| contact.0 < plan.device.next_contact;
    plan.contacts
        .iter()
        .take_while(|contact| below(contact))
        .count()
}

/// This number or one above it.
fn beyond(random: &mut Random, least: u64) -> u64 {
    let more = random.pick(&[0, 0, 1, 1 << 32, u64::MAX]);
    least.saturating_add(more)
}

/// 27 to 30: the index among the queued rows.
fn in_queued(random: &mut Random, plan: &mut Plan, number: u32) -> usize {
    let at = random.below(plan.queued.len());
    let contacts = plan.contacts.clone();
    let of = |id: u64| contacts.iter().find(|contact| contact.0 == id);
    let (id, msgno, _) = &mut plan.queued[at];
    match number {
        27 => {
            let near = [
                id.wrapping_add(1),
                id.wrapping_sub(1),
                random.next(),
                u64::MAX,
            ];
            let unknown = near.into_iter().filter(|id| of(*id).is_none());
            let unknown: Vec<u64> = unknown.collect();
            *id = random.pick(&unknown);
        }
        28 => {
            let sent = of(*id).map_or(0, |contact| contact.1.sent_msgno);
            *msgno = random.pick(&[0, sent + 1, sent + 2, u32::MAX]);
        }
        29 => {
            let (unacked_of, contact) = &contacts[random.below(contacts.len())];
            *id = *unacked_of;
            *msgno = random.pick(&contact.unacked);
        }
        _ => {
            let other = (at + 1 + random.below(plan.queued.len() - 1)) % plan.queued.len();
            (plan.queued[at].0, plan.queued[at].1) = (plan.queued[other].0, plan.queued[other].1);
            return at.max(other);
        }
    }
    at
}

/// 31 to 33: the index among the courier rows.
fn in_courier(random: &mut Random, plan: &mut Plan, number: u32) -> usize {
    let count = plan.courier.len();
    let next_contact = plan.device.next_contact;
    let mut at = random.below(count);
    match number {
        31 => {
            while matches!(plan.courier[at].1, Courier::Tombstone { .. }) {
                at = (at + 1) % count;
            }
            let unknown = beyond(random, next_contact);
            plan.courier[at].1 = store_build::carried(random, unknown);
        }
        32 => {
            let other = (at + 1 + random.below(count - 1)) % count;
            plan.courier[at].0 = plan.courier[other].0;
            return at.max(other);
        }
        _ => plan.courier[at].0 = u64::MAX,
    }
    at
}

/// 3 to 16: the place of a row that can be refused so, and is now. Where an earlier break has left no such row, or made it
/// too short for this one, nothing is done.
fn in_items(random: &mut Random, items: &mut [Item], number: u32) -> usize {
    let fits = |item: &Item| {
        let carried = item.entry.kind == COURIER && item.sealed > 0;
        match number {
            3 | 4 => true,
            5 => item.entry.kind != COURIER,
            6 => item.entry.kind == CONTACT || item.entry.kind == COURIER,
            7..=10 => item.entry.kind == CONTACT,
            11 => item.entry.kind == DEVICE,
            12 => item.entry.kind == QUEUED,
            13 => item.sealed > 0,
            14 | 15 => carried,
            _ => item.sealed == 0,
        }
    };
    let places: Vec<usize> = (0..items.len()).filter(|at| fits(&items[*at])).collect();
    if places.is_empty() {
        return 0;
    }
    let at = random.pick(&places);
    let item = &mut items[at];
    match number {
        3 => item.entry.version = random.pick(&[0, 1, 2, 4, 256 + 3, u32::MAX]),
        7..=10 => in_card(random, &mut item.row, number),
        12 => in_index(random, item),
        13 => in_sealed(random, item),
        4 => {
            let fields = item.row.len().saturating_sub(item.sealed);
            item.row.truncate(random.below(fields.max(1)));
            item.sealed = 0;
        }
        16 => {
            let size = 1 + random.below(3);
            item.row.extend(random.bytes(size));
        }
        _ => in_field(random, item, number),
    }
    at
}

fn set(row: &mut [u8], at: usize, bytes: &[u8]) {
    if let Some(place) = row.get_mut(at..at + bytes.len()) {
        place.copy_from_slice(bytes);
    }
}

/// 5, 6, 11, 14, 15: fields of a known size at a known place.
fn in_field(random: &mut Random, item: &mut Item, number: u32) {
    let row = &mut item.row;
    let kind = item.entry.kind;
    let (at, bytes): (usize, Vec<u8>) = match number {
        5 => (
            flag_at(random, kind, row),
            vec![random.pick(&[2, 3, 0x49, 0x80, 0xff])],
        ),
        6 if kind == COURIER => (0, vec![random.pick(&[2, 3, 0x80, 0xff])]),
        6 => (random.below(3), vec![random.pick(&[4, 5, 0x80, 0xff])]),
        11 if random.flag() => (46, vec![random.pick(&[0, 17, 0xff])]),
        11 => {
            let lifetime = random.pick(&[0, 59, 10_081, u16::MAX]);
            (47, lifetime.to_be_bytes().to_vec())
        }
        14 => (45, vec![0]),
        _ => (41, vec![0; 4]),
    };
    set(row, at, &bytes);
}

/// Where a flag stands.
fn flag_at(random: &mut Random, kind: u32, row: &[u8]) -> usize {
    match kind {
        DEVICE => random.pick(&[44, 45]),
        CONTACT => card_end(row) + KEYS,
        // The own envelope's last field, where there is one.
        _ if row.get(8) == Some(&1) && random.flag() => 9 + 16 + 16 + 4 + 1,
        _ => 8,
    }
}

fn card_end(row: &[u8]) -> usize {
    let length = row.get(CARD_LENGTH_AT..CARD_AT);
    let length = length.map_or(0, |length| u16::from_be_bytes([length[0], length[1]]));
    CARD_AT + usize::from(length)
}

/// 7 to 10, in a contact row whose card has a name.
fn in_card(random: &mut Random, row: &mut Vec<u8>, number: u32) {
    let end = card_end(row);
    match number {
        7 => set(row, CARD_AT, &[random.pick(&[4, 8, 0x13, 0x80, 0xff])]),
        8 => set(row, NAME_LENGTH_AT, &[random.pick(&[49, 50, 0xff])]),
        9 => set(
            row,
            NAME_LENGTH_AT + 1,
            &[random.pick(&[0x80, 0xc0, 0xf5, 0xff])],
        ),
        _ if end <= row.len() => {
            let length = (end - CARD_AT + 1) as u16;
            set(row, CARD_LENGTH_AT, &length.to_be_bytes());
            row.insert(end, random.byte());
        }
        _ => {}
    }
}

/// 12: idx in bytes that are not minimal, or too large.
fn in_index(random: &mut Random, item: &mut Item) {
    let envelope = if item.row.get(8) == Some(&1) { 38 } else { 0 };
    let at = 9 + envelope + 1;
    let end = item.row.len().saturating_sub(item.sealed);
    let unfit: [&[u8]; 5] = [
        &[0x80, 0x00],
        &[0xff, 0x80, 0x00],
        &[0x80, 0x80, 0x80, 0x80, 0x00],
        &[0xff, 0xff, 0xff, 0xff, 0x10],
        &[0x80, 0x80, 0x80, 0x80, 0x80],
    ];
    if at <= end {
        item.row
            .splice(at..end, random.pick(&unfit).iter().copied());
    }
}

/// 13: a length that is not allowed, or not allowed to be carried.
fn in_sealed(random: &mut Random, item: &mut Item) {
    let fields = item.row.len().saturating_sub(item.sealed);
    let longest = if item.entry.kind == COURIER {
        4064
    } else {
        4065
    };
    item.sealed = random.pick(&[0, 1, 15, 16, 17, 47, 49, 79, 81, 2063, longest]);
    item.row.resize(fields + item.sealed, 0xa5);
}

/// 1.
fn in_order(random: &mut Random, items: &mut Vec<Item>) -> usize {
    let kinds = [4, 5, 255, 256, 257, 1 << 16, u32::MAX];
    match random.below(6) {
        0 => {
            items.clear();
            0
        }
        1 => {
            items[0].entry.kind = random.pick(&[1, 2, 3, 4, 256, u32::MAX]);
            0
        }
        2 => {
            let at = 1 + random.below(items.len() - 1);
            items[at].entry.kind = DEVICE;
            at
        }
        3 => {
            let at = random.below(items.len());
            items[at].entry.kind = random.pick(&kinds);
            at
        }
        _ => {
            // Two neighbours of different kinds change places.
            let rises = |at: &usize| items[*at].entry.kind < items[at + 1].entry.kind;
            let places: Vec<usize> = (0..items.len() - 1).filter(rises).collect();
            let at = random.pick(&places);
            items.swap(at, at + 1);
            if at == 0 { 0 } else { at + 1 }
        }
    }
}

/// 2, where there are entries.
fn in_places(random: &mut Random, store: &mut Store) -> usize {
    if store.entries.is_empty() {
        return 0;
    }
    let at = random.below(store.entries.len());
    let end = store.run.len();
    let entry = &mut store.entries[at];
    let Entry { start, len, .. } = *entry;
    (entry.start, entry.len) = match random.below(9) {
        0 => (start, end - start + 1),
        1 => (end - len + 1, len),
        2 => (end + 1, 0),
        3 => (end, 1),
        4 => (usize::MAX, 2),
        5 => (usize::MAX - len.max(1) + 1, len.max(1)),
        6 => (start, usize::MAX),
        7 => (usize::MAX - random.below(100), random.below(200).max(1)),
        _ => {
            // In 64 bits the sum would be a place before the start.
            let start = start.max(1);
            (start, usize::MAX - start + 1 + random.below(start))
        }
    };
    at
}
