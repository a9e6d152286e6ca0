//! Valid stores: values that fit together, the entries and rows of them, and a run that holds the rows.

use crate::generate::inputs::Random;
use crate::generate::row_build::{self, EMPTY, FULL, MIDDLE, SMALL, Size};
use crate::model::rows::{Contact, Courier, Device, Queued};
use crate::model::store::{CONTACT, COURIER, DEVICE, Entry, QUEUED, Store};
use std::collections::BTreeSet;

/// The values of a store, in the order of its entries.
#[derive(Clone)]
pub struct Plan {
    pub device: Device,
    pub contacts: Vec<(u64, Contact)>,
    pub queued: Vec<(u64, u32, Queued)>,
    pub courier: Vec<(u64, Courier)>,
}

/// An entry whose row has no place in a run yet.
#[derive(Clone)]
pub struct Item {
    pub entry: Entry,
    pub row: Vec<u8>,
    /// How long the sealed text at the row's end is.
    pub sealed: usize,
}

/// How many rows a plan has; of queued ones there may be fewer, where contacts have not sent enough.
#[derive(Clone, Copy)]
pub struct Counts {
    pub contacts: usize,
    pub queued: usize,
    pub courier: usize,
}

/// Of a few rows; `least` of each kind but the device.
pub fn few(random: &mut Random, least: usize) -> Counts {
    Counts {
        contacts: least + random.below(5),
        queued: least + random.below(6),
        courier: least + random.below(6),
    }
}

/// Where every question can be broken: each contact has something of everything, each kind has several rows, and the
/// courier rows begin with one of each kind.
pub fn rich(random: &mut Random) -> Plan {
    let mut plan = loop {
        let counts = few(random, 3);
        let plan = plan(random, counts, FULL);
        if plan.queued.len() >= 2 {
            break plan;
        }
    };
    let depositor = random.next() % plan.device.next_contact;
    plan.courier[0].1 = carried(random, depositor);
    plan.courier[1].1 = row_build::tombstone(random);
    plan
}

/// Any small store.
pub fn any(random: &mut Random) -> Plan {
    let counts = few(random, 0);
    let size = match random.below(12) {
        0..4 => EMPTY,
        4..7 => SMALL,
        7..11 => FULL,
        _ if random.flag() => MIDDLE,
        _ => Size { kci: true, ..SMALL },
    };
    plan(random, counts, size)
}

pub fn plan(random: &mut Random, counts: Counts, size: Size) -> Plan {
    let limits = [counts.contacts as u64 + 1, 1000, 1 << 33, u64::MAX];
    let limit = random.pick(&limits);
    let ids = distinct(random, counts.contacts, limit, CONTACT);
    let highest = ids.iter().max();
    let next_contact = match random.below(3) {
        0 => limit,
        _ => highest.map_or(random.below(2) as u64, |id| id + 1),
    };
    let mut contacts = Vec::new();
    for id in ids {
        contacts.push((id, contact(random, size)));
    }
    let device = Device {
        next_contact,
        ..row_build::device(random)
    };
    let queued = queued(random, &contacts, counts.queued);
    let courier = courier(random, next_contact, counts.courier);
    Plan {
        device,
        contacts,
        queued,
        courier,
    }
}

/// So many numbers below `limit`, which is above `count`: next to each other, so far apart that they have the same low
/// bits, all of one word of restore's filter, or anywhere; in some order.
fn distinct(random: &mut Random, count: usize, limit: u64, kind: u32) -> Vec<u64> {
    let mut numbers = BTreeSet::new();
    let step = match random.below(5) {
        0 | 1 => 1,
        2 => 1 << random.pick(&[8, 16, 32, 33]),
        _ => limit,
    };
    if limit > SPARSE && random.below(5) == 0 {
        let words = random.pick(&FILTER_WORDS);
        let first = random.next() % SPARSE;
        let one_word = |id: &u64| filter_place(kind, *id).is_multiple_of(words);
        numbers.extend((first..limit).filter(one_word).take(count));
    }
    let span = step.saturating_mul(count as u64);
    if span < limit {
        let first = random.next() % (limit - span);
        numbers.extend((0..count as u64).map(|index| first + index * step));
    }
    while numbers.len() < count {
        numbers.insert(random.next() % limit);
    }
    let mut numbers: Vec<u64> = numbers.into_iter().collect();
    reorder(random, &mut numbers);
    numbers
}

/// How many words restore's filters have (crates/restore_duplicates), and above how many numbers some of one word are found soon.
const FILTER_WORDS: [u64; 2] = [128, 8192];
const SPARSE: u64 = 1 << 32;

/// Where restore's filter has the bits of such a row: the word's number is this one modulo that of words.
fn filter_place(kind: u32, id: u64) -> u64 {
    let low = (id % (1 << 32)).wrapping_mul(2_654_435_769);
    let high = (id >> 32).wrapping_mul(668_265_263);
    let sum = low
        .wrapping_add(high)
        .wrapping_add(u64::from(kind) * 3_266_489_917);
    (sum ^ (sum >> 32)) >> 18
}

/// As they are, with two exchanged, the other way round, or shuffled.
pub fn reorder<T>(random: &mut Random, items: &mut [T]) {
    match random.below(5) {
        0 | 1 => {}
        2 if !items.is_empty() => {
            let (one, other) = (random.below(items.len()), random.below(items.len()));
            items.swap(one, other);
        }
        3 => items.reverse(),
        _ => shuffle(random, items),
    }
}

pub fn shuffle<T>(random: &mut Random, items: &mut [T]) {
    for last in (1..items.len()).rev() {
        items.swap(last, random.below(last + 1));
    }
}

/// A valid contact; of every other one the numbers end where its lists need them to, or a little later.
fn contact(random: &mut Random, size: Size) -> Contact {
    let unacked = match size.unacked {
        0 => 0,
        some => 1 + random.below(4 * some),
    };
    let contact = row_build::contact(random, Size { unacked, ..size });
    if random.flag() {
        return contact;
    }
    let unacked = contact.unacked.last().copied().unwrap_or(0);
    let expired = contact.expired.last().map_or(0, |range| range.1);
    let sent_msgno = unacked.max(expired) + random.below(4) as u32;
    Contact {
        sent_msgno,
        peer_acked: contact.peer_acked % (sent_msgno + 1),
        ..contact
    }
}

/// Numbers that their contacts have sent, that are not unacked, and that are used once.
pub fn queued(
    random: &mut Random,
    contacts: &[(u64, Contact)],
    count: usize,
) -> Vec<(u64, u32, Queued)> {
    let mut numbers = BTreeSet::new();
    for _ in 0..if contacts.is_empty() { 0 } else { 2 * count } {
        let (id, contact) = &contacts[random.below(contacts.len())];
        let msgno = msgno(random, contact);
        let sent = (1..=contact.sent_msgno).contains(&msgno);
        if sent && !contact.unacked.contains(&msgno) && numbers.len() < count {
            numbers.insert((*id, msgno));
        }
    }
    let mut numbers: Vec<(u64, u32)> = numbers.into_iter().collect();
    if random.below(4) == 0 {
        // Contact after contact, in the order of their rows.
        let place = |id: u64| contacts.iter().position(|contact| contact.0 == id);
        numbers.sort_by_key(|(id, msgno)| (place(*id), *msgno));
    }
    reorder(random, &mut numbers);
    let mut rows: Vec<(u64, u32, Queued)> = Vec::new();
    for (id, msgno) in numbers {
        let row = match rows.last() {
            Some(row) if random.below(3) == 0 => row.2.clone(),
            _ => {
                let (own, bucket) = (random.flag(), bucket(random, 8));
                row_build::queued(random, own, bucket)
            }
        };
        rows.push((id, msgno, row));
    }
    rows
}

/// A number that the contact may have sent: near the first, the last, an unacked one, or any.
fn msgno(random: &mut Random, contact: &Contact) -> u32 {
    let near = random.below(3) as u32;
    match random.below(4) {
        0 => 1 + near,
        1 => contact.sent_msgno.saturating_sub(near),
        2 if !contact.unacked.is_empty() => random.pick(&contact.unacked) + near - 1,
        _ => random.number() % contact.sent_msgno.max(1) + 1,
    }
}

/// An index into the allowed lengths; short ones more often.
fn bucket(random: &mut Random, count: usize) -> usize {
    match random.below(8) {
        0 => random.below(count),
        1 => random.below(5),
        _ => random.below(2),
    }
}

fn courier(random: &mut Random, next_contact: u64, count: usize) -> Vec<(u64, Courier)> {
    // The highest slot there may be is 2^64 - 2.
    let limits = [count as u64 + 1, 1000, 1 << 33, u64::MAX];
    let limit = random.pick(&limits);
    let mut slots = distinct(random, count, limit, COURIER);
    if count > 0 && random.below(16) == 0 && !slots.contains(&(u64::MAX - 1)) {
        let at = random.below(count);
        slots[at] = u64::MAX - 1;
    }
    let mut rows: Vec<(u64, Courier)> = Vec::new();
    for slot in slots {
        let row = match rows.last() {
            Some(row) if random.below(3) == 0 => row.1.clone(),
            _ if next_contact == 0 || random.flag() => row_build::tombstone(random),
            _ => {
                let depositor = random.pick(&[0, next_contact - 1, next_contact / 2]);
                carried(random, depositor)
            }
        };
        rows.push((slot, row));
    }
    rows
}

/// A carried row of this depositor.
pub fn carried(random: &mut Random, depositor: u64) -> Courier {
    let bucket = bucket(random, 7);
    deposited(row_build::carried(random, bucket), depositor)
}

/// The same carried row of this depositor.
pub fn deposited(mut row: Courier, of: u64) -> Courier {
    if let Courier::Carried { depositor, .. } = &mut row {
        *depositor = of;
    }
    row
}

impl Plan {
    /// The entries with their rows, in order. What a kind has no use for holds anything.
    pub fn items(&self, random: &mut Random) -> Vec<Item> {
        let any = random.next();
        let mut items = vec![item(DEVICE, any, any as u32, self.device.row(), 0)];
        for (id, contact) in &self.contacts {
            items.push(item(CONTACT, *id, random.number(), contact.row(), 0));
        }
        for (id, msgno, queued) in &self.queued {
            items.push(item(QUEUED, *id, *msgno, queued.row(), queued.sealed.len()));
        }
        for (slot, courier) in &self.courier {
            let sealed = match courier {
                Courier::Carried { sealed, .. } => sealed.len(),
                Courier::Tombstone { .. } => 0,
            };
            items.push(item(COURIER, *slot, random.number(), courier.row(), sealed));
        }
        items
    }
}

pub fn item(kind: u32, id: u64, msgno: u32, row: Vec<u8>, sealed: usize) -> Item {
    let entry = Entry {
        id,
        start: 0,
        len: 0,
        msgno,
        version: 3,
        kind,
    };
    Item { entry, row, sealed }
}

/// The rows one behind the other in the order of their entries.
pub fn packed(items: Vec<Item>) -> Store {
    let mut store = Store {
        run: Vec::new(),
        entries: Vec::new(),
    };
    for Item { entry, row, .. } in items {
        store.entries.push(Entry {
            start: store.run.len(),
            len: row.len(),
            ..entry
        });
        store.run.extend(row);
    }
    store
}

/// The same, with equal rows in one place.
pub fn shared(items: Vec<Item>) -> Store {
    let mut rows: Vec<Vec<u8>> = Vec::new();
    for item in &items {
        if !rows.contains(&item.row) {
            rows.push(item.row.clone());
        }
    }
    let start = |row: &Vec<u8>| {
        rows.iter()
            .take_while(|one| *one != row)
            .map(Vec::len)
            .sum()
    };
    let placed = |item: &Item| Entry {
        start: start(&item.row),
        len: item.row.len(),
        ..item.entry
    };
    Store {
        entries: items.iter().map(placed).collect(),
        run: rows.concat(),
    }
}

/// The rows in any order, with bytes between them that are in no row; equal rows may be one; and one row may stand inside
/// the sealed text of another.
pub fn laid(random: &mut Random, mut items: Vec<Item>) -> Store {
    let inside = nested(random, &mut items);
    let share = random.flag();
    let gaps = random.below(3) == 0;
    let mut order: Vec<usize> = (0..items.len()).collect();
    if random.below(3) == 0 {
        shuffle(random, &mut order);
    }
    let mut run = Vec::new();
    let mut starts: Vec<Option<usize>> = vec![None; items.len()];
    for at in order {
        let row = &items[at].row;
        let same = |other: &usize| starts[*other].is_some() && items[*other].row == *row;
        let twin = (0..items.len()).find(|other| share && same(other));
        if inside.is_some_and(|(guest, _, _)| guest == at) {
            continue;
        }
        if gaps && random.flag() {
            let size = random.below(20);
            run.extend(random.bytes(size));
        }
        starts[at] = twin.and_then(|twin| starts[twin]).or(Some(run.len()));
        if twin.is_none() {
            run.extend(row);
        }
    }
    if gaps {
        run.extend(random.bytes(5));
    }
    if let Some((guest, host, offset)) = inside {
        starts[guest] = starts[host].map(|start| start + offset);
    }
    let placed = |(item, start): (&Item, &Option<usize>)| Entry {
        start: start.expect("every row was laid"),
        len: item.row.len(),
        ..item.entry
    };
    let entries = items.iter().zip(&starts).map(placed).collect();
    Store { run, entries }
}

/// Sometimes puts one row into the sealed text of another: guest, host, and where in the host.
fn nested(random: &mut Random, items: &mut [Item]) -> Option<(usize, usize, usize)> {
    if items.is_empty() || random.below(3) != 0 {
        return None;
    }
    let (guest, host) = (random.below(items.len()), random.below(items.len()));
    let row = items[guest].row.clone();
    let room = items[host].sealed.checked_sub(row.len())?;
    if guest == host || items[host].row.len() < items[host].sealed {
        return None;
    }
    let offset = items[host].row.len() - items[host].sealed + random.below(room + 1);
    items[host].row[offset..offset + row.len()].copy_from_slice(&row);
    Some((guest, host, offset))
}
