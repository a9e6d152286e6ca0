//! Every small store of several kinds. Rows are shared: the run holds one of each, and entries point at them.

use super::contact::lists;
use crate::generate::inputs::Random;
use crate::generate::row_build::{self, EMPTY};
use crate::generate::store_build::{self, Item, item};
use crate::model::rows::{Contact, Device};
use crate::model::store::{CONTACT, COURIER, DEVICE, Entry, QUEUED, Refusal, Store};

/// What is visited: a store, and its refusal where that is known beforehand.
type Visit<'a> = dyn FnMut(Store, Option<Refusal>) + 'a;

/// Slots at both ends.
const SLOTS: [u64; 4] = [0, 1, u64::MAX - 1, u64::MAX];

pub fn every(random: &mut Random, visit: &mut Visit) {
    let shelf = Shelf::new(random);
    kinds(&shelf, visit);
    places(&shelf, visit);
    contacts(&shelf, visit);
    queued(&shelf, visit);
    courier(&shelf, visit);
    faults(&shelf, visit);
}

/// A run with one row of each kind, and the entries of them.
struct Shelf {
    run: Vec<u8>,
    /// With next_contact 0 to 4.
    devices: Vec<Entry>,
    /// Has sent 4, of which 2 is unacked.
    contact: Entry,
    queued: Entry,
    /// A tombstone, and rows carried for contacts 0 and 1.
    courier: Vec<Entry>,
}

impl Shelf {
    fn new(random: &mut Random) -> Self {
        let devices = [0, 1, 2, 3, 4].map(|next_contact| Device {
            next_contact,
            ..row_build::device(random)
        });
        let contact = Contact {
            sent_msgno: 4,
            unacked: vec![2],
            peer_acked: 0,
            ..row_build::contact(random, EMPTY)
        };
        let carried = row_build::carried(random, 0);
        let mut items: Vec<Item> = devices
            .map(|device| item(DEVICE, 0, 0, device.row(), 0))
            .to_vec();
        items.push(item(CONTACT, 0, 0, contact.row(), 0));
        items.push(item(
            QUEUED,
            0,
            0,
            row_build::queued(random, true, 0).row(),
            0,
        ));
        items.push(item(COURIER, 0, 0, row_build::tombstone(random).row(), 0));
        for of in [0, 1] {
            let row = store_build::deposited(carried.clone(), of).row();
            items.push(item(COURIER, 0, 0, row, 0));
        }
        let Store { mut run, entries } = store_build::packed(items);
        run.extend(random.bytes(3));
        Self {
            run,
            devices: entries[..5].to_vec(),
            contact: entries[5],
            queued: entries[6],
            courier: entries[7..].to_vec(),
        }
    }

    fn store(&self, entries: Vec<Entry>) -> Store {
        Store {
            run: self.run.clone(),
            entries,
        }
    }

    fn contact(&self, id: u64) -> Entry {
        Entry { id, ..self.contact }
    }

    fn queued(&self, id: u64, msgno: u32) -> Entry {
        Entry {
            id,
            msgno,
            ..self.queued
        }
    }

    fn slot(&self, id: u64, row: usize) -> Entry {
        Entry {
            id,
            ..self.courier[row]
        }
    }
}

/// 1: every list of up to five kinds.
fn kinds(shelf: &Shelf, visit: &mut Visit) {
    for kinds in lists(&[0, 1, 2, 3, 4, u32::MAX], 5) {
        let first = kinds.iter().position(|kind| *kind == CONTACT).unwrap_or(0) as u64;
        let entry = |(at, kind): (usize, &u32)| match *kind {
            DEVICE => shelf.devices[4],
            CONTACT => shelf.contact(at as u64 % 4),
            QUEUED => shelf.queued(first, [1, 3, 4][at % 3]),
            COURIER => shelf.slot(at as u64, at % 3),
            kind => Entry {
                kind,
                ..shelf.queued
            },
        };
        let entries = kinds.iter().enumerate().map(entry).collect();
        visit(shelf.store(entries), None);
    }
}

/// 2: each entry at every start and length around the ends of the run and of the numbers; the other entries are good.
fn places(shelf: &Shelf, visit: &mut Visit) {
    let good = [
        shelf.devices[2],
        shelf.contact(1),
        shelf.queued(1, 3),
        shelf.slot(5, 0),
        shelf.slot(6, 2),
    ];
    let end = shelf.run.len();
    for at in 0..good.len() {
        let Entry { start, len, .. } = good[at];
        let before = end - len;
        let starts = [0, 1, start, before, before + 1, end - 1, end, end + 1];
        let sizes = [0, 1, len, end - start, end - start + 1, end, end + 1];
        let last = usize::MAX;
        let far = [
            last,
            last - 1,
            last - len + 1,
            last - start,
            last - start + 1,
            last / 2 + 1,
        ];
        let (starts, sizes) = ([&starts[..], &far].concat(), [&sizes[..], &far].concat());
        for start in &starts {
            for len in &sizes {
                let mut entries = good.to_vec();
                (entries[at].start, entries[at].len) = (*start, *len);
                visit(shelf.store(entries), None);
            }
        }
    }
}

/// 25, 26: every list of up to four contacts under every next_contact.
fn contacts(shelf: &Shelf, visit: &mut Visit) {
    for ids in lists(&[0, 1, 2, 3], 4) {
        for device in &shelf.devices {
            let mut entries = vec![*device];
            entries.extend(ids.iter().map(|id| shelf.contact(*id)));
            visit(shelf.store(entries), None);
        }
    }
}

/// 27 to 30: every list of up to three queued rows.
fn queued(shelf: &Shelf, visit: &mut Visit) {
    let pairs = |id: u64| (0..6).map(move |msgno| (id, msgno));
    let all: Vec<(u64, u32)> = (0..3).flat_map(pairs).collect();
    for rows in lists(&all, 3) {
        for ids in [&[0][..], &[0, 1], &[1, 0], &[2, 0, 1]] {
            let mut entries = vec![shelf.devices[4]];
            entries.extend(ids.iter().map(|id| shelf.contact(*id)));
            entries.extend(rows.iter().map(|(id, msgno)| shelf.queued(*id, *msgno)));
            visit(shelf.store(entries), None);
        }
    }
}

/// 31 to 33: every list of up to four courier rows, and next_slot.
fn courier(shelf: &Shelf, visit: &mut Visit) {
    let rows = |slot: u64| (0..3).map(move |row| (slot, row));
    let all: Vec<(u64, usize)> = SLOTS.into_iter().flat_map(rows).collect();
    for (next_contact, longest) in [(0, 3), (1, 4), (2, 3)] {
        for rows in lists(&all, longest) {
            let mut entries = vec![shelf.devices[next_contact]];
            entries.extend(rows.iter().map(|(slot, row)| shelf.slot(*slot, *row)));
            visit(shelf.store(entries), None);
        }
    }
}

/// What is wrong with an entry.
#[derive(Clone, Copy, PartialEq)]
enum Fault {
    None,
    Kind,
    Place,
    Version,
    Cut,
    Across,
}

/// The order of questions: six entries, each good or with one of five faults, and the refusal that 01's order gives.
fn faults(shelf: &Shelf, visit: &mut Visit) {
    let good = [
        shelf.devices[4],
        shelf.contact(1),
        shelf.contact(0),
        shelf.queued(0, 4),
        shelf.slot(9, 1),
        shelf.slot(3, 0),
    ];
    use Fault::{Across, Cut, Kind, None, Place, Version};
    for faults in lists(&[None, Kind, Place, Version, Cut, Across], good.len()) {
        if faults.len() < good.len() {
            continue;
        }
        let wrong = |(entry, fault): (&Entry, &Fault)| with_fault(shelf, *entry, *fault);
        let entries = good.iter().zip(&faults).map(wrong).collect();
        visit(shelf.store(entries), refusal(&faults));
    }
}

fn with_fault(shelf: &Shelf, entry: Entry, fault: Fault) -> Entry {
    match (fault, entry.kind) {
        (Fault::None, _) => entry,
        (Fault::Kind, _) => Entry { kind: 7, ..entry },
        (Fault::Place, _) => Entry {
            start: usize::MAX,
            ..entry
        },
        (Fault::Version, _) => Entry {
            version: 2,
            ..entry
        },
        (Fault::Cut, _) => Entry { len: 9, ..entry },
        (Fault::Across, DEVICE) => shelf.devices[0],
        (Fault::Across, CONTACT) => Entry { id: 4, ..entry },
        (Fault::Across, QUEUED) => Entry { msgno: 0, ..entry },
        (Fault::Across, _) => Entry {
            id: u64::MAX,
            ..entry
        },
    }
}

/// All of 1, all of 2, row by row, then across; the device's fault is the first contact's no.
fn refusal(faults: &[Fault]) -> Option<Refusal> {
    let first = |of: &[Fault]| faults.iter().position(|fault| of.contains(fault));
    let at = |number, index| Some(Refusal { number, index });
    if let Some(index) = first(&[Fault::Kind]) {
        return at(1, index);
    }
    if let Some(index) = first(&[Fault::Place]) {
        return at(2, index);
    }
    if let Some(index) = first(&[Fault::Version, Fault::Cut]) {
        return at(
            if faults[index] == Fault::Version {
                3
            } else {
                4
            },
            index,
        );
    }
    match first(&[Fault::Across])? {
        0 => at(25, 1),
        index => at([25, 25, 25, 28, 33, 33][index], index),
    }
}
