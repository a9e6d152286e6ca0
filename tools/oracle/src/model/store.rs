//! A model of restore: questions 1 and 2 of all entries, 3 to 24 of each row in turn by rows.rs, then 25 to 33 across the
//! rows, with number and place; next_contact and next_slot; and which bytes of the run may change without being noticed.
//!
//! How it was made: from document 01 alone, with no Rattle of restore or of stores read before or since. Its author had read
//! the Rust's `Device::restore`, which has neither numbers nor places and asks each row across before the next is read.
//! It reads every row into plain values first, and looks ids, numbers and slots up in sets.

use crate::model::questions::{self, ask};
use crate::model::rows;
use std::collections::{BTreeMap, BTreeSet};
use std::ops::Range;

/// The four kinds.
pub const DEVICE: u32 = 0;
pub const CONTACT: u32 = 1;
pub const QUEUED: u32 = 2;
pub const COURIER: u32 = 3;

/// One entry, laid out as the C function takes it; `id` is a contact or a slot.
#[repr(C)]
#[derive(Debug, Clone, Copy, PartialEq, Eq)]
pub struct Entry {
    pub id: u64,
    pub start: usize,
    pub len: usize,
    pub msgno: u32,
    pub version: u32,
    pub kind: u32,
}

/// 36 bytes of fields, and 4 that hold none.
const _: () = assert!(size_of::<Entry>() == 40);

/// What restore receives.
#[derive(Debug, Clone, PartialEq)]
pub struct Store {
    pub run: Vec<u8>,
    pub entries: Vec<Entry>,
}

#[derive(Debug, Clone, Copy, PartialEq)]
pub struct Granted {
    pub next_contact: u64,
    pub next_slot: u64,
}

#[derive(Debug, Clone, Copy, PartialEq)]
pub struct Refusal {
    pub number: u32,
    /// The entry's, from 0.
    pub index: usize,
}

pub type Answer = Result<Granted, Refusal>;

/// 0, or the number.
pub fn number(answer: &Answer) -> u32 {
    answer.map_or_else(|refusal| refusal.number, |_| 0)
}

/// What the questions across rows look at.
enum Row {
    Device {
        next_contact: u64,
    },
    Contact {
        sent_msgno: u32,
        unacked: Vec<u32>,
    },
    Queued,
    /// A tombstone has no depositor.
    Courier {
        depositor: Option<u64>,
    },
}

/// Asks at each place, up to the first no.
fn each<T>(
    places: Range<usize>,
    mut ask: impl FnMut(usize) -> Result<T, u32>,
) -> Result<Vec<T>, Refusal> {
    places
        .map(|index| ask(index).map_err(|number| Refusal { number, index }))
        .collect()
}

impl Store {
    pub fn restore(&self) -> Answer {
        let places = 0..self.entries.len();
        // Of no entries, entry 0 is asked all the same.
        each(0..places.end.max(1), |at| {
            ask(questions::KINDS, self.in_order(at))
        })?;
        each(places.clone(), |at| {
            ask(questions::IN_RUN, self.row(at).is_some())
        })?;
        let rows = each(places.clone(), |at| self.read(at))?;
        let next_contact = match rows[0] {
            Row::Device { next_contact } => next_contact,
            _ => unreachable!("question 1"),
        };
        let mut across = Across::new(next_contact);
        each(places, |at| across.ask(&self.entries[at], &rows[at]))?;
        let next_slot = across.slots.last().map_or(0, |highest| highest + 1);
        Ok(Granted {
            next_contact,
            next_slot,
        })
    }

    /// Entry 0 is a device; a later kind is 1 to 3 and not below the one before.
    fn in_order(&self, at: usize) -> bool {
        let kind = |at: usize| self.entries.get(at).map(|entry| entry.kind);
        if at == 0 {
            return kind(0) == Some(DEVICE);
        }
        kind(at).is_some_and(|kind| (CONTACT..=COURIER).contains(&kind)) && kind(at) >= kind(at - 1)
    }

    /// The entry's row, if it stays within the run: the sum in 128 bits.
    pub fn row(&self, at: usize) -> Option<&[u8]> {
        let Entry { start, len, .. } = self.entries[at];
        let end = start as u128 + len as u128;
        (end <= self.run.len() as u128).then(|| &self.run[start..start + len])
    }

    /// 3 to 24 of an entry whose kind is known and whose row is in the run.
    fn read(&self, at: usize) -> Result<Row, u32> {
        let Entry { version, kind, .. } = self.entries[at];
        let row = self.row(at).expect("question 2");
        Ok(match kind {
            DEVICE => Row::Device {
                next_contact: rows::device(version, row).answer?.next_contact,
            },
            CONTACT => {
                let contact = rows::contact(version, row).answer?;
                Row::Contact {
                    sent_msgno: contact.sent_msgno,
                    unacked: contact.unacked,
                }
            }
            QUEUED => {
                rows::queued(version, row).answer?;
                Row::Queued
            }
            COURIER => Row::Courier {
                depositor: match rows::courier(version, row).answer? {
                    rows::Courier::Carried { depositor, .. } => Some(depositor),
                    rows::Courier::Tombstone { .. } => None,
                },
            },
            _ => unreachable!("question 1"),
        })
    }

    /// For each byte of the run, whether every row that holds it veils it. A row goes by its own first refusal, whatever
    /// the other rows are; one of an unknown kind veils nothing, and one that is not in the run holds nothing.
    pub fn unnoticed(&self) -> Vec<bool> {
        let mut unnoticed = vec![true; self.run.len()];
        for (at, entry) in self.entries.iter().enumerate() {
            let Some(row) = self.row(at) else { continue };
            let veiled = match entry.kind {
                DEVICE => rows::device(entry.version, row).veiled,
                CONTACT => rows::contact(entry.version, row).veiled,
                QUEUED => rows::queued(entry.version, row).veiled,
                COURIER => rows::courier(entry.version, row).veiled,
                _ => vec![false; row.len()],
            };
            for (byte, veiled) in unnoticed[entry.start..].iter_mut().zip(veiled) {
                *byte &= veiled;
            }
        }
        unnoticed
    }
}

/// What the entries so far have brought.
struct Across {
    next_contact: u64,
    /// sent_msgno and unacked of each.
    contacts: BTreeMap<u64, (u32, Vec<u32>)>,
    queued: BTreeSet<(u64, u32)>,
    slots: BTreeSet<u64>,
}

impl Across {
    fn new(next_contact: u64) -> Self {
        Self {
            next_contact,
            contacts: BTreeMap::new(),
            queued: BTreeSet::new(),
            slots: BTreeSet::new(),
        }
    }

    /// 25 to 33 of one entry, in number order.
    fn ask(&mut self, entry: &Entry, row: &Row) -> Result<(), u32> {
        let Entry { id, msgno, .. } = *entry;
        match row {
            Row::Device { .. } => {}
            Row::Contact {
                sent_msgno,
                unacked,
            } => {
                ask(questions::CONTACT_BELOW, id < self.next_contact)?;
                let before = self.contacts.insert(id, (*sent_msgno, unacked.clone()));
                ask(questions::CONTACT_NEW, before.is_none())?;
            }
            Row::Queued => {
                let contact = self.contacts.get(&id);
                let (sent_msgno, unacked) = contact.ok_or(questions::QUEUED_CONTACT)?;
                ask(questions::QUEUED_MSGNO, (1..=*sent_msgno).contains(&msgno))?;
                ask(questions::QUEUED_UNACKED, !unacked.contains(&msgno))?;
                ask(questions::QUEUED_NEW, self.queued.insert((id, msgno)))?;
            }
            Row::Courier { depositor } => {
                let below = depositor.is_none_or(|depositor| depositor < self.next_contact);
                ask(questions::DEPOSITOR, below)?;
                ask(questions::SLOT_NEW, self.slots.insert(id))?;
                ask(questions::SLOT_BELOW, id < u64::MAX)?;
            }
        }
        Ok(())
    }
}
