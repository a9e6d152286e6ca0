//! Short rows, and the small stores that are made of them.

use crate::generate::inputs::Random;
use crate::generate::row_build::{self, EMPTY};
use crate::generate::store_build::{self, Item, item};
use crate::model::rows::{Contact, Courier, Device, Queued};
use crate::model::store::{CONTACT, COURIER, DEVICE, QUEUED, Store};

/// The values of short rows.
pub struct Shelf {
    pub device: Device,
    /// Has sent 4, of which 2 is unacked.
    pub contact: Contact,
    pub queued: Queued,
    pub own: Queued,
    pub tombstone: Courier,
    pub carried: Courier,
}

impl Shelf {
    pub fn new(random: &mut Random) -> Self {
        let contact = Contact {
            sent_msgno: 4,
            unacked: vec![2],
            peer_acked: 1,
            contiguous: 2,
            ..row_build::contact(random, EMPTY)
        };
        Self {
            device: row_build::device(random),
            contact,
            queued: Queued {
                idx: 5,
                ..row_build::queued(random, false, 0)
            },
            own: Queued {
                idx: 300,
                ..row_build::queued(random, true, 0)
            },
            tombstone: row_build::tombstone(random),
            carried: row_build::carried(random, 0),
        }
    }

    pub fn device(&self, next_contact: u64) -> Item {
        let device = Device {
            next_contact,
            ..self.device.clone()
        };
        item(DEVICE, 0, 0, device.row(), 0)
    }

    pub fn contact(&self, id: u64) -> Item {
        item(CONTACT, id, 0, self.contact.row(), 0)
    }

    pub fn queued(&self, id: u64, msgno: u32) -> Item {
        item(
            QUEUED,
            id,
            msgno,
            self.queued.row(),
            self.queued.sealed.len(),
        )
    }

    pub fn own(&self, id: u64, msgno: u32) -> Item {
        item(QUEUED, id, msgno, self.own.row(), self.own.sealed.len())
    }

    /// A tombstone.
    pub fn slot(&self, slot: u64) -> Item {
        item(COURIER, slot, 0, self.tombstone.row(), 0)
    }

    pub fn carried(&self, slot: u64, of: u64) -> Item {
        let row = store_build::deposited(self.carried.clone(), of);
        item(COURIER, slot, 0, row.row(), 48)
    }

    /// A device and this contact, and a tombstone behind it.
    pub fn of_contact(&self, contact: &Contact) -> Store {
        let contact = item(CONTACT, 0, 0, contact.row(), 0);
        store_build::shared(vec![self.device(1), contact, self.slot(0)])
    }

    /// A device with next_contact 3, contacts 2 and 0, and these.
    pub fn of_queued(&self, rows: &[(u64, u32)]) -> Store {
        let mut items = vec![self.device(3), self.contact(2), self.contact(0)];
        items.extend(rows.iter().map(|(id, msgno)| self.queued(*id, *msgno)));
        store_build::shared(items)
    }

    /// A device with this next_contact, and tombstones at these slots.
    pub fn of_slots(&self, next_contact: u64, slots: &[u64]) -> Store {
        let mut items = vec![self.device(next_contact)];
        items.extend(slots.iter().map(|slot| self.slot(*slot)));
        store_build::shared(items)
    }

    /// A device with this next_contact, and contacts of these ids.
    pub fn of_contacts(&self, next_contact: u64, ids: &[u64]) -> Store {
        let mut items = vec![self.device(next_contact)];
        items.extend(ids.iter().map(|id| self.contact(*id)));
        store_build::shared(items)
    }
}

pub fn with(items: &[Item]) -> Store {
    store_build::shared(items.to_vec())
}

pub fn kind(mut item: Item, kind: u32) -> Item {
    item.entry.kind = kind;
    item
}

pub fn version(mut item: Item, version: u32) -> Item {
    item.entry.version = version;
    item
}

pub fn cut(mut item: Item, size: usize) -> Item {
    item.row.truncate(size);
    item
}

pub fn longer(mut item: Item, more: &[u8]) -> Item {
    item.row.extend(more);
    item
}

pub fn set(mut item: Item, at: usize, bytes: &[u8]) -> Item {
    item.row[at..at + bytes.len()].copy_from_slice(bytes);
    item
}
