//! The Rust's side of the speed driver.

use crate::original::parts::core::ContactId;
use crate::original::rows::{CONTACT, Store, persisted};
use crate::state::{self, ContactRow, CourierRow, Persisted, QueuedRow};
use std::hint::black_box;

/// Rows of one kind for the Rust to read and write while time is taken: a store with them, and the same without them.
pub struct Timed {
    /// Device rows are each a store of their own.
    devices: Vec<Persisted>,
    contacts: Vec<ContactRow>,
    queued: Vec<QueuedRow>,
    courier: Vec<CourierRow>,
    kind: Kind,
    restored: Vec<state::Device>,
}

enum Kind {
    Device,
    Contact,
    Queued,
    Courier,
}

impl Timed {
    fn new(kind: Kind, devices: Vec<Persisted>, contacts: Vec<ContactRow>) -> Self {
        Self {
            devices,
            contacts,
            queued: Vec::new(),
            courier: Vec::new(),
            kind,
            restored: Vec::new(),
        }
    }

    fn ready(mut self) -> Self {
        self.restored = self.restore();
        self
    }

    pub fn devices(rows: &[Vec<u8>]) -> Self {
        let devices = rows.iter().map(|row| persisted(3, row)).collect();
        Self::new(Kind::Device, devices, Vec::new()).ready()
    }

    pub fn contacts(store: Store, rows: &[Vec<u8>]) -> Self {
        let row = |(index, row): (usize, &Vec<u8>)| ContactRow {
            contact: ContactId(index as u64),
            state: persisted(3, row),
        };
        let contacts = rows.iter().enumerate().map(row).collect();
        Self::new(Kind::Contact, vec![store.device], contacts).ready()
    }

    pub fn queued(store: Store, rows: &[Vec<u8>]) -> Self {
        let row = |(index, row): (usize, &Vec<u8>)| QueuedRow {
            contact: CONTACT,
            msgno: index as u32 + 1,
            state: persisted(3, row),
        };
        let mut timed = Self::new(Kind::Queued, vec![store.device], vec![store.contact]);
        timed.queued = rows.iter().enumerate().map(row).collect();
        timed.ready()
    }

    pub fn courier(store: Store, rows: &[Vec<u8>]) -> Self {
        let row = |(index, row): (usize, &Vec<u8>)| CourierRow {
            slot: index as u64,
            state: persisted(3, row),
        };
        let mut timed = Self::new(Kind::Courier, vec![store.device], Vec::new());
        timed.courier = rows.iter().enumerate().map(row).collect();
        timed.ready()
    }

    /// The rows and what they need.
    pub fn restore(&self) -> Vec<state::Device> {
        let restore = |device| {
            state::Device::restore(device, &self.contacts, &self.queued, &self.courier)
                .expect("valid rows")
        };
        self.devices.iter().map(restore).collect()
    }

    /// What the rows need, without them.
    pub fn restore_without(&self) -> Vec<state::Device> {
        let (devices, contacts) = match self.kind {
            Kind::Device => (&self.devices[..0], &self.contacts[..0]),
            Kind::Queued => (&self.devices[..], &self.contacts[..]),
            Kind::Contact | Kind::Courier => (&self.devices[..], &self.contacts[..0]),
        };
        let restore =
            |device| state::Device::restore(device, contacts, &[], &[]).expect("valid rows");
        devices.iter().map(restore).collect()
    }

    /// Writes every row again.
    pub fn write(&self) {
        for device in &self.restored {
            match self.kind {
                Kind::Device => drop(black_box(device.row())),
                Kind::Contact => device
                    .contacts
                    .iter()
                    .for_each(|contact| drop(black_box(contact.row()))),
                Kind::Queued => device.contacts[0]
                    .queued
                    .iter()
                    .for_each(|(msgno, queued)| {
                        drop(black_box(queued.row(CONTACT, *msgno)));
                    }),
                Kind::Courier => device
                    .held
                    .iter()
                    .for_each(|(slot, held)| drop(black_box(held.row(*slot)))),
            }
        }
    }
}
