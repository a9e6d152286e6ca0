//! The Rust's answer on a whole store: `Device::restore`.

use crate::model::store::{CONTACT, COURIER, DEVICE, Granted, QUEUED, Store};
use crate::original::parts::core::ContactId;
use crate::original::rows::persisted;
use crate::state::{self, ContactRow, CourierRow, Persisted, QueuedRow};

/// A store's rows as the Rust takes them: a copy of each, by kind, in the order of the entries.
pub struct Rows {
    device: Persisted,
    contacts: Vec<ContactRow>,
    queued: Vec<QueuedRow>,
    courier: Vec<CourierRow>,
}

/// What of a store the Rust can be asked about: questions 1 and 2 have no counterpart in it. The entries whose rows are in
/// the run, by kind, and of the devices the first; a store without a device is none. One that passes 1 and 2 stays as it is.
pub fn fitting(store: &Store) -> Option<Store> {
    let within = |at: &usize| store.row(*at).is_some();
    let places: Vec<usize> = (0..store.entries.len()).filter(within).collect();
    let entries = places.iter().map(|at| store.entries[*at]);
    let of = |kind| entries.clone().filter(move |entry| entry.kind == kind);
    let mut all = vec![of(DEVICE).next()?];
    all.extend([CONTACT, QUEUED, COURIER].into_iter().flat_map(of));
    Some(Store {
        run: store.run.clone(),
        entries: all,
    })
}

impl Rows {
    /// Of a store that passes 1 and 2.
    pub fn of(store: &Store) -> Self {
        let state = |at: usize| {
            let row = store.row(at).expect("question 2");
            persisted(store.entries[at].version, row)
        };
        let mut rows = Self {
            device: state(0),
            contacts: Vec::new(),
            queued: Vec::new(),
            courier: Vec::new(),
        };
        for (at, entry) in store.entries.iter().enumerate().skip(1) {
            let state = state(at);
            let contact = ContactId(entry.id);
            match entry.kind {
                CONTACT => rows.contacts.push(ContactRow { contact, state }),
                QUEUED => rows.queued.push(QueuedRow {
                    contact,
                    msgno: entry.msgno,
                    state,
                }),
                COURIER => rows.courier.push(CourierRow {
                    slot: entry.id,
                    state,
                }),
                _ => unreachable!("question 1"),
            }
        }
        rows
    }

    pub fn restore(&self) -> Option<state::Device> {
        state::Device::restore(&self.device, &self.contacts, &self.queued, &self.courier).ok()
    }

    /// What of a restored device is not as these rows and the model have it: every row is written as it was read, contacts
    /// in order; and next_contact and next_slot.
    pub fn faults(&self, device: &state::Device, granted: Granted) -> Vec<&'static str> {
        let numbers = Granted {
            next_contact: device.next_contact,
            next_slot: device.next_slot,
        };
        let contacts = device.contacts.iter().map(state::Contact::row);
        let queued = self.queued.iter().all(|row| {
            let contact = device.contacts.iter().find(|one| one.id == row.contact);
            let outgoing = contact.and_then(|contact| contact.queued.get(&row.msgno));
            outgoing.is_some_and(|outgoing| outgoing.row(row.contact, row.msgno) == *row)
        });
        let queued_count: usize = device.contacts.iter().map(|one| one.queued.len()).sum();
        let courier = self.courier.iter().all(|row| {
            let held = device.held.get(&row.slot);
            held.is_some_and(|held| held.row(row.slot) == *row)
        });
        [
            (numbers == granted, "next_contact or next_slot"),
            (device.row() == self.device, "device row"),
            (contacts.eq(self.contacts.iter().cloned()), "contact rows"),
            (queued && queued_count == self.queued.len(), "queued rows"),
            (
                courier && device.held.len() == self.courier.len(),
                "courier rows",
            ),
        ]
        .into_iter()
        .filter_map(|(same, what)| (!same).then_some(what))
        .collect()
    }
}
