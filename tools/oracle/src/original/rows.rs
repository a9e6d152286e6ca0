//! The Rust's answer on one row: `Device::restore` on a small store around it. Every other row of the store is good, and
//! ids, numbers and slots are such that questions 25 to 30, 32 and 33 are yes; 31 is asked of the row's own depositor.
//! What is restored comes back field by field, and as the row that the Rust writes of it.

use crate::card;
use crate::chain;
use crate::epoch::PairingRole;
use crate::model::rows;
use crate::original::parts::core::{ContactId, Verification};
use crate::state::{self, ContactRow, CourierRow, Held, Persisted, QueuedRow};

/// A value, and the row that the Rust writes of it.
pub type Restored<T> = Option<(T, Vec<u8>)>;

pub const NEXT_CONTACT: u64 = u64::MAX;
pub const CONTACT: ContactId = ContactId(1);
const MSGNO: u32 = 3;
const SLOT: u64 = 7;

/// The rows around the one in question.
pub struct Store {
    pub device: Persisted,
    pub contact: ContactRow,
}

pub fn persisted(version: u32, row: &[u8]) -> Persisted {
    Persisted {
        blob: row.to_vec(),
        version,
    }
}

impl Store {
    /// `contact` is a valid row's value; the store's has sent enough for a queued row.
    pub fn new(device: &rows::Device, contact: &rows::Contact) -> Self {
        let device = rows::Device {
            next_contact: NEXT_CONTACT,
            ..device.clone()
        };
        let contact = rows::Contact {
            sent_msgno: contact.sent_msgno.max(MSGNO),
            unacked: Vec::new(),
            ..contact.clone()
        };
        Self {
            device: persisted(3, &device.row()),
            contact: ContactRow {
                contact: CONTACT,
                state: persisted(3, &contact.row()),
            },
        }
    }

    pub fn device(&self, version: u32, row: &[u8]) -> Restored<rows::Device> {
        let device = state::Device::restore(&persisted(version, row), &[], &[], &[]).ok()?;
        let value = rows::Device {
            beacon_day: device.beacon_day,
            beacon_key: *device.beacon_key,
            next_contact: device.next_contact,
            read_receipts: device.read_receipts,
            enabled: device.courier.enabled,
            copies: device.courier.copies,
            lifetime_min: device.courier.lifetime_min,
        };
        Some((value, device.row().blob))
    }

    pub fn contact(&self, version: u32, row: &[u8]) -> Restored<rows::Contact> {
        let row = ContactRow {
            contact: CONTACT,
            state: persisted(version, row),
        };
        let device = state::Device::restore(&self.device, &[row], &[], &[]).ok()?;
        let contact = &device.contacts[0];
        Some((contact_value(contact), contact.row().state.blob))
    }

    pub fn queued(&self, version: u32, row: &[u8]) -> Restored<rows::Queued> {
        let row = QueuedRow {
            contact: CONTACT,
            msgno: MSGNO,
            state: persisted(version, row),
        };
        let contacts = std::slice::from_ref(&self.contact);
        let device = state::Device::restore(&self.device, contacts, &[row], &[]).ok()?;
        let outgoing = &device.contacts[0].queued[&MSGNO];
        let envelope = outgoing.envelope.as_ref().map(|own| rows::Envelope {
            tag: own.tag,
            s: *own.s,
            expiry_min: own.expiry_min,
            copies: own.copies,
            renewed: own.renewed,
        });
        let value = rows::Queued {
            created_s: outgoing.created_s,
            envelope,
            gen_: outgoing.queued.gen_,
            idx: outgoing.queued.idx,
            sealed: outgoing.queued.ct.clone(),
        };
        Some((value, outgoing.row(CONTACT, MSGNO).state.blob))
    }

    pub fn courier(&self, version: u32, row: &[u8]) -> Restored<rows::Courier> {
        let row = CourierRow {
            slot: SLOT,
            state: persisted(version, row),
        };
        let device = state::Device::restore(&self.device, &[], &[], &[row]).ok()?;
        let held = &device.held[&SLOT];
        let value = match held {
            Held::Carried {
                depositor,
                envelope,
            } => rows::Courier::Carried {
                depositor: depositor.0,
                tag: envelope.tag,
                c: envelope.c,
                expiry_min: envelope.expiry_min,
                copies: envelope.copies,
                sealed: envelope.ct.clone(),
            },
            Held::Tombstone(tombstone) => rows::Courier::Tombstone {
                tag: tombstone.tag,
                s: tombstone.s,
                expiry_min: tombstone.expiry_min,
            },
        };
        Some((value, held.row(SLOT).state.blob))
    }
}

fn contact_value(contact: &state::Contact) -> rows::Contact {
    let pending = contact.pending.as_ref().map(|pending| rows::Pending {
        chain_key: *pending.chain_key,
        msg_seed: *pending.msg_seed,
    });
    let send = contact.send.as_ref().map(|send| rows::Send {
        gen_: send.gen_,
        dir: send.dir.label(),
        idx: send.idx,
        key: *send.key,
    });
    rows::Contact {
        role: match contact.role {
            PairingRole::A => 0,
            PairingRole::B => 1,
        },
        mode: 3,
        verification: match contact.verification {
            Verification::Unverified => 0,
            Verification::Verified => 1,
            Verification::Compromised => 2,
        },
        pair_id: contact.pair_id,
        th: contact.th,
        nonce_b: contact.nonce_b,
        card: card_value(&contact.peer),
        door_a_to_b: *contact.door_a_to_b,
        door_b_to_a: *contact.door_b_to_a,
        route_key: *contact.route_key,
        resume_index: contact.resume_index,
        chain_key: *contact.chain_key,
        sent_msgno: contact.sent_msgno,
        pending,
        send,
        chains: contact.receiver.chains.iter().map(chain_value).collect(),
        skipped: contact.receiver.skipped.iter().map(key_value).collect(),
        peer_acked: contact.peer_acked,
        peer_read: contact.peer_read,
        read_marked: contact.read_marked,
        contiguous: contact.received.contiguous,
        above: contact.received.above.clone(),
        unacked: contact.unacked.clone(),
        expired: contact.expired.clone(),
    }
}

fn card_value(card: &card::Card) -> rows::Card {
    rows::Card {
        caps: card.caps,
        beacon_day: card.beacon_day,
        beacon_key: *card.beacon_key,
        name: card.name.as_bytes().to_vec(),
        static_key: card.static_ek.as_ref().map(|key| key.to_vec()),
    }
}

fn chain_value(chain: &chain::ReceiveChain) -> rows::Chain {
    rows::Chain {
        gen_: chain.gen_,
        dir: chain.dir.label(),
        next: chain.next,
        key: *chain.key,
        superseded_s: chain.superseded_s,
    }
}

fn key_value(skipped: &chain::Skipped) -> rows::Skipped {
    rows::Skipped {
        gen_: skipped.gen_,
        dir: skipped.dir.label(),
        idx: skipped.idx,
        key: *skipped.key,
        created_s: skipped.created_s,
    }
}
