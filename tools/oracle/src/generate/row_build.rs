//! Values of valid rows: the model's `row` makes a row of each.

use crate::generate::inputs::Random;
use crate::generate::names;
use crate::model::rows::{
    BUCKETS, Card, Chain, Contact, Courier, Device, Envelope, I, Pending, Queued, R, Range, SEAL,
    Send, Skipped,
};

/// How much a contact holds.
#[derive(Clone, Copy)]
pub struct Size {
    pub kci: bool,
    pub name: usize,
    pub pending: bool,
    pub send: bool,
    pub chains: usize,
    pub skipped: usize,
    pub above: usize,
    pub unacked: usize,
    pub expired: usize,
}

/// Nothing that can be left out.
pub const EMPTY: Size = Size {
    kci: false,
    name: 0,
    pending: false,
    send: false,
    chains: 0,
    skipped: 0,
    above: 0,
    unacked: 0,
    expired: 0,
};

/// About 300 bytes: a contact before its first Resume.
pub const SMALL: Size = Size { name: 12, ..EMPTY };

/// Something of everything, in few bytes.
pub const FULL: Size = Size {
    kci: false,
    name: 9,
    pending: true,
    send: true,
    chains: 2,
    skipped: 2,
    above: 2,
    unacked: 2,
    expired: 2,
};

/// About 4 KB.
pub const MIDDLE: Size = Size {
    kci: true,
    name: 20,
    chains: 3,
    skipped: 32,
    above: 20,
    unacked: 40,
    expired: 20,
    ..FULL
};

/// About 60 KB.
pub const LARGE: Size = Size {
    kci: true,
    name: 48,
    chains: 8,
    skipped: 500,
    above: 2000,
    unacked: 4000,
    expired: 500,
    ..FULL
};

/// The highest number that ranges in a built row need.
const ROOM: u32 = 1 << 20;

pub fn device(random: &mut Random) -> Device {
    Device {
        beacon_day: random.number(),
        beacon_key: random.array(),
        next_contact: random.next(),
        read_receipts: random.flag(),
        enabled: random.flag(),
        copies: 1 + random.below(16) as u8,
        lifetime_min: 60 + random.below(10_021) as u16,
    }
}

pub fn card(random: &mut Random, kci: bool, name: usize) -> Card {
    Card {
        caps: random.below(2) as u8 + if kci { 2 } else { 0 },
        beacon_day: random.number(),
        beacon_key: random.array(),
        name: names::of_size(random.pick(&names::SCRIPTS), name),
        static_key: kci.then(|| random.bytes(1184)),
    }
}

pub fn contact(random: &mut Random, size: Size) -> Contact {
    let sent_msgno = ROOM + random.number() / 2;
    let contiguous = random.number() / 2;
    Contact {
        role: random.below(2) as u8,
        mode: 3,
        verification: random.below(3) as u8,
        pair_id: random.array(),
        th: random.array(),
        nonce_b: random.array(),
        card: card(random, size.kci, size.name),
        door_a_to_b: random.array(),
        door_b_to_a: random.array(),
        route_key: random.array(),
        resume_index: random.next(),
        chain_key: random.array(),
        sent_msgno,
        pending: size.pending.then(|| pending(random)),
        send: size.send.then(|| send(random)),
        chains: chains(random, size.chains),
        skipped: skipped(random, size.skipped),
        peer_acked: random.number() % (sent_msgno + 1),
        peer_read: random.number(),
        read_marked: random.number(),
        contiguous,
        above: ranges(random, contiguous + 2, size.above),
        unacked: rising(random, size.unacked),
        expired: ranges(random, 1, size.expired),
    }
}

fn pending(random: &mut Random) -> Pending {
    Pending {
        chain_key: random.array(),
        msg_seed: random.array(),
    }
}

fn send(random: &mut Random) -> Send {
    Send {
        gen_: random.byte(),
        dir: random.pick(&[I, R]),
        idx: random.number(),
        key: random.array(),
    }
}

/// Of different gens, the last one current.
pub fn chains(random: &mut Random, count: usize) -> Vec<Chain> {
    let first = random.byte();
    (0..count)
        .map(|index| Chain {
            gen_: first.wrapping_add(index as u8),
            dir: random.pick(&[I, R]),
            next: random.next(),
            key: random.array(),
            superseded_s: (index + 1 < count).then(|| random.next()),
        })
        .collect()
}

/// Of different indices, over a few gens.
pub fn skipped(random: &mut Random, count: usize) -> Vec<Skipped> {
    let first = random.number();
    (0..count)
        .map(|index| Skipped {
            gen_: random.below(3) as u8,
            dir: random.pick(&[I, R]),
            idx: first.wrapping_add(index as u32),
            key: random.array(),
            created_s: random.next(),
        })
        .collect()
}

/// Canonical from `first`.
fn ranges(random: &mut Random, first: u32, count: usize) -> Vec<Range> {
    let mut least = first;
    (0..count)
        .map(|_| {
            let from = least + random.below(20) as u32;
            let to = from + random.below(20) as u32;
            least = to + 2;
            (from, to)
        })
        .collect()
}

fn rising(random: &mut Random, count: usize) -> Vec<u32> {
    let mut last = 0;
    (0..count)
        .map(|_| {
            last += 1 + random.below(20) as u32;
            last
        })
        .collect()
}

/// `bucket` is an index into the allowed lengths.
pub fn queued(random: &mut Random, own: bool, bucket: usize) -> Queued {
    Queued {
        created_s: random.next(),
        envelope: own.then(|| envelope(random)),
        gen_: random.byte(),
        idx: random.number(),
        sealed: random.bytes(BUCKETS[bucket] + SEAL),
    }
}

fn envelope(random: &mut Random) -> Envelope {
    Envelope {
        tag: random.array(),
        s: random.array(),
        expiry_min: random.number(),
        copies: random.byte(),
        renewed: random.flag(),
    }
}

/// `bucket` is an index into the allowed lengths; the last one is not carried.
pub fn carried(random: &mut Random, bucket: usize) -> Courier {
    Courier::Carried {
        depositor: random.next() >> 1,
        tag: random.array(),
        c: random.array(),
        expiry_min: random.number().max(1),
        copies: random.byte().max(1),
        sealed: random.bytes(BUCKETS[bucket] + SEAL),
    }
}

pub fn tombstone(random: &mut Random) -> Courier {
    Courier::Tombstone {
        tag: random.array(),
        s: random.array(),
        expiry_min: random.number(),
    }
}
