//! Contact rows for the samples: small ones, valid and at the edge of each question but 20, which takes 501 skipped keys.

use crate::generate::inputs::Random;
use crate::generate::row_build::{self, EMPTY, FULL, SMALL, Size};
use crate::model::rows::{Chain, Contact, Range};
use crate::samples::row_changes::{Rows, cut, longer, set, versions};

/// Where the card's length stands, and the card.
const CARD_LENGTH_AT: usize = 3 + 16 + 48 + 16;
const CARD_AT: usize = CARD_LENGTH_AT + 2;
/// From the card's end to the flag of what is pending.
const KEYS: usize = 3 * 32 + 8 + 32 + 4;

pub fn contacts(random: &mut Random) -> Rows {
    let empty = row_build::contact(random, EMPTY);
    let full = row_build::contact(random, FULL);
    let mut rows = versions(&empty.row());
    for size in [EMPTY, SMALL, FULL, Size { kci: true, ..SMALL }] {
        rows.push((3, row_build::contact(random, size).row()));
    }
    rows.extend(fields(&empty.row(), &full));
    rows.extend(cards(&empty));
    let consistent = [chains(&empty, &full), skipped(&empty, &full)].concat();
    let numbers = [numbers(&empty), above(&empty), expired(&empty)].concat();
    rows.extend([consistent, numbers].concat().iter().map(row));
    rows
}

fn row(contact: &Contact) -> (u32, Vec<u8>) {
    (3, contact.row())
}

/// 4, 5, 6 and 16: rows cut around their fields, codes and flags that are not listed, and bytes behind the end.
fn fields(empty: &[u8], full: &Contact) -> Rows {
    let row = full.row();
    let card_end = CARD_AT + full.card.row().len();
    let pending = card_end + KEYS;
    let send = pending + 1 + 64;
    let chains = send + 1 + 38;
    let skipped = chains + 2 + 51 + 43;
    let numbers = skipped + 2 + 2 * 46;
    let mut rows = cut(&row, [0, 1, 2, 3, 18, 66, 82, 84, CARD_AT, card_end - 1]);
    rows.extend(cut(&row, [pending, pending + 64, send, chains - 1]));
    rows.extend(cut(&row, [chains + 1, skipped, numbers - 1, numbers + 15]));
    rows.push((3, row[..row.len() - 1].to_vec()));
    rows.extend([longer(empty, &[0]), longer(empty, &[0xff, 0])]);
    for (at, code) in [(0, 2), (1, 0), (1, 2), (1, 4), (2, 3), (2, 0xff)] {
        rows.push(set(empty, at, &[code]));
    }
    for at in [send + 2, chains + 3, skipped + 3] {
        rows.push(set(&row, at, b"S"));
    }
    for at in [pending, send, chains + 2 + 42] {
        rows.push(set(&row, at, &[2]));
    }
    rows
}

/// 7, 8, 9 and 10, and a card that is longer than the row.
fn cards(empty: &Contact) -> Rows {
    let row = empty.row();
    let name_at = CARD_AT + 37;
    let name = [0xc0, 0x80];
    let mut named = set(&row, name_at, &[2]).1;
    named.splice(name_at + 1..name_at + 1, name);
    let mut over = row.clone();
    over.insert(name_at + 1, 0);
    vec![
        set(&row, CARD_AT, &[2]),
        set(&row, CARD_AT, &[4]),
        set(&row, name_at, &[1]),
        set(&row, name_at, &[49]),
        set(&named, CARD_LENGTH_AT, &[0, 40]),
        set(&over, CARD_LENGTH_AT, &[0, 39]),
        set(&row, CARD_LENGTH_AT, &[0, 37]),
        set(&row, CARD_LENGTH_AT, &[1, 0]),
    ]
}

/// 54, 17 and 18: how many chains there are, which of them are current, and their gens.
fn chains(empty: &Contact, full: &Contact) -> Vec<Contact> {
    let chain = |gen_, superseded_s| Chain {
        gen_,
        superseded_s,
        ..full.chains[0].clone()
    };
    let with = |chains: &[Chain]| Contact {
        chains: chains.to_vec(),
        ..empty.clone()
    };
    // So many superseded chains, of gens from 0 on, and others.
    let older = |count: u8, others: &[Chain]| {
        let older: Vec<Chain> = (0..count).map(|gen_| chain(gen_, Some(1))).collect();
        [&older, others].concat()
    };
    vec![
        with(&[chain(7, Some(1))]),
        with(&[chain(7, None), chain(8, None)]),
        with(&[chain(7, None), chain(7, None)]),
        with(&[chain(7, None), chain(7, Some(0))]),
        with(&older(8, &[])),
        with(&older(7, &[chain(8, None)])),
        with(&older(9, &[])),
        with(&older(7, &[chain(8, None), chain(9, None)])),
        with(&older(6, &[chain(8, None), chain(9, None)])),
        with(&older(8, &[chain(7, Some(1))])),
    ]
}

/// 19: the same gen and idx twice; another gen is another key.
fn skipped(empty: &Contact, full: &Contact) -> Vec<Contact> {
    let with = |gen_| {
        let mut second = full.skipped[0].clone();
        second.gen_ ^= gen_;
        Contact {
            skipped: vec![full.skipped[0].clone(), second],
            ..empty.clone()
        }
    };
    vec![with(0), with(1)]
}

/// 21 and 22: acked and unacked numbers around sent, which is 5.
fn numbers(empty: &Contact) -> Vec<Contact> {
    let with = |peer_acked, unacked: &[u32]| Contact {
        sent_msgno: 5,
        peer_acked,
        unacked: unacked.to_vec(),
        ..empty.clone()
    };
    vec![
        with(5, &[1, 5]),
        with(6, &[]),
        with(6, &[6]),
        with(0, &[6]),
        with(0, &[0]),
        with(0, &[3, 3]),
        with(0, &[4, 3]),
    ]
}

/// 23: ranges above contiguous, at both ends of the numbers.
fn above(empty: &Contact) -> Vec<Contact> {
    let with = |contiguous, above: &[Range]| Contact {
        contiguous,
        above: above.to_vec(),
        ..empty.clone()
    };
    let last = u32::MAX;
    vec![
        with(3, &[(5, 5), (7, last)]),
        with(last, &[]),
        with(last, &[(last, last)]),
        with(last - 1, &[(last, last)]),
        with(last - 2, &[(last, last)]),
        with(3, &[(4, 5)]),
        with(3, &[(6, 5)]),
        with(3, &[(5, 6), (7, 8)]),
        with(3, &[(7, 8), (5, 5)]),
    ]
}

/// 24: expired ranges up to sent, which is 5.
fn expired(empty: &Contact) -> Vec<Contact> {
    let with = |expired: &[Range]| Contact {
        sent_msgno: 5,
        peer_acked: 0,
        expired: expired.to_vec(),
        ..empty.clone()
    };
    vec![
        with(&[(1, 1), (3, 5)]),
        with(&[(0, 1)]),
        with(&[(3, 6)]),
        with(&[(3, 2)]),
        with(&[(1, 2), (3, 3)]),
    ]
}
