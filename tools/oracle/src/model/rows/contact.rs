//! The contact row.

use crate::model::questions::{self, ask};
use crate::model::rows::card::{Card, card_fields};
use crate::model::rows::cursor::{Cursor, Reading, put_list, put_optional, versioned};

/// The two listed directions.
pub const I: u8 = 0x49;
pub const R: u8 = 0x52;

#[derive(Debug, Clone, PartialEq)]
pub struct Pending {
    pub chain_key: [u8; 32],
    pub msg_seed: [u8; 32],
}

#[derive(Debug, Clone, PartialEq)]
pub struct Send {
    pub gen_: u8,
    pub dir: u8,
    pub idx: u32,
    pub key: [u8; 32],
}

#[derive(Debug, Clone, PartialEq)]
pub struct Chain {
    pub gen_: u8,
    pub dir: u8,
    pub next: u64,
    pub key: [u8; 32],
    pub superseded_s: Option<u64>,
}

#[derive(Debug, Clone, PartialEq)]
pub struct Skipped {
    pub gen_: u8,
    pub dir: u8,
    pub idx: u32,
    pub key: [u8; 32],
    pub created_s: u64,
}

/// A range: from, to.
pub type Range = (u32, u32);

#[derive(Debug, Clone, PartialEq)]
pub struct Contact {
    pub role: u8,
    pub mode: u8,
    pub verification: u8,
    pub pair_id: [u8; 16],
    pub th: [u8; 48],
    pub nonce_b: [u8; 16],
    pub card: Card,
    pub door_a_to_b: [u8; 32],
    pub door_b_to_a: [u8; 32],
    pub route_key: [u8; 32],
    pub resume_index: u64,
    pub chain_key: [u8; 32],
    pub sent_msgno: u32,
    pub pending: Option<Pending>,
    pub send: Option<Send>,
    pub chains: Vec<Chain>,
    pub skipped: Vec<Skipped>,
    pub peer_acked: u32,
    pub peer_read: u32,
    pub read_marked: u32,
    pub contiguous: u32,
    pub above: Vec<Range>,
    pub unacked: Vec<u32>,
    pub expired: Vec<Range>,
}

pub fn contact(version: u32, row: &[u8]) -> Reading<Contact> {
    versioned(version, row, |cursor| {
        let contact = contact_fields(cursor)?;
        cursor.nothing_after()?;
        contact.consistent()?;
        Ok(contact)
    })
}

fn contact_fields(cursor: &mut Cursor) -> Result<Contact, u32> {
    // Written in the order of the row: a struct's fields are worked out in the order written here.
    Ok(Contact {
        role: cursor.code(&[0, 1])?,
        mode: cursor.code(&[3])?,
        verification: cursor.code(&[0, 1, 2])?,
        pair_id: cursor.array()?,
        th: cursor.array()?,
        nonce_b: cursor.array()?,
        card: card_within(cursor)?,
        door_a_to_b: cursor.veiled_array()?,
        door_b_to_a: cursor.veiled_array()?,
        route_key: cursor.veiled_array()?,
        resume_index: cursor.u64()?,
        chain_key: cursor.veiled_array()?,
        sent_msgno: cursor.u32()?,
        pending: cursor.optional(pending)?,
        send: cursor.optional(send)?,
        chains: cursor.list(chain)?,
        skipped: cursor.list(skipped)?,
        peer_acked: cursor.u32()?,
        peer_read: cursor.u32()?,
        read_marked: cursor.u32()?,
        contiguous: cursor.u32()?,
        above: cursor.list(range)?,
        unacked: cursor.list(Cursor::u32)?,
        expired: cursor.list(range)?,
    })
}

/// The card is a field: it must be there whole before the first of its own fields is taken.
fn card_within(cursor: &mut Cursor) -> Result<Card, u32> {
    let size = usize::from(cursor.u16()?);
    let row_end = cursor.end;
    ask(questions::WHOLE, size <= row_end - cursor.at)?;
    cursor.end = cursor.at + size;
    let card = card_fields(cursor)?;
    cursor.end = row_end;
    Ok(card)
}

fn pending(cursor: &mut Cursor) -> Result<Pending, u32> {
    Ok(Pending {
        chain_key: cursor.veiled_array()?,
        msg_seed: cursor.veiled_array()?,
    })
}

fn send(cursor: &mut Cursor) -> Result<Send, u32> {
    Ok(Send {
        gen_: cursor.u8()?,
        dir: cursor.code(&[I, R])?,
        idx: cursor.u32()?,
        key: cursor.veiled_array()?,
    })
}

fn chain(cursor: &mut Cursor) -> Result<Chain, u32> {
    Ok(Chain {
        gen_: cursor.u8()?,
        dir: cursor.code(&[I, R])?,
        next: cursor.u64()?,
        key: cursor.veiled_array()?,
        superseded_s: cursor.optional(Cursor::u64)?,
    })
}

fn skipped(cursor: &mut Cursor) -> Result<Skipped, u32> {
    Ok(Skipped {
        gen_: cursor.u8()?,
        dir: cursor.code(&[I, R])?,
        idx: cursor.u32()?,
        key: cursor.veiled_array()?,
        created_s: cursor.u64()?,
    })
}

fn range(cursor: &mut Cursor) -> Result<Range, u32> {
    Ok((cursor.u32()?, cursor.u32()?))
}

/// Whether no two are the same.
fn distinct<T: Ord>(mut all: Vec<T>) -> bool {
    let count = all.len();
    all.sort();
    all.dedup();
    all.len() == count
}

/// Canonical from `first`: each from at most its to, and at least `first`, afterwards the previous to + 2.
pub fn canonical(first: u64, ranges: &[Range]) -> bool {
    let mut least = first;
    ranges.iter().all(|(from, to)| {
        let fits = from <= to && u64::from(*from) >= least;
        least = u64::from(*to) + 2;
        fits
    })
}

impl Contact {
    /// 54, and 17 to 24.
    fn consistent(&self) -> Result<(), u32> {
        ask(questions::CHAIN_COUNT, self.chains.len() <= 8)?;
        let sent = self.sent_msgno;
        let current = self
            .chains
            .iter()
            .filter(|chain| chain.superseded_s.is_none());
        ask(questions::ONE_CHAIN, current.count() <= 1)?;
        let gens = self.chains.iter().map(|chain| chain.gen_);
        ask(questions::CHAIN_GENS, distinct(gens.collect()))?;
        let places = self.skipped.iter().map(|key| (key.gen_, key.idx));
        ask(questions::SKIPPED, distinct(places.collect()))?;
        ask(questions::SKIPPED_COUNT, self.skipped.len() <= 500)?;
        ask(questions::ACKED, self.peer_acked <= sent)?;
        let rising = self.unacked.windows(2).all(|pair| pair[0] < pair[1]);
        let within = self.unacked.iter().all(|msgno| (1..=sent).contains(msgno));
        ask(questions::UNACKED, rising && within)?;
        let beyond = u64::from(self.contiguous) + 2;
        ask(questions::ABOVE, canonical(beyond, &self.above))?;
        let none_above = self.expired.iter().all(|(_, to)| *to <= sent);
        ask(
            questions::EXPIRED,
            canonical(1, &self.expired) && none_above,
        )
    }

    pub fn row(&self) -> Vec<u8> {
        let mut row = vec![self.role, self.mode, self.verification];
        row.extend(self.pair_id);
        row.extend(self.th);
        row.extend(self.nonce_b);
        let card = self.card.row();
        row.extend((card.len() as u16).to_be_bytes());
        row.extend(card);
        row.extend(self.door_a_to_b);
        row.extend(self.door_b_to_a);
        row.extend(self.route_key);
        row.extend(self.resume_index.to_be_bytes());
        row.extend(self.chain_key);
        row.extend(self.sent_msgno.to_be_bytes());
        put_optional(&mut row, &self.pending, |row, pending| {
            row.extend(pending.chain_key);
            row.extend(pending.msg_seed);
        });
        put_optional(&mut row, &self.send, |row, send| {
            row.extend([send.gen_, send.dir]);
            row.extend(send.idx.to_be_bytes());
            row.extend(send.key);
        });
        self.put_lists(&mut row);
        row
    }

    fn put_lists(&self, row: &mut Vec<u8>) {
        put_list(row, &self.chains, |row, chain| {
            row.extend([chain.gen_, chain.dir]);
            row.extend(chain.next.to_be_bytes());
            row.extend(chain.key);
            put_optional(row, &chain.superseded_s, |row, at| {
                row.extend(at.to_be_bytes());
            });
        });
        put_list(row, &self.skipped, |row, key| {
            row.extend([key.gen_, key.dir]);
            row.extend(key.idx.to_be_bytes());
            row.extend(key.key);
            row.extend(key.created_s.to_be_bytes());
        });
        for number in [
            self.peer_acked,
            self.peer_read,
            self.read_marked,
            self.contiguous,
        ] {
            row.extend(number.to_be_bytes());
        }
        put_list(row, &self.above, put_range);
        put_list(row, &self.unacked, |row, msgno| {
            row.extend(msgno.to_be_bytes());
        });
        put_list(row, &self.expired, put_range);
    }
}

fn put_range(row: &mut Vec<u8>, (from, to): &Range) {
    row.extend(from.to_be_bytes());
    row.extend(to.to_be_bytes());
}
