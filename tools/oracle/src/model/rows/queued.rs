//! The queued row.

use crate::model::questions;
use crate::model::rows::cursor::{Cursor, QUEUED_BUCKET, Reading, put_optional, versioned};

#[derive(Debug, Clone, PartialEq)]
pub struct Envelope {
    pub tag: [u8; 16],
    pub s: [u8; 16],
    pub expiry_min: u32,
    pub copies: u8,
    pub renewed: bool,
}

#[derive(Debug, Clone, PartialEq)]
pub struct Queued {
    pub created_s: u64,
    pub envelope: Option<Envelope>,
    pub gen_: u8,
    pub idx: u32,
    pub sealed: Vec<u8>,
}

pub fn queued(version: u32, row: &[u8]) -> Reading<Queued> {
    versioned(version, row, |cursor| {
        Ok(Queued {
            created_s: cursor.u64()?,
            envelope: cursor.optional(envelope)?,
            gen_: cursor.u8()?,
            idx: cursor.leb128()?,
            sealed: cursor.sealed(QUEUED_BUCKET)?,
        })
    })
}

fn envelope(cursor: &mut Cursor) -> Result<Envelope, u32> {
    Ok(Envelope {
        tag: cursor.array()?,
        s: cursor.veiled_array()?,
        expiry_min: cursor.u32()?,
        copies: cursor.u8()?,
        renewed: cursor.flag()?,
    })
}

impl Queued {
    pub fn row(&self) -> Vec<u8> {
        let mut row = self.created_s.to_be_bytes().to_vec();
        put_optional(&mut row, &self.envelope, |row, envelope| {
            row.extend(envelope.tag);
            row.extend(envelope.s);
            row.extend(envelope.expiry_min.to_be_bytes());
            row.push(envelope.copies);
            row.push(envelope.renewed.into());
        });
        row.push(self.gen_);
        row.extend(questions::leb128(self.idx));
        row.extend(&self.sealed);
        row
    }
}
