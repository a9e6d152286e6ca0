//! The courier row.

use crate::model::questions::{self, ask};
use crate::model::rows::cursor::{CARRIED_BUCKET, Cursor, Reading, versioned};

#[derive(Debug, Clone, PartialEq)]
pub enum Courier {
    Carried {
        depositor: u64,
        tag: [u8; 16],
        c: [u8; 16],
        expiry_min: u32,
        copies: u8,
        sealed: Vec<u8>,
    },
    Tombstone {
        tag: [u8; 16],
        s: [u8; 16],
        expiry_min: u32,
    },
}

pub fn courier(version: u32, row: &[u8]) -> Reading<Courier> {
    versioned(version, row, |cursor| match cursor.code(&[0, 1])? {
        0 => carried(cursor),
        _ => {
            let held = Courier::Tombstone {
                tag: cursor.array()?,
                s: cursor.veiled_array()?,
                expiry_min: cursor.u32()?,
            };
            cursor.nothing_after()?;
            Ok(held)
        }
    })
}

fn carried(cursor: &mut Cursor) -> Result<Courier, u32> {
    let depositor = cursor.u64()?;
    let tag = cursor.array()?;
    let c = cursor.array()?;
    let expiry_min = cursor.u32()?;
    ask(questions::CARRIED_EXPIRY, expiry_min != 0)?;
    let copies = cursor.u8()?;
    ask(questions::CARRIED_COPIES, copies != 0)?;
    let sealed = cursor.sealed(CARRIED_BUCKET)?;
    Ok(Courier::Carried {
        depositor,
        tag,
        c,
        expiry_min,
        copies,
        sealed,
    })
}

impl Courier {
    pub fn row(&self) -> Vec<u8> {
        let mut row = Vec::new();
        match self {
            Self::Carried {
                depositor,
                tag,
                c,
                expiry_min,
                copies,
                sealed,
            } => {
                row.push(0);
                row.extend(depositor.to_be_bytes());
                row.extend(tag);
                row.extend(c);
                row.extend(expiry_min.to_be_bytes());
                row.push(*copies);
                row.extend(sealed);
            }
            Self::Tombstone { tag, s, expiry_min } => {
                row.push(1);
                row.extend(tag);
                row.extend(s);
                row.extend(expiry_min.to_be_bytes());
            }
        }
        row
    }
}
