//! What the C functions answer.

use crate::model::store;

/// Caps, day, beacon key, name length, the longest name, the static key.
pub const LONGEST_CARD: usize = 1 + 4 + 32 + 1 + 48 + 1184;

/// What the LEB128 writer answers, laid out as the C function hands it back: 0 with the length written, or the number of
/// the question with 0.
#[repr(C)]
#[derive(Debug, Clone, Copy, PartialEq, Eq)]
pub struct WriteAnswer {
    pub length: usize,
    pub number: u32,
}

/// What restore answers, laid out as the C function hands it back: 0 with next_contact and next_slot, or the number of the
/// question with the entry's index; 0 for what is not said.
#[repr(C)]
#[derive(Debug, Clone, Copy, PartialEq, Eq)]
pub struct RestoreAnswer {
    pub next_contact: u64,
    pub next_slot: u64,
    pub index: usize,
    pub number: u32,
}

impl From<store::Answer> for RestoreAnswer {
    fn from(answer: store::Answer) -> Self {
        match answer {
            Ok(granted) => RestoreAnswer {
                next_contact: granted.next_contact,
                next_slot: granted.next_slot,
                index: 0,
                number: 0,
            },
            Err(refusal) => RestoreAnswer {
                next_contact: 0,
                next_slot: 0,
                index: refusal.index,
                number: refusal.number,
            },
        }
    }
}
