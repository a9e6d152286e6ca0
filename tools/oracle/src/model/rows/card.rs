//! The card.

use crate::model::questions::{self, ask};
use crate::model::rows::cursor::{Cursor, Reading, reading};

#[derive(Debug, Clone, PartialEq)]
pub struct Card {
    pub caps: u8,
    pub beacon_day: u32,
    pub beacon_key: [u8; 32],
    pub name: Vec<u8>,
    pub static_key: Option<Vec<u8>>,
}

/// A card alone, which has no version.
pub fn card(row: &[u8]) -> Reading<Card> {
    reading(row, card_fields)
}

/// The card that goes as far as the cursor's end.
pub fn card_fields(cursor: &mut Cursor) -> Result<Card, u32> {
    let caps = cursor.u8()?;
    ask(questions::CAPS, caps & 0b1111_1100 == 0)?;
    let beacon_day = cursor.u32()?;
    let beacon_key = cursor.veiled_array()?;
    let length = cursor.u8()?;
    ask(questions::NAME_LENGTH, length <= 48)?;
    let name = cursor.field(length.into())?.to_vec();
    ask(questions::NAME, questions::utf8(&name))?;
    let static_key = match caps & 0b10 {
        0 => None,
        _ => Some(cursor.field(1184)?.to_vec()),
    };
    ask(questions::USED_UP, cursor.at == cursor.end)?;
    Ok(Card {
        caps,
        beacon_day,
        beacon_key,
        name,
        static_key,
    })
}

impl Card {
    pub fn row(&self) -> Vec<u8> {
        let mut row = vec![self.caps];
        row.extend(self.beacon_day.to_be_bytes());
        row.extend(self.beacon_key);
        row.push(self.name.len() as u8);
        row.extend(&self.name);
        row.extend(self.static_key.iter().flatten());
        row
    }
}
