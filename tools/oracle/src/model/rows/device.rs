//! The device row.

use crate::model::questions::{self, ask};
use crate::model::rows::cursor::{Reading, versioned};

#[derive(Debug, Clone, PartialEq)]
pub struct Device {
    pub beacon_day: u32,
    pub beacon_key: [u8; 32],
    pub next_contact: u64,
    pub read_receipts: bool,
    pub enabled: bool,
    pub copies: u8,
    pub lifetime_min: u16,
}

pub fn device(version: u32, row: &[u8]) -> Reading<Device> {
    versioned(version, row, |cursor| {
        let beacon_day = cursor.u32()?;
        let beacon_key = cursor.veiled_array()?;
        let next_contact = cursor.u64()?;
        let read_receipts = cursor.flag()?;
        let enabled = cursor.flag()?;
        let copies = cursor.u8()?;
        let lifetime_min = cursor.u16()?;
        let courier = (1..=16).contains(&copies) && (60..=10_080).contains(&lifetime_min);
        ask(questions::COURIER, courier)?;
        cursor.nothing_after()?;
        Ok(Device {
            beacon_day,
            beacon_key,
            next_contact,
            read_receipts,
            enabled,
            copies,
            lifetime_min,
        })
    })
}

impl Device {
    pub fn row(&self) -> Vec<u8> {
        let mut row = Vec::new();
        row.extend(self.beacon_day.to_be_bytes());
        row.extend(self.beacon_key);
        row.extend(self.next_contact.to_be_bytes());
        row.push(self.read_receipts.into());
        row.push(self.enabled.into());
        row.push(self.copies);
        row.extend(self.lifetime_min.to_be_bytes());
        row
    }
}
