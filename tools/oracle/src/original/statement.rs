//! What the program `statement` does, in plain Rust with the original code: for measuring how long that takes, and as a
//! second reading of the sheet. The Rust has no numbers and no places: a refusal of its `restore` is `R,?,?`.

use crate::original::calls::line;
use crate::original::parts::core::ContactId;
use crate::original::rows::persisted;
use crate::state::{ContactRow, CourierRow, Device, Persisted, QueuedRow};

const BLOB_BYTES: usize = 61_440;
const LINES: usize = 512;
const UNNUMBERED: &str = "R,?,?\n";

#[derive(Default)]
struct Rows {
    device: Option<Persisted>,
    contacts: Vec<ContactRow>,
    queued: Vec<QueuedRow>,
    courier: Vec<CourierRow>,
    /// The first entry that question 1 refuses.
    out_of_order: Option<usize>,
    count: usize,
    bytes: usize,
}

pub fn statement(sheet: &[u8]) -> String {
    let mut rows = Rows::default();
    let mut rest = sheet;
    while !rest.is_empty() {
        let end = rest.iter().position(|byte| *byte == b'\n');
        let refused = match end {
            Some(end) => rows.line(&rest[..end]).err(),
            None => Some(41),
        };
        if let Some(number) = refused {
            return format!("X,{number},{}\n", rows.count + 1);
        }
        rows.count += 1;
        rest = &rest[end.unwrap_or(0) + 1..];
    }
    rows.text()
}

impl Rows {
    fn line(&mut self, line: &[u8]) -> Result<(), u32> {
        let fields: Vec<&[u8]> = line.split(|byte| *byte == b',').collect();
        match *fields.as_slice() {
            [b"D", version, blob] => {
                let version = number(version)?;
                let state = self.state(version, blob)?;
                self.in_order(self.count == 0);
                self.device.get_or_insert(state);
            }
            [b"C", contact, version, blob] => {
                let (contact, version) = (number(contact)?, number(version)?);
                let state = self.state(version, blob)?;
                self.in_order(self.count > 0 && self.queued.is_empty() && self.courier.is_empty());
                let contact = ContactId(contact);
                self.contacts.push(ContactRow { contact, state });
            }
            [b"Q", contact, msgno, version, blob] => {
                let (contact, msgno, version) =
                    (number(contact)?, number(msgno)?, number(version)?);
                let state = self.state(version, blob)?;
                self.in_order(self.count > 0 && self.courier.is_empty());
                self.queued.push(QueuedRow {
                    contact: ContactId(contact),
                    msgno,
                    state,
                });
            }
            [b"K", slot, version, blob] => {
                let (slot, version) = (number(slot)?, number(version)?);
                let state = self.state(version, blob)?;
                self.in_order(self.count > 0);
                self.courier.push(CourierRow { slot, state });
            }
            _ => return Err(41),
        }
        Ok(())
    }

    fn in_order(&mut self, yes: bool) {
        if !yes {
            self.out_of_order.get_or_insert(self.count);
        }
    }

    /// 43, then 44.
    fn state(&mut self, version: u32, blob: &[u8]) -> Result<Persisted, u32> {
        let bytes = unhex(blob).ok_or(43u32)?;
        self.bytes += bytes.len();
        if self.bytes > BLOB_BYTES || self.count >= LINES {
            return Err(44);
        }
        Ok(persisted(version, &bytes))
    }

    fn text(&self) -> String {
        if let Some(entry) = self.out_of_order {
            return format!("R,1,{entry}\n");
        }
        let Some(device) = &self.device else {
            return "R,1,0\n".into();
        };
        let Ok(device) = Device::restore(device, &self.contacts, &self.queued, &self.courier)
        else {
            return UNNUMBERED.into();
        };
        let mut text = String::new();
        for contact in &device.contacts {
            text += &line(contact);
            text.push('\n');
        }
        let (contacts, queued) = (self.contacts.len(), self.queued.len());
        let (held, next_slot) = (device.held.len(), device.next_slot);
        text + &format!("T,{contacts},{queued},{held},{next_slot}\n")
    }
}

/// 42. `parse` takes a sign and leading zeros, a sheet has neither.
fn number<T: std::str::FromStr>(digits: &[u8]) -> Result<T, u32> {
    let text = str::from_utf8(digits).map_err(|_| 42u32)?;
    let bare = text == "0" || text.starts_with(|first: char| ('1'..='9').contains(&first));
    if !bare {
        return Err(42);
    }
    text.parse().map_err(|_| 42)
}

fn unhex(digits: &[u8]) -> Option<Vec<u8>> {
    let digit = |byte: u8| match byte {
        b'0'..=b'9' => Some(byte - b'0'),
        b'a'..=b'f' => Some(byte - b'a' + 10),
        _ => None,
    };
    if digits.len() % 2 == 1 {
        return None;
    }
    let pair = |pair: &[u8]| Some(digit(pair[0])? << 4 | digit(pair[1])?);
    digits.chunks_exact(2).map(pair).collect()
}
