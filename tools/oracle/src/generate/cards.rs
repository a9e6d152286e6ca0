//! Card rows to try, fitting and unfit.

use crate::generate::inputs::Random;

pub const CAPS_KCI: u8 = 0b10;
/// Where the name length stands in a card.
pub const NAME_LENGTH_AT: usize = 37;
/// The size of the static key.
pub const KEY: usize = 1184;

/// A card's parts as they are to stand in the row, whether they fit together or not.
#[derive(Clone, Copy)]
pub struct Parts<'a> {
    caps: u8,
    name_length: u8,
    name: &'a [u8],
    key_size: usize,
}

impl<'a> Parts<'a> {
    /// The parts of a valid card, if `name` is one.
    pub fn fitting(caps: u8, name: &'a [u8]) -> Self {
        Self {
            caps,
            name_length: name.len() as u8,
            name,
            key_size: if caps & CAPS_KCI == 0 { 0 } else { KEY },
        }
    }

    /// The same with another name length.
    pub fn name_length(self, name_length: u8) -> Self {
        Self {
            name_length,
            ..self
        }
    }

    /// The same with a key of another size.
    pub fn key_size(self, key_size: usize) -> Self {
        Self { key_size, ..self }
    }

    /// The row, with random day and keys.
    pub fn row(&self, random: &mut Random) -> Vec<u8> {
        let mut row = vec![self.caps];
        row.extend(random.bytes(4 + 32));
        row.push(self.name_length);
        row.extend_from_slice(self.name);
        row.extend(random.bytes(self.key_size));
        row
    }
}
