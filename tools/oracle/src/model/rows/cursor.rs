//! Where a row is read, and how the parts of one are written.

use crate::model::questions::{self, ask};

/// What reading a row gives.
pub struct Reading<T> {
    pub answer: Result<T, u32>,
    /// For each byte of the row, whether it is veiled.
    pub veiled: Vec<bool>,
}

/// The place in a row, how far its fields may go, and what was veiled on the way.
pub struct Cursor<'a> {
    row: &'a [u8],
    pub at: usize,
    pub end: usize,
    veiled: Vec<bool>,
}

impl<'a> Cursor<'a> {
    /// Field wholly in the row (in the card, while its fields are taken)?
    pub fn field(&mut self, size: usize) -> Result<&'a [u8], u32> {
        ask(questions::WHOLE, size <= self.end - self.at)?;
        let field = &self.row[self.at..self.at + size];
        self.at += size;
        Ok(field)
    }

    /// A field marked (v): veiled once it is taken whole.
    pub fn veiled_field(&mut self, size: usize) -> Result<&'a [u8], u32> {
        let field = self.field(size)?;
        self.veiled[self.at - size..self.at].fill(true);
        Ok(field)
    }

    pub fn array<const SIZE: usize>(&mut self) -> Result<[u8; SIZE], u32> {
        Ok(self.field(SIZE)?.try_into().expect("a field of this size"))
    }

    pub fn veiled_array<const SIZE: usize>(&mut self) -> Result<[u8; SIZE], u32> {
        Ok(self
            .veiled_field(SIZE)?
            .try_into()
            .expect("a field of this size"))
    }

    pub fn u8(&mut self) -> Result<u8, u32> {
        Ok(self.field(1)?[0])
    }

    pub fn u16(&mut self) -> Result<u16, u32> {
        self.array().map(u16::from_be_bytes)
    }

    pub fn u32(&mut self) -> Result<u32, u32> {
        self.array().map(u32::from_be_bytes)
    }

    pub fn u64(&mut self) -> Result<u64, u32> {
        self.array().map(u64::from_be_bytes)
    }

    pub fn flag(&mut self) -> Result<bool, u32> {
        let byte = self.u8()?;
        ask(questions::FLAG, byte <= 1)?;
        Ok(byte == 1)
    }

    pub fn code(&mut self, listed: &[u8]) -> Result<u8, u32> {
        let byte = self.u8()?;
        ask(questions::CODE, listed.contains(&byte))?;
        Ok(byte)
    }

    /// What a flag of 1 has behind it.
    pub fn optional<T>(
        &mut self,
        part: impl FnOnce(&mut Self) -> Result<T, u32>,
    ) -> Result<Option<T>, u32> {
        Ok(if self.flag()? {
            Some(part(self)?)
        } else {
            None
        })
    }

    /// A count and as many items.
    pub fn list<T>(
        &mut self,
        mut item: impl FnMut(&mut Self) -> Result<T, u32>,
    ) -> Result<Vec<T>, u32> {
        let count = self.u16()?;
        (0..count).map(|_| item(self)).collect()
    }

    pub fn leb128(&mut self) -> Result<u32, u32> {
        let (value, taken) = questions::read_leb128(&self.row[self.at..self.end])?;
        self.at += taken;
        Ok(value)
    }

    /// Sealed text to the end, of one of the allowed lengths; nothing of it is veiled before that is sure.
    pub fn sealed(&mut self, largest: usize) -> Result<Vec<u8>, u32> {
        let size = self.end - self.at;
        let allowed = BUCKETS
            .iter()
            .any(|bucket| *bucket <= largest && bucket + SEAL == size);
        ask(questions::SEALED, allowed)?;
        self.veiled_field(size).map(<[u8]>::to_vec)
    }

    pub fn nothing_after(&self) -> Result<(), u32> {
        ask(questions::END, self.at == self.end)
    }
}

/// `INNER_BUCKETS`, and how much longer a sealed text is.
pub const BUCKETS: [usize; 8] = [32, 64, 128, 256, 512, 1024, 2048, 4048];
pub const SEAL: usize = 16;
/// The largest bucket of a queued and of a carried text.
pub const QUEUED_BUCKET: usize = 4048;
pub const CARRIED_BUCKET: usize = 2048;

pub fn reading<T>(row: &[u8], ask: impl FnOnce(&mut Cursor) -> Result<T, u32>) -> Reading<T> {
    let mut cursor = Cursor {
        row,
        at: 0,
        end: row.len(),
        veiled: vec![false; row.len()],
    };
    let answer = ask(&mut cursor);
    Reading {
        answer,
        veiled: cursor.veiled,
    }
}

pub fn versioned<T>(
    version: u32,
    row: &[u8],
    fields: impl FnOnce(&mut Cursor) -> Result<T, u32>,
) -> Reading<T> {
    reading(row, |cursor| {
        ask(questions::VERSION, version == 3)?;
        fields(cursor)
    })
}

pub fn put_optional<T>(row: &mut Vec<u8>, part: &Option<T>, put: impl FnOnce(&mut Vec<u8>, &T)) {
    row.push(part.is_some().into());
    if let Some(part) = part {
        put(row, part);
    }
}

pub fn put_list<T>(row: &mut Vec<u8>, items: &[T], mut put: impl FnMut(&mut Vec<u8>, &T)) {
    row.extend((items.len() as u16).to_be_bytes());
    for item in items {
        put(row, item);
    }
}

/// `row` with its veiled bytes zero.
pub fn blanked(row: &[u8], veiled: &[bool]) -> Vec<u8> {
    let byte = |(byte, veiled): (&u8, &bool)| if *veiled { 0 } else { *byte };
    row.iter().zip(veiled).map(byte).collect()
}
