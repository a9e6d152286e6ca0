//! The five lists that a contact's items are read into, by the design of the lent lists: a chain is its row's bytes, 51
//! with 0 where superseded_s is left out; a skipped key its 46 bytes; ranges are flat, from, to; unacked numbers as they are.

use crate::model::rows::{Contact, Range};

/// What stands in places that hold no item.
pub const FILL: u8 = 0xa5;
const FILL_NUMBER: u32 = 0xa5a5_a5a5;

#[derive(Clone, Default, PartialEq)]
pub struct Lists {
    pub chains: Vec<u8>,
    pub skipped: Vec<u8>,
    pub above: Vec<u32>,
    pub unacked: Vec<u32>,
    pub expired: Vec<u32>,
}

impl Lists {
    /// The contact's items, and nothing else.
    pub fn of(contact: &Contact) -> Self {
        let mut lists = Self::default();
        for chain in &contact.chains {
            lists.chains.extend([chain.gen_, chain.dir]);
            lists.chains.extend(chain.next.to_be_bytes());
            lists.chains.extend(chain.key);
            lists.chains.push(chain.superseded_s.is_some().into());
            let superseded_s = chain.superseded_s.unwrap_or(0);
            lists.chains.extend(superseded_s.to_be_bytes());
        }
        for key in &contact.skipped {
            lists.skipped.extend([key.gen_, key.dir]);
            lists.skipped.extend(key.idx.to_be_bytes());
            lists.skipped.extend(key.key);
            lists.skipped.extend(key.created_s.to_be_bytes());
        }
        lists.above = flat(&contact.above);
        lists.unacked = contact.unacked.clone();
        lists.expired = flat(&contact.expired);
        lists
    }

    /// Lists of other lengths: the items as far as they go, and places that hold none.
    pub fn resized(&self, more: [isize; 5]) -> Self {
        let mut lists = self.clone();
        let size = |len: usize, more: isize| len.saturating_add_signed(more);
        let (chains, skipped) = (
            size(lists.chains.len(), more[0]),
            size(lists.skipped.len(), more[1]),
        );
        lists.chains.resize(chains, FILL);
        lists.skipped.resize(skipped, FILL);
        for (list, more) in [&mut lists.above, &mut lists.unacked, &mut lists.expired]
            .into_iter()
            .zip(&more[2..])
        {
            list.resize(size(list.len(), *more), FILL_NUMBER);
        }
        lists
    }

    /// Lists of the same lengths that hold nothing.
    pub fn blank(&self) -> Self {
        let nothing = Self::default();
        nothing.resized(self.lengths().map(|length| length as isize))
    }

    /// Puts items at the front of lists that are long enough.
    #[cfg(not(feature = "rattle"))]
    pub fn put(&mut self, items: &Self) {
        self.chains[..items.chains.len()].copy_from_slice(&items.chains);
        self.skipped[..items.skipped.len()].copy_from_slice(&items.skipped);
        self.above[..items.above.len()].copy_from_slice(&items.above);
        self.unacked[..items.unacked.len()].copy_from_slice(&items.unacked);
        self.expired[..items.expired.len()].copy_from_slice(&items.expired);
    }

    pub fn lengths(&self) -> [usize; 5] {
        [
            self.chains.len(),
            self.skipped.len(),
            self.above.len(),
            self.unacked.len(),
            self.expired.len(),
        ]
    }
}

fn flat(ranges: &[Range]) -> Vec<u32> {
    ranges.iter().flat_map(|(from, to)| [*from, *to]).collect()
}
