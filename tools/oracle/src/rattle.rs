//! The Rattle side. Without the feature `rattle` the model stands in, so that the tools can be tried alone.

mod answers;
#[cfg(feature = "rattle")]
mod linked;
#[cfg(not(feature = "rattle"))]
mod stand_in;

use crate::model::lent::Lists;
use std::cell::RefCell;

#[cfg(feature = "rattle")]
use linked as side;
#[cfg(not(feature = "rattle"))]
use stand_in as side;

pub use answers::{LONGEST_CARD, RestoreAnswer, WriteAnswer};
pub use side::{
    card, check_contact, contact_lists, contains, courier, covers, device, insert, leb128, queued,
    read_leb128, restore, utf8, veil_contact, veil_courier, veil_device, veil_queued,
};

thread_local! {
    /// Lists that are long enough for every row that is accepted.
    static LISTS: RefCell<Lists> = RefCell::new(Lists::default().resized([1 << 17; 5]));
}

/// A contact row, with lists that are long enough.
pub fn contact(version: u32, row: &[u8], out: &mut [u8]) -> u32 {
    LISTS.with(|lists| contact_lists(version, row, &mut lists.borrow_mut(), out))
}
