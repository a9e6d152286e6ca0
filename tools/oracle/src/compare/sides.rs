//! The three sides of a row behind one trait: the model, the Rust and the Rattle.

use crate::generate::inputs::Random;
use crate::generate::row_build;
use crate::model::lent::{FILL, Lists};
use crate::model::questions;
use crate::model::rows::{self, Reading};
use crate::original::rows::{NEXT_CONTACT, Restored, Store};
use crate::rattle;

/// Lengths of lists that are lent with a row that is refused.
const FEW: [isize; 5] = [255, 230, 10, 5, 10];

pub trait Row: Sized + PartialEq {
    const NAME: &'static str;
    /// The answers that reading such a row can have: 0, and the numbers of the questions that it is asked.
    const ANSWERS: &'static [u32];

    fn model(version: u32, row: &[u8]) -> Reading<Self>;
    /// The row of the value, by the model.
    fn written(&self) -> Vec<u8>;
    fn rust(store: &Store, version: u32, row: &[u8]) -> Restored<Self>;
    /// The number answered, 0 if the row is granted and written again to the front of `out`.
    fn rattle(version: u32, row: &[u8], out: &mut [u8]) -> u32;
    /// The same of its veiled copy.
    fn rattle_veil(version: u32, row: &[u8], out: &mut [u8]) -> u32;

    /// What else differs: of a function that only checks, and in lists that the row's items are read into.
    fn more_faults(_answer: &Result<Self, u32>, _version: u32, _row: &[u8]) -> Vec<String> {
        Vec::new()
    }

    /// Whether the store around the row takes the value: question 31.
    fn taken(&self) -> bool {
        true
    }
}

impl Row for rows::Device {
    const NAME: &'static str = "device";
    const ANSWERS: &'static [u32] = &[0, 3, 4, 5, 11, 16];

    fn model(version: u32, row: &[u8]) -> Reading<Self> {
        rows::device(version, row)
    }

    fn written(&self) -> Vec<u8> {
        self.row()
    }

    fn rust(store: &Store, version: u32, row: &[u8]) -> Restored<Self> {
        store.device(version, row)
    }

    fn rattle(version: u32, row: &[u8], out: &mut [u8]) -> u32 {
        rattle::device(version, row, out)
    }

    fn rattle_veil(version: u32, row: &[u8], out: &mut [u8]) -> u32 {
        rattle::veil_device(version, row, out)
    }
}

impl Row for rows::Contact {
    const NAME: &'static str = "contact";
    const ANSWERS: &'static [u32] = &[
        0, 3, 4, 5, 6, 7, 8, 9, 10, 16, 17, 18, 19, 20, 21, 22, 23, 24, 54,
    ];

    fn model(version: u32, row: &[u8]) -> Reading<Self> {
        rows::contact(version, row)
    }

    fn written(&self) -> Vec<u8> {
        self.row()
    }

    fn rust(store: &Store, version: u32, row: &[u8]) -> Restored<Self> {
        store.contact(version, row)
    }

    fn rattle(version: u32, row: &[u8], out: &mut [u8]) -> u32 {
        rattle::contact(version, row, out)
    }

    fn rattle_veil(version: u32, row: &[u8], out: &mut [u8]) -> u32 {
        rattle::veil_contact(version, row, out)
    }

    /// `check` answers the same. Lists as long as the items, or longer by what is no item, are filled, and nothing behind
    /// the items. One that is too short is 36, also where the output is too short, which alone is 40; after any number no
    /// list and no byte of the output is changed.
    fn more_faults(answer: &Result<Self, u32>, version: u32, row: &[u8]) -> Vec<String> {
        let mut faults = Vec::new();
        let check = rattle::check_contact(version, row);
        if check != *answer.as_ref().err().unwrap_or(&0) {
            faults.push(format!("Rattle's check {check}"));
        }
        let mut ask = |lists: Lists, room: usize, due: u32| {
            let mut left = lists.blank();
            let mut out = vec![FILL; room];
            let (due_left, due_out) = if due == 0 {
                (lists, row.to_vec())
            } else {
                (left.clone(), out.clone())
            };
            let number = rattle::contact_lists(version, row, &mut left, &mut out);
            if number != due || left != due_left || out != due_out {
                let lengths = left.lengths();
                faults.push(format!("lists of {lengths:?}: due {due}, Rattle {number}"));
            }
        };
        let contact = match answer {
            Ok(contact) => contact,
            Err(number) => {
                ask(Lists::default().resized(FEW), row.len(), *number);
                ask(Lists::default().resized(FEW), 0, *number);
                return faults;
            }
        };
        let items = Lists::of(contact);
        ask(items.clone(), row.len(), 0);
        ask(items.resized([50, 45, 1, 1, 1]), row.len(), 0);
        ask(
            items.resized([51, 92, 2, 3, 4]),
            row.len() - 1,
            questions::OUTPUT,
        );
        for (list, length) in items.lengths().into_iter().enumerate() {
            if length > 0 {
                let mut more = [100; 5];
                more[list] = -1;
                ask(items.resized(more), row.len(), questions::LISTS);
                ask(items.resized(more), row.len() - 1, questions::LISTS);
            }
        }
        faults
    }
}

impl Row for rows::Queued {
    const NAME: &'static str = "queued";
    const ANSWERS: &'static [u32] = &[0, 3, 4, 5, 12, 13];

    fn model(version: u32, row: &[u8]) -> Reading<Self> {
        rows::queued(version, row)
    }

    fn written(&self) -> Vec<u8> {
        self.row()
    }

    fn rust(store: &Store, version: u32, row: &[u8]) -> Restored<Self> {
        store.queued(version, row)
    }

    fn rattle(version: u32, row: &[u8], out: &mut [u8]) -> u32 {
        rattle::queued(version, row, out)
    }

    fn rattle_veil(version: u32, row: &[u8], out: &mut [u8]) -> u32 {
        rattle::veil_queued(version, row, out)
    }
}

impl Row for rows::Courier {
    const NAME: &'static str = "courier";
    const ANSWERS: &'static [u32] = &[0, 3, 4, 6, 13, 14, 15, 16];

    fn model(version: u32, row: &[u8]) -> Reading<Self> {
        rows::courier(version, row)
    }

    fn written(&self) -> Vec<u8> {
        self.row()
    }

    fn rust(store: &Store, version: u32, row: &[u8]) -> Restored<Self> {
        store.courier(version, row)
    }

    fn rattle(version: u32, row: &[u8], out: &mut [u8]) -> u32 {
        rattle::courier(version, row, out)
    }

    fn rattle_veil(version: u32, row: &[u8], out: &mut [u8]) -> u32 {
        rattle::veil_courier(version, row, out)
    }

    fn taken(&self) -> bool {
        match self {
            Self::Carried { depositor, .. } => *depositor < NEXT_CONTACT,
            Self::Tombstone { .. } => true,
        }
    }
}

/// A store of valid rows.
pub fn store(random: &mut Random) -> Store {
    Store::new(
        &row_build::device(random),
        &row_build::contact(random, row_build::SMALL),
    )
}
