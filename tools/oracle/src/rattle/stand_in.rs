//! The model under the names of the C functions.

use crate::model::covered::Covered;
use crate::model::lent::Lists;
use crate::model::questions;
use crate::model::rows::{self, Range, Reading};
use crate::model::store::Store;
use crate::rattle::answers::{LONGEST_CARD, RestoreAnswer, WriteAnswer};

pub fn read_leb128(input: &[u8], answer: &mut [u64; 2]) -> u32 {
    match questions::read_leb128(input) {
        Ok((value, taken)) => {
            *answer = [u64::from(value), taken as u64];
            0
        }
        Err(number) => number,
    }
}

pub fn leb128(value: u32, out: &mut [u8]) -> WriteAnswer {
    let bytes = questions::leb128(value);
    let length = bytes.len();
    match again(Ok(bytes), out) {
        0 => WriteAnswer { length, number: 0 },
        number => WriteAnswer { length: 0, number },
    }
}

pub fn utf8(name: &[u8]) -> u32 {
    questions::utf8(name).into()
}

pub fn card(input: &[u8], out: &mut [u8; LONGEST_CARD]) -> u32 {
    again(rows::card(input).answer.map(|card| card.row()), out)
}

pub fn device(version: u32, row: &[u8], out: &mut [u8]) -> u32 {
    let read = rows::device(version, row).answer;
    again(read.map(|device| device.row()), out)
}

pub fn queued(version: u32, row: &[u8], out: &mut [u8]) -> u32 {
    let read = rows::queued(version, row).answer;
    again(read.map(|queued| queued.row()), out)
}

pub fn courier(version: u32, row: &[u8], out: &mut [u8]) -> u32 {
    let read = rows::courier(version, row).answer;
    again(read.map(|courier| courier.row()), out)
}

pub fn veil_device(version: u32, row: &[u8], out: &mut [u8]) -> u32 {
    veil(rows::device(version, row), row, out)
}

pub fn veil_contact(version: u32, row: &[u8], out: &mut [u8]) -> u32 {
    veil(rows::contact(version, row), row, out)
}

pub fn veil_queued(version: u32, row: &[u8], out: &mut [u8]) -> u32 {
    veil(rows::queued(version, row), row, out)
}

pub fn veil_courier(version: u32, row: &[u8], out: &mut [u8]) -> u32 {
    veil(rows::courier(version, row), row, out)
}

fn veil<T>(reading: Reading<T>, row: &[u8], out: &mut [u8]) -> u32 {
    let veiled = reading.veiled;
    let copy = reading.answer.map(|_| rows::blanked(row, &veiled));
    again(copy, out)
}

pub fn check_contact(version: u32, row: &[u8]) -> u32 {
    rows::contact(version, row).answer.err().unwrap_or(0)
}

pub fn contact_lists(version: u32, row: &[u8], lists: &mut Lists, out: &mut [u8]) -> u32 {
    let contact = match rows::contact(version, row).answer {
        Ok(contact) => contact,
        Err(number) => return number,
    };
    let items = Lists::of(&contact);
    let mut long = lists.lengths().into_iter().zip(items.lengths());
    if !long.all(|(lent, needed)| needed <= lent) {
        return questions::LISTS;
    }
    let number = again(Ok(contact.row()), out);
    if number == 0 {
        lists.put(&items);
    }
    number
}

pub fn restore(store: &Store) -> RestoreAnswer {
    store.restore().into()
}

fn covered(contiguous: u32, above: &[u32], count: usize) -> Covered {
    let pairs = above.chunks_exact(2).take(count);
    let pairs: Vec<Range> = pairs.map(|pair| (pair[0], pair[1])).collect();
    Covered::of(contiguous, &pairs)
}

pub fn contains(contiguous: u32, above: &[u32], count: usize, msgno: u32) -> u32 {
    covered(contiguous, above, count).contains(msgno).into()
}

pub fn covers(contiguous: u32, above: &[u32], count: usize, (from, to): Range) -> u32 {
    let covers = covered(contiguous, above, count).covers(from, to);
    (covers == Ok(true)).into()
}

pub fn insert(
    contiguous: u32,
    above: &mut [u32],
    count: usize,
    (from, to): Range,
    answer: &mut [u64],
) -> u32 {
    let before = covered(contiguous, above, count);
    let (after, moved, added) = match before.cover(from, to, above.len() / 2) {
        Ok(after) => after,
        Err(number) => return number,
    };
    let Some(answer) = answer.get_mut(..4) else {
        return questions::OUTPUT;
    };
    let ranges = after.above();
    above[..2 * count].fill(0);
    for (place, (from, to)) in above.chunks_exact_mut(2).zip(&ranges) {
        place.copy_from_slice(&[*from, *to]);
    }
    let (contiguous, count) = (after.contiguous(), ranges.len() as u64);
    answer.copy_from_slice(&[contiguous.into(), count, moved.into(), added]);
    0
}

/// What is written where a row is accepted, at the front of `out`; or the number of the question.
fn again(row: Result<Vec<u8>, u32>, out: &mut [u8]) -> u32 {
    match row {
        Ok(row) => match out.get_mut(..row.len()) {
            Some(front) => {
                front.copy_from_slice(&row);
                0
            }
            None => questions::OUTPUT,
        },
        Err(number) => number,
    }
}
