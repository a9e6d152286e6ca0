//! Cards: `Card::decode` and `Card::encode`.

use crate::card::{Card, CardError};
use crate::compare::tally::Tally;
use crate::generate::cards::{CAPS_KCI, KEY, NAME_LENGTH_AT, Parts};
use crate::generate::inputs::{BYTES, Random};
use crate::generate::names;
use crate::hex::hex;
use crate::model::questions;
use crate::model::rows;
use crate::rattle::{self, LONGEST_CARD};

const FILL: u8 = 0xa5;
const GENERATED: usize = 400_000;

pub fn run(seed: u64) -> bool {
    let mut random = Random::new(seed);
    let mut tally = Tally::new("card", "inputs");
    let mut visit = |row: &[u8]| compare(&mut tally, row);
    visit(&[]);
    fitting(&mut random, &mut visit);
    name_lengths(&mut random, &mut visit);
    reserved_caps(&mut random, &mut visit);
    key_sizes(&mut random, &mut visit);
    pieces_in_names(&mut random, &mut visit);
    for _ in 0..GENERATED {
        let row = generated(&mut random);
        visit(&row);
    }
    tally.print()
}

/// The card written again, or the number of the refusal.
pub fn rust_card(row: &[u8]) -> Result<Vec<u8>, u32> {
    match Card::decode(row) {
        Ok(card) => Ok(card.encode().to_vec()),
        Err(CardError::Truncated) => Err(questions::WHOLE),
        Err(CardError::ReservedCaps) => Err(questions::CAPS),
        Err(CardError::NameTooLong) => Err(questions::NAME_LENGTH),
        Err(CardError::NameNotUtf8) => Err(questions::NAME),
        Err(CardError::TrailingBytes) => Err(questions::USED_UP),
    }
}

fn compare(tally: &mut Tally, row: &[u8]) {
    let rust = rust_card(row);
    let model = rows::card(row).answer.map(|card| card.row());
    let mut out = [FILL; LONGEST_CARD];
    let number = rattle::card(row, &mut out);
    // An accepted row is written as it was read, and nothing past it; a refused one leaves the output alone.
    let mut due_out = [FILL; LONGEST_CARD];
    let due = match &rust {
        Ok(again) => {
            due_out[..again.len()].copy_from_slice(again);
            0
        }
        Err(number) => *number,
    };
    let changed = rust.as_ref().is_ok_and(|again| again != row);
    let same = rust == model && !changed && number == due && out == due_out;
    tally.count(due, same, || {
        let model = model.err().unwrap_or(0);
        let at = (0..LONGEST_CARD).find(|at| out[*at] != due_out[*at]);
        let row = hex(row);
        format!("{row}: Rust {due}, 01 {model}, Rattle {number}, output differs at {at:?}")
    });
}

/// Cards that fit: all caps, name lengths and scripts, and what lies one step away from each.
fn fitting(random: &mut Random, visit: &mut impl FnMut(&[u8])) {
    for caps in 0..4 {
        for size in 0..=48 {
            for script in names::SCRIPTS {
                let row = Parts::fitting(caps, &names::of_size(script, size)).row(random);
                visit(&row);
                extended(&row, visit);
                every_value(&row, 0, visit);
                every_value(&row, NAME_LENGTH_AT, visit);
                // Cards with a key are long: every byte of one script's is enough.
                if caps & CAPS_KCI == 0 || script == names::SCRIPTS[0] {
                    damaged(&row, visit);
                    truncated(&row, visit);
                }
            }
        }
    }
}

fn extended(row: &[u8], visit: &mut impl FnMut(&[u8])) {
    for more in [0x00, 0x01, 0x80, 0xff] {
        visit(&[row, &[more]].concat());
    }
}

fn every_value(row: &[u8], at: usize, visit: &mut impl FnMut(&[u8])) {
    let mut row = row.to_vec();
    for byte in BYTES {
        row[at] = byte;
        visit(&row);
    }
}

fn damaged(row: &[u8], visit: &mut impl FnMut(&[u8])) {
    let mut damaged = row.to_vec();
    for (at, byte) in row.iter().enumerate() {
        for other in [byte ^ 0x01, byte ^ 0x80, 0x00, 0xff] {
            damaged[at] = other;
            visit(&damaged);
        }
        damaged[at] = *byte;
    }
}

fn truncated(row: &[u8], visit: &mut impl FnMut(&[u8])) {
    for size in 0..row.len() {
        visit(&row[..size]);
    }
}

/// Every name length, those above 48 too, with the name, one byte short of it, and without it.
fn name_lengths(random: &mut Random, visit: &mut impl FnMut(&[u8])) {
    let letters = [b'x'; 255];
    for caps in 0..4 {
        for name_length in 0..=255 {
            let size = usize::from(name_length);
            for name in [&letters[..size], &letters[..size.saturating_sub(1)], &[]] {
                let parts = Parts::fitting(caps, name).name_length(name_length);
                visit(&parts.row(random));
                visit(&parts.key_size(0).row(random));
            }
        }
    }
}

/// Caps come first: a reserved bit is refused however little follows, and whatever is wrong there.
fn reserved_caps(random: &mut Random, visit: &mut impl FnMut(&[u8])) {
    for caps in 4..=255 {
        let row = Parts::fitting(caps, b"name").row(random);
        visit(&row);
        truncated(&row[..NAME_LENGTH_AT + 5], visit);
        visit(&Parts::fitting(caps, b"").name_length(49).row(random));
        visit(&Parts::fitting(caps, &[0xff]).row(random));
    }
}

/// A key that is missing, short or long, after good names and bad ones.
fn key_sizes(random: &mut Random, visit: &mut impl FnMut(&[u8])) {
    for caps in 0..4 {
        for size in 0..=48 {
            for last in [b'x', 0xff] {
                let mut name = vec![b'x'; size];
                if let Some(end) = name.last_mut() {
                    *end = last;
                }
                for size in [0, 1, KEY - 1, KEY, KEY + 1, 2 * KEY] {
                    visit(&Parts::fitting(caps, &name).key_size(size).row(random));
                }
            }
        }
    }
}

/// Each character, whole or broken, at every place of a name, at its end and before more.
fn pieces_in_names(random: &mut Random, visit: &mut impl FnMut(&[u8])) {
    for piece in names::pieces() {
        for before in 0..=48 - piece.len() {
            let mut name = vec![b'x'; before];
            name.extend_from_slice(piece);
            visit(&Parts::fitting(0, &name).row(random));
            // Without its key: the name is asked first.
            visit(&Parts::fitting(2, &name).key_size(0).row(random));
            // Cut inside the piece: its last byte stands after the name.
            let cut = name.len() as u8 - 1;
            visit(&Parts::fitting(1, &name).name_length(cut).row(random));
            name.resize(48, b'x');
            visit(&Parts::fitting(1, &name).row(random));
        }
    }
}

/// A random card with up to three things done to it.
fn generated(random: &mut Random) -> Vec<u8> {
    let name = names::of_size(random.pick(&names::SCRIPTS), random.below(49));
    let mut row = Parts::fitting(random.below(4) as u8, &name).row(random);
    for _ in 0..random.below(4) {
        change(&mut row, random);
    }
    row
}

fn change(row: &mut Vec<u8>, random: &mut Random) {
    // The first 90 bytes have all the questions; the key behind them has none.
    let near = random.below(row.len().clamp(1, 90));
    match random.below(8) {
        0 => row.truncate(near),
        1 => row.push(random.byte()),
        2 => row.insert(near, random.byte()),
        3 if near < row.len() => drop(row.remove(near)),
        4 if !row.is_empty() => row[0] = random.byte() & random.byte(),
        5 if row.len() > NAME_LENGTH_AT => row[NAME_LENGTH_AT] = random.below(64) as u8,
        6 => drop(row.pop()),
        _ if near < row.len() => row[near] = random.byte(),
        _ => {}
    }
}
