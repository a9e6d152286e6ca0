//! UTF-8: `core::str::from_utf8`, which `card.rs` asks of a name.

use crate::compare::tally::Tally;
use crate::generate::inputs::{BYTES, Random, each_sequence};
use crate::generate::names;
use crate::hex::hex;
use crate::model::questions;
use crate::rattle;

/// Bytes on both sides of every limit that a byte after the first has.
const BOUNDARY: [u8; 10] = [0x00, 0x7f, 0x80, 0x8f, 0x90, 0x9f, 0xa0, 0xbf, 0xc0, 0xff];
const RANDOM_NAMES: usize = 2_000_000;

pub fn run(seed: u64) -> bool {
    let mut tally = Tally::new("utf8", "inputs");
    let mut compare = |name: &[u8]| compare(&mut tally, name);
    for size in 0..=3 {
        each_sequence(&vec![&BYTES[..]; size], 0x80, &mut compare);
    }
    each_sequence(
        &[&BYTES, &BOUNDARY, &BOUNDARY, &BOUNDARY],
        0x80,
        &mut compare,
    );
    four_bytes(&mut compare);
    pairs_and_triples(&mut compare);
    random_names(Random::new(seed), &mut compare);
    tally.print()
}

fn compare(tally: &mut Tally, name: &[u8]) {
    let rust = core::str::from_utf8(name).is_ok();
    let model = questions::utf8(name);
    let answer = rattle::utf8(name);
    let same = rust == model && answer == u32::from(rust);
    tally.count(rust.into(), same, || {
        format!(
            "{}: Rust {rust}, RFC 3629 {model}, Rattle {answer}",
            hex(name)
        )
    });
}

/// Every number of 21 bits in four bytes, also those that are too large or need fewer.
fn four_bytes(visit: &mut impl FnMut(&[u8])) {
    for number in 0..1u32 << 21 {
        let tail = |shift: u32| 0x80 | (number >> shift) as u8 & 0x3f;
        visit(&[0xf0 | (number >> 18) as u8, tail(12), tail(6), tail(0)]);
    }
}

/// Characters, whole or broken, next to each other.
fn pairs_and_triples(visit: &mut impl FnMut(&[u8])) {
    let pieces = names::pieces();
    for first in &pieces {
        for second in &pieces {
            visit(&[*first, *second].concat());
            for third in &pieces {
                visit(&[*first, *second, *third].concat());
            }
        }
    }
}

/// Longer texts of whole characters, one of them sometimes broken, sometimes cut at the end.
fn random_names(mut random: Random, visit: &mut impl FnMut(&[u8])) {
    for _ in 0..RANDOM_NAMES {
        let mut name = Vec::new();
        for _ in 0..random.below(20) {
            name.extend_from_slice(random.pick(&names::WHOLE));
        }
        match random.below(4) {
            0 => name.extend_from_slice(random.pick(&names::BROKEN)),
            1 if !name.is_empty() => {
                let at = random.below(name.len());
                name[at] = random.byte();
            }
            2 if !name.is_empty() => name.truncate(random.below(name.len())),
            _ => {}
        }
        visit(&name);
    }
}
