//! LEB128: `data::read_leb128` and `data::leb128`.

use crate::compare::tally::Tally;
use crate::data;
use crate::generate::inputs::{BYTES, Random, each_sequence};
use crate::hex::hex;
use crate::model::questions;
use crate::rattle::{self, WriteAnswer};

/// Bytes on both sides of every limit that a byte of LEB128 has.
const BOUNDARY: [u8; 12] = [
    0x00, 0x01, 0x0f, 0x10, 0x7e, 0x7f, 0x80, 0x81, 0x8f, 0x90, 0xfe, 0xff,
];
/// What stands in an answer before the call.
const UNTOUCHED: [u64; 2] = [0xa5a5_a5a5_a5a5_a5a5, 0x5a5a_5a5a_5a5a_5a5a];
const FILL: u8 = 0xa5;
const RANDOM_VALUES: usize = 4_000_000;

pub fn run(seed: u64) -> bool {
    let mut reader = Tally::new("leb128", "inputs");
    let mut read = |input: &[u8]| compare_read(&mut reader, input);
    for size in 0..=3 {
        each_sequence(&vec![&BYTES[..]; size], 0x01, &mut read);
    }
    for size in 4..=6 {
        each_sequence(&vec![&BOUNDARY[..]; size], 0x01, &mut read);
    }
    let mut writer = Tally::new("leb128 writer", "values");
    for value in boundary_values() {
        for size in 0..=7 {
            compare_write(&mut writer, value, size);
        }
    }
    let mut random = Random::new(seed);
    for _ in 0..RANDOM_VALUES {
        // The shift makes short encodings as frequent as long ones.
        let value = random.next() as u32 >> random.below(32);
        compare_write(&mut writer, value, random.below(8));
    }
    reader.print() & writer.print()
}

/// 01 gives the number of a refusal, the Rust whether there is one, and the value.
fn compare_read(tally: &mut Tally, input: &[u8]) {
    let rust = data::read_leb128(input);
    let model = questions::read_leb128(input);
    let mut answer = UNTOUCHED;
    let number = rattle::read_leb128(input, &mut answer);
    let due = match model {
        Ok((value, taken)) => (0, [value.into(), taken as u64]),
        Err(number) => (number, UNTOUCHED),
    };
    let same = rust == model.ok() && (number, answer) == due;
    tally.count(due.0, same, || {
        let input = hex(input);
        format!("{input}: Rust {rust:?}, 01 {model:?}, Rattle {number} {answer:x?}")
    });
}

/// Writes `value` into `size` bytes; what is written must read back.
fn compare_write(tally: &mut Tally, value: u32, size: usize) {
    let mut rust = Vec::new();
    data::leb128(value, &mut rust);
    let mut out = [FILL; 8];
    let written = rattle::leb128(value, &mut out[..size]);
    // No byte past the encoding is written, and none at all where it is too long.
    let mut due = [FILL; 8];
    let fits = rust.len() <= size;
    if fits {
        due[..rust.len()].copy_from_slice(&rust);
    }
    let due_answer = if fits {
        WriteAnswer {
            length: rust.len(),
            number: 0,
        }
    } else {
        WriteAnswer {
            length: 0,
            number: questions::OUTPUT,
        }
    };
    let mut answer = UNTOUCHED;
    let number = rattle::read_leb128(&rust, &mut answer);
    let same = (written, out) == (due_answer, due)
        && rust == questions::leb128(value)
        && data::read_leb128(&rust) == Some((value, rust.len()))
        && (number, answer) == (0, [value.into(), rust.len() as u64]);
    tally.count(due_answer.number, same, || {
        let (rust, out) = (hex(&rust), hex(&out));
        format!("{value} into {size}: Rust {rust}, Rattle {written:?} {out}, read back {number} {answer:x?}")
    });
}

/// Each power of two and its neighbours: the limits of every length among them.
fn boundary_values() -> Vec<u32> {
    let mut values = vec![0, 12857, u32::MAX - 1, u32::MAX];
    for shift in 0..32 {
        let power = 1u32 << shift;
        values.extend([power - 1, power, power + 1]);
    }
    values.sort_unstable();
    values.dedup();
    values
}
