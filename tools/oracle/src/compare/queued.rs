//! Queued rows.

use super::rows::{Compare, changed};
use crate::generate::inputs::{Random, each_sequence};
use crate::generate::row_build;
use crate::model::rows::{BUCKETS, Queued, SEAL};

const GENERATED: usize = 100_000;
/// The fields before the sealed text take at most so many bytes.
const FRONT: usize = 8 + 39 + 1 + 5;
/// Bytes on both sides of the limits of LEB128's bytes.
const LEB128: [u8; 7] = [0x00, 0x01, 0x0f, 0x10, 0x7f, 0x80, 0xff];

pub fn run(seed: u64, times: usize) -> bool {
    let mut random = Random::new(seed);
    let mut compare = Compare::<Queued>::new(&mut random);
    for own in [false, true] {
        for bucket in 0..BUCKETS.len() {
            let row = row_build::queued(&mut random, own, bucket).row();
            compare.around(&row);
            if bucket < 3 {
                compare.damaged(&row, FRONT);
            }
        }
        sealed_lengths(&mut random, own, &mut compare);
        indices(&mut random, own, &mut compare);
    }
    for _ in 0..GENERATED * times {
        let (own, bucket) = (random.flag(), random.below(3));
        let mut row = row_build::queued(&mut random, own, bucket).row();
        changed(&mut random, &mut row);
        compare.visit(&row);
    }
    compare.finish()
}

/// Every length up to more than the largest allowed one.
fn sealed_lengths(random: &mut Random, own: bool, compare: &mut Compare<Queued>) {
    for size in 0..=BUCKETS[7] + SEAL + 40 {
        let queued = Queued {
            sealed: vec![random.byte(); size],
            ..row_build::queued(random, own, 0)
        };
        compare.visit(&queued.row());
    }
}

/// The idx in any bytes, minimal or not, and a sealed text of an allowed length behind it or nothing.
fn indices(random: &mut Random, own: bool, compare: &mut Compare<Queued>) {
    let whole = row_build::queued(random, own, 0);
    let row = Queued { idx: 0, ..whole }.row();
    let at = row.len() - (BUCKETS[0] + SEAL) - 1;
    for size in 0..=6 {
        let choices: &[u8] = if size <= 4 { &LEB128 } else { &LEB128[2..] };
        each_sequence(&vec![choices; size], 0x01, &mut |leb128: &[u8]| {
            let front = [&row[..at], leb128].concat();
            compare.visit(&front);
            compare.visit(&[&front, &row[at + 1..]].concat());
        });
    }
}
