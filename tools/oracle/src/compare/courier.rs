//! Courier rows: carried envelopes and tombstones.

use super::rows::{Compare, changed};
use crate::generate::inputs::Random;
use crate::generate::row_build;
use crate::model::rows::{BUCKETS, Courier, SEAL};

const GENERATED: usize = 100_000;
/// Where expiry and copies stand in a carried row, and where its sealed text starts.
const EXPIRY_AT: usize = 1 + 8 + 16 + 16;
const COPIES_AT: usize = EXPIRY_AT + 4;
const SEALED_AT: usize = COPIES_AT + 1;

pub fn run(seed: u64, times: usize) -> bool {
    let mut random = Random::new(seed);
    let mut compare = Compare::<Courier>::new(&mut random);
    for bucket in 0..BUCKETS.len() {
        let row = row_build::carried(&mut random, bucket).row();
        compare.around(&row);
        if bucket < 3 {
            compare.damaged(&row, SEALED_AT);
        }
        unfit(&row, &mut compare);
    }
    for _ in 0..4 {
        let row = row_build::tombstone(&mut random).row();
        compare.around(&row);
        compare.damaged(&row, row.len());
    }
    sealed_lengths(&mut random, &mut compare);
    for _ in 0..GENERATED * times {
        let mut row = generated(&mut random).row();
        changed(&mut random, &mut row);
        compare.visit(&row);
    }
    compare.finish()
}

fn generated(random: &mut Random) -> Courier {
    match random.below(4) {
        0 => row_build::tombstone(random),
        bucket => row_build::carried(random, bucket - 1),
    }
}

/// Expiry 0, copies 0 and both, in rows cut everywhere behind the expiry; and depositors that no store takes.
fn unfit(row: &[u8], compare: &mut Compare<Courier>) {
    for (expiry, copies) in [(0, 1), (1, 0), (0, 0), (1, 1)] {
        let mut row = row.to_vec();
        row[EXPIRY_AT..COPIES_AT].copy_from_slice(&[0, 0, 0, expiry]);
        row[COPIES_AT] = copies;
        for size in EXPIRY_AT..=row.len() {
            compare.visit(&row[..size]);
        }
    }
    let mut row = row.to_vec();
    row[1..9].fill(0xff);
    compare.visit(&row);
    row[8] = 0xfe;
    compare.visit(&row);
}

/// Every length up to more than the largest of a queued row.
fn sealed_lengths(random: &mut Random, compare: &mut Compare<Courier>) {
    let front = row_build::carried(random, 0).row();
    for size in 0..=BUCKETS[7] + SEAL + 40 {
        let mut row = front[..SEALED_AT].to_vec();
        row.resize(SEALED_AT + size, random.byte());
        compare.visit(&row);
    }
}
