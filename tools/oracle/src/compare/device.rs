//! Device rows.

use super::rows::{Compare, changed};
use crate::generate::inputs::{BYTES, Random};
use crate::generate::row_build;
use crate::model::rows::Device;

const GENERATED: usize = 200_000;

pub fn run(seed: u64, times: usize) -> bool {
    let mut random = Random::new(seed);
    let mut compare = Compare::<Device>::new(&mut random);
    for _ in 0..4 {
        let row = row_build::device(&mut random).row();
        compare.around(&row);
        compare.damaged(&row, row.len());
    }
    settings(&mut random, &mut compare);
    for _ in 0..GENERATED * times {
        let mut row = row_build::device(&mut random).row();
        changed(&mut random, &mut row);
        compare.visit(&row);
    }
    compare.finish()
}

/// Copies and lifetimes on both sides of their limits, in rows that are whole, one byte short and one too long.
fn settings(random: &mut Random, compare: &mut Compare<Device>) {
    let lifetimes = [0, 1, 59, 60, 61, 1440, 10_079, 10_080, 10_081, 65_535];
    for copies in BYTES {
        for lifetime_min in lifetimes {
            let mut row = Device {
                copies,
                lifetime_min,
                ..row_build::device(random)
            }
            .row();
            compare.visit(&row);
            compare.visit(&row[..48]);
            row.push(copies);
            compare.visit(&row);
            // The second flag comes first.
            row[45] = 2;
            compare.visit(&row);
        }
    }
}
