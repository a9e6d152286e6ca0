//! Rows for the samples: valid ones, and what stands at each edge of each question.

use crate::compare::sides::{self, Row};
use crate::generate::inputs::Random;
use crate::generate::row_build;
use crate::hex::hex;
use crate::model::questions;
use crate::model::rows::{BUCKETS, Contact, Courier, Device, Queued, SEAL};
use crate::original::rows::Store;
use crate::samples::contact_cases::contacts;
use crate::samples::row_changes::{Rows, cut, longer, set, versions};

/// Fixed: the same samples every time.
const SEED: u64 = 3;

/// One line for each: the letter, the version, the row, and 0 or the number.
pub fn lines() -> Vec<String> {
    let mut random = Random::new(SEED);
    let store = sides::store(&mut random);
    let mut lines = Vec::new();
    for (version, row) in devices(&mut random) {
        lines.push(line::<Device>(&store, 'D', version, &row));
    }
    for (version, row) in queued(&mut random) {
        lines.push(line::<Queued>(&store, 'Q', version, &row));
    }
    for (version, row) in courier(&mut random) {
        lines.push(line::<Courier>(&store, 'K', version, &row));
    }
    for (version, row) in contacts(&mut random) {
        lines.push(line::<Contact>(&store, 'P', version, &row));
    }
    lines
}

/// The number is 01's or 02's; whether the row is accepted, and how it is written, the Rust says too, but for refusals to which it is not held.
fn line<T: Row>(store: &Store, letter: char, version: u32, row: &[u8]) -> String {
    let answer = T::model(version, row).answer;
    let rust = T::rust(store, version, row);
    let number = answer.err().unwrap_or(0);
    if !questions::NOT_IN_RUST.contains(&number) {
        assert_eq!(rust.is_some(), number == 0, "the Rust and 01 differ");
    }
    if let Some((_, again)) = rust {
        assert_eq!(again, row, "an accepted row is written back as it was read");
    }
    format!("{letter} {version} {} {number}\n", hex(row))
}

fn devices(random: &mut Random) -> Rows {
    let row = row_build::device(random).row();
    let mut rows = versions(&row);
    for (copies, lifetime_min, flags) in [(1, 60, 0), (16, 10_080, 1), (6, 1440, 2), (2, 61, 3)] {
        let device = Device {
            read_receipts: flags & 1 == 1,
            enabled: flags & 2 == 2,
            copies,
            lifetime_min,
            ..row_build::device(random)
        };
        rows.push((3, device.row()));
    }
    rows.extend(cut(&row, 0..row.len()));
    rows.extend([longer(&row, &[0]), longer(&row, &[0xff, 0])]);
    for byte in [2, 3, 0x80, 0xff] {
        rows.extend([set(&row, 44, &[byte]), set(&row, 45, &[byte])]);
        // The flag comes before what is missing behind it.
        rows.extend(cut(&set(&row, 44, &[byte]).1, [44, 45]));
    }
    for copies in [0, 1, 16, 17, 255] {
        for lifetime in [0, 59, 60, 10_080, 10_081, 65_535u16] {
            let [high, low] = lifetime.to_be_bytes();
            rows.push(set(&row, 46, &[copies, high, low]));
        }
    }
    let unfit = set(&row, 46, &[0, 0, 0]).1;
    rows.extend(cut(&unfit, [47, 48]));
    rows.push(longer(&unfit, &[0]));
    rows
}

fn queued(random: &mut Random) -> Rows {
    let plain = row_build::queued(random, false, 0);
    let own = row_build::queued(random, true, 0).row();
    let mut rows = versions(&plain.row());
    for bucket in [0, 1, 2] {
        rows.push((3, row_build::queued(random, false, bucket).row()));
        rows.push((3, row_build::queued(random, true, bucket).row()));
    }
    rows.push((3, row_build::queued(random, false, 7).row()));
    rows.extend(cut(&plain.row(), 0..12));
    rows.extend(cut(
        &own,
        [9, 24, 25, 26, 40, 41, 42, 44, 45, 46, 47, 48, 49, 53],
    ));
    for byte in [2, 0x80, 0xff] {
        rows.extend([set(&own, 8, &[byte]), set(&own, 46, &[byte])]);
        rows.extend(cut(&set(&own, 46, &[byte]).1, [46, 47]));
    }
    // Own envelopes are not asked for expiry or copies.
    rows.push(set(&own, 41, &[0, 0, 0, 0, 0]));
    for size in [0, 1, 15, 16, 17, 47, 48, 49, 79, 80, 81, 143, 144, 145] {
        let sealed = random.bytes(size);
        let queued = Queued {
            sealed,
            ..plain.clone()
        };
        rows.push((3, queued.row()));
    }
    rows.extend(indices(&plain));
    rows
}

/// The idx in bytes of any kind, with a sealed text behind it and without.
fn indices(plain: &Queued) -> Rows {
    let row = Queued {
        idx: 0,
        ..plain.clone()
    }
    .row();
    let mut rows = Vec::new();
    let written = [0, 127, 128, 16_383, 16_384, u32::MAX].map(questions::leb128);
    let others: [&[u8]; 8] = [
        &[0x80],
        &[0x80, 0x00],
        &[0xff, 0x00],
        &[0x80, 0x80, 0x80, 0x80],
        &[0x80, 0x80, 0x80, 0x80, 0x00],
        &[0x80, 0x80, 0x80, 0x80, 0x80],
        &[0xff, 0xff, 0xff, 0xff, 0x10],
        &[0xff, 0xff, 0xff, 0xff, 0x8f],
    ];
    let others = others.map(<[u8]>::to_vec);
    for idx in written.iter().chain(&others) {
        let front = [&row[..10], &idx[..]].concat();
        rows.push(longer(&front, &row[11..]));
        rows.push((3, front));
    }
    rows
}

fn courier(random: &mut Random) -> Rows {
    let carried = row_build::carried(random, 0).row();
    let tombstone = row_build::tombstone(random).row();
    let mut rows = versions(&carried);
    rows.extend(versions(&tombstone));
    for bucket in [0, 1, 2, 6, 7] {
        rows.push((3, row_build::carried(random, bucket).row()));
    }
    rows.push((3, row_build::tombstone(random).row()));
    for byte in [2, 3, 0x80, 0xff] {
        rows.push(set(&carried, 0, &[byte]));
        rows.push((3, vec![byte]));
    }
    rows.extend(cut(
        &carried,
        [0, 1, 8, 9, 10, 24, 25, 40, 41, 44, 45, 46, 47],
    ));
    for (expiry, copies) in [(0, 1), (1, 0), (0, 0), (1, 1)] {
        let unfit = set(&carried, 41, &[0, 0, 0, expiry, copies]).1;
        rows.extend(cut(&unfit, [44, 45, 46, 62, unfit.len()]));
    }
    for size in [1, 15, 16, 17, 47, 48, 49, 80, 81] {
        rows.push(longer(&carried[..46], &random.bytes(size)));
    }
    rows.extend(cut(&tombstone, 0..tombstone.len()));
    rows.extend([longer(&tombstone, &[0]), longer(&tombstone, &[1, 2])]);
    // A tombstone is not asked for its expiry.
    rows.push(set(&tombstone, 33, &[0, 0, 0, 0]));
    assert_eq!(
        carried.len(),
        46 + BUCKETS[0] + SEAL,
        "where the fields stand"
    );
    rows
}
