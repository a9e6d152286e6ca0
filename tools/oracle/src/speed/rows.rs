//! How long checking a row, and reading and writing it, takes, the Rattle and the Rust on the same rows in the same
//! program.
//!
//! Check, Rattle: of a contact row, the C function that only checks; of another, the one that reads and writes with an
//! output of no length, which reads the row into its struct, asks all its questions and answers 40.
//! Read, Rust: `Device::restore` of a store with the rows, less that of the store without them; it has no check apart.
//! Read and write, Rattle: the C function with room for the row. Read and write, Rust: the time of reading, and of `row`.

use crate::compare::sides;
use crate::generate::inputs::Random;
use crate::generate::row_build::{self, LARGE, MIDDLE, SMALL};
use crate::rattle;
use crate::speed::clock::{ROWS, more, ratio};
use crate::speed::timed::Timed;
use std::hint::black_box;

pub fn run() {
    let mut random = Random::new(1);
    let store = || sides::store(&mut Random::new(2));
    println!(
        "| Row | Bytes | Check, Rattle | Read, Rust | Ratio | Read and write, Rattle | Read and write, Rust | Ratio |"
    );
    println!("|---|---|---|---|---|---|---|---|");
    let device = several(|| row_build::device(&mut random).row());
    let check: Check = |version, row| rattle::device(version, row, &mut []);
    let rust = Timed::devices(&device);
    line("device", &device, rust, check, rattle::device);
    let check: Check = |version, row| rattle::queued(version, row, &mut []);
    for (name, own, bucket) in [
        ("queued, 48 sealed", false, 0),
        ("queued, own envelope, 528 sealed", true, 4),
        ("queued, own envelope, 4,064 sealed", true, 7),
    ] {
        let queued = several(|| row_build::queued(&mut random, own, bucket).row());
        let rust = Timed::queued(store(), &queued);
        line(name, &queued, rust, check, rattle::queued);
    }
    let check: Check = |version, row| rattle::courier(version, row, &mut []);
    let tombstone = several(|| row_build::tombstone(&mut random).row());
    let rust = Timed::courier(store(), &tombstone);
    line("tombstone", &tombstone, rust, check, rattle::courier);
    for (name, bucket) in [("carried, 528 sealed", 4), ("carried, 2,064 sealed", 6)] {
        let carried = several(|| row_build::carried(&mut random, bucket).row());
        let rust = Timed::courier(store(), &carried);
        line(name, &carried, rust, check, rattle::courier);
    }
    for (name, size, rising) in [
        ("contact, small", SMALL, true),
        ("contact, middle", MIDDLE, true),
        ("contact, large", LARGE, true),
        ("contact, large, keys in no order", LARGE, false),
    ] {
        let contacts = several(|| {
            let mut contact = row_build::contact(&mut random, size);
            if rising {
                contact.skipped.sort_by_key(|key| (key.gen_, key.idx));
            }
            contact.row()
        });
        let rust = Timed::contacts(store(), &contacts);
        let check = rattle::check_contact;
        line(name, &contacts, rust, check, rattle::contact);
    }
}

/// Rows of one kind.
fn several(row: impl FnMut() -> Vec<u8>) -> Vec<Vec<u8>> {
    std::iter::repeat_with(row).take(ROWS).collect()
}

type Check = fn(u32, &[u8]) -> u32;
type Again = fn(u32, &[u8], &mut [u8]) -> u32;

/// One line of the table: nanoseconds for each row, and how many times the Rattle's the Rust's are.
fn line(name: &str, rows: &[Vec<u8>], rust: Timed, check: Check, again: Again) {
    let bytes = rows.iter().map(Vec::len).sum::<usize>() / rows.len();
    let mut out = vec![0; rows.iter().map(Vec::len).max().unwrap_or(0)];
    let checked = more(
        || (),
        || {
            for row in rows {
                black_box(check(3, black_box(row)));
            }
        },
    );
    let both = more(
        || (),
        || {
            for row in rows {
                black_box(again(3, black_box(row), &mut out));
            }
        },
    );
    let rust_read = more(
        || drop(black_box(rust.restore_without())),
        || drop(black_box(rust.restore())),
    );
    let rust_both = rust_read + more(|| (), || rust.write());
    let (first, second) = (ratio(checked, rust_read), ratio(both, rust_both));
    println!(
        "| {name} | {bytes} | {checked:.0} | {rust_read:.0} | {first} | {both:.0} | {rust_both:.0} | {second} |"
    );
}
