//! How long it takes to cover one number more, the Rattle's C function and `Received::insert` on the same ranges in the same
//! program. The Rattle says how many numbers are new (02, A2), the Rust does not. Each call starts from a copy of the
//! ranges, whose time is taken off.

use crate::model::rows::Range;
use crate::rattle;
use crate::speed::clock::{ROWS, more, ratio};
use crate::state::Received;
use std::hint::black_box;

const COUNTS: [u32; 5] = [1, 16, 256, 4_000, 60_000];
const CONTIGUOUS: u32 = 1;
/// From the start of one range to that of the next. A new one goes between two and touches neither.
const STEP: u32 = 8;

pub fn run() {
    println!("| Ranges above | The new one | Rattle | Rust | Ratio |");
    println!("|---|---|---|---|---|");
    for count in COUNTS {
        let start = |index: u32| STEP * (index + 1);
        let above: Vec<Range> = (0..count).map(|at| (start(at), start(at) + 1)).collect();
        line(&above, "first", start(0) - STEP / 2);
        if count > 1 {
            line(&above, "in the middle", start(count / 2) - STEP / 2);
        }
        line(&above, "last", start(count) - STEP / 2);
    }
}

/// One line of the table: nanoseconds for a call, and how many times the Rattle's the Rust's are.
fn line(above: &[Range], place: &str, number: u32) {
    let flat: Vec<u32> = above.iter().flat_map(|(from, to)| [*from, *to]).collect();
    let mut list = vec![0; flat.len() + 2];
    let mut answer = [0; 4];
    let mut copy = || list[..flat.len()].copy_from_slice(black_box(&flat));
    let mut covered = vec![0; flat.len() + 2];
    let rattle = more(
        || (0..ROWS).for_each(|_| copy()),
        || {
            for _ in 0..ROWS {
                covered[..flat.len()].copy_from_slice(black_box(&flat));
                let range = (number, number);
                let left =
                    rattle::insert(CONTIGUOUS, &mut covered, above.len(), range, &mut answer);
                assert_eq!(black_box(left), 0, "there is room");
            }
        },
    );
    let record = Received {
        contiguous: CONTIGUOUS,
        above: above.to_vec(),
    };
    let rust = more(
        || (0..ROWS).for_each(|_| drop(black_box(record.clone()))),
        || {
            for _ in 0..ROWS {
                let mut record = black_box(record.clone());
                black_box(record.insert(number, number));
            }
        },
    );
    let (count, times) = (above.len(), ratio(rattle, rust));
    println!("| {count} | {place} | {rattle:.0} | {rust:.0} | {times} |");
}
