//! How long the check of a name takes, the Rattle's C function and `core::str::from_utf8` on the same names in the same program.

use crate::rattle;
use crate::speed::clock::{ROWS, more, ratio};
use std::hint::black_box;

/// The longest name has so many bytes; each of the others two less than the one before.
const LONGEST: usize = 48;
const SCRIPTS: [(&str, &str); 4] = [
    ("ASCII", "Ada Lovelace, harbour agent at Rotterdam; "),
    ("Arabic", "فاطمة الفهرية وكيلة ميناء طنجة، "),
    ("Chinese", "上海港务局第三号泊位调度员王小明"),
    ("emoji", "🚢🌊😀🦀🐳🌍🧭🛟"),
];

pub fn run() {
    println!("| Names | Bytes | Rattle | Rust | Ratio |");
    println!("|---|---|---|---|---|");
    for (script, text) in SCRIPTS {
        let names: Vec<Vec<u8>> = (0..ROWS)
            .map(|index| name(text, index, LONGEST - 2 * index))
            .collect();
        line(script, &names);
    }
}

/// As many characters as go into so many bytes, over and over from the one at an index.
fn name(text: &str, from: usize, bytes: usize) -> Vec<u8> {
    let mut name = String::new();
    for character in text.chars().cycle().skip(from) {
        if name.len() + character.len_utf8() > bytes {
            break;
        }
        name.push(character);
    }
    name.into_bytes()
}

/// One line of the table: nanoseconds for each name, and how many times the Rattle's the Rust's are.
fn line(script: &str, names: &[Vec<u8>]) {
    let bytes = names.iter().map(Vec::len).sum::<usize>() / names.len();
    let rattle = each(names, |name| rattle::utf8(name) == 1);
    let rust = each(names, |name| core::str::from_utf8(name).is_ok());
    let times = ratio(rattle, rust);
    println!("| {script} | {bytes} | {rattle:.1} | {rust:.1} | {times} |");
}

fn each(names: &[Vec<u8>], check: impl Fn(&[u8]) -> bool) -> f64 {
    assert!(names.iter().all(|name| check(name)), "valid names");
    more(
        || (),
        || {
            for name in names {
                black_box(check(black_box(name)));
            }
        },
    )
}
