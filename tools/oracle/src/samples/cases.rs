//! Stored samples of the Rust's answers, one case a line, for a replay without Rust.

use crate::compare::rust_card;
use crate::data;
use crate::generate::cards::{KEY, Parts};
use crate::generate::inputs::{Random, each_sequence};
use crate::generate::names;
use crate::hex::hex;
use crate::model::questions;
use crate::samples::row_cases;
use std::collections::BTreeSet;
use std::path::Path;

/// Fixed: the same samples every time.
const SEED: u64 = 1;

pub fn write(folder: &Path) -> Result<(), Box<dyn std::error::Error>> {
    std::fs::create_dir_all(folder)?;
    let files = [
        ("leb128.txt", leb128_lines()),
        (
            "utf8.txt",
            utf8_inputs().iter().map(|name| utf8_line(name)).collect(),
        ),
        (
            "card.txt",
            card_inputs().iter().map(|row| card_line(row)).collect(),
        ),
        ("rows.txt", row_cases::lines()),
    ];
    for (file, lines) in files {
        let lines = without_repeats(lines);
        std::fs::write(folder.join(file), lines.concat())?;
        println!("{file}: {} cases", lines.len());
    }
    Ok(())
}

fn without_repeats(mut lines: Vec<String>) -> Vec<String> {
    let mut seen = BTreeSet::new();
    lines.retain(|line| seen.insert(line.clone()));
    lines
}

/// The number is 01's, since the Rust says only that it refuses.
fn read_line(input: &[u8]) -> String {
    let model = questions::read_leb128(input);
    let rust = data::read_leb128(input);
    assert_eq!(rust, model.ok(), "the Rust and 01 differ");
    let input = hex(input);
    match model {
        Ok((value, taken)) => format!("L {input} {value} {taken}\n"),
        Err(number) => format!("L {input} - {number}\n"),
    }
}

fn write_line(value: u32) -> String {
    let mut output = Vec::new();
    data::leb128(value, &mut output);
    format!("W {value} {}\n", hex(&output))
}

fn utf8_line(name: &[u8]) -> String {
    let answer = u32::from(core::str::from_utf8(name).is_ok());
    format!("N {} {answer}\n", hex(name))
}

fn card_line(row: &[u8]) -> String {
    let number = match rust_card(row) {
        Ok(again) => {
            assert_eq!(
                again, row,
                "an accepted card is written back as it was read"
            );
            0
        }
        Err(number) => number,
    };
    format!("C {} {number}\n", hex(row))
}

/// Every limit of the values: of each length, of 32 bits, and DWARF 5's examples.
const VALUES: [u32; 26] = [
    0, 1, 2, 126, 127, 128, 129, 255, 256, 12857, 16382, 16383, 16384, 16385, 65535, 65536,
    2097151, 2097152, 2097153, 268435455, 268435456, 268435457, 2147483647, 2147483648, 4294967294,
    4294967295,
];

fn leb128_lines() -> Vec<String> {
    let mut lines = vec![read_line(&[])];
    let mut read = |input: &[u8]| lines.push(read_line(input));
    let alone = [
        0x00, 0x01, 0x0f, 0x10, 0x7e, 0x7f, 0x80, 0x81, 0x8f, 0x90, 0xfe, 0xff,
    ];
    each_sequence(&[&alone], 0, &mut read);
    let few = [0x00, 0x01, 0x7f, 0x80, 0xff];
    each_sequence(&[&few, &few], 0, &mut read);
    // Bytes that go on, then one that may be the last, and in the end one that is not read.
    for before in [0x80, 0x81, 0xff] {
        for size in 1..=5 {
            for last in [0x00, 0x01, 0x0f, 0x10, 0x7f, 0x80, 0xff] {
                let mut input = vec![before; size];
                input.push(last);
                read(&input);
            }
        }
    }
    for last in [0x00, 0x0f, 0x10, 0x8f] {
        read(&[0x80, 0x80, 0x80, 0x80, last, 0x00]);
        read(&[0xff, 0xff, 0xff, 0xff, last, 0xff, 0xff]);
    }
    for value in VALUES {
        read(&[&questions::leb128(value)[..], &[0x80]].concat());
    }
    lines.extend(VALUES.map(write_line));
    lines
}

fn utf8_inputs() -> Vec<Vec<u8>> {
    let mut inputs = vec![Vec::new()];
    inputs.extend(names::RFC_3629.map(<[u8]>::to_vec));
    inputs.extend(names::pieces().iter().map(|piece| piece.to_vec()));
    for script in names::SCRIPTS {
        inputs.push(script.into());
        inputs.push(names::of_size(script, 48));
    }
    for first in [
        0xc0, 0xc1, 0xc2, 0xdf, 0xe0, 0xe1, 0xec, 0xed, 0xee, 0xef, 0xf0, 0xf1, 0xf3, 0xf4, 0xf5,
    ] {
        // A right number of tails, so that the second byte decides.
        let tails = [1, 1, 2, 3][usize::from(first >> 4) - 0xc];
        for second in [0x7f, 0x80, 0x8f, 0x90, 0x9f, 0xa0, 0xbf, 0xc0] {
            let mut name = vec![first, second];
            name.resize(1 + tails, 0x80);
            inputs.push(name);
        }
    }
    for (first, second) in neighbours() {
        inputs.push([first, second].concat());
    }
    inputs
}

/// Two characters, whole or broken: each next to one before it and one after it.
fn neighbours() -> Vec<(&'static [u8], &'static [u8])> {
    let pieces = names::pieces();
    let mut pairs = Vec::new();
    for (index, piece) in pieces.iter().enumerate() {
        pairs.push((names::WHOLE[index % names::WHOLE.len()], *piece));
        pairs.push((*piece, names::WHOLE[(index + 5) % names::WHOLE.len()]));
    }
    pairs
}

fn card_inputs() -> Vec<Vec<u8>> {
    let mut random = Random::new(SEED);
    let mut rows = fitting_cards(&mut random);
    rows.extend(cut_cards(&mut random));
    rows.extend(named_cards(&mut random));
    rows.extend(reserved_cards(&mut random));
    rows.extend(unfit_cards(&mut random));
    rows.extend(keyed_cards(&mut random));
    rows
}

/// Name lengths, and names of every script.
fn fitting_cards(random: &mut Random) -> Vec<Vec<u8>> {
    let mut rows = Vec::new();
    for size in [0, 1, 2, 47, 48] {
        for caps in [0, 1] {
            rows.push(Parts::fitting(caps, &vec![b'x'; size]).row(random));
        }
    }
    for (index, script) in names::SCRIPTS.iter().enumerate() {
        let name = names::of_size(script, 48 - index);
        rows.push(Parts::fitting(index as u8 % 2, &name).row(random));
    }
    rows
}

/// One card cut around the end of each field, and longer by one and two.
fn cut_cards(random: &mut Random) -> Vec<Vec<u8>> {
    let whole = Parts::fitting(1, b"name").row(random);
    let mut rows: Vec<Vec<u8>> = [0, 1, 2, 4, 5, 6, 20, 36, 37, 38, 39, 41, 42]
        .iter()
        .map(|size| whole[..*size].to_vec())
        .collect();
    rows.push([&whole[..], &[0x00]].concat());
    rows.push([&whole[..], &[0xff, 0x00]].concat());
    rows
}

/// Each character, whole or broken, as a name; some at the end of the longest name or across its end.
fn named_cards(random: &mut Random) -> Vec<Vec<u8>> {
    let mut rows = Vec::new();
    for piece in names::pieces() {
        rows.push(Parts::fitting(0, piece).row(random));
    }
    for piece in &names::WHOLE[2..8] {
        let mut name = vec![b'x'; 48 - piece.len()];
        name.extend_from_slice(piece);
        rows.push(Parts::fitting(0, &name).row(random));
        rows.push(Parts::fitting(0, &name).name_length(47).row(random));
    }
    rows
}

/// Reserved caps, with as little as nothing behind them and with more faults.
fn reserved_cards(random: &mut Random) -> Vec<Vec<u8>> {
    let mut rows = Vec::new();
    for caps in [0x04, 0x08, 0x10, 0x20, 0x40, 0x80, 0x07, 0xfc, 0xff] {
        rows.push(vec![caps]);
        rows.push(Parts::fitting(caps, b"name").key_size(0).row(random));
    }
    rows.push(Parts::fitting(4, b"").name_length(49).row(random));
    rows
}

/// Name lengths that are too large, or not those of the name.
fn unfit_cards(random: &mut Random) -> Vec<Vec<u8>> {
    let (letters, broken) = ([b'x'; 255], [0xff; 48]);
    let mut parts = Vec::new();
    for size in [49, 50, 64, 127, 128, 255] {
        parts.push(Parts::fitting(0, &letters[..size]));
        parts.push(Parts::fitting(1, b"").name_length(size as u8));
        parts.push(Parts::fitting(1, &broken[..1]).name_length(size as u8));
    }
    for size in [1, 2, 48] {
        // One byte short: a name that is not there is not asked whether it is UTF-8.
        parts.push(Parts::fitting(0, &broken[..size - 1]).name_length(size as u8));
    }
    for size in [0, 3] {
        parts.push(Parts::fitting(0, b"name").name_length(size));
    }
    parts.push(Parts::fitting(0, &broken[..1]).key_size(1));
    parts.iter().map(|parts| parts.row(random)).collect()
}

/// The static key: there, one byte short or long, missing, or not announced. Few: these rows are long.
fn keyed_cards(random: &mut Random) -> Vec<Vec<u8>> {
    let longest = names::of_size(names::SCRIPTS[2], 48);
    let good = |caps| Parts::fitting(caps, b"name");
    let broken = Parts::fitting(2, &[0xc0, 0x80]);
    let parts = [
        Parts::fitting(2, b""),
        Parts::fitting(3, &longest),
        good(2).key_size(KEY - 1),
        good(3).key_size(KEY + 1),
        good(0).key_size(KEY),
        good(2).key_size(0),
        good(3).key_size(0),
        good(2).key_size(1),
        broken,
        broken.key_size(0),
        Parts::fitting(3, b"").key_size(0),
    ];
    parts.iter().map(|parts| parts.row(random)).collect()
}
