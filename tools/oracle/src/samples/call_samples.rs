//! A list of calls for samples/ with its transcript, from a text in which stores and rows go by names.

use crate::generate::inputs::Random;
use crate::generate::script_pairs;
use crate::hex::hex;
use crate::model::runner::Runner;
use crate::model::script::{Step, Steps};
use crate::model::sheet::Line;
use crate::samples::sheet_samples::{self, chained};
use std::path::Path;

const TEXT: &str = include_str!("calls.txt");

/// Fixed: the same other veiled bytes every time.
const SEED: u64 = 9;

fn store(name: &str) -> Vec<Line> {
    match name {
        "port" => sheet_samples::port(),
        "last-numbers" => sheet_samples::last_numbers(),
        "two-contacts" => sheet_samples::two(),
        "expired" => sheet_samples::expired_ranges(),
        "expired-acked" => sheet_samples::expired_acked(),
        "port-veiled" => {
            let port = [Step::Restore(sheet_samples::port())];
            let twin = script_pairs::twin(&mut Random::new(SEED), &port, 0);
            let [Step::Restore(lines)] = twin.as_slice() else {
                panic!("a restore stays one");
            };
            lines.clone()
        }
        "port-unacked" => {
            let mut lines = sheet_samples::port();
            lines[2].msgno = 3;
            lines
        }
        "port-8-chains" => with_chains(8),
        "port-9-chains" => with_chains(9),
        // The contact's row is asked before the queued one, and there 3 is a no.
        "port-9-chains-queued-4" => {
            let mut lines = with_chains(9);
            lines[2].version = 4;
            lines
        }
        // The device's row is asked before the contact's, and there 16 is a no.
        "port-9-chains-device-longer" => {
            let mut lines = with_chains(9);
            lines[0].blob.push(0);
            lines
        }
        _ => panic!("no store of the name {name}"),
    }
}

/// The port's store with so many chains, the last one current.
fn with_chains(count: usize) -> Vec<Line> {
    let mut lines = sheet_samples::port();
    lines[1].blob = chained(count, 1).row();
    lines
}

/// Rows of eight and nine chains; the longer names first.
fn chained_rows() -> [(&'static str, Vec<u8>); 7] {
    let nine = chained(9, 1).row();
    // Behind the first chain's key, 42 bytes from the count of chains, stands its flag.
    let port = chained(0, 0).row();
    let flag = port.len() - (2 + 16 + 2 + 8 + 2 + 4 + 2 + 8) + 42;
    let mut flagged = nine.clone();
    flagged[flag] = 2;
    [
        ("@chains-9-current", chained(9, 2).row()),
        // Within the last unacked number.
        ("@chains-9-cut", nine[..nine.len() - 11].to_vec()),
        ("@chains-9-longer", [&nine[..], &[0]].concat()),
        ("@chains-9-flag", flagged),
        ("@chains-9", nine),
        ("@chains-8-current", chained(8, 2).row()),
        ("@chains-8", chained(8, 1).row()),
    ]
}

/// The step of a line of the text: `restore NAME`, or with `@NAME` for a row of the port's store or one of `chained_rows`.
fn step(line: &str) -> Step {
    if let Some(name) = line.strip_prefix("restore ") {
        return Step::Restore(store(name));
    }
    let mut line = line.to_string();
    for (name, row) in chained_rows() {
        line = line.replace(name, &hex(&row));
    }
    for (at, name) in ["@device", "@contact", "@queued", "@tombstone"]
        .iter()
        .enumerate()
    {
        line = line.replace(name, &hex(&sheet_samples::port()[at].blob));
    }
    let step = Steps::of(&line).next();
    step.and_then(Result::ok)
        .unwrap_or_else(|| panic!("no step: {line}"))
}

/// calls.script and calls.transcript.
pub fn write(folder: &Path) -> std::io::Result<()> {
    let mut runner = Runner::new();
    let (mut script, mut transcript) = (String::new(), String::new());
    for line in TEXT.lines() {
        if line.is_empty() || line.starts_with('#') {
            script += &format!("{line}\n");
            transcript += &format!("{line}\n");
            continue;
        }
        let step = step(line);
        script += &format!("{step}\n");
        transcript += &format!("{step}\n");
        if let Some(answer) = runner.step(&step) {
            transcript += &format!("{answer}\n");
        }
    }
    println!("calls.script: {} bytes", script.len());
    std::fs::write(folder.join("calls.script"), script)?;
    std::fs::write(folder.join("calls.transcript"), transcript)
}
