//! What is stored in the repository is what the oracle writes.

mod program;

use program::output;
use std::path::{Path, PathBuf};

/// `samples/`: the sheets with their statements, the script with its transcript, and nothing else.
#[test]
fn samples_of_the_programs() {
    let written = written("program-samples", &[]);
    let stored = root().join("samples");
    assert_eq!(names(&written), names(&stored));
    for name in names(&stored) {
        same(&written.join(&name), &stored.join(&name));
    }
}

/// What the gate has `replay` run, and what it is to print.
#[test]
fn cases_of_replay() {
    let script = root().join("samples/calls.script");
    let script = script.to_str().expect("a path of letters");
    let written = written("script-cases", &[script]);
    let stored = root().join("crates/replay");
    for name in ["stdin", "stdout"] {
        same(&written.join(name), &stored.join(name));
    }
}

/// What `statement` is to print for what the gate has it run.
#[test]
fn case_of_statement() {
    let stored = root().join("crates/statement");
    let printed = output(&["statement-model"], &read(&stored.join("stdin")));
    equal(
        "crates/statement/stdout",
        &printed,
        &read(&stored.join("stdout")),
    );
}

/// In `crates/vectors/stdin`: LEB128, names, cards and rows.
#[test]
fn cases_of_samples() {
    same_cases(
        "samples",
        &["leb128.txt", "utf8.txt", "card.txt", "rows.txt"],
    );
}

/// In the same file: stores.
#[test]
fn cases_of_stores() {
    same_cases("store-cases", &["stores.txt", "stores-20.txt"]);
}

/// In the same file: sheets.
#[test]
fn cases_of_sheets() {
    same_cases("sheet-cases", &["sheets.txt"]);
}

/// Each file that the command writes is what stands behind its comment line, up to the next empty line or comment.
fn same_cases(command: &str, files: &[&str]) {
    let written = written(command, &[]);
    assert_eq!(names(&written).len(), files.len(), "files of {command}");
    let all = read(&root().join("crates/vectors/stdin"));
    let all = String::from_utf8(all).expect("the cases are text");
    for file in files {
        let head = format!("# {file} of tools/oracle {command}:");
        let mut lines = all.lines().skip_while(|line| !line.starts_with(&head));
        assert!(lines.next().is_some(), "no line begins with {head}");
        let cases = lines.take_while(|line| !line.is_empty() && !line.starts_with('#'));
        let cases: String = cases.map(|line| format!("{line}\n")).collect();
        equal(file, &read(&written.join(file)), cases.as_bytes());
    }
}

/// The root of the repository.
fn root() -> PathBuf {
    Path::new(env!("CARGO_MANIFEST_DIR")).join("../..")
}

/// A new folder with what this command writes.
fn written(command: &str, more: &[&str]) -> PathBuf {
    let folder = Path::new(env!("CARGO_TARGET_TMPDIR")).join(command);
    if folder.exists() {
        std::fs::remove_dir_all(&folder).expect("it is left from another run");
    }
    let name = folder.to_str().expect("a path of letters");
    output(&[&[command, name], more].concat(), b"");
    folder
}

fn names(folder: &Path) -> Vec<String> {
    let entries = std::fs::read_dir(folder).expect("the folder is there");
    let name = |entry: std::io::Result<std::fs::DirEntry>| {
        let name = entry.expect("it can be read").file_name();
        name.to_string_lossy().into_owned()
    };
    let mut names: Vec<String> = entries.map(name).collect();
    names.sort();
    names
}

fn read(file: &Path) -> Vec<u8> {
    std::fs::read(file).unwrap_or_else(|error| panic!("{}: {error}", file.display()))
}

fn same(written: &Path, stored: &Path) {
    let name = stored.display().to_string();
    equal(&name, &read(written), &read(stored));
}

/// Shows the first line that differs, not all.
fn equal(name: &str, written: &[u8], stored: &[u8]) {
    if written == stored {
        return;
    }
    let mut lines = [written, stored].map(|text| text.split(|byte| *byte == b'\n'));
    for number in 1.. {
        let [due, is] = lines
            .each_mut()
            .map(|lines| lines.next().map(String::from_utf8_lossy));
        assert_eq!(
            is, due,
            "line {number} of {name}, and what the oracle writes"
        );
    }
}
