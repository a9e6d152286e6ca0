//! Finds the unchanged Rust files in the folder that `CAIRN_ORIGINALS` names, and declares them as modules for src/main.rs to
//! include. With the feature `rattle`, has the Rattle's static libraries of target/staticlib linked in.

use std::fmt::Write;
use std::path::{Path, PathBuf};
use std::process::ExitCode;

/// The variable that must be set.
const FOLDER: &str = "CAIRN_ORIGINALS";
const ORIGINALS: [&str; 8] = [
    "card", "chain", "courier", "data", "epoch", "kdf", "state", "transfer",
];
const LIBRARIES: [&str; 5] = ["c_card", "c_rows", "c_contact", "c_veil", "c_restore"];

fn main() -> ExitCode {
    match declare_originals().and_then(|()| link_libraries()) {
        Ok(()) => ExitCode::SUCCESS,
        Err(message) => {
            println!("cargo::error={message}");
            ExitCode::FAILURE
        }
    }
}

/// The originals stay where they are, and are held to no lints.
fn declare_originals() -> Result<(), String> {
    println!("cargo::rerun-if-env-changed={FOLDER}");
    println!("cargo::rerun-if-changed=build.rs");
    let folder = std::env::var_os(FOLDER).filter(|folder| !folder.is_empty());
    let folder = PathBuf::from(folder.ok_or(format!(
        "the folder of the unchanged Rust files is not given: run `tools/oracle/build.sh FOLDER`, or set {FOLDER}=FOLDER"
    ))?);
    let found = folder.canonicalize().and_then(|folder| files(&folder));
    let found = found.map_err(|error| format!("{FOLDER}={}: {error}", folder.display()))?;
    let mut modules = String::new();
    for name in ORIGINALS {
        let mut of_name = found.iter().filter(|file| is_original(file, name));
        let (Some(file), None) = (of_name.next(), of_name.next()) else {
            let folder = folder.display();
            return Err(format!("not exactly one {name}.rs under {folder}"));
        };
        println!("cargo::rerun-if-changed={}", file.display());
        let lines = format!("#[allow(dead_code, clippy::all)]\n#[path = {file:?}]\nmod {name};");
        writeln!(modules, "{lines}").expect("a string takes it");
    }
    let out = std::env::var("OUT_DIR").expect("cargo sets it");
    std::fs::write(Path::new(&out).join("originals.rs"), modules).map_err(|error| error.to_string())
}

/// The file's name may have `.txt` behind it, and then also its folders in front, each with `--`.
fn is_original(file: &Path, name: &str) -> bool {
    let file = file.file_name().unwrap_or_default().to_string_lossy();
    let plain = format!("{name}.rs");
    let text = format!("{name}.rs.txt");
    *file == plain || *file == text || file.ends_with(&format!("--{text}"))
}

/// Every file in a folder and in those within it.
fn files(folder: &Path) -> std::io::Result<Vec<PathBuf>> {
    let mut all = Vec::new();
    for entry in std::fs::read_dir(folder)? {
        let entry = entry?;
        let kind = entry.file_type()?;
        if kind.is_dir() {
            all.extend(files(&entry.path())?);
        } else if kind.is_file() {
            all.push(entry.path());
        }
    }
    Ok(all)
}

fn link_libraries() -> Result<(), String> {
    if std::env::var_os("CARGO_FEATURE_RATTLE").is_none() {
        return Ok(());
    }
    let folder = Path::new(env!("CARGO_MANIFEST_DIR")).join("../../target/staticlib");
    println!("cargo::rustc-link-search=native={}", folder.display());
    for name in LIBRARIES {
        let file = folder.join(format!("lib{name}.a"));
        println!("cargo::rerun-if-changed={}", file.display());
        if !file.is_file() {
            let missing = format!("no target/staticlib/lib{name}.a");
            return Err(format!("{missing}: run tools/oracle/build.sh, which fills it"));
        }
        println!("cargo::rustc-link-lib=static={name}");
    }
    Ok(())
}
