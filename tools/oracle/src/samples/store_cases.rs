//! Stores for the samples, small ones: granted, and at the edge of each question. 20 takes 501 skipped keys and so a long
//! row: the store of it is a file of its own.

use crate::compare::store_faults;
use crate::generate::inputs::Random;
use crate::generate::row_build;
use crate::hex::hex;
use crate::model::store::{self, Entry, Store};
use crate::samples::store_edges;
use crate::samples::store_shelf::Shelf;
use std::collections::BTreeMap;
use std::path::Path;

/// Fixed: the same samples every time.
const SEED: u64 = 5;

pub fn write(folder: &Path) -> Result<(), Box<dyn std::error::Error>> {
    std::fs::create_dir_all(folder)?;
    let shelf = Shelf::new(&mut Random::new(SEED));
    let mut keys = shelf.contact.clone();
    keys.skipped = row_build::skipped(&mut Random::new(SEED), 501);
    let long = shelf.of_contact(&keys);
    write_lines(folder, "stores.txt", &store_edges::all(&shelf))?;
    write_lines(folder, "stores-20.txt", &[long])?;
    Ok(())
}

fn write_lines(folder: &Path, file: &str, stores: &[Store]) -> std::io::Result<()> {
    let mut numbers = BTreeMap::new();
    let mut lines: Vec<String> = Vec::new();
    for store in stores {
        let line = line(store);
        if !lines.contains(&line) {
            *numbers.entry(store::number(&store.restore())).or_insert(0) += 1;
            lines.push(line);
        }
    }
    let longest = stores.iter().map(|store| store.run.len()).max();
    let most = stores.iter().map(|store| store.entries.len()).max();
    let text = lines.concat();
    println!(
        "{file}: {} stores in {} bytes; at most {} entries and a run of {}; answers {numbers:?}",
        lines.len(),
        text.len(),
        most.unwrap_or(0),
        longest.unwrap_or(0)
    );
    std::fs::write(folder.join(file), text)
}

/// The letter, the entries, the run, and 0 with next_contact and next_slot or the number with the index. The number and the
/// index are 01's; whether the store is granted, the Rust says too, where it can be asked.
fn line(store: &Store) -> String {
    let faults = store_faults(store);
    assert!(faults.is_empty(), "{faults:?} of {store:?}");
    let entries: Vec<u8> = store.entries.iter().flat_map(entry_bytes).collect();
    let answer = match store.restore() {
        Ok(granted) => {
            let numbers = [granted.next_contact, granted.next_slot];
            format!("0 {}", hex(&numbers.map(u64::to_be_bytes).concat()))
        }
        Err(refusal) => format!("{} {}", refusal.number, refusal.index),
    };
    format!("S {} {} {answer}\n", hex(&entries), hex(&store.run))
}

/// Kind, contact or slot, msgno, version, start, length, big-endian: 36 bytes.
fn entry_bytes(entry: &Entry) -> Vec<u8> {
    let mut bytes = entry.kind.to_be_bytes().to_vec();
    bytes.extend(entry.id.to_be_bytes());
    bytes.extend(entry.msgno.to_be_bytes());
    bytes.extend(entry.version.to_be_bytes());
    bytes.extend((entry.start as u64).to_be_bytes());
    bytes.extend((entry.len as u64).to_be_bytes());
    bytes
}
