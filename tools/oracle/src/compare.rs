//! The comparisons by name.

mod card;
mod contact;
mod courier;
mod device;
mod leb128;
mod queued;
mod received;
mod rows;
pub mod sides;
mod small_stores;
mod store_shrink;
mod stores;
mod tally;
mod utf8;

pub use card::rust_card;
pub use stores::store_faults;

/// What is compared, in this order. The number says how often the random part is repeated.
type Run = fn(u64, usize) -> bool;
const RUNS: [(&str, Run); 9] = [
    ("leb128", |seed, _| leb128::run(seed)),
    ("utf8", |seed, _| utf8::run(seed)),
    ("card", |seed, _| card::run(seed)),
    ("device", device::run),
    ("queued", queued::run),
    ("courier", courier::run),
    ("contact", contact::run),
    ("received", received::run),
    ("stores", stores::run),
];

/// Runs the named comparisons, if there are any; whether nothing differed.
pub fn run(name: &str, seed: u64, times: usize) -> Option<bool> {
    let runs: Vec<Run> = RUNS
        .iter()
        .filter(|(known, _)| name == "all" || name == *known)
        .map(|(_, run)| *run)
        .collect();
    if runs.is_empty() {
        return None;
    }
    println!("seed {seed}");
    if cfg!(not(feature = "rattle")) {
        println!("no Rattle library: its side is the model");
    }
    // Every one is run, also after one that differs.
    Some(runs.iter().fold(true, |same, run| run(seed, times) & same))
}
