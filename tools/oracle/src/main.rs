//! The Rust originals, unchanged, and the comparisons with the Rattle inside their crate.
//!
//! The originals name each other and what they lean on from the root of their crate: so they and the stand-ins are declared here.

extern crate alloc;
extern crate self as cairn_crypto;
extern crate self as subtle;
extern crate self as zeroize;

mod commands;
mod compare;
mod generate;
mod hex;
mod model;
mod original;
mod programs;
mod rattle;
mod samples;
mod speed;

// The modules card, chain, courier, data, epoch, kdf, state and transfer: build.rs names their files.
include!(concat!(env!("OUT_DIR"), "/originals.rs"));

pub use epoch::{Epoch, ObjectKind, PairingRole};
use original::parts::{core, pairing, resume};
pub use original::shims::*;
pub use transfer::ProgressRejected;

fn main() -> std::process::ExitCode {
    let words: Vec<String> = std::env::args().skip(1).collect();
    let words: Vec<&str> = words.iter().map(String::as_str).collect();
    match commands::run(&words) {
        Ok(true) => 0.into(),
        Ok(false) => 1.into(),
        Err(message) => {
            eprintln!("{message}");
            2.into()
        }
    }
}
