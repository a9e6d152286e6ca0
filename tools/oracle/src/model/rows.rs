//! A model of the four rows: questions 3 to 24 and 54 with their numbers, every field's value, and the veiled bytes.
//!
//! How it was made: from document 01 (its layouts, questions and words on veiled bytes, read twice) and from two lists of
//! how its open points are read, before its author had read the Rust's rows or any Rattle definition of one. It shares no
//! code with either, copies every field into plain values, and counts in 64 bits wherever 01 says "in exact numbers".
//! Since then one thing was changed in what it answers: 54 (02, A10) was added, by an author who knew our definition of it.
//! `gen_` took its name from the Rust afterwards.
//!
//! A function asks a row's questions and hands back a `Reading`: the value or the first number whose answer is no, and
//! which bytes are veiled. `row` of a value is the row that holds it, and so the builder of every row that is tried.

mod card;
mod contact;
mod courier;
mod cursor;
mod device;
mod queued;

pub use card::{Card, card};
pub use contact::{Chain, Contact, I, Pending, R, Range, Send, Skipped, contact};
pub use courier::{Courier, courier};
pub use cursor::{BUCKETS, Reading, SEAL, blanked};
pub use device::{Device, device};
pub use queued::{Envelope, Queued, queued};
