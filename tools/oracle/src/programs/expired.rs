//! Where peer_acked stands among a contact's expired ranges: counted for each `S` line that is due, so that a comparison can tell
//! whether document 02's A5 was tried in every way.

use crate::model::rows::{self, Range};
use crate::model::store::{CONTACT, Entry, Store};
use std::collections::BTreeMap;

/// The first of these that is true of a contact.
pub const WAYS: [&str; 4] = [
    "an expired range in part acked",
    "an expired range acked",
    "expired ranges, none acked",
    "no expired range",
];

#[derive(Default)]
pub struct Ways {
    lines: BTreeMap<&'static str, u64>,
}

/// The way of the contact that an `S` line is about, of this store.
pub fn way(store: &Store, line: &str) -> &'static str {
    let id = line.split(',').nth(1).and_then(|id| id.parse().ok());
    let of_this = |entry: &Entry| entry.kind == CONTACT && Some(entry.id) == id;
    let at = store.entries.iter().position(of_this);
    let at = at.expect("the line is of a stored contact");
    let row = store.row(at).expect("the row is in the run");
    let contact = rows::contact(store.entries[at].version, row).answer;
    let contact = contact.expect("the row is accepted");
    let acked = contact.peer_acked;
    let in_part = |(from, to): &Range| *from <= acked && acked < *to;
    let whole = |(_, to): &Range| *to <= acked;
    match contact.expired {
        ranges if ranges.iter().any(in_part) => WAYS[0],
        ranges if ranges.iter().any(whole) => WAYS[1],
        ranges if !ranges.is_empty() => WAYS[2],
        _ => WAYS[3],
    }
}

impl Ways {
    pub fn count(&mut self, store: &Store, line: &str) {
        *self.lines.entry(way(store, line)).or_default() += 1;
    }

    /// Prints the counts; whether each way came.
    pub fn print(&self) -> bool {
        println!("  S lines: {:?}", self.lines);
        let never = WAYS.iter().filter(|way| !self.lines.contains_key(*way));
        let never: Vec<&&str> = never.collect();
        if !never.is_empty() {
            println!("  never an S line with {never:?}");
        }
        never.is_empty()
    }
}
