//! A smaller store that still differs, for a short description.

use crate::model::store::Store;

/// Longer runs stay as they are.
const LONGEST: usize = 20_000;

/// Entries are left out, bytes that no row holds cut away, and bytes set to 0, for as long as the store differs.
pub fn smallest(store: &Store, differs: impl Fn(&Store) -> bool) -> Store {
    let mut smallest = without_entries(store.clone(), &differs);
    let cut = without_gaps(&smallest);
    if differs(&cut) {
        smallest = cut;
    }
    if smallest.run.len() <= LONGEST {
        smallest = blanked(smallest, &differs);
    }
    smallest
}

fn without_entries(mut store: Store, differs: &impl Fn(&Store) -> bool) -> Store {
    let mut size = store.entries.len().div_ceil(2);
    while size > 0 {
        let mut at = 0;
        while at < store.entries.len() {
            let mut fewer = store.clone();
            fewer
                .entries
                .drain(at..(at + size).min(store.entries.len()));
            if differs(&fewer) {
                store = fewer;
            } else {
                at += size;
            }
        }
        size /= 2;
    }
    store
}

/// Without the bytes that are in no row; the starts of rows in the run move with them.
fn without_gaps(store: &Store) -> Store {
    let mut held = vec![false; store.run.len()];
    let within = |at: &usize| store.row(*at).is_some();
    let places: Vec<usize> = (0..store.entries.len()).filter(within).collect();
    for at in &places {
        let entry = store.entries[*at];
        held[entry.start..entry.start + entry.len].fill(true);
    }
    let mut cut = store.clone();
    for at in places {
        let start = &mut cut.entries[at].start;
        *start = held[..*start].iter().filter(|held| **held).count();
    }
    let mut held = held.into_iter();
    cut.run.retain(|_| held.next() == Some(true));
    cut
}

fn blanked(mut store: Store, differs: &impl Fn(&Store) -> bool) -> Store {
    for size in [256, 64, 16, 4, 1] {
        for at in (0..store.run.len()).step_by(size) {
            let end = (at + size).min(store.run.len());
            if store.run[at..end].iter().all(|byte| *byte == 0) {
                continue;
            }
            let mut other = store.clone();
            other.run[at..end].fill(0);
            if differs(&other) {
                store = other;
            }
        }
    }
    store
}
