//! A model of the eight calls: document 01's ledger, with the questions 34 to 40 in order, what a granted call answers and
//! writes, and what it leaves in the lent lists. The last figure of an `S` line is document 02's (A5), and so
//! is the count that cover answers (A2).
//!
//! How it was made: from document 01 ("The ledger", questions 34 to 40, and the paragraph between them) and from the list of
//! how its open points are read (docs/DECISIONS.md), with no Rattle of the calls or of covered numbers read. Its author had
//! read the Rust's `Received`, which merges ranges and refuses nothing; here S is a set of numbers (number_set.rs). It sees
//! the arguments and the lengths of what is lent, never what lent places hold. 34 is asked in full: the store with the
//! opened fields' row in place of the contact's is restored by store.rs each time. That last figure and that
//! count came later, from document 02, by an author who knew the Rattle's definitions of them.

use crate::model::lent::Lists;
use crate::model::number_set::{NumberSet, numbers_in};
use crate::model::questions::{self, ask};
use crate::model::rows::{self, Contact};
use crate::model::store::{CONTACT, Entry, QUEUED, Refusal, Store};

/// The most items that a count holds.
const COUNTED: usize = 65_535;
/// The bytes of a chain's and of a skipped key's place.
pub const CHAIN: usize = 51;
pub const SKIPPED: usize = 46;

/// A call other than restore.
#[derive(Debug, Clone, Copy, PartialEq)]
pub enum Call {
    Open(u64),
    Cover(u32, u32),
    Contains(u32),
    Covers(u32, u32),
    Take,
    Statement,
    Write,
}

/// What a granted call answers.
#[derive(Debug, Clone, Copy, PartialEq)]
pub enum Granted {
    Yes,
    Is(bool),
    /// Whether contiguous moved, and how many numbers are new.
    Covered(bool, u64),
    Number(u32),
    /// So many bytes of the output.
    Wrote(usize),
}

/// What a call is lent: flat lists as in lent.rs, counted in whole items, and the output.
pub struct Lent<'a> {
    pub chains: &'a mut [u8],
    pub skipped: &'a mut [u8],
    pub above: &'a mut [u32],
    pub unacked: &'a mut [u32],
    pub expired: &'a mut [u32],
    pub out: &'a mut [u8],
}

impl Lent<'_> {
    /// Whether each list is long enough for the contact's items.
    fn holds(&self, contact: &Contact) -> bool {
        contact.chains.len() <= self.chains.len() / CHAIN
            && contact.skipped.len() <= self.skipped.len() / SKIPPED
            && contact.above.len() <= self.above.len() / 2
            && contact.unacked.len() <= self.unacked.len()
            && contact.expired.len() <= self.expired.len() / 2
    }

    /// Puts the items in front and leaves the places past them.
    fn put(&mut self, items: &Lists) {
        self.chains[..items.chains.len()].copy_from_slice(&items.chains);
        self.skipped[..items.skipped.len()].copy_from_slice(&items.skipped);
        self.above[..items.above.len()].copy_from_slice(&items.above);
        self.unacked[..items.unacked.len()].copy_from_slice(&items.unacked);
        self.expired[..items.expired.len()].copy_from_slice(&items.expired);
    }

    fn write(&mut self, bytes: &[u8]) -> Granted {
        self.out[..bytes.len()].copy_from_slice(bytes);
        Granted::Wrote(bytes.len())
    }
}

/// The open contact: the fields as its row had them, the sent number n, and S.
#[derive(Debug, Clone)]
pub struct Opened {
    pub id: u64,
    row: Contact,
    n: u32,
    covered: NumberSet,
}

impl Opened {
    fn new(id: u64, row: Contact) -> Self {
        Self {
            id,
            n: row.sent_msgno,
            covered: NumberSet::of_row(row.contiguous, &row.above),
            row,
        }
    }

    pub fn covered(&self) -> &NumberSet {
        &self.covered
    }

    /// The opened fields: the row's, with n, contiguous and the runs.
    pub fn fields(&self) -> Contact {
        Contact {
            sent_msgno: self.n,
            contiguous: self.covered.contiguous(),
            above: self.covered.above(),
            ..self.row.clone()
        }
    }

    /// The `S` line with its LF.
    pub fn line(&self, store: &Store) -> String {
        let Self {
            id,
            row,
            n,
            covered,
        } = self;
        let of_this = |entry: &&Entry| entry.kind == QUEUED && entry.id == *id;
        let queued = store.entries.iter().filter(of_this).count();
        let (acked, contiguous) = (row.peer_acked, covered.contiguous());
        let beyond = numbers_in(&covered.above());
        let expired = NumberSet::of(&row.expired).count_above(acked);
        format!("S,{id},{n},{acked},{contiguous},{beyond},{queued},{expired}\n")
    }
}

/// The state; at first nothing is restored and none open.
#[derive(Clone, Default)]
pub struct Ledger {
    store: Option<Store>,
    opened: Option<Opened>,
}

impl Ledger {
    pub fn store(&self) -> Option<&Store> {
        self.store.as_ref()
    }

    pub fn opened(&self) -> Option<&Opened> {
        self.opened.as_ref()
    }

    /// A granted restore leaves none open; a refused one changes nothing.
    pub fn restore(&mut self, store: &Store) -> Result<(), Refusal> {
        store.restore()?;
        *self = Self {
            store: Some(store.clone()),
            opened: None,
        };
        Ok(())
    }

    /// Another call: its questions first, of this state and the lent lengths; then what it does.
    pub fn call(&mut self, call: Call, lent: &mut Lent) -> Result<Granted, u32> {
        self.ask(call, lent)?;
        if let Call::Open(id) = call {
            let row = self.stored(id).expect("question 35");
            lent.put(&Lists::of(&row));
            self.opened = Some(Opened::new(id, row));
            return Ok(Granted::Yes);
        }
        let store = self.store.as_ref().expect("question 34");
        let opened = self.opened.as_mut().expect("question 34");
        Ok(match call {
            Call::Open(_) => unreachable!("done above"),
            Call::Cover(from, to) => cover(opened, from, to, lent),
            Call::Contains(number) => Granted::Is(opened.covered.contains(number)),
            Call::Covers(from, to) => Granted::Is(opened.covered.covers(from, to)),
            Call::Take => {
                opened.n += 1;
                Granted::Number(opened.n)
            }
            Call::Statement => lent.write(opened.line(store).as_bytes()),
            Call::Write => lent.write(&opened.fields().row()),
        })
    }

    /// 34 to 40, as far as the call has them.
    fn ask(&self, call: Call, lent: &Lent) -> Result<(), u32> {
        if let Call::Open(id) = call {
            let passes = self.store.as_ref().is_some_and(passes);
            ask(questions::STORE, passes)?;
            let row = self.stored(id).ok_or(questions::CONTACT_STORED)?;
            return ask(questions::LISTS, lent.holds(&row));
        }
        let open = self.store.as_ref().zip(self.opened.as_ref());
        let (store, opened) = open.ok_or(questions::STORE)?;
        let fields = opened.fields();
        ask(questions::STORE, lent.holds(&fields))?;
        let replaced = replaced(store, opened.id, &fields);
        ask(questions::STORE, replaced.as_ref().is_some_and(passes))?;
        let output = |size: usize| ask(questions::OUTPUT, size <= lent.out.len());
        match call {
            Call::Open(_) => unreachable!("asked above"),
            Call::Contains(_) => Ok(()),
            Call::Covers(from, to) => ask(questions::RANGE, 1 <= from && from <= to),
            Call::Cover(from, to) => {
                ask(questions::RANGE, 1 <= from && from <= to)?;
                let runs = opened.covered.with(from, to).above().len();
                ask(questions::LIMIT, runs <= COUNTED.min(lent.above.len() / 2))
            }
            Call::Take => ask(questions::LAST_MSGNO, opened.n < u32::MAX),
            Call::Statement => output(opened.line(store).len()),
            Call::Write => output(fields.row().len()),
        }
    }

    /// The stored row of this contact.
    fn stored(&self, id: u64) -> Option<Contact> {
        let store = self.store.as_ref()?;
        let at = place(store, id)?;
        let (version, row) = (store.entries[at].version, store.row(at)?);
        rows::contact(version, row).answer.ok()
    }
}

/// S with from..to. List places that the fewer runs free become 0, those past them stay.
fn cover(opened: &mut Opened, from: u32, to: u32, lent: &mut Lent) -> Granted {
    let before = opened.fields();
    let added = opened.covered.added(from, to);
    opened.covered = opened.covered.with(from, to);
    let after = opened.fields();
    lent.above[..2 * before.above.len()].fill(0);
    for (place, (from, to)) in lent.above.chunks_exact_mut(2).zip(&after.above) {
        place.copy_from_slice(&[*from, *to]);
    }
    Granted::Covered(after.contiguous != before.contiguous, added)
}

/// 1 to 33.
fn passes(store: &Store) -> bool {
    store.restore().is_ok()
}

fn place(store: &Store, id: u64) -> Option<usize> {
    let of_this = |entry: &Entry| entry.kind == CONTACT && entry.id == id;
    store.entries.iter().position(of_this)
}

/// The store with this contact's row in place of its own, whose bytes stay for rows that share them.
fn replaced(store: &Store, id: u64, contact: &Contact) -> Option<Store> {
    let at = place(store, id)?;
    let mut store = store.clone();
    let row = contact.row();
    store.entries[at].start = store.run.len();
    store.entries[at].len = row.len();
    store.run.extend(row);
    Some(store)
}
