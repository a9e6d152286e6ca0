//! Small stores: granted, and at the edge of each question.

use crate::generate::store_build::{self, Item, item};
use crate::model::rows::{Chain, Contact, I, R, Skipped};
use crate::model::store::{CONTACT, Store};
use crate::samples::store_shelf::{Shelf, cut, kind, longer, set, version, with};

const MAX: u64 = u64::MAX;
/// The lowest bit that 32 bits do not hold.
const WIDE: u64 = 1 << 32;

/// All of them, in the order in which they are written.
pub fn all(shelf: &Shelf) -> Vec<Store> {
    [
        granted(shelf),
        kinds(shelf),
        places(shelf),
        fields(shelf),
        contact_rows(shelf),
        consistent(shelf),
        contacts(shelf),
        queued(shelf),
        courier(shelf),
        order(shelf),
    ]
    .concat()
}

/// Granted stores: what may stand in one though it looks as if it might not.
fn granted(shelf: &Shelf) -> Vec<Store> {
    let last = Contact {
        sent_msgno: u32::MAX,
        ..shelf.contact.clone()
    };
    let last = item(CONTACT, 0, 0, last.row(), 0);
    let (device, contact) = (shelf.device(MAX), shelf.contact(MAX - 1));
    let sent = [shelf.queued(0, u32::MAX), shelf.queued(0, 1)];
    let carried = [shelf.carried(0, 8), shelf.carried(1, 0)];
    let mut stores = vec![
        sample(shelf),
        with(&[&[shelf.device(1), last], &sent[..]].concat()),
        with(&[device, contact, shelf.own(MAX - 1, 4)]),
        with(&[&[shelf.device(9)], &carried[..], &[shelf.slot(2)]].concat()),
        shelf.of_contacts(WIDE + 2, &[1, WIDE + 1, 0]),
        shelf.of_queued(&[(2, 1), (2, 3), (0, 1), (2, 4), (0, 4), (0, 3)]),
    ];
    stores.extend([0, 1, MAX].map(|next_contact| shelf.of_slots(next_contact, &[])));
    let slots: [&[u64]; 6] = [
        &[0],
        &[7, 3],
        &[3, 7, 5],
        &[MAX - 1],
        &[5, MAX - 1, 4],
        &[WIDE, 0, 2 * WIDE],
    ];
    stores.extend(slots.map(|slots| shelf.of_slots(0, slots)));
    stores.extend([unused(shelf), between(shelf), inside(shelf)]);
    stores
}

/// The store of 01's sample sheet.
fn sample(shelf: &Shelf) -> Store {
    let contact = Contact {
        sent_msgno: 3,
        peer_acked: 1,
        contiguous: 2,
        above: vec![(4, 4)],
        unacked: vec![3],
        expired: vec![(1, 1)],
        ..shelf.contact.clone()
    };
    let contact = item(CONTACT, 1, 0, contact.row(), 0);
    with(&[shelf.device(2), contact, shelf.own(1, 2), shelf.slot(7)])
}

/// What a kind has no use for holds anything.
fn unused(shelf: &Shelf) -> Store {
    let mut store = with(&[
        shelf.device(1),
        shelf.contact(0),
        shelf.queued(0, 1),
        shelf.slot(4),
    ]);
    (store.entries[0].id, store.entries[0].msgno) = (MAX, u32::MAX);
    store.entries[1].msgno = u32::MAX;
    store.entries[3].msgno = u32::MAX;
    store
}

/// Bytes before, between and behind the rows, which stand in another order than their entries.
fn between(shelf: &Shelf) -> Store {
    let mut store = with(&[shelf.slot(4), shelf.carried(5, 0), shelf.device(1)]);
    for entry in &mut store.entries {
        entry.start += 3;
    }
    store.entries.rotate_right(1);
    store.run.splice(0..0, [0xff; 3]);
    store.run.extend([0xff; 5]);
    store
}

/// A tombstone inside the sealed text of a carried row.
fn inside(shelf: &Shelf) -> Store {
    let host = shelf.carried(1, 0);
    let at = host.row.len() - 40;
    let host = set(host, at, &shelf.slot(0).row);
    let mut store = with(&[shelf.device(1), host, shelf.slot(2)]);
    store.entries[2].start = store.entries[1].start + at;
    store
        .run
        .truncate(store.entries[1].start + store.entries[1].len);
    store
}

/// 1.
fn kinds(shelf: &Shelf) -> Vec<Store> {
    let mut stores = vec![with(&[])];
    let lists: [&[u32]; 17] = [
        &[1],
        &[3],
        &[4],
        &[256],
        &[u32::MAX],
        &[0, 0],
        &[0, 4],
        &[0, 256],
        &[0, 259],
        &[0, 3, 2],
        &[0, 3, 0],
        &[0, 3, 3, 1],
        &[0, 3, 3, 4],
        &[0, 2, 3, u32::MAX],
        &[4, 0],
        &[3, 0, 3],
        &[0, 5, 2, 0],
    ];
    for kinds in lists {
        let entry = |(at, code): (usize, &u32)| match *code {
            0 => shelf.device(1),
            2 => shelf.queued(0, 1),
            code => kind(shelf.slot(at as u64), code),
        };
        let items: Vec<Item> = kinds.iter().enumerate().map(entry).collect();
        stores.push(with(&items));
    }
    stores.push(with(&[
        shelf.device(1),
        shelf.queued(0, 1),
        shelf.contact(0),
    ]));
    stores
}

/// 2, and rows of no length at the end of the run, which are in it.
fn places(shelf: &Shelf) -> Vec<Store> {
    let good = shelf.of_slots(1, &[0, 1]);
    let end = good.run.len();
    let most = usize::MAX;
    let places = [
        (end, 0),
        (end + 1, 0),
        (end, 1),
        (end - 36, 37),
        (0, end + 1),
        (most, 0),
        (most, 1),
        (most, 2),
        (1, most),
        (most / 2 + 1, most / 2 + 1),
        (most - 36, 37),
        (most - 36, 37 + 49),
    ];
    let mut stores = Vec::new();
    for at in [0, 2] {
        for (start, len) in places {
            let mut store = good.clone();
            (store.entries[at].start, store.entries[at].len) = (start, len);
            stores.push(store);
        }
    }
    // A run of no bytes.
    for len in [0, 1] {
        let mut store = Store {
            run: Vec::new(),
            ..shelf.of_slots(1, &[])
        };
        (store.entries[0].start, store.entries[0].len) = (0, len);
        stores.push(store);
    }
    stores
}

/// 3 to 6 and 11 to 16, of rows other than contacts.
fn fields(shelf: &Shelf) -> Vec<Store> {
    let device = || shelf.device(1);
    let carried = || shelf.carried(0, 0);
    let alone = [
        version(device(), 2),
        version(device(), 256 + 3),
        cut(device(), 48),
        cut(device(), 0),
        set(device(), 44, &[2]),
        set(device(), 46, &[0]),
        set(device(), 46, &[17]),
        set(device(), 47, &59u16.to_be_bytes()),
        set(device(), 47, &10_081u16.to_be_bytes()),
        longer(device(), &[0]),
    ];
    let beside = [
        version(shelf.slot(0), 4),
        version(shelf.queued(0, 1), u32::MAX),
        cut(shelf.slot(0), 36),
        cut(shelf.queued(0, 1), 10),
        cut(carried(), 45),
        set(shelf.queued(0, 1), 8, &[2]),
        set(shelf.own(0, 1), 46, &[2]),
        set(shelf.slot(0), 0, &[2]),
        set(shelf.own(0, 1), 48, &[0x80, 0x00]),
        cut(shelf.own(0, 1), 49),
        cut(shelf.queued(0, 1), 11),
        cut(shelf.queued(0, 1), 11 + 47),
        longer(carried(), &[0]),
        cut(carried(), 46),
        set(carried(), 45, &[0]),
        set(carried(), 41, &[0; 4]),
        longer(shelf.slot(0), &[0]),
    ];
    let mut stores: Vec<Store> = alone.map(|device| with(&[device, shelf.slot(0)])).to_vec();
    stores.extend(beside.map(|row| with(&[device(), row])));
    stores
}

/// 3 to 10 and 16, of a contact row.
fn contact_rows(shelf: &Shelf) -> Vec<Store> {
    let contact = || shelf.contact(0);
    let card = 85;
    let end = card + 38;
    let mut long = set(contact(), card - 2, &39u16.to_be_bytes());
    long.row.insert(end, 0);
    let mut named = set(contact(), card - 2, &40u16.to_be_bytes());
    named.row.splice(end - 1..end, [2, 0xc0, 0x80]);
    let rows = [
        version(contact(), 0),
        cut(contact(), 290),
        set(contact(), end + 140, &[2]),
        set(contact(), 0, &[2]),
        set(contact(), card, &[4]),
        set(contact(), card + 37, &[49]),
        named,
        long,
        longer(contact(), &[0]),
    ];
    rows.map(|row| with(&[shelf.device(1), row])).to_vec()
}

/// 54, and 17 to 24 but for 20.
fn consistent(shelf: &Shelf) -> Vec<Store> {
    let contact = || shelf.contact.clone();
    let chain = |gen_, superseded_s| Chain {
        gen_,
        dir: I,
        next: 1,
        key: [7; 32],
        superseded_s,
    };
    let skipped = |dir| Skipped {
        gen_: 1,
        dir,
        idx: 9,
        key: [8; 32],
        created_s: 5,
    };
    let mut broken: [Contact; 11] = std::array::from_fn(|_| contact());
    broken[0].chains = vec![chain(3, None), chain(3, None)];
    broken[1].chains = vec![chain(3, None), chain(3, Some(1))];
    broken[2].skipped = vec![skipped(I), skipped(R)];
    broken[3].peer_acked = 5;
    broken[4].unacked = vec![2, 5];
    broken[5].unacked = vec![0];
    broken[6].above = vec![(3, 3)];
    broken[7].above = vec![(4, 4), (5, 5)];
    broken[8].expired = vec![(1, 5)];
    broken[9].expired = vec![(1, 1), (2, 2)];
    broken[10].chains = (0..9).map(|gen_| chain(gen_, None)).collect();
    broken.map(|contact| shelf.of_contact(&contact)).to_vec()
}

/// 25 and 26.
fn contacts(shelf: &Shelf) -> Vec<Store> {
    let lists: [(u64, &[u64]); 12] = [
        (0, &[0]),
        (1, &[1]),
        (1, &[0, 2]),
        (5, &[MAX]),
        (MAX, &[MAX]),
        (WIDE, &[WIDE + 1]),
        (2, &[1, 0, 2]),
        (3, &[0, 0]),
        (3, &[0, 2, 0]),
        (3, &[2, 0, 1, 0]),
        (3, &[2, 1, 2]),
        (3, &[1, 1, 3]),
    ];
    lists
        .map(|(next, ids)| shelf.of_contacts(next, ids))
        .to_vec()
}

/// 27 to 30.
fn queued(shelf: &Shelf) -> Vec<Store> {
    let lists: [&[(u64, u32)]; 17] = [
        &[(1, 1)],
        &[(3, 1)],
        &[(WIDE, 1)],
        &[(2, 1), (MAX, 0)],
        &[(2, 0)],
        &[(0, 5)],
        &[(0, 1), (2, u32::MAX)],
        &[(1, 0)],
        &[(2, 2)],
        &[(0, 1), (0, 2)],
        &[(0, 1), (0, 1)],
        &[(2, 4), (0, 4), (2, 4)],
        &[(0, 3), (0, 4), (0, 1), (0, 3)],
        &[(2, 1), (0, 1), (2, 3), (0, 1)],
        &[(2, 3), (2, 3), (1, 1)],
        &[(0, 1), (0, 0), (0, 1)],
        &[(0, 3), (2, 3), (0, 4), (2, 4), (0, 1), (2, 1), (2, 3)],
    ];
    lists.map(|rows| shelf.of_queued(rows)).to_vec()
}

/// 31 to 33.
fn courier(shelf: &Shelf) -> Vec<Store> {
    let carried =
        |next_contact, depositor| with(&[shelf.device(next_contact), shelf.carried(0, depositor)]);
    let mut stores = vec![
        carried(0, 0),
        carried(1, 1),
        carried(1, WIDE),
        carried(MAX, MAX),
        with(&[shelf.device(2), shelf.carried(3, 1), shelf.carried(3, 2)]),
        with(&[shelf.device(2), shelf.carried(MAX, 2), shelf.slot(3)]),
        with(&[
            shelf.device(2),
            shelf.slot(3),
            shelf.carried(3, 1),
            shelf.carried(4, 5),
        ]),
    ];
    for slots in [
        &[0, 0][..],
        &[5, 6, 5],
        &[6, 5, 6],
        &[9, 1, 5, 1],
        &[WIDE, 0, WIDE],
        &[MAX],
        &[MAX, MAX],
        &[4, MAX, 4],
        &[4, 4, MAX],
        &[MAX - 1, MAX - 1],
    ] {
        stores.push(shelf.of_slots(0, slots));
    }
    stores
}

/// Several faults: all of 1 comes first, then all of 2, then row by row, then entry by entry across.
fn order(shelf: &Shelf) -> Vec<Store> {
    let mut outside = with(&[version(shelf.device(1), 2), shelf.slot(0), shelf.slot(1)]);
    outside.entries[2].start = outside.run.len() + 1;
    let mut unknown = outside.clone();
    unknown.entries[1].kind = 7;
    (unknown.entries[0].start, unknown.entries[0].len) = (usize::MAX, 2);
    let mut both = outside.clone();
    both.entries[1].len = both.run.len();
    let device = |next_contact| shelf.device(next_contact);
    let contact = |id| shelf.contact(id);
    let (of_none, last) = (shelf.carried(MAX, 5), shelf.slot(MAX));
    let (empty, old) = (cut(shelf.slot(1), 0), version(shelf.slot(0), 2));
    let code = set(shelf.slot(0), 0, &[9]);
    let queued = |msgno| shelf.queued(0, msgno);
    let more = [
        // A contact that is not below next_contact, and a later row that cannot be read.
        vec![device(1), contact(1), code],
        vec![device(1), contact(1), shelf.queued(9, 1), old.clone()],
        vec![device(1), last.clone(), empty.clone()],
        vec![device(1), empty.clone(), old],
        vec![device(1), version(empty, 2), last.clone()],
        vec![longer(device(0), &[0]), contact(0)],
        vec![device(0), contact(0), of_none.clone()],
        vec![device(1), contact(0), queued(5), of_none],
        vec![device(1), last.clone(), shelf.carried(1, 5)],
        vec![device(1), shelf.carried(1, 5), last],
        vec![device(1), contact(0), queued(2), queued(2)],
    ];
    let mut stores = vec![outside, unknown, both];
    stores.extend(more.map(store_build::shared));
    stores
}
