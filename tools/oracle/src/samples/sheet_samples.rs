//! Sheets for samples/, from descriptions: document 01's, a larger one, one about expired ranges, and refused ones.

use crate::generate::cards;
use crate::generate::inputs::Random;
use crate::generate::row_build::{self, EMPTY, FULL, Size};
use crate::generate::store_build::{self, item};
use crate::model::rows::{self, Chain, Contact, Device, I, Queued, Range};
use crate::model::sheet::{self, Line};
use crate::model::store::{CONTACT, COURIER, DEVICE, QUEUED};
use crate::original::statement;
use crate::programs::sheets;

/// Fixed: the same keys every time.
const SEED: u64 = 8;

/// What of a contact the statement is about, its name, and how much else its row has.
struct Peer {
    id: u64,
    name: &'static str,
    sent: u32,
    acked: u32,
    contiguous: u32,
    above: &'static [Range],
    unacked: &'static [u32],
    expired: &'static [Range],
    size: Size,
}

const NOBODY: Peer = Peer {
    id: 1,
    name: "",
    sent: 0,
    acked: 0,
    contiguous: 0,
    above: &[],
    unacked: &[],
    expired: &[],
    size: EMPTY,
};

const KCI: Size = Size {
    kci: true,
    skipped: 5,
    ..FULL
};

/// A handset of a ships' agency: some contacts are new, some far ahead, one has just been paired.
const AGENCY: [Peer; 8] = [
    Peer {
        id: 1,
        name: "Ada Lovelace",
        sent: 218,
        acked: 210,
        contiguous: 305,
        above: &[(308, 308), (311, 340)],
        unacked: &[217],
        expired: &[(12, 19), (101, 101), (208, 214)],
        size: KCI,
    },
    Peer {
        id: 2,
        name: "Ελένη Παπαδοπούλου",
        sent: 3,
        acked: 3,
        contiguous: 7,
        size: FULL,
        ..NOBODY
    },
    Peer {
        id: 3,
        name: "Софья Ковалевская",
        sent: 4_000_000_000,
        acked: 3_999_999_987,
        contiguous: 4_294_967_290,
        above: &[
            (4_294_967_292, 4_294_967_292),
            (4_294_967_295, 4_294_967_295),
        ],
        unacked: &[3_999_999_992, 3_999_999_995],
        expired: &[(1, 1_000_000), (3_999_999_986, 3_999_999_990)],
        size: FULL,
    },
    Peer {
        id: 5,
        name: "紫式部",
        ..NOBODY
    },
    Peer {
        id: 6,
        name: "فاطمة الفهرية",
        sent: 12,
        above: &[(2, 2), (4, 4), (6, 9)],
        size: KCI,
        ..NOBODY
    },
    Peer {
        id: 7,
        name: "आर्यभट",
        sent: 1,
        contiguous: 4_294_967_295,
        expired: &[(1, 1)],
        ..NOBODY
    },
    Peer {
        id: 11,
        name: "👩‍🚀 pier 7",
        sent: 40,
        acked: 40,
        contiguous: 39,
        ..NOBODY
    },
    Peer {
        id: 12,
        name: "",
        sent: 2,
        unacked: &[1],
        ..NOBODY
    },
];
/// Contact and number of each queued row, and whether it has an own envelope.
const AGENCY_QUEUED: [(u64, u32, bool); 8] = [
    (1, 215, true),
    (1, 216, true),
    (1, 218, false),
    (3, 3_999_999_991, true),
    (3, 4_000_000_000, false),
    (6, 1, true),
    (6, 12, false),
    (12, 2, true),
];
/// Slot and depositor of each courier row; a tombstone has none.
const AGENCY_COURIER: [(u64, Option<u64>); 5] = [
    (0, Some(1)),
    (3, None),
    (4, Some(12)),
    (17, None),
    (40, Some(4)),
];

fn contact(random: &mut Random, peer: &Peer) -> Contact {
    let mut contact = row_build::contact(random, peer.size);
    contact.card.name = peer.name.into();
    Contact {
        sent_msgno: peer.sent,
        peer_acked: peer.acked,
        contiguous: peer.contiguous,
        above: peer.above.to_vec(),
        unacked: peer.unacked.to_vec(),
        expired: peer.expired.to_vec(),
        ..contact
    }
}

fn lines(
    next_contact: u64,
    peers: &[Peer],
    queued: &[(u64, u32, bool)],
    courier: &[(u64, Option<u64>)],
) -> Vec<Line> {
    let mut random = Random::new(SEED);
    let device = Device {
        next_contact,
        ..row_build::device(&mut random)
    };
    let mut items = vec![item(DEVICE, 0, 0, device.row(), 0)];
    for peer in peers {
        let row = contact(&mut random, peer).row();
        items.push(item(CONTACT, peer.id, 0, row, 0));
    }
    for (at, (id, msgno, own)) in queued.iter().enumerate() {
        let row = Queued {
            idx: *msgno,
            ..row_build::queued(&mut random, *own, at % 3)
        };
        items.push(item(QUEUED, *id, *msgno, row.row(), 0));
    }
    for (slot, depositor) in courier {
        let row = match depositor {
            Some(depositor) => store_build::carried(&mut random, *depositor),
            None => row_build::tombstone(&mut random),
        };
        items.push(item(COURIER, *slot, 0, row.row(), 0));
    }
    sheet::lines_of(&store_build::packed(items)).expect("rows of known kinds")
}

/// Document 01's sample.
pub fn port() -> Vec<Line> {
    let peer = Peer {
        sent: 3,
        acked: 1,
        contiguous: 2,
        above: &[(4, 4)],
        unacked: &[3],
        expired: &[(1, 1)],
        name: "Port office",
        ..NOBODY
    };
    lines(2, &[peer], &[(1, 2, false)], &[(7, None)])
}

/// The port's contact with so many chains of different gens, the last `current` of them not superseded.
pub fn chained(count: usize, current: usize) -> Contact {
    let row = &port()[1].blob;
    let chain = |index: usize| Chain {
        gen_: index as u8,
        dir: I,
        next: 1,
        key: [7; 32],
        superseded_s: (index + current < count).then_some(1),
    };
    Contact {
        chains: (0..count).map(chain).collect(),
        ..rows::contact(3, row).answer.expect("the port's contact")
    }
}

/// A contact that has sent and received nearly all numbers.
pub fn last_numbers() -> Vec<Line> {
    let peer = Peer {
        sent: u32::MAX - 1,
        contiguous: u32::MAX - 1,
        ..NOBODY
    };
    lines(2, &[peer], &[], &[])
}

/// Two contacts with several ranges, next to each other but for a number.
pub fn two() -> Vec<Line> {
    let one = Peer {
        sent: 5,
        above: &[(2, 2), (4, 4), (6, 6)],
        size: FULL,
        ..NOBODY
    };
    let other = Peer {
        id: 2,
        sent: 9,
        contiguous: 4,
        expired: &[(1, 2), (7, 9)],
        ..NOBODY
    };
    lines(
        3,
        &[one, other],
        &[(1, 1, true), (1, 5, false), (2, 9, true)],
        &[],
    )
}

/// Expired ranges below, above and on both sides of what is acked, and what is due for each.
const EXPIRED: [(Peer, u64); 12] = [
    (expired(1, 3, &[(1, 5)]), 2),
    (expired(2, 5, &[(1, 5)]), 0),
    (expired(3, 0, &[(1, 5)]), 5),
    (expired(4, 7, &[(1, 2), (6, 9)]), 2),
    // Between two ranges; before one, at its end but for one, and behind it.
    (expired(5, 4, &[(1, 2), (6, 9)]), 4),
    (expired(6, 2, &[(3, 8)]), 6),
    (expired(7, 7, &[(3, 8)]), 1),
    (expired(8, 9, &[(1, 2)]), 0),
    // At the last number of 32 bits.
    (last(9, u32::MAX, &[(1, u32::MAX)]), 0),
    (last(10, u32::MAX - 1, &[(1, 1), (u32::MAX, u32::MAX)]), 1),
    (last(11, 0, &[(1, u32::MAX)]), u32::MAX as u64),
    // Numbers beyond contiguous count whatever is acked.
    (
        Peer {
            above: &[(2, 4), (6, 6)],
            ..expired(12, 6, &[(4, 7)])
        },
        1,
    ),
];

const fn expired(id: u64, acked: u32, expired: &'static [Range]) -> Peer {
    Peer {
        id,
        sent: 9,
        acked,
        expired,
        ..NOBODY
    }
}

const fn last(id: u64, acked: u32, ranges: &'static [Range]) -> Peer {
    Peer {
        sent: u32::MAX,
        ..expired(id, acked, ranges)
    }
}

/// The contacts of `EXPIRED`. Each is due its figure, by the model.
pub fn expired_ranges() -> Vec<Line> {
    let peers = EXPIRED.map(|(peer, _)| peer);
    let lines = lines(13, &peers, &[], &[]);
    let text = sheet::statement(sheet::text_of(&lines).as_bytes());
    for (line, (peer, due)) in text.lines().zip(&EXPIRED) {
        assert!(line.starts_with(&format!("S,{},", peer.id)), "{line}");
        assert!(line.ends_with(&format!(",0,{due}")), "{line}: {due}");
    }
    lines
}

/// The first of them alone, once all of 1..5 is acked.
pub fn expired_acked() -> Vec<Line> {
    lines(2, &[expired(1, 5, &[(1, 5)])], &[], &[])
}

fn agency() -> Vec<Line> {
    lines(13, &AGENCY, &AGENCY_QUEUED, &AGENCY_COURIER)
}

/// A sheet's name and its text.
type Named = (&'static str, String);

/// Each sheet by its name.
pub fn sheets() -> Vec<Named> {
    let text = |lines: Vec<Line>| sheet::text_of(&lines);
    let mut sheets = vec![
        ("port", text(port())),
        ("agency", text(agency())),
        ("last-numbers", text(last_numbers())),
        ("two-contacts", text(two())),
        ("expired", text(expired_ranges())),
        ("empty", String::new()),
    ];
    sheets.extend(refused().map(|(name, lines)| (name, text(lines))));
    sheets.extend(unread());
    sheets
}

/// The port's store with one thing changed, which restore refuses.
fn refused() -> impl Iterator<Item = (&'static str, Vec<Line>)> {
    type Change = fn(&mut Vec<Line>);
    let changes: [(&str, Change); 9] = [
        ("refused-order", |lines| lines.swap(1, 2)),
        ("refused-version", |lines| lines[1].version = 2),
        ("refused-cut", |lines| lines[1].blob.truncate(100)),
        ("refused-flag", |lines| {
            lines[0].blob.truncate(45);
            lines[0].blob[44] = 2;
        }),
        ("refused-name", |lines| {
            // A surrogate, where the name begins.
            let at = 3 + 16 + 48 + 16 + 2 + cards::NAME_LENGTH_AT + 1;
            lines[1].blob[at..at + 3].copy_from_slice(&[0xed, 0xa0, 0x80]);
        }),
        ("refused-chains", |lines| {
            lines[1].blob = chained(9, 1).row()
        }),
        ("refused-unacked", |lines| lines[2].msgno = 3),
        ("refused-no-contact", |lines| lines[2].id = 0),
        ("refused-slot", |lines| lines[3].id = u64::MAX),
    ];
    changes.into_iter().map(|(name, change)| {
        let mut lines = port();
        change(&mut lines);
        (name, lines)
    })
}

/// The port's sheet with its text changed, so that it is no sheet.
fn unread() -> [Named; 7] {
    let port = sheet::text_of(&port());
    let device = port.lines().next().expect("a device's line");
    // Up to line 513, of blobs that are empty.
    let more: String = (8..517).map(|slot| format!("K,{slot},3,\n")).collect();
    let wide = "K,18446744073709551616,";
    [
        ("unread-no-line-end", port.trim_end().into()),
        ("unread-empty-line", format!("{port}\n")),
        ("unread-leading-zero", port.replacen("C,1,3", "C,1,03", 1)),
        ("unread-wide", port.replacen("K,7,", wide, 1)),
        (
            "unread-upper-case",
            port.replacen(device, &device.to_uppercase(), 1),
        ),
        ("unread-carriage-return", port.replace('\n', "\r\n")),
        ("unread-room", port.clone() + &more),
    ]
}

/// NAME.sheet and NAME.statement of each; of what the Rust can say, it says the same.
pub fn write(folder: &std::path::Path) -> std::io::Result<()> {
    for (name, sheet) in sheets() {
        let due = sheet::statement(sheet.as_bytes());
        let rust = statement::statement(sheet.as_bytes());
        assert!(sheets::same(&due, &rust), "{name}: {due} and {rust}");
        print!("{name}.sheet: {} bytes: {due}", sheet.len());
        std::fs::write(folder.join(format!("{name}.sheet")), &sheet)?;
        std::fs::write(folder.join(format!("{name}.statement")), due)?;
    }
    Ok(())
}
