//! Contact rows.

use super::rows::{Compare, changed};
use crate::generate::inputs::Random;
use crate::generate::names;
use crate::generate::row_build::{self, EMPTY, FULL, LARGE, MIDDLE, SMALL, Size};
use crate::model::rows::{Chain, Contact, I, R, Range, Skipped};

const GENERATED: usize = 100_000;
const LARGE_DAMAGED: usize = 300;
/// Where the card's length stands, and the card.
const CARD_LENGTH_AT: usize = 3 + 16 + 48 + 16;
const CARD_AT: usize = CARD_LENGTH_AT + 2;

pub fn run(seed: u64, times: usize) -> bool {
    let mut random = Random::new(seed);
    let mut compare = Compare::<Contact>::new(&mut random);
    for size in [EMPTY, SMALL, FULL] {
        let row = row_build::contact(&mut random, size).row();
        compare.around(&row);
        compare.damaged(&row, row.len());
    }
    for size in [Size { kci: true, ..FULL }, MIDDLE] {
        let row = row_build::contact(&mut random, size).row();
        compare.around(&row);
        compare.damaged(&row, 0);
    }
    large(&mut random, &mut compare);
    cards(&mut random, &mut compare);
    counts(&mut random, &mut compare);
    chains(&mut random, &mut compare);
    many_chains(&mut random, &mut compare);
    skipped(&mut random, &mut compare);
    numbers(&mut random, &mut compare);
    above(&mut random, &mut compare);
    expired(&mut random, &mut compare);
    for _ in 0..GENERATED * times {
        let row = generated(&mut random);
        compare.visit(&row);
    }
    compare.finish()
}

/// A few large rows, changed and cut at random places.
fn large(random: &mut Random, compare: &mut Compare<Contact>) {
    let row = row_build::contact(random, LARGE).row();
    compare.visit(&row);
    for _ in 0..LARGE_DAMAGED {
        let mut row = row.clone();
        changed(random, &mut row);
        compare.visit(&row);
    }
}

/// Cards that are cut, too long or too short for their length, and what names and caps are refused.
fn cards(random: &mut Random, compare: &mut Compare<Contact>) {
    let contact = row_build::contact(random, FULL);
    let row = contact.row();
    let card = contact.card.row();
    let behind = &row[CARD_AT + card.len()..];
    let mut put = |card: &[u8], length: usize| {
        let mut changed = row[..CARD_LENGTH_AT].to_vec();
        changed.extend((length as u16).to_be_bytes());
        changed.extend(card);
        // The card ends the row, or more follows it.
        compare.visit(&changed);
        changed.extend(behind);
        compare.visit(&changed);
    };
    for length in (0..card.len() + 3).chain([255, 256, 1184, 1222, 65_535]) {
        put(&card, length);
        put(&card[..length.min(card.len())], length);
    }
    for caps in 0..=255 {
        for length in [1, card.len()] {
            let mut card = card[..length].to_vec();
            card[0] = caps;
            put(&card, length);
        }
    }
    for name in names::pieces() {
        let mut card = card[..37].to_vec();
        card.push(name.len() as u8);
        card.extend(name);
        put(&card, card.len());
        card[0] |= 2;
        put(&card, card.len());
        card.resize(card.len() + 1184, 0);
        put(&card, card.len());
        put(&card[..card.len() - 1], card.len() - 1);
        card.push(0);
        put(&card, card.len());
    }
}

/// Each count one more, one less and as high as it goes, at the items that stand there.
fn counts(random: &mut Random, compare: &mut Compare<Contact>) {
    for size in [EMPTY, FULL] {
        let contact = row_build::contact(random, size);
        let row = contact.row();
        for at in count_places(&contact) {
            let count = u16::from_be_bytes([row[at], row[at + 1]]);
            for other in [count.wrapping_sub(1), count + 1, count + 2, 500, 65_535] {
                let mut row = row.clone();
                row[at..at + 2].copy_from_slice(&other.to_be_bytes());
                compare.visit(&row);
                for size in at..row.len() {
                    compare.visit(&row[..size]);
                }
            }
        }
    }
}

/// Where the five counts stand: counted from the row's end, since what follows each is of known size.
fn count_places(contact: &Contact) -> Vec<usize> {
    let expired = 2 + 8 * contact.expired.len();
    let unacked = 2 + 4 * contact.unacked.len() + expired;
    let above = 2 + 8 * contact.above.len() + unacked;
    let skipped = 2 + 46 * contact.skipped.len() + 16 + above;
    let superseded = |chain: &Chain| 43 + if chain.superseded_s.is_some() { 8 } else { 0 };
    let chains: usize = 2 + contact.chains.iter().map(superseded).sum::<usize>() + skipped;
    let end = contact.row().len();
    [chains, skipped, above, unacked, expired]
        .map(|behind| end - behind)
        .to_vec()
}

/// 17 and 18: up to three chains, of two gens, two directions, superseded or not.
fn chains(random: &mut Random, compare: &mut Compare<Contact>) {
    let contact = row_build::contact(random, SMALL);
    let mut kinds = Vec::new();
    for gen_ in [7, 8, 9] {
        for dir in [I, R] {
            for superseded_s in [None, Some(0), Some(u64::MAX)] {
                kinds.push(Chain {
                    gen_,
                    dir,
                    next: random.next(),
                    key: random.array(),
                    superseded_s,
                });
            }
        }
    }
    for chains in lists(&kinds, 3) {
        let contact = Contact {
            chains,
            ..contact.clone()
        };
        compare.visit(&contact.row());
    }
}

/// 54, before 17 and 18: seven to ten chains, the last one current, none, the last two, or with one gen twice; each row cut at
/// every length behind the count, longer by a byte, and with a flag that is none in a chain.
fn many_chains(random: &mut Random, compare: &mut Compare<Contact>) {
    for size in [SMALL, FULL] {
        for count in 7..=10 {
            let contact = row_build::contact(
                random,
                Size {
                    chains: count,
                    ..size
                },
            );
            let mut variants = vec![contact.clone(); 4];
            variants[1].chains[count - 1].superseded_s = Some(random.next());
            variants[2].chains[count - 2].superseded_s = None;
            variants[3].chains[count - 1].gen_ = contact.chains[0].gen_;
            for contact in variants {
                let row = contact.row();
                let at = count_places(&contact)[0];
                compare.visit(&row);
                compare.visit(&[&row[..], &[0]].concat());
                (at..row.len()).for_each(|size| compare.visit(&row[..size]));
                let flags = at + 2 + 42;
                compare.set(&row, flags..flags + 1, &[2]);
            }
        }
    }
}

/// 19 and 20: repeats near and far, in the first and last place, in lists below, at and above 500.
fn skipped(random: &mut Random, compare: &mut Compare<Contact>) {
    let contact = row_build::contact(random, SMALL);
    let mut visit = |skipped: &[Skipped]| {
        let skipped = skipped.to_vec();
        let contact = Contact {
            skipped,
            ..contact.clone()
        };
        compare.visit(&contact.row());
    };
    for count in [0, 1, 2, 3, 10, 499, 500, 501, 502, 600] {
        let all = row_build::skipped(random, count);
        visit(&all);
        for (from, to) in [(0, 1), (0, count / 2), (0, count), (count / 2, count)] {
            if from + 1 < to.min(count) + 1 && from < count && to > 0 {
                let to = to.min(count - 1);
                let mut all = all.clone();
                (all[to].gen_, all[to].idx) = (all[from].gen_, all[from].idx);
                visit(&all);
                all[to].gen_ ^= 1;
                visit(&all);
            }
        }
    }
    let mut falling = row_build::skipped(random, 500);
    falling.reverse();
    visit(&falling);
    let kinds: Vec<Skipped> = [(1, I, 5), (1, R, 5), (2, I, 5), (1, I, 6), (2, R, 4)]
        .map(|(gen_, dir, idx)| Skipped {
            gen_,
            dir,
            idx,
            key: random.array(),
            created_s: random.next(),
        })
        .to_vec();
    for skipped in lists(&kinds, 4) {
        visit(&skipped);
    }
}

/// 21 and 22: acked and unacked on both sides of sent.
fn numbers(random: &mut Random, compare: &mut Compare<Contact>) {
    let contact = row_build::contact(random, EMPTY);
    for sent_msgno in [0, 1, 3, u32::MAX - 1, u32::MAX] {
        let near = [0, 1, 2, 3, 4, u32::MAX - 2, u32::MAX - 1, u32::MAX];
        for peer_acked in near {
            for unacked in lists(&near, 3) {
                let contact = Contact {
                    sent_msgno,
                    peer_acked,
                    peer_read: u32::MAX - peer_acked,
                    read_marked: sent_msgno.wrapping_add(1),
                    unacked,
                    ..contact.clone()
                };
                compare.visit(&contact.row());
            }
        }
    }
}

/// Every range over these numbers, also the wrong way round.
fn ranges(numbers: &[u32]) -> Vec<Range> {
    let both = |from: &u32| numbers.iter().map(|to| (*from, *to)).collect::<Vec<_>>();
    numbers.iter().flat_map(both).collect()
}

/// 23: lists of up to two ranges behind every contiguous, at both ends of the numbers.
fn above(random: &mut Random, compare: &mut Compare<Contact>) {
    let contact = row_build::contact(random, EMPTY);
    let last = u32::MAX;
    for numbers in [
        [0, 1, 2, 3, 4, 5, 6, 7],
        [1, 2, last - 5, last - 4, last - 3, last - 2, last - 1, last],
    ] {
        for above in lists(&ranges(&numbers), 2) {
            for contiguous in numbers {
                let contact = Contact {
                    contiguous,
                    above: above.clone(),
                    ..contact.clone()
                };
                compare.visit(&contact.row());
            }
        }
    }
}

/// 24: lists of up to three ranges under some sent numbers.
fn expired(random: &mut Random, compare: &mut Compare<Contact>) {
    let contact = Contact {
        peer_acked: 0,
        ..row_build::contact(random, EMPTY)
    };
    for expired in lists(&ranges(&[0, 1, 2, 3, 4, 5]), 3) {
        for sent_msgno in [0, 3, 5] {
            let contact = Contact {
                sent_msgno,
                expired: expired.clone(),
                ..contact.clone()
            };
            compare.visit(&contact.row());
        }
    }
    let last = u32::MAX;
    for expired in lists(&ranges(&[1, last - 3, last - 2, last - 1, last]), 2) {
        for sent_msgno in [last - 1, last] {
            let contact = Contact {
                sent_msgno,
                expired: expired.clone(),
                ..contact.clone()
            };
            compare.visit(&contact.row());
        }
    }
}

/// Every list of up to `longest` of the items.
pub fn lists<T: Clone>(items: &[T], longest: usize) -> Vec<Vec<T>> {
    let mut all = vec![Vec::new()];
    let mut last = all.clone();
    for _ in 0..longest {
        let mut next = Vec::new();
        for list in &last {
            for item in items {
                let mut list = list.clone();
                list.push(item.clone());
                next.push(list);
            }
        }
        all.extend(next.iter().cloned());
        last = next;
    }
    all
}

/// A random contact, with none to three of its lists broken, and its row perhaps changed.
fn generated(random: &mut Random) -> Vec<u8> {
    let size = Size {
        kci: random.below(8) == 0,
        name: random.below(49),
        pending: random.flag(),
        send: random.flag(),
        chains: match random.below(8) {
            0 => 7 + random.below(3),
            _ => random.below(4),
        },
        skipped: random.below(6),
        above: random.below(5),
        unacked: random.below(5),
        expired: random.below(5),
    };
    let mut contact = row_build::contact(random, size);
    for _ in 0..random.below(4) {
        broken(random, &mut contact);
    }
    let mut row = contact.row();
    if random.below(4) == 0 {
        changed(random, &mut row);
    }
    row
}

/// Something that one of 17 to 24 may mind; 54 is left to how many chains there are.
fn broken(random: &mut Random, contact: &mut Contact) {
    match random.below(8) {
        0 => contact.chains.iter_mut().for_each(|chain| {
            chain.superseded_s = random.flag().then(|| random.next());
        }),
        1 => {
            for chain in &mut contact.chains {
                chain.gen_ = random.below(4) as u8;
            }
        }
        2 => {
            for key in &mut contact.skipped {
                key.idx = random.below(6) as u32;
            }
        }
        3 => contact.sent_msgno = random.number(),
        4 => contact.peer_acked = random.number(),
        5 => contact
            .unacked
            .iter_mut()
            .for_each(|msgno| *msgno = random.number()),
        6 => contact.contiguous = random.number(),
        _ => broken_range(random, contact),
    }
}

fn broken_range(random: &mut Random, contact: &mut Contact) {
    let ranges = if random.flag() {
        &mut contact.above
    } else {
        &mut contact.expired
    };
    if !ranges.is_empty() {
        let at = random.below(ranges.len());
        let (from, to) = ranges[at];
        ranges[at] = match random.below(4) {
            0 => (to, from),
            1 => (from.saturating_sub(random.below(20) as u32), to),
            2 => (from, to.saturating_add(random.below(20) as u32)),
            _ => (random.number(), random.number()),
        };
    }
}
