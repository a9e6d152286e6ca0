//! Covered numbers: `Received::contains`, `covers` and `insert`, on canonical state and 1 <= from <= to. The Rust's `insert`
//! says whether contiguous moved; how many numbers are new (02, A2) is compared with the model and with a count of its own.

use crate::compare::tally::Tally;
use crate::generate::inputs::Random;
use crate::model::covered::Covered;
use crate::model::number_set::numbers_in;
use crate::model::questions;
use crate::model::rows::Range;
use crate::rattle;
use crate::state::Received;

/// Every set of numbers up to this one, and ranges that go a little further.
const HIGHEST: u32 = 10;
const BEYOND: u32 = HIGHEST + 2;
/// Numbers that the list is lent beyond those that it holds.
const MORE: [usize; 6] = [0, 1, 2, 3, 4, 7];
/// What stands in lent places that hold no range.
const FILL: u32 = 0xa5a5_a5a5;
const UNTOUCHED: u64 = 0xa5a5_a5a5_a5a5_a5a5;
/// How many places the answer takes.
const ANSWER: usize = 4;
const HISTORIES: usize = 2_000;
const STEPS: usize = 40;
/// One more than the most ranges that a count holds.
const TOO_MANY: u32 = 65_536;

pub fn run(seed: u64, times: usize) -> bool {
    let mut tallies = Tallies {
        insert: Tally::new("insert", "calls"),
        contains: Tally::new("contains", "calls"),
        covers: Tally::new("covers", "calls"),
    };
    every_set(&mut tallies);
    let mut random = Random::new(seed);
    for _ in 0..HISTORIES * times {
        history(&mut random, &mut tallies);
    }
    at_the_limit(&mut tallies);
    tallies.insert.print_all(&[0, 1, questions::LIMIT])
        & tallies.contains.print_all(&[0, 1])
        & tallies.covers.print_all(&[0, 1])
}

struct Tallies {
    insert: Tally,
    contains: Tally,
    covers: Tally,
}

/// A record of covered numbers, as a contact row has it.
#[derive(Debug, Clone, PartialEq)]
struct Record {
    contiguous: u32,
    above: Vec<Range>,
}

impl Record {
    /// Of the set in which `number` is if its bit is 1.
    fn of_bits(bits: u32) -> Self {
        let contains = |number: u32| bits >> number & 1 == 1;
        let contiguous = (1..).find(|number| !contains(*number)).unwrap_or(0) - 1;
        let starts = (contiguous + 1..32).filter(|from| contains(*from) && !contains(from - 1));
        let end = |from| (from..32).find(|to| *to == 31 || !contains(to + 1));
        let above = starts.map(|from| (from, end(from).unwrap_or(31)));
        Self {
            contiguous,
            above: above.collect(),
        }
    }

    fn rust(&self) -> Received {
        Received {
            contiguous: self.contiguous,
            above: self.above.clone(),
        }
    }

    fn model(&self) -> Covered {
        Covered::of(self.contiguous, &self.above)
    }

    /// How many numbers it has.
    fn size(&self) -> u64 {
        u64::from(self.contiguous) + numbers_in(&self.above)
    }

    /// The lent list: the ranges, and places that hold none.
    fn lent(&self, more: usize) -> Vec<u32> {
        let mut list: Vec<u32> = self
            .above
            .iter()
            .flat_map(|(from, to)| [*from, *to])
            .collect();
        list.resize(list.len() + more, FILL);
        list
    }
}

/// Every set of numbers up to `HIGHEST`, with every range, number and a few lent lengths. Here a set is bits.
fn every_set(tallies: &mut Tallies) {
    for bits in (0..2u32 << HIGHEST).step_by(2) {
        let record = Record::of_bits(bits);
        let sets = |from: u32, to: u32| (2u32 << to) - (1 << from);
        for number in 0..=BEYOND + 1 {
            compare_contains(tallies, &record, number, bits >> number & 1 == 1);
        }
        for to in 1..=BEYOND {
            for from in 1..=to {
                let added = sets(from, to);
                compare_covers(tallies, &record, from, to, bits & added == added);
                let after = Record::of_bits(bits | added);
                let new = (added & !bits).count_ones();
                assert_eq!(
                    after.size() - record.size(),
                    new.into(),
                    "{bits:b} {added:b}"
                );
                for more in MORE {
                    compare_insert(tallies, &record, more, (from, to), &after);
                }
            }
        }
    }
}

fn compare_contains(tallies: &mut Tallies, record: &Record, number: u32, due: bool) {
    let rust = record.rust().contains(number);
    let model = record.model().contains(number);
    let mut same = rust == due && model == due;
    for (list, count) in lent_lists(record) {
        same &= rattle::contains(record.contiguous, &list, count, number) == due.into();
    }
    tallies.contains.count(due.into(), same, || {
        format!("{record:?} {number}: due {due}, Rust {rust}, 01 {model}")
    });
}

fn compare_covers(tallies: &mut Tallies, record: &Record, from: u32, to: u32, due: bool) {
    let rust = record.rust().covers(from, to);
    let model = record.model().covers(from, to);
    let mut same = rust == due && model == Ok(due);
    for (list, count) in lent_lists(record) {
        same &= rattle::covers(record.contiguous, &list, count, (from, to)) == due.into();
    }
    tallies.covers.count(due.into(), same, || {
        format!("{record:?} {from}..{to}: due {due}, Rust {rust}, 01 {model:?}")
    });
}

/// The list as long as its ranges, with a count that is right or too high, and longer.
fn lent_lists(record: &Record) -> [(Vec<u32>, usize); 3] {
    let count = record.above.len();
    [
        (record.lent(0), count),
        (record.lent(1), count + 1),
        (record.lent(3), count),
    ]
}

/// `after` is what covering the range gives where there is room; it has so many numbers more as are new.
fn compare_insert(
    tallies: &mut Tallies,
    record: &Record,
    more: usize,
    (from, to): Range,
    after: &Record,
) {
    let mut rust = record.rust();
    let moved = rust.insert(from, to);
    let before = record.lent(more);
    let model = record.model().cover(from, to, before.len() / 2);
    let fits = after.above.len() <= before.len() / 2;
    let mut same = (rust.contiguous, &rust.above) == (after.contiguous, &after.above)
        && moved == (after.contiguous != record.contiguous)
        && model.is_ok() == (fits && after.above.len() < TOO_MANY as usize);
    let due = match &model {
        Ok((covered, model_moved, model_added)) => {
            same &= covered.contiguous() == after.contiguous
                && covered.above() == after.above
                && *model_moved == moved
                && *model_added == after.size() - record.size();
            u32::from(moved)
        }
        Err(number) => *number,
    };
    let rattle = rattle_insert(record, before.clone(), (from, to), ANSWER);
    same &= rattle == due_left(&model, record, after, before.clone());
    // No room for the answer: 40, if not 38, and nothing is changed.
    let number = if model.is_ok() {
        questions::OUTPUT
    } else {
        due
    };
    let short = rattle_insert(record, before.clone(), (from, to), ANSWER - 1);
    same &= short == (number, before, vec![UNTOUCHED; ANSWER - 1]);
    tallies.insert.count(due, same, || {
        format!("{record:?} {from}..{to}, {more} more places: due {due} {after:?}, Rust {moved} {rust:?}, Rattle {rattle:?} and {short:?}")
    });
}

type Cover = Result<(Covered, bool, u64), u32>;
/// The number answered, the list of ranges and the answer afterwards.
type Left = (u32, Vec<u32>, Vec<u64>);

fn rattle_insert(record: &Record, mut list: Vec<u32>, range: Range, room: usize) -> Left {
    let mut answer = vec![UNTOUCHED; room];
    let count = record.above.len();
    let number = rattle::insert(record.contiguous, &mut list, count, range, &mut answer);
    (number, list, answer)
}

/// Granted: the ranges, 0 in the places that they leave free, the rest as it was; and contiguous, the count, whether it
/// moved, how many numbers are new. A refusal changes nothing.
fn due_left(model: &Cover, record: &Record, after: &Record, before: Vec<u32>) -> Left {
    let moved = match model {
        Ok((_, moved, _)) => *moved,
        Err(number) => return (*number, before, vec![UNTOUCHED; ANSWER]),
    };
    let mut list = after.lent(0);
    list.resize(list.len().max(2 * record.above.len()), 0);
    list.extend_from_slice(&before[list.len()..]);
    let count = after.above.len() as u64;
    let added = after.size() - record.size();
    let answer = vec![after.contiguous.into(), count, moved.into(), added];
    (0, list, answer)
}

/// Covers one after the other, over all numbers of 32 bits, and often next to what is covered already.
fn history(random: &mut Random, tallies: &mut Tallies) {
    let mut record = Record {
        contiguous: random.number(),
        above: Vec::new(),
    };
    if random.flag() {
        record.contiguous = 0;
    }
    for _ in 0..STEPS {
        let (one, other) = (number(random, &record), number(random, &record));
        let (from, to) = (one.min(other), one.max(other));
        let covered = record.model();
        compare_contains(tallies, &record, one, covered.contains(one));
        let all = covered.covers(from, to) == Ok(true);
        compare_covers(tallies, &record, from, to, all);
        let (after, _, _) = covered
            .cover(from, to, usize::MAX)
            .expect("1 <= from <= to, and room");
        let after = Record {
            contiguous: after.contiguous(),
            above: after.above(),
        };
        compare_insert(tallies, &record, random.below(4), (from, to), &after);
        record = after;
    }
}

/// A number from 1 on: any, one near an end of a range, one near the highest.
fn number(random: &mut Random, record: &Record) -> u32 {
    let near = match random.below(4) {
        0 => random.number(),
        1 => u32::MAX - random.number(),
        2 if !record.above.is_empty() => {
            let (from, to) = record.above[random.below(record.above.len())];
            if random.flag() { from } else { to }
        }
        _ => record.contiguous,
    };
    let near = near.saturating_add(random.below(5) as u32);
    near.saturating_sub(2).max(1)
}

/// 65,535 ranges and room for more: another one is 38, one that joins two is not.
fn at_the_limit(tallies: &mut Tallies) {
    let above = |count: u32| {
        (1..=count)
            .map(|index| (4 * index, 4 * index + 1))
            .collect()
    };
    for count in [TOO_MANY - 2, TOO_MANY - 1] {
        let record = Record {
            contiguous: 1,
            above: above(count),
        };
        for (from, to) in [
            (6, 7),
            (2, 3),
            (2, 2),
            (10, 10),
            (7, 7),
            (4 * TOO_MANY + 8, u32::MAX),
        ] {
            let (after, _) = joined(&record, from, to);
            compare_insert(tallies, &record, 12, (from, to), &after);
        }
    }
}

/// What the Rust makes of it, where the count does not matter.
fn joined(record: &Record, from: u32, to: u32) -> (Record, bool) {
    let mut rust = record.rust();
    let moved = rust.insert(from, to);
    let record = Record {
        contiguous: rust.contiguous,
        above: rust.above,
    };
    (record, moved)
}
