//! Covers in another order (document 02's A11), tried on a program: behind the same calls, orders of the same covers in which
//! none is refused write the same row and count as many new numbers, and these are as many as the row then has more. Only
//! what the program prints is looked at; the model helps to make lists that are worth trying.

use crate::generate::inputs::Random;
use crate::generate::script_build::range_near;
use crate::generate::script_stores;
use crate::model::calls::Call;
use crate::model::memory::HAS;
use crate::model::number_set::{NumberSet, numbers_in};
use crate::model::rows::{self, Contact, Range};
use crate::model::runner::Runner;
use crate::model::script::{self, Step};
use crate::model::store::CONTACT;
use crate::programs::answers;
use crate::programs::program::Program;

/// So many groups for each of TIMES.
const GROUPS: u64 = 1_000;
/// So many groups in one run of the program.
const BATCH: usize = 50;
/// So many orders of the same covers are a group.
const ORDERS: usize = 4;
/// So many differences are shown.
const SHOWN: usize = 3;
/// Which of the lent lengths is for the ranges above contiguous, and which the output's.
const ABOVE: usize = 2;
const OUT: usize = 5;

/// The same covers in some orders.
struct Group {
    /// What each order is made behind, from `script` on; the last step is `state`.
    beginning: Vec<Step>,
    ranges: Vec<Range>,
    /// The covers with the lengths that are lent to them, and `write`.
    orders: Vec<Vec<Step>>,
}

/// An order in which nothing was refused: what its covers answered, and the row.
struct Ended<'a> {
    covers: Vec<&'a str>,
    total: u64,
    row: &'a str,
}

/// What came.
#[derive(Default)]
struct Seen {
    groups: u64,
    /// Orders in which a call was refused.
    refused: u64,
    /// Orders that were held to the first of their group.
    compared: u64,
    /// Groups in which single answers differ.
    unlike: u64,
    /// Groups whose ranges have more numbers than were new.
    shared: u64,
    different: usize,
}

pub fn check(seed: u64, times: u64, program: Program) -> bool {
    let mut random = Random::new(seed);
    let mut seen = Seen::default();
    while seen.groups < GROUPS * times {
        let groups: Vec<Group> = (0..BATCH).map(|_| group(&mut random)).collect();
        let text: String = groups.iter().map(text).collect();
        let printed = answers::printed(program, &text);
        let mut lines = printed.iter().map(String::as_str);
        for group in &groups {
            let answers = answers(group, &mut lines);
            seen.count(group, &answers);
        }
        assert_eq!(lines.next(), None, "the program prints one line a step");
    }
    seen.print()
}

fn text(group: &Group) -> String {
    let begun = answers::text(&group.beginning);
    let orders = group.orders.iter();
    orders
        .map(|order| begun.clone() + &answers::text(order))
        .collect()
}

/// Of each order what was printed for its beginning, and for the rest.
fn answers<'a>(group: &Group, lines: &mut impl Iterator<Item = &'a str>) -> Vec<[Vec<&'a str>; 2]> {
    let mut take = |steps: &[Step]| {
        let answered = steps.iter().filter(|step| step.answers());
        lines.by_ref().take(answered.count()).collect()
    };
    let orders = group.orders.iter();
    orders
        .map(|order| [take(&group.beginning), take(order)])
        .collect()
}

/// None if a call was refused.
fn ended<'a>(answers: &[&'a str]) -> Option<Ended<'a>> {
    let (row, covers) = answers.split_last()?;
    let added = covers.iter().map(|cover| {
        let words: Vec<&str> = cover.split(' ').collect();
        match words[..] {
            ["=", "true" | "false", added] => added.parse::<u64>().ok(),
            _ => None,
        }
    });
    Some(Ended {
        covers: covers.to_vec(),
        total: added.sum::<Option<u64>>()?,
        row: row
            .strip_prefix("= ")
            .filter(|row| !row.starts_with("no "))?,
    })
}

/// How many numbers a row covers.
fn covered_in(row: &str) -> Option<u64> {
    let contact = rows::contact(3, &script::bytes(row)?).answer.ok()?;
    Some(u64::from(contact.contiguous) + numbers_in(&contact.above))
}

impl Seen {
    fn count(&mut self, group: &Group, answers: &[[Vec<&str>; 2]]) {
        let ended: Vec<Ended> = answers.iter().filter_map(|[_, own]| ended(own)).collect();
        self.groups += 1;
        self.refused += (answers.len() - ended.len()) as u64;
        let Some((first, others)) = ended.split_first() else {
            return;
        };
        self.compared += others.len() as u64;
        self.unlike += u64::from(others.iter().any(|other| other.covers != first.covers));
        self.shared += u64::from(first.total < numbers_in(&group.ranges));
        let [beginning, _] = &answers[0];
        let one_state = answers.iter().all(|[other, _]| other == beginning);
        let same = |other: &Ended| other.row == first.row && other.total == first.total;
        if !one_state || !others.iter().all(same) || more(beginning, first) != Some(first.total) {
            self.different += 1;
            if self.different <= SHOWN {
                println!("{}{answers:#?}", text(group));
            }
        }
    }

    /// Prints the counts; whether nothing differed, and everything came that must.
    fn print(&self) -> bool {
        let Self {
            groups,
            refused,
            compared,
            unlike,
            shared,
            different,
        } = self;
        println!("{groups} groups of {ORDERS} orders");
        println!("  with a refusal: {refused}, held to the first of their group: {compared}");
        println!(
            "  groups in which single answers differ: {unlike}, and numbers are shared: {shared}"
        );
        println!("orders: {different} different");
        let all = [refused, compared, unlike, shared];
        *different == 0 && all.into_iter().all(|count| *count > 0)
    }
}

/// How many numbers more the row has than the one that `state` shows before the covers.
fn more(beginning: &[&str], ended: &Ended) -> Option<u64> {
    let before = beginning.last()?.split(' ').nth(2)?;
    covered_in(ended.row)?.checked_sub(covered_in(before)?)
}

/// Two to eight covers, some of them twice, of a contact that was opened and has perhaps covered and taken numbers since.
fn group(random: &mut Random) -> Group {
    let (mut beginning, mut runner) = opened(random);
    for _ in 0..random.below(4) {
        let (from, to) = range(random, &runner);
        let call = random.pick(&[Call::Take, Call::Cover(from, to)]);
        runner.step(&Step::Call(call));
        beginning.push(Step::Call(call));
    }
    beginning.push(Step::State);
    let mut ranges = Vec::new();
    for _ in 0..2 + random.below(7) {
        let again = !ranges.is_empty() && random.below(4) == 0;
        let next = match again {
            true => random.pick(&ranges),
            false => range(random, &runner),
        };
        ranges.push(next);
    }
    let contact = runner.ledger.opened().expect("it is open").fields();
    let orders = (0..ORDERS).map(|at| {
        let ranges = reordered(random, &ranges, at);
        order(random, &contact, ranges)
    });
    let orders = orders.collect();
    Group {
        beginning,
        ranges,
        orders,
    }
}

/// A store, and one of its contacts opened, with everything lent.
fn opened(random: &mut Random) -> (Vec<Step>, Runner) {
    loop {
        let mut steps = vec![Step::Script(1), script_stores::granted(random)];
        let mut runner = Runner::new();
        steps.iter().for_each(|step| drop(runner.step(step)));
        let store = runner.ledger.store().expect("the store is granted");
        let contacts = store.entries.iter().filter(|entry| entry.kind == CONTACT);
        let ids: Vec<u64> = contacts.map(|entry| entry.id).collect();
        if ids.is_empty() {
            continue;
        }
        steps.push(Step::Call(Call::Open(random.pick(&ids))));
        runner.step(&steps[2]);
        return (steps, runner);
    }
}

/// A range that may be covered, near an end of what is.
fn range(random: &mut Random, runner: &Runner) -> Range {
    let runs = runner.ledger.opened().expect("it is open").covered().runs();
    loop {
        let (from, to) = range_near(random, &runs);
        if 1 <= from && from <= to {
            return (from, to);
        }
    }
}

/// As they are, the other way round, and shuffled.
fn reordered(random: &mut Random, ranges: &[Range], at: usize) -> Vec<Range> {
    let mut ranges = ranges.to_vec();
    match at {
        0 => {}
        1 => ranges.reverse(),
        _ => (1..ranges.len()).for_each(|end| ranges.swap(end, random.below(end + 1))),
    }
    ranges
}

/// The covers and a write, with what is lent just long enough, longer, or seldom too short.
fn order(random: &mut Random, contact: &Contact, ranges: Vec<Range>) -> Vec<Step> {
    let mut steps = Vec::new();
    let mut contact = contact.clone();
    let mut covered = NumberSet::of_row(contact.contiguous, &contact.above);
    let near = |random: &mut Random, needed: usize| match random.below(24) {
        0 => needed.saturating_sub(1),
        _ => needed + random.pick(&[0, 0, 1, 2]),
    };
    for (from, to) in ranges {
        let before = covered.above().len();
        covered = covered.with(from, to);
        let mut lengths = HAS;
        if random.flag() {
            lengths[ABOVE] = near(random, before.max(covered.above().len()));
        }
        steps.extend([Step::Lend(lengths), Step::Call(Call::Cover(from, to))]);
    }
    contact.contiguous = covered.contiguous();
    contact.above = covered.above();
    let mut lengths = HAS;
    lengths[OUT] = near(random, contact.row().len());
    steps.extend([Step::Lend(lengths), Step::Call(Call::Write)]);
    steps
}
