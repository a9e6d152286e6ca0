//! S of document 01's ledger with the count of document 02's A2, and the expired numbers of its A5: sets of numbers from 1 to
//! 2^32 - 1.
//!
//! What was put into it is kept as it came and never joined. A number is in S if one of these ranges holds it; the least
//! number missing is found by going from range to range; and the maximal runs are found by counting, at each number where
//! that changes, how many ranges hold it. Near both ends of the numbers S is also kept number by number, and each set
//! made is held to that.

use crate::model::rows::Range;
use std::collections::{BTreeMap, BTreeSet};

/// So many numbers at either end are kept one by one.
const WINDOW: u64 = 48;
const HIGHEST: u64 = u32::MAX as u64;

#[derive(Debug, Clone, Default)]
pub struct NumberSet {
    /// In 64 bits, so that one more than the highest number is a number too.
    parts: Vec<(u64, u64)>,
    windows: BTreeSet<u64>,
}

/// The numbers that are kept one by one.
fn windows() -> impl Iterator<Item = u64> {
    (1..=WINDOW).chain(HIGHEST - WINDOW + 1..=HIGHEST)
}

impl NumberSet {
    /// All of these ranges; one whose from is above its to has no numbers.
    pub fn of(ranges: &[Range]) -> Self {
        let mut set = Self::default();
        for (from, to) in ranges {
            set.put(*from, *to);
        }
        set.check();
        set
    }

    /// 1..contiguous with all `above` ranges.
    pub fn of_row(contiguous: u32, above: &[Range]) -> Self {
        Self::of(&[&[(1, contiguous)], above].concat())
    }

    pub fn with(&self, from: u32, to: u32) -> Self {
        let mut set = self.clone();
        set.put(from, to);
        set.check();
        set
    }

    /// How many numbers S has more with from..to: the size after, less before. Those of from..to that are missing are as
    /// many, and are counted singly where all of it is kept one by one.
    pub fn added(&self, from: u32, to: u32) -> u64 {
        let size = |set: &Self| numbers_in(&set.runs());
        let added = size(&self.with(from, to)) - size(self);
        let (from, to) = (u64::from(from), u64::from(to));
        assert_eq!(added, self.missing(from, to), "{from}..{to} in {self:?}");
        if to <= WINDOW || HIGHEST - WINDOW < from {
            let singly = (from..=to).filter(|number| !self.windows.contains(number));
            assert_eq!(added, singly.count() as u64, "{from}..{to} in {self:?}");
        }
        added
    }

    /// How many of from..to are not in S, from one hole to the next.
    fn missing(&self, from: u64, to: u64) -> u64 {
        let (mut number, mut missing) = (self.least_missing(from), 0);
        while number <= to {
            let starts = self.parts.iter().map(|(start, _)| *start);
            let next = starts.filter(|start| number < *start).min();
            let end = next.map_or(to + 1, |start| start.min(to + 1));
            missing += end - number;
            number = self.least_missing(end);
        }
        missing
    }

    fn put(&mut self, from: u32, to: u32) {
        let (from, to) = (u64::from(from), u64::from(to));
        if from <= to {
            self.parts.push((from, to));
            self.windows
                .extend(windows().filter(|number| from <= *number && *number <= to));
        }
    }

    fn holds(&self, number: u64) -> bool {
        self.parts
            .iter()
            .any(|(from, to)| *from <= number && number <= *to)
    }

    pub fn contains(&self, number: u32) -> bool {
        self.holds(number.into())
    }

    /// Is all of from..to in S?
    pub fn covers(&self, from: u32, to: u32) -> bool {
        self.least_missing(from.into()) > u64::from(to)
    }

    /// The greatest c with 1..c in S, else 0.
    pub fn contiguous(&self) -> u32 {
        narrow(self.least_missing(1) - 1)
    }

    /// The least number from `number` on that is not in S.
    fn least_missing(&self, mut number: u64) -> u64 {
        loop {
            let holding = self
                .parts
                .iter()
                .filter(|(from, to)| *from <= number && number <= *to);
            match holding.map(|(_, to)| *to).max() {
                Some(to) => number = to + 1,
                None => return number,
            }
        }
    }

    /// The maximal runs, rising.
    pub fn runs(&self) -> Vec<Range> {
        let mut changes: BTreeMap<u64, i64> = BTreeMap::new();
        for (from, to) in &self.parts {
            *changes.entry(*from).or_default() += 1;
            *changes.entry(to + 1).or_default() -= 1;
        }
        let mut runs = Vec::new();
        let (mut holding, mut start) = (0, 0);
        for (number, change) in changes {
            let before = holding;
            holding += change;
            if before == 0 && holding > 0 {
                start = number;
            }
            if before > 0 && holding == 0 {
                runs.push((narrow(start), narrow(number - 1)));
            }
        }
        runs
    }

    /// The maximal runs that do not start at 1, rising.
    pub fn above(&self) -> Vec<Range> {
        let mut runs = self.runs();
        runs.retain(|(from, _)| *from != 1);
        runs
    }

    /// How many numbers of the set are above this one: all but those up to it. Where they are all kept one by one, they
    /// are also counted so.
    pub fn count_above(&self, number: u32) -> u64 {
        let number = u64::from(number);
        let up_to = |(from, to): &(u64, u64)| (narrow(*from), narrow((*to).min(number)));
        let passed: Vec<Range> = self.parts.iter().map(up_to).collect();
        let count = numbers_in(&self.runs()) - numbers_in(&Self::of(&passed).runs());
        let low = self.parts.iter().all(|(_, to)| *to <= WINDOW);
        if low || number >= HIGHEST - WINDOW {
            let singly = self.windows.iter().filter(|single| **single > number);
            assert_eq!(count, singly.count() as u64, "above {number} in {self:?}");
        }
        count
    }

    /// The ways of finding out agree, at the ends number by number.
    fn check(&self) {
        let runs = self.runs();
        let first = runs.first().filter(|run| run.0 == 1).map_or(0, |run| run.1);
        assert_eq!(self.contiguous(), first, "{self:?}");
        let in_runs = |number: u64| {
            let holds = |run: &Range| u64::from(run.0) <= number && number <= u64::from(run.1);
            runs.iter().any(holds)
        };
        for number in windows() {
            let within = self.windows.contains(&number);
            assert_eq!(self.holds(number), within, "{number} in {self:?}");
            assert_eq!(in_runs(number), within, "{number} in {runs:?}");
        }
    }
}

/// How many numbers these ranges have, which do not overlap.
pub fn numbers_in(ranges: &[Range]) -> u64 {
    let size = |(from, to): &Range| u64::from(*to) - u64::from(*from) + 1;
    ranges.iter().map(size).sum()
}

fn narrow(number: u64) -> u32 {
    number.try_into().expect("numbers are of 32 bits")
}
