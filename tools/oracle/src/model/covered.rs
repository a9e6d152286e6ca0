//! A model of covered numbers, from document 01's ledger alone: S is a set of numbers from 1 on, here as its maximal
//! runs in rising order, in 64 bits. Nothing is merged step by step: a set is its sorted ranges, joined once.
//! How many numbers a cover adds came later, from document 02 (A2), by an author who knew the Rattle's definition of it.

use crate::model::questions::{LIMIT, RANGE, ask};
use crate::model::rows::Range;

/// The most ranges that a count holds.
const COUNTED: usize = 65_535;

#[derive(Debug, Clone, PartialEq)]
pub struct Covered {
    runs: Vec<(u64, u64)>,
}

impl Covered {
    /// 1..contiguous with all `above` ranges.
    pub fn of(contiguous: u32, above: &[Range]) -> Self {
        let mut ranges = vec![(1, u64::from(contiguous))];
        ranges.extend(
            above
                .iter()
                .map(|(from, to)| ((*from).into(), (*to).into())),
        );
        Self::joined(ranges)
    }

    fn joined(mut ranges: Vec<(u64, u64)>) -> Self {
        ranges.retain(|(from, to)| from <= to);
        ranges.sort();
        let mut runs: Vec<(u64, u64)> = Vec::new();
        for (from, to) in ranges {
            match runs.last_mut() {
                Some((_, end)) if from <= *end + 1 => *end = to.max(*end),
                _ => runs.push((from, to)),
            }
        }
        Self { runs }
    }

    pub fn contains(&self, number: u32) -> bool {
        let number = number.into();
        let holds = |(from, to): &(u64, u64)| *from <= number && number <= *to;
        self.runs.iter().any(holds)
    }

    /// Is all of from..to in S? (37)
    pub fn covers(&self, from: u32, to: u32) -> Result<bool, u32> {
        ask(RANGE, 1 <= from && from <= to)?;
        let holds = |run: &(u64, u64)| run.0 <= from.into() && u64::from(to) <= run.1;
        Ok(self.runs.iter().any(holds))
    }

    /// S with from..to, where so many pairs are lent, whether contiguous moved, and how many numbers were not in S. (37, 38)
    pub fn cover(&self, from: u32, to: u32, lent: usize) -> Result<(Self, bool, u64), u32> {
        ask(RANGE, 1 <= from && from <= to)?;
        let more = (u64::from(from), u64::from(to));
        let after = Self::joined([&self.runs[..], &[more]].concat());
        ask(LIMIT, after.above().len() <= lent.min(COUNTED))?;
        let moved = after.contiguous() != self.contiguous();
        Ok((after, moved, self.missing(more)))
    }

    /// How many of from..to are not in S: all but those that a run shares with it.
    fn missing(&self, (from, to): (u64, u64)) -> u64 {
        let shared = |run: &(u64, u64)| (run.1.min(to) + 1).saturating_sub(run.0.max(from));
        to + 1 - from - self.runs.iter().map(shared).sum::<u64>()
    }

    /// The greatest c with 1..c in S, else 0.
    pub fn contiguous(&self) -> u32 {
        match self.runs.first() {
            Some((1, to)) => narrow(*to),
            _ => 0,
        }
    }

    /// The runs that do not start at 1, rising.
    pub fn above(&self) -> Vec<Range> {
        let beyond = self.runs.iter().filter(|(from, _)| *from != 1);
        beyond
            .map(|(from, to)| (narrow(*from), narrow(*to)))
            .collect()
    }
}

fn narrow(number: u64) -> u32 {
    number.try_into().expect("numbers are of 32 bits")
}
