//! What one comparison counts and prints.

use std::collections::BTreeMap;

/// How many differences are printed; the rest are only counted.
const SHOWN: u64 = 5;

pub struct Tally {
    name: &'static str,
    unit: &'static str,
    cases: u64,
    different: u64,
    /// How often each answer was due, to show that every one of them was tried.
    answers: BTreeMap<u32, u64>,
}

impl Tally {
    pub fn new(name: &'static str, unit: &'static str) -> Self {
        Self {
            name,
            unit,
            cases: 0,
            different: 0,
            answers: BTreeMap::new(),
        }
    }

    /// Counts a case whose due answer is `answer`; `difference` is asked only of one that differs.
    pub fn count(&mut self, answer: u32, same: bool, difference: impl FnOnce() -> String) {
        self.cases += 1;
        *self.answers.entry(answer).or_default() += 1;
        if !same {
            self.different += 1;
            if self.different <= SHOWN {
                println!("{} differs: {}", self.name, difference());
            }
        }
    }

    /// As `print`; and each of these answers must have been due at least once, and no other.
    pub fn print_all(&self, answers: &[u32]) -> bool {
        let due: Vec<u32> = self.answers.keys().copied().collect();
        if due != answers {
            println!("{}: answers due were to be {answers:?}", self.name);
        }
        self.print() & (due == answers)
    }

    /// Prints the line of this comparison; whether nothing differed.
    pub fn print(&self) -> bool {
        let answers: Vec<String> = self
            .answers
            .iter()
            .map(|(answer, cases)| format!("{answer}: {cases}"))
            .collect();
        println!(
            "{}: {} {}, {} different (answers {})",
            self.name,
            self.cases,
            self.unit,
            self.different,
            answers.join(", ")
        );
        self.different == 0
    }
}
