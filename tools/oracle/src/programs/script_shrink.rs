//! The shortest list of calls that still differs.

use crate::model::script::Step;
use crate::model::store::{Entry, Store};
use crate::programs::answers::{answers, printed, text};
use crate::programs::program::Program;

/// The program is run so often at most.
const RUNS: usize = 1_500;

pub fn differs(program: Program, steps: &[Step]) -> bool {
    let due: Vec<String> = answers(steps).into_iter().map(|(_, line)| line).collect();
    due != printed(program, &text(steps))
}

/// Steps are left out, then lines of stores, for as long as the list differs.
fn smallest(program: Program, steps: &[Step]) -> Vec<Step> {
    let mut runs = 0;
    let mut still = |steps: &[Step]| {
        runs += 1;
        runs <= RUNS && differs(program, steps)
    };
    let mut steps = without(steps.to_vec(), 1, &mut still);
    for at in 0..steps.len() {
        match steps[at].clone() {
            Step::Restore(lines) => {
                let lines = without(lines, 0, &mut |lines| {
                    still(&with(&steps, at, Step::Restore(lines.to_vec())))
                });
                steps[at] = Step::Restore(lines);
            }
            Step::RawRestore(Store { run, entries }) => {
                let of = |entries: &[Entry]| {
                    let (run, entries) = (run.clone(), entries.to_vec());
                    Step::RawRestore(Store { run, entries })
                };
                let entries = without(entries, 0, &mut |entries| {
                    still(&with(&steps, at, of(entries)))
                });
                steps[at] = of(&entries);
            }
            _ => {}
        }
    }
    without(steps, 1, &mut still)
}

fn with(steps: &[Step], at: usize, step: Step) -> Vec<Step> {
    let mut steps = steps.to_vec();
    steps[at] = step;
    steps
}

/// What of these is left when as many as can be are taken out; the first `kept` stay.
pub fn without<T: Clone>(
    mut items: Vec<T>,
    kept: usize,
    still: &mut impl FnMut(&[T]) -> bool,
) -> Vec<T> {
    let mut size = items.len().div_ceil(2);
    while size > 0 {
        let mut at = kept;
        while at < items.len() {
            let mut fewer = items.clone();
            fewer.drain(at..(at + size).min(items.len()));
            if still(&fewer) {
                items = fewer;
            } else {
                at += size;
            }
        }
        size /= 2;
    }
    items
}

/// Prints the shortest list that differs, with what is due and what the program prints.
pub fn show(program: Program, steps: &[Step]) {
    let steps = smallest(program, steps);
    let printed = printed(program, &text(&steps));
    let mut printed = printed.iter();
    let answered = answers(&steps);
    let mut due = answered.iter();
    println!("# differs:");
    for step in &steps {
        println!("{step}");
        if !step.answers() {
            continue;
        }
        let (due, printed) = (due.next().map(|(_, line)| line), printed.next());
        println!("{}", due.map_or("", String::as_str));
        if due != printed {
            println!(
                "# the program prints: {}",
                printed.map_or("nothing", String::as_str)
            );
        }
    }
    for line in printed {
        println!("# the program prints more: {line}");
    }
}
