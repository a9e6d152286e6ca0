//! What the gate has `replay` run: the script of samples/, then of short random lists those with an answer that none before
//! them has, the shortest first, and last a line that is none. The transcript is the model's.

use crate::model::runner::replay;
use crate::model::script::Step;
use crate::programs::answers::{answers, text};
use crate::programs::expired;
use crate::programs::scripts::{COVER, class, each, stated};
use std::collections::BTreeSet;
use std::path::Path;

/// Fixed: the same lists every time.
const SEED: u64 = 1;
const TIMES: u64 = 1;
/// The most bytes of a list.
const LONGEST: usize = 5_000;
const LISTS: &str = "
# Lists of calls made by tools/oracle (scripts 1 1): the shortest with an answer that none before them has.
";
const NONE: &str = "
# A line that is none ends the program.
state
fly
open 1
";

/// `stdin` and `stdout` of the program's crate; `script` is that of samples/.
pub fn write(folder: &Path, script: &str) -> std::io::Result<()> {
    let mut lists: Vec<Vec<Step>> = Vec::new();
    each(SEED, TIMES, |made| lists.push(made.steps));
    lists.retain(|steps| text(steps).len() <= LONGEST);
    lists.sort_by_key(|steps| text(steps).len());
    let mut seen = BTreeSet::new();
    lists.retain(|steps| {
        let before = seen.len();
        seen.extend(kinds_of(steps));
        seen.len() > before
    });
    let covers = COVER.map(|answer| named("cover", "", answer));
    for kind in expired::WAYS.map(String::from).into_iter().chain(covers) {
        assert!(seen.contains(&kind), "no short list has {kind}");
    }
    let chosen: String = lists.iter().map(|steps| text(steps)).collect();
    let input = [script, LISTS, &chosen, NONE].concat();
    println!("stdin: {} lists, {} bytes", lists.len(), input.len());
    std::fs::create_dir_all(folder)?;
    std::fs::write(folder.join("stdout"), replay(&input))?;
    std::fs::write(folder.join("stdin"), input)
}

/// The kinds of answers that a list has: a refusal by its number, `veil` and `read` with the kind of row, and of a statement where
/// peer_acked stands among the expired ranges.
fn kinds_of(steps: &[Step]) -> Vec<String> {
    let answered = answers(steps);
    let stated = stated(&answered);
    let ways = stated.iter().map(|(store, line)| expired::way(store, line));
    let mut kinds: Vec<String> = ways.map(String::from).collect();
    kinds.extend(answered.iter().map(|(step, line)| kind(step, &line[2..])));
    kinds
}

fn kind(step: &Step, answer: &str) -> String {
    let row = match step {
        Step::Veil { kind, .. } | Step::Read { kind, .. } => kind.to_string(),
        _ => String::new(),
    };
    let answer = match answer.split(' ').collect::<Vec<&str>>()[..] {
        ["no", number, ..] => format!("no {number}"),
        _ => class(step, answer),
    };
    named(&step.name(), &row, &answer)
}

fn named(step: &str, row: &str, answer: &str) -> String {
    format!("{step} {row} {answer}")
}
