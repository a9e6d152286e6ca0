//! Lists of calls: printed, printed with the model's answers, and compared with the Rust and with a program.

use crate::generate::inputs::Random;
use crate::generate::script_build::script;
use crate::generate::script_pairs;
use crate::model::calls::Call;
use crate::model::memory::HAS;
use crate::model::runner::{Runner, replay};
use crate::model::script::{Step, Steps};
use crate::model::sheet;
use crate::model::store::Store;
use crate::original::calls::{self, Shadow};
use crate::programs::answers::{answers, printed, text, transcript};
use crate::programs::expired::Ways;
use crate::programs::program::Program;
use crate::programs::script_shrink;
use std::collections::BTreeMap;

/// So many lists for each of TIMES.
const SCRIPTS: u64 = 1_000;
/// So many lists in one run of the program.
const BATCH: usize = 250;
/// So many differences are shown.
const SHOWN: usize = 3;

/// What `replay` is to end at: a line that is none, with its number.
const NONE: [&str; 27] = [
    "fly\n",
    "script 1\n\n# a comment\n= an answer\nfly\nopen 1\n",
    "open\n",
    "open 01\n",
    "open x\n",
    "open 18446744073709551616\n",
    "state\nopen 1 2\n",
    "contains 4294967296\n",
    "cover 1\n",
    "covers 1 2 3\n",
    "take 1\n",
    "lend 1 2 3 4 5\n",
    "state\nveil 0 3 100 0g\n",
    "Take\n",
    "state\nrestore 1\nD,03,\n",
    "rawrestore 1 -\n0 0 0 3 0\n",
    "rawrestore 1 -\n0 0 0 3 0 18446744073709551616\n",
    "rawrestore 1 -\n0 0 4294967296 3 0 0\n",
    "rawrestore 0 \n",
    "restore 513\n",
    "restore 1\n# no comment\n",
    "state\nrestore 2\nD,3,\n",
    "read 1 3 - -\n",
    "read 1 3 1,2,3,4 -\n",
    "read 1 3 1,2,3,4,05 -\n",
    "read 0 3 1,2,3,4,5 -\n",
    "read 4 3 - -\n",
];

/// More of them, longer than a line of the source.
fn long_none() -> [String; 4] {
    let blob = |bytes: usize| "00".repeat(bytes);
    let sheet_line = |bytes: usize| format!("D,3,{}\n", blob(bytes));
    [
        // The third line goes beyond 61,440 bytes.
        format!("restore 4\n{}{}D\n", sheet_line(40_000), sheet_line(30_000)),
        format!("state\nrawrestore 0 {}\n", blob(61_441)),
        format!("# {}\n= {}\nfly\n", blob(200_000), blob(400_000)),
        format!("state\nveil 0 3 0 {}\n", blob(1_000_000)),
    ]
}

/// A list of calls, and whether it is the one before with other veiled bytes.
pub struct Made {
    pub steps: Vec<Step>,
    pub twin: bool,
}

/// Visits the lists of this seed, always the same ones.
pub fn each(seed: u64, times: u64, mut visit: impl FnMut(Made)) {
    let mut random = Random::new(seed);
    let mut number = 0;
    while number < SCRIPTS * times {
        let steps = script(&mut random, number);
        number += 1;
        let twin = (random.below(4) == 0).then(|| script_pairs::twin(&mut random, &steps, number));
        visit(Made { steps, twin: false });
        if let Some(steps) = twin {
            number += 1;
            visit(Made { steps, twin: true });
        }
    }
}

pub fn print(seed: u64, times: u64) -> bool {
    each(seed, times, |made| print!("{}", text(&made.steps)));
    true
}

/// The lists with the model's answers.
pub fn print_transcript(seed: u64, times: u64) -> bool {
    each(seed, times, |made| print!("{}", transcript(&made.steps)));
    true
}

/// How often each answer was due to each kind of step.
#[derive(Default)]
pub struct Due {
    scripts: u64,
    answers: BTreeMap<String, BTreeMap<String, u64>>,
    ways: Ways,
}

/// By whether contiguous moved, and by how many of the range were new: it does not move where none was.
pub const COVER: [&str; 8] = [
    "true, all new",
    "true, some new",
    "false, all new",
    "false, some new",
    "false, none new",
    "no 34",
    "no 37",
    "no 38",
];

/// What must have come.
const MUST: [(&str, &[&str]); 12] = [
    ("restore", &["yes", "no"]),
    ("rawrestore", &["yes", "no"]),
    ("open", &["yes", "no 34", "no 35", "no 36"]),
    ("cover", &COVER),
    ("contains", &["true", "false", "no 34"]),
    ("covers", &["true", "false", "no 34", "no 37"]),
    ("take", &["number", "no 34", "no 39"]),
    ("statement", &["S", "no 34", "no 40"]),
    ("write", &["row", "no 34", "no 40"]),
    ("veil", &["row", "no 3", "no 4", "no 6", "no 40", "no 54"]),
    ("read", &["row", "no 3", "no 4", "no 36", "no 54"]),
    ("state", &["none", "row"]),
];

impl Due {
    pub fn count(&mut self, answers: &[(&Step, String)]) {
        self.scripts += 1;
        for (store, line) in stated(answers) {
            self.ways.count(&store, line);
        }
        for (step, answer) in answers {
            let of_step = self.answers.entry(step.name()).or_default();
            *of_step.entry(class(step, &answer[2..])).or_default() += 1;
        }
    }

    /// Prints the counts; whether every answer came that must.
    pub fn print(&self) -> bool {
        println!("{} lists of calls", self.scripts);
        for (name, answers) in &self.answers {
            let counts: Vec<String> = answers
                .iter()
                .map(|(answer, count)| format!("{answer}: {count}"))
                .collect();
            println!("  {name}: {}", counts.join(", "));
        }
        let mut all = self.ways.print();
        let came = |name: &str, answer: &str| {
            self.answers
                .get(name)
                .is_some_and(|answers| answers.contains_key(answer))
        };
        for (name, answers) in MUST {
            for answer in answers.iter().filter(|answer| !came(name, answer)) {
                println!("  {name} was never to answer {answer}");
                all = false;
            }
        }
        all
    }
}

/// The `S` lines, each with the store that was restored then.
pub fn stated<'a>(answers: &'a [(&Step, String)]) -> Vec<(Store, &'a str)> {
    let (mut store, mut lines) = (None, Vec::new());
    for (step, answer) in answers {
        match (step, answer.as_str()) {
            (Step::Restore(lines), "= yes") => store = Some(sheet::store_of(lines)),
            (Step::RawRestore(raw), "= yes") => store = Some(raw.clone()),
            (_, line) if line.starts_with("= S,") => {
                let store = store.clone().expect("a store is restored");
                lines.push((store, &line[2..]));
            }
            _ => {}
        }
    }
    lines
}

/// The answer without what it is about; of a store's refusal without number and place.
pub fn class(step: &Step, answer: &str) -> String {
    let word = answer.split(' ').next().unwrap_or("");
    match (step, word) {
        (Step::Restore(_) | Step::RawRestore(_), "no") => "no".into(),
        (Step::Call(Call::Cover(from, to)), "true" | "false") => {
            let count: u64 = answer[word.len() + 1..].parse().expect("a count");
            let new = match count {
                0 if word == "true" => panic!("contiguous moved, and no number is new"),
                0 => "none",
                count if count == u64::from(*to) - u64::from(*from) + 1 => "all",
                _ => "some",
            };
            format!("{word}, {new} new")
        }
        (_, "no" | "yes" | "true" | "false" | "none") => answer.into(),
        (_, line) if line.starts_with("S,") => "S".into(),
        (Step::Call(Call::Take), _) => "number".into(),
        _ => "row".into(),
    }
}

/// Holds the model to the Rust, to itself with twice as much to lend and with other veiled bytes, and the text to the
/// steps that it is of.
pub fn compare_rust(seed: u64, times: u64) -> bool {
    let mut due = Due::default();
    let mut shadow = Shadow::default();
    let mut faults = calls::every_small_set(&mut shadow);
    let mut last: Vec<String> = Vec::new();
    let mut pairs = 0;
    each(seed, times, |made| {
        let answered = answers(&made.steps);
        due.count(&answered);
        faults.extend(rust_faults(&mut shadow, &made.steps));
        faults.extend(self_faults(&made.steps, &answered));
        let lines: Vec<String> = answered.iter().map(|(_, line)| line.clone()).collect();
        if made.twin {
            pairs += 1;
            let before = last.iter().zip(&answered);
            let unlike =
                before.filter(|(one, (step, other))| !script_pairs::alike(step, one, other));
            faults.extend(unlike.map(|(one, other)| format!("a pair: {one} and {other:?}")));
        }
        last = lines;
    });
    let all = due.print();
    println!("  pairs with other veiled bytes: {pairs}");
    println!("  compared with the Rust: {:?}", shadow.compared);
    for fault in faults.iter().take(SHOWN) {
        println!("{fault}");
    }
    println!("lists of calls: {} different", faults.len());
    faults.is_empty() && all
}

fn rust_faults(shadow: &mut Shadow, steps: &[Step]) -> Vec<String> {
    let mut runner = Runner::new();
    for step in steps {
        let answer = runner.step(step).unwrap_or_default();
        let faults = shadow.follow(step, &answer, &runner.ledger);
        if !faults.is_empty() {
            return vec![format!(
                "{}at {step}: {}",
                transcript(steps),
                faults.join(", ")
            )];
        }
    }
    Vec::new()
}

/// The text reads as these steps, and twice as much to lend makes no difference.
fn self_faults(steps: &[Step], answered: &[(&Step, String)]) -> Vec<String> {
    let mut faults = Vec::new();
    let read: Result<Vec<Step>, usize> = Steps::of(&text(steps)).collect();
    if read.as_deref() != Ok(steps) {
        faults.push(format!("read as {read:?}:\n{}", text(steps)));
    }
    let mut more = Runner::with(HAS.map(|has| 2 * has));
    let other: Vec<String> = steps.iter().filter_map(|step| more.step(step)).collect();
    if !other.iter().eq(answered.iter().map(|(_, line)| line)) {
        faults.push(format!("more to lend makes a difference:\n{}", text(steps)));
    }
    faults
}

/// Runs the program on the lists, and compares it line by line with the model.
pub fn check(seed: u64, times: u64, program: Program) -> bool {
    let mut due = Due::default();
    let mut different = 0;
    let mut batch: Vec<Vec<Step>> = Vec::new();
    each(seed, times, |made| {
        due.count(&answers(&made.steps));
        batch.push(made.steps);
        if batch.len() == BATCH {
            different += batch_differences(&batch, program, different);
            batch.clear();
        }
    });
    different += batch_differences(&batch, program, different);
    let long = long_none();
    for text in NONE.into_iter().chain(long.iter().map(String::as_str)) {
        let (due, printed) = (replay(text), printed(program, text).join("\n") + "\n");
        if due != printed {
            different += 1;
            println!("{text}is to print {due}and prints {printed}");
        }
    }
    let all = due.print();
    println!("lists of calls: {different} different");
    different == 0 && all
}

/// How many of these lists differ; the first of all is shown, made as short as it can be. The lists behind one that differs
/// are run again apart from it.
fn batch_differences(batch: &[Vec<Step>], program: Program, before: usize) -> usize {
    let answered = batch.iter().flat_map(|steps| answers(steps));
    let due: Vec<String> = answered.map(|(_, line)| line).collect();
    let text: String = batch.iter().map(|steps| text(steps)).collect();
    if due == printed(program, &text) {
        return 0;
    }
    let differ: Vec<&Vec<Step>> = batch
        .iter()
        .filter(|steps| script_shrink::differs(program, steps))
        .collect();
    for steps in differ.iter().take(SHOWN.saturating_sub(before)) {
        script_shrink::show(program, steps);
    }
    if differ.is_empty() {
        println!("a run of {} lists differs, none of them alone", batch.len());
    }
    differ.len().max(1)
}
