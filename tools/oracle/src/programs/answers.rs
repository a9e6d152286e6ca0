//! A list of calls as text, with the model's answers, and with those that a program prints.

use crate::model::runner::Runner;
use crate::model::script::Step;
use crate::programs::program::Program;

/// Of each step that is answered, the step and the model's line.
pub fn answers(steps: &[Step]) -> Vec<(&Step, String)> {
    let mut runner = Runner::new();
    let answer = |step| Some((step, runner.step(step)?));
    steps.iter().filter_map(answer).collect()
}

pub fn text(steps: &[Step]) -> String {
    steps.iter().map(|step| format!("{step}\n")).collect()
}

pub fn transcript(steps: &[Step]) -> String {
    let mut runner = Runner::new();
    let mut transcript = String::new();
    for step in steps {
        transcript += &format!("{step}\n");
        if let Some(answer) = runner.step(step) {
            transcript += &format!("{answer}\n");
        }
    }
    transcript
}

/// The answer lines that the program prints for a text.
pub fn printed(program: Program, text: &str) -> Vec<String> {
    let printed = program.run(text.as_bytes());
    let printed = String::from_utf8_lossy(&printed).into_owned();
    let answers = printed.lines().filter(|line| !line.is_empty());
    answers
        .filter(|line| line.starts_with('=') || line.starts_with("signal"))
        .map(String::from)
        .collect()
}
