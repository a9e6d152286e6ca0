//! Another program, run on an input: what it prints.

use std::io::Write;
use std::process::{Command, Stdio};

/// The program's name and its arguments.
#[derive(Clone, Copy)]
pub struct Program<'a> {
    pub words: &'a [&'a str],
}

impl Program<'_> {
    /// What it prints to standard output, and how it ends where that is not with 0.
    pub fn run(&self, input: &[u8]) -> Vec<u8> {
        self.run_in(&[input])
    }

    /// The same, of an input that is written piece by piece, with time for each to be read before the next.
    pub fn run_in(&self, pieces: &[&[u8]]) -> Vec<u8> {
        let (name, arguments) = self.words.split_first().expect("a program has a name");
        let mut child = Command::new(name)
            .args(arguments)
            .stdin(Stdio::piped())
            .stdout(Stdio::piped())
            .spawn()
            .unwrap_or_else(|error| panic!("{name}: {error}"));
        let mut stdin = child.stdin.take().expect("it is piped");
        let ended = std::thread::scope(|scope| {
            // It may end before it has read everything: what it printed is compared, not this.
            scope.spawn(move || {
                pieces.iter().try_for_each(|piece| {
                    std::thread::yield_now();
                    stdin.write_all(piece)
                })
            });
            child.wait_with_output()
        });
        let ended = ended.expect("it can be waited for");
        let mut printed = ended.stdout;
        if ended.status.code().is_none() {
            printed.extend(format!("{}\n", ended.status).bytes());
        }
        printed
    }
}
