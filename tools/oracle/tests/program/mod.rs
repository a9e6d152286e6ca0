//! The oracle, run on words and an input.

use std::io::Write;
use std::process::{Command, Stdio};

/// What it prints to standard output. It must end with 0.
pub fn output(words: &[&str], input: &[u8]) -> Vec<u8> {
    let mut child = Command::new(env!("CARGO_BIN_EXE_oracle"))
        .args(words)
        .stdin(Stdio::piped())
        .stdout(Stdio::piped())
        .spawn()
        .expect("the oracle is built");
    let mut stdin = child.stdin.take().expect("it is piped");
    stdin.write_all(input).expect("it reads all of its input");
    drop(stdin);
    let ended = child.wait_with_output().expect("it can be waited for");
    let printed = String::from_utf8_lossy(&ended.stdout);
    let status = ended.status;
    assert!(status.success(), "{words:?}: {status}\n{printed}");
    ended.stdout
}
