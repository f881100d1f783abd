//! Runs a program on some input.

use std::io::Write;
use std::process::{Command, Stdio};
use std::thread;

/// What `program` prints on `input`; it must end well.
pub fn run(program: &str, input: &[u8]) -> String {
    let mut child = Command::new(program)
        .stdin(Stdio::piped())
        .stdout(Stdio::piped())
        .spawn()
        .unwrap();
    let mut stdin = child.stdin.take().unwrap();
    let output = thread::scope(|scope| {
        scope.spawn(move || stdin.write_all(input).unwrap());
        child.wait_with_output().unwrap()
    });
    assert!(output.status.success());
    String::from_utf8(output.stdout).unwrap()
}

/// The lines of an output.
pub fn answers(output: &str) -> Vec<String> {
    output.lines().map(str::to_owned).collect()
}
