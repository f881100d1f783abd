//! Both programs at their standard input and output: answers that come at once,
//! failures that are told, and wrong use.

use std::fs::File;
use std::io::{BufRead, BufReader, Write};
use std::process::{Command, Output, Stdio};
use std::sync::mpsc;
use std::thread;
use std::time::Duration;

const LISTER: &str = env!("CARGO_BIN_EXE_lister");
const REPLAY: &str = env!("CARGO_BIN_EXE_replay");
const BOTH: [(&str, &str); 2] = [("lister", LISTER), ("replay", REPLAY)];

/// What a program said that was run on these files.
fn run(program: &str, input: Stdio, output: Stdio) -> Output {
    let mut command = Command::new(program);
    let command = command.stdin(input).stdout(output).stderr(Stdio::piped());
    command.spawn().unwrap().wait_with_output().unwrap()
}

/// A program that failed said this on standard error, and ended with 1.
fn assert_failed(output: &Output, said: &str) {
    assert_eq!(String::from_utf8_lossy(&output.stderr), format!("{said}\n"));
    assert_eq!(output.status.code(), Some(1));
}

/// A file with `text` in it, named after a test.
fn file(name: &str, text: &str) -> File {
    let path = format!("{}/{name}", env!("CARGO_TARGET_TMPDIR"));
    std::fs::write(&path, text).unwrap();
    File::open(path).unwrap()
}

/// The answers to lines that are given one after another, each only when the
/// one before was answered, which it must be soon.
fn conversation(program: &str, lines: &[&str]) -> Vec<String> {
    let mut command = Command::new(program);
    let command = command.stdin(Stdio::piped()).stdout(Stdio::piped());
    let mut child = command.spawn().unwrap();
    let mut input = child.stdin.take().unwrap();
    let output = BufReader::new(child.stdout.take().unwrap());
    let (tell, told) = mpsc::channel();
    let reader = thread::spawn(move || output.lines().for_each(|line| tell.send(line).unwrap()));
    let mut answers = Vec::new();
    for line in lines {
        writeln!(input, "{line}").unwrap();
        let answer = told.recv_timeout(Duration::from_secs(20));
        answers.push(answer.expect("an answer comes soon").unwrap());
    }
    drop(input);
    reader.join().unwrap();
    assert!(child.wait().unwrap().success());
    answers
}

#[test]
fn each_answer_comes_at_once() {
    let lines = ["open\t12\t5\t6", "send\t6\t1", "send\t6\t1", "take", "room"];
    let answers = conversation(REPLAY, &lines);
    let wanted = ["ok", "sent\t5", "refused\t35", "refused\t38", "room\t0"];
    assert_eq!(answers, wanted);
    let answers = conversation(LISTER, &["001234000000", "zz"]);
    assert_eq!(answers, ["0\t4660", "unreadable"]);
}

#[test]
fn a_full_disk_is_told() {
    for (name, program) in BOTH {
        let full = File::options().write(true).open("/dev/full").unwrap();
        let input = file(&format!("{name}.full"), "take\ntake\n");
        let output = run(program, input.into(), full.into());
        let said = "lines answered: 0; writing failed, error 28: No space left on device";
        assert_failed(&output, &format!("{name}: {said}"));
    }
}

#[test]
fn a_folder_is_told() {
    for (name, program) in BOTH {
        let folder = File::open("/").unwrap();
        let output = run(program, folder.into(), Stdio::piped());
        let said = "lines answered: 0; reading failed, error 21: Is a directory";
        assert_failed(&output, &format!("{name}: {said}"));
        assert!(output.stdout.is_empty());
    }
}

#[test]
fn a_closed_pipe_is_told() {
    for (name, program) in BOTH {
        let mut gone = Command::new("true").stdin(Stdio::piped()).spawn().unwrap();
        let mut pipe = gone.stdin.take().unwrap();
        gone.wait().unwrap();
        // What another test starts just now may hold its other end for a moment.
        while pipe.write_all(b"\n").is_ok() {
            thread::sleep(Duration::from_millis(1));
        }
        let input = file(&format!("{name}.pipe"), "take\n");
        let output = run(program, input.into(), pipe.into());
        let said = "lines answered: 0; writing failed, error 32: Broken pipe";
        assert_failed(&output, &format!("{name}: {said}"));
    }
}

#[test]
fn arguments_are_refused() {
    for (name, program) in BOTH {
        for word in ["FILE", "--frob", ""] {
            let output = Command::new(program).arg(word).output().unwrap();
            let said = format!("{name}: takes no arguments, not {word:?} (--help says more)\n");
            assert_eq!(String::from_utf8_lossy(&output.stderr), said);
            assert_eq!(output.status.code(), Some(2));
        }
        for word in ["--help", "-h"] {
            let output = Command::new(program).arg(word).output().unwrap();
            assert!(output.status.success());
            assert!(
                output
                    .stdout
                    .starts_with(format!("usage: {name}").as_bytes())
            );
        }
    }
}
