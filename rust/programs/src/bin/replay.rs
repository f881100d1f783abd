//! Makes the calls of standard input on both ends of one bearer.

use programs::lines;
use programs::replay::Replay;
use std::process::ExitCode;

const HELP: &str = "\
usage: replay < CALLS

Reads calls from standard input, one a line with its fields parted by tabs,
makes them on both ends of one bearer, and prints the answer to each.
Exit code: 0, or 1 if reading or writing failed, or 2 for wrong use.";

fn main() -> ExitCode {
    let mut replay = Replay::default();
    lines::answer_each("replay", HELP, |line, out| replay.answer(line, out))
}
