//! Lists the frames of standard input.

use programs::{lines, lister};
use std::process::ExitCode;

const HELP: &str = "\
usage: lister < FRAMES

Reads frames from standard input, one a line in hexadecimal, and prints what
each says, one a line with its fields parted by tabs.
Exit code: 0, or 1 if reading or writing failed, or 2 for wrong use.";

fn main() -> ExitCode {
    lines::answer_each("lister", HELP, lister::answer)
}
