//! Compares two makes of `replay`, or of `lister`, on random lines.

use soak::compare::{Comparison, Frames, Mismatch, Scripts, Source};
use soak::options::Options;
use soak::table::Table;
use std::path::Path;
use std::process::ExitCode;
use std::time::Instant;
use x2u::Refusal;

const USAGE: &str = "\
usage: compare replay|lister PROGRAM PROGRAM [--lines N] [--seed N] [--save FILE]

Feeds both programs the same lines, at least N of them (1000000), and compares
their answers. A difference is shrunk to a few lines, shown, and saved to FILE
if one is given. Exit code: 0 alike, 1 different, 2 wrong use.";

fn main() -> ExitCode {
    match run() {
        Ok(code) => code,
        Err(trouble) => {
            eprintln!("{trouble}\n\n{USAGE}");
            ExitCode::from(2)
        }
    }
}

fn run() -> Result<ExitCode, String> {
    let options = Options::of(std::env::args().skip(1), &["lines", "seed", "save"], &[])?;
    let [kind, one, other] = &options.words[..] else {
        return Err("a kind and two programs are needed".to_owned());
    };
    let lines = options.value("lines", 1_000_000)?;
    let seed = options.value("seed", 1)?;
    let programs = [Path::new(one), Path::new(other)];
    let (reachable, outcome) = match kind.as_str() {
        "replay" => (
            Refusal::ALL.len(),
            compare(programs, &mut Scripts::new(seed), lines),
        ),
        "lister" => (6, compare(programs, &mut Frames::new(seed), lines)),
        _ => return Err(format!("there is no kind {kind}")),
    };
    match outcome {
        Ok(table) => {
            println!("{table}");
            let missing = table.missing(Refusal::ALL.into_iter().take(reachable));
            if !missing.is_empty() {
                println!("never given: {missing:?}");
            }
            Ok(ExitCode::SUCCESS)
        }
        Err(mismatch) => {
            println!("{mismatch}");
            let file: String = options.value("save", String::new())?;
            if !file.is_empty() {
                let mut script = mismatch.script.join(&b'\n');
                script.push(b'\n');
                std::fs::write(&file, script).map_err(|error| format!("{file}: {error}"))?;
            }
            Ok(ExitCode::FAILURE)
        }
    }
}

fn compare(
    programs: [&Path; 2],
    source: &mut impl Source,
    lines: usize,
) -> Result<Table, Box<Mismatch>> {
    let start = Instant::now();
    let (done, table) = Comparison { programs }.run(source, lines, |done| {
        eprint!("\r{done} lines compared");
    })?;
    eprintln!();
    let seconds = start.elapsed().as_secs_f64();
    println!("{done} lines compared in {seconds:.1} s, 0 mismatches\n");
    Ok(table)
}
