//! Two makes of the lister on one file of frames, in turn.

use soak::frames;
use soak::rng::Rng;
use std::fs::{self, File};
use std::io::{self, BufWriter, Write};
use std::path::Path;
use std::process::{Command, ExitCode, Stdio};
use std::time::{Duration, Instant};

const USAGE: &str = "\
usage: race FILE RUST RATTLE

Times both listers on FILE, in turn and 7 times each, and prints for each its
name, its median time in seconds and how many octets it read. FILE is made
first if it isn't there: 100 MB of frames of all kinds. Exit code: 0, or 1 if
the programs print different things, or 2 for wrong use.";

const OCTETS: u64 = 100_000_000;
const RUNS: usize = 7;

fn main() -> ExitCode {
    let words: Vec<String> = std::env::args().skip(1).collect();
    let [file, rust, rattle] = &words[..] else {
        eprintln!("{USAGE}");
        return ExitCode::from(2);
    };
    match race(Path::new(file), [rust, rattle]) {
        Ok(true) => ExitCode::SUCCESS,
        Ok(false) => {
            eprintln!("the programs print different things");
            ExitCode::FAILURE
        }
        Err(error) => {
            eprintln!("{error}\n\n{USAGE}");
            ExitCode::from(2)
        }
    }
}

fn race(file: &Path, programs: [&String; 2]) -> io::Result<bool> {
    if !file.exists() {
        make(file)?;
    }
    let printed = programs.map(|program| printed(file, program));
    let [one, other] = printed;
    if one? != other? {
        return Ok(false);
    }
    let mut times = [Vec::new(), Vec::new()];
    for _ in 0..RUNS {
        for (program, times) in programs.iter().zip(&mut times) {
            times.push(timed(file, program)?);
        }
    }
    let length = fs::metadata(file)?.len();
    for (side, times) in ["rust", "rattle"].iter().zip(&mut times) {
        times.sort_unstable();
        println!("{side}\t{:.3}\t{length}", times[RUNS / 2].as_secs_f64());
    }
    Ok(true)
}

/// Frames of every kind, one a line.
fn make(file: &Path) -> io::Result<()> {
    let mut out = BufWriter::new(File::create(file)?);
    let mut rng = Rng::new(1);
    let mut length = 0;
    while length < OCTETS {
        let mut line = frames::line(&mut rng);
        line.push(b'\n');
        out.write_all(&line)?;
        length += line.len() as u64;
    }
    out.flush()
}

fn command(file: &Path, program: &str) -> io::Result<Command> {
    let mut command = Command::new(program);
    command.stdin(File::open(file)?);
    Ok(command)
}

fn printed(file: &Path, program: &str) -> io::Result<Vec<u8>> {
    let output = command(file, program)?.stderr(Stdio::inherit()).output()?;
    if !output.status.success() {
        return Err(io::Error::other(format!("{program}: {}", output.status)));
    }
    Ok(output.stdout)
}

fn timed(file: &Path, program: &str) -> io::Result<Duration> {
    let mut command = command(file, program)?;
    command.stdout(Stdio::null());
    let start = Instant::now();
    let status = command.status()?;
    let time = start.elapsed();
    if !status.success() {
        return Err(io::Error::other(format!("{program}: {status}")));
    }
    Ok(time)
}
