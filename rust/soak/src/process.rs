//! Running a program on some input.

use std::fs;
use std::io::{Read, Write};
use std::path::Path;
use std::process::{Child, Command, ExitStatus, Stdio};
use std::sync::mpsc;
use std::thread;
use std::time::{Duration, Instant};

/// When a run is taken to hang. Time by the clock alone says nothing: it also
/// passes while other programs have the processor.
struct Limits {
    /// It used so much of a processor's time.
    used: Duration,
    /// It used none for so long.
    idle: Duration,
}

/// No run comes near these, on an emulated processor either.
const LIMITS: Limits = Limits {
    used: Duration::from_secs(600),
    idle: Duration::from_secs(1200),
};
/// How often a run is looked at.
const LOOK: Duration = Duration::from_secs(1);

/// What a program did.
#[derive(Clone, Debug, PartialEq, Eq)]
pub struct Outcome {
    /// What it printed.
    pub output: Vec<u8>,
    /// How it ended, in words, if not well.
    pub trouble: Option<String>,
}

/// Runs both programs on the same input at once.
pub fn run_both(programs: [&Path; 2], input: &[u8]) -> [Outcome; 2] {
    thread::scope(|scope| {
        let runs = programs.map(|program| scope.spawn(move || run(program, input)));
        runs.map(|run| run.join().expect("the runner doesn't panic"))
    })
}

/// Runs a program on `input`, and ends it if it hangs.
#[must_use]
pub fn run(program: &Path, input: &[u8]) -> Outcome {
    let started = Command::new(program)
        .stdin(Stdio::piped())
        .stdout(Stdio::piped())
        .spawn();
    match started {
        Ok(child) => feed(child, input),
        Err(error) => Outcome {
            output: Vec::new(),
            trouble: Some(format!("can't be started: {error}")),
        },
    }
}

fn feed(mut child: Child, input: &[u8]) -> Outcome {
    let mut stdin = child.stdin.take().expect("its input is piped");
    let mut stdout = child.stdout.take().expect("its output is piped");
    thread::scope(|scope| {
        // A program that stops reading shows in its output and its end.
        scope.spawn(move || stdin.write_all(input));
        let (done, finished) = mpsc::channel();
        let reader = scope.spawn(move || {
            let mut output = Vec::new();
            let read = stdout.read_to_end(&mut output);
            let _ = done.send(());
            read.map(|_| output).unwrap_or_default()
        });
        let hung = hangs(&child, &finished, &LIMITS);
        if hung.is_some() {
            let _ = child.kill();
        }
        let output = reader.join().unwrap_or_default();
        let trouble = match child.wait() {
            _ if hung.is_some() => hung,
            Ok(status) if status.success() => None,
            Ok(status) => Some(format!("ended with {status}")),
            Err(error) => Some(format!("can't be waited for: {error}")),
        };
        Outcome { output, trouble }
    })
}

/// Waits for a program's output to end; in words, if it hangs instead.
fn hangs(child: &Child, finished: &mpsc::Receiver<()>, limits: &Limits) -> Option<String> {
    let Limits { used: most, idle } = limits;
    let mut used = Duration::ZERO;
    let mut changed = Instant::now();
    while finished.recv_timeout(LOOK).is_err() {
        let now = processor_time(child.id());
        if now > *most {
            return Some(format!("used more than {most:?} of processor time"));
        }
        if now > used {
            (used, changed) = (now, Instant::now());
        } else if changed.elapsed() > *idle {
            return Some(format!("used no processor for {idle:?}"));
        }
    }
    None
}

/// How a program ended, if it does so in time.
pub fn ended_within(child: &mut Child, time: Duration) -> Option<ExitStatus> {
    let until = Instant::now() + time;
    loop {
        match child.try_wait() {
            Ok(Some(status)) => return Some(status),
            Ok(None) if Instant::now() < until => thread::sleep(Duration::from_millis(1)),
            _ => return None,
        }
    }
}

/// Ends a program, with all that it has started and that still runs under it.
pub fn end_tree(child: &mut Child) {
    let below = descendants(child.id());
    let _ = child.kill();
    let _ = child.wait();
    if !below.is_empty() {
        let mut kill = Command::new("sh");
        kill.args(["-c", "kill -KILL \"$@\"", "sh"]).args(below);
        let _ = kill.stderr(Stdio::null()).status();
    }
}

/// The processes below one, as /proc tells their parents.
fn descendants(id: u32) -> Vec<String> {
    let processes = fs::read_dir("/proc").into_iter().flatten().flatten();
    let named = processes.filter_map(|entry| entry.file_name().into_string().ok());
    let pairs: Vec<(String, String)> = named
        .filter_map(|name| Some((parent(&name)?, name)))
        .collect();
    let mut found = vec![id.to_string()];
    let mut next = 0;
    while next < found.len() {
        let of = found[next].clone();
        found.extend(
            pairs
                .iter()
                .filter(|(parent, _)| *parent == of)
                .map(|(_, name)| name.clone()),
        );
        next += 1;
    }
    found.split_off(1)
}

/// A process's parent.
fn parent(name: &str) -> Option<String> {
    name.parse::<u32>().ok()?;
    let stat = fs::read_to_string(format!("/proc/{name}/stat")).ok()?;
    let fields = stat.rsplit(')').next()?;
    fields.split_whitespace().nth(1).map(str::to_owned)
}

/// The processor time that a process has used, as /proc says: the 14th and
/// 15th field, in hundredths of a second, behind a name in parentheses that may
/// hold anything.
fn processor_time(id: u32) -> Duration {
    let stat = fs::read_to_string(format!("/proc/{id}/stat")).unwrap_or_default();
    let fields = stat.rsplit(')').next().unwrap_or_default();
    let ticks = |place| -> u64 {
        let field = fields.split_whitespace().nth(place);
        field.and_then(|f| f.parse().ok()).unwrap_or(0)
    };
    Duration::from_millis(10 * (ticks(11) + ticks(12)))
}

#[cfg(test)]
mod tests {
    use super::*;

    #[test]
    fn processor_time_is_read() {
        let began = processor_time(std::process::id());
        let mut sum = 0_u64;
        while processor_time(std::process::id()) < began + Duration::from_millis(30) {
            sum = std::hint::black_box(sum.wrapping_add(1));
        }
        assert!(processor_time(std::process::id()) > began);
        assert_eq!(processor_time(0), Duration::ZERO);
    }

    /// What is said of a shell's command that never ends.
    fn hung(command: &str, limits: &Limits) -> Option<String> {
        let mut child = Command::new("sh")
            .args(["-c", command])
            .spawn()
            .expect("there is a shell");
        let (_unsent, finished) = mpsc::channel();
        let said = hangs(&child, &finished, limits);
        child.kill().expect("it runs");
        child.wait().expect("it ends");
        said
    }

    #[test]
    fn programs_that_hang_are_told() {
        let (soon, never) = (Duration::from_millis(20), Duration::from_secs(3600));
        let (used, idle) = (soon, never);
        let busy = hung("while :; do :; done", &Limits { used, idle });
        assert!(busy.is_some_and(|said| said.starts_with("used more than")));
        let (used, idle) = (never, soon);
        let still = hung("exec sleep 600", &Limits { used, idle });
        assert!(still.is_some_and(|said| said.starts_with("used no processor")));
    }

    #[test]
    fn a_program_that_ends_does_not_hang() {
        let outcome = run(Path::new("/bin/cat"), b"a line\n");
        assert_eq!(outcome.output, b"a line\n");
        assert_eq!(outcome.trouble, None);
    }
}
