//! A `replay` program that is fed calls while its answers are compared.

use crate::process::{end_tree, ended_within};
use std::io::{self, Read, Write};
use std::path::Path;
use std::process::{Child, ChildStdin, ChildStdout, Command, Stdio};
use std::sync::Arc;
use std::sync::atomic::{AtomicBool, AtomicU64, Ordering};
use std::sync::mpsc::{self, Receiver, RecvTimeoutError, Sender, SyncSender, TrySendError};
use std::thread;
use std::time::{Duration, Instant};

/// Calls are handed over in pieces of about this many octets.
const PIECE: usize = 1 << 16;
/// How often a program that keeps us waiting is looked at.
const LOOK: Duration = Duration::from_micros(500);
/// How long an ended program's pipes may take to close.
const GRACE: Duration = Duration::from_secs(2);

/// The first answer that was not as it should be.
#[derive(Clone, Debug, PartialEq, Eq)]
pub struct Mismatch {
    /// Which call it was, from 1 on.
    pub call: u64,
    /// Its line.
    pub line: String,
    /// The answer it should have had.
    pub expected: String,
    /// What the program printed instead, as far as it was read, or what it did.
    pub got: String,
    /// Whether there was no answer at all.
    pub silent: bool,
}

/// Calls and the answers they should have.
#[derive(Default)]
struct Piece {
    calls: Vec<u8>,
    answers: Vec<u8>,
}

/// What the threads at both pipes tell of.
#[derive(Default)]
struct Signs {
    /// Octets that went in or came out.
    moved: AtomicU64,
    /// Calls whose answers were compared.
    compared: AtomicU64,
    /// It isn't worth going on.
    stopped: AtomicBool,
}

/// A running program.
pub struct Link {
    program: Child,
    patience: Duration,
    hangs: bool,
    piece: Piece,
    to_program: Option<SyncSender<Vec<u8>>>,
    to_checker: Option<Sender<Piece>>,
    verdict: Receiver<Option<Mismatch>>,
    signs: Arc<Signs>,
}

impl Link {
    /// Starts the program. It hangs if it neither reads nor answers anything
    /// for as long as `patience` while we wait for it.
    pub fn start(path: &Path, patience: Duration) -> io::Result<Self> {
        let mut program = Command::new(path)
            .stdin(Stdio::piped())
            .stdout(Stdio::piped())
            .spawn()?;
        let stdin = program.stdin.take().expect("its input is piped");
        let stdout = program.stdout.take().expect("its output is piped");
        let (to_program, calls) = mpsc::sync_channel(4);
        // Not bounded: the program may keep answers back as long as it likes.
        let (to_checker, pieces) = mpsc::channel();
        let (tell, verdict) = mpsc::channel();
        let signs = Arc::new(Signs::default());
        let (writers, checkers) = (Arc::clone(&signs), Arc::clone(&signs));
        thread::spawn(move || write_all(stdin, &calls, &writers));
        thread::spawn(move || tell.send(check_all(stdout, &pieces, &checkers)));
        Ok(Self {
            program,
            patience,
            hangs: false,
            piece: Piece::default(),
            to_program: Some(to_program),
            to_checker: Some(to_checker),
            verdict,
            signs,
        })
    }

    /// Makes a call: both its line and its answer are printed without their
    /// line ends. Answers whether it is worth going on.
    pub fn call(
        &mut self,
        line: impl FnOnce(&mut Vec<u8>) -> io::Result<()>,
        answer: impl FnOnce(&mut Vec<u8>) -> io::Result<()>,
    ) -> bool {
        let Piece { calls, answers } = &mut self.piece;
        line(calls).expect("memory takes all");
        calls.push(b'\n');
        answer(answers).expect("memory takes all");
        answers.push(b'\n');
        if calls.len().max(answers.len()) >= PIECE {
            self.hand_over();
        }
        !self.hangs && !self.signs.stopped.load(Ordering::Relaxed)
    }

    fn hand_over(&mut self) {
        let piece = std::mem::take(&mut self.piece);
        let mut calls = piece.calls.clone();
        // The checker first: it has to know what a program hung at.
        if let Some(checker) = &self.to_checker {
            let _ = checker.send(piece);
        }
        if self.hangs {
            return;
        }
        let mut wait = Wait::new(&self.signs, self.patience);
        // A side that has hung up has its reason, which shows in the end.
        while let Some(program) = &self.to_program
            && let Err(TrySendError::Full(kept)) = program.try_send(calls)
            && !self.signs.stopped.load(Ordering::Relaxed)
        {
            calls = kept;
            if wait.is_over(&self.signs) {
                self.hangs = true;
                return;
            }
            thread::sleep(LOOK);
        }
    }

    /// Ends the program and answers the first mismatch, if there was one.
    pub fn finish(mut self) -> Option<Mismatch> {
        self.hand_over();
        drop(self.to_checker.take());
        drop(self.to_program.take());
        let verdict = self.wait_for_verdict();
        let patience = match &verdict {
            Some(None) => self.patience,
            Some(Some(mismatch)) if mismatch.silent => GRACE,
            _ => Duration::ZERO,
        };
        let ended = ended_within(&mut self.program, patience);
        if ended.is_none() {
            end_tree(&mut self.program);
        }
        let how = match &ended {
            _ if self.hangs => format!(
                "nothing for {} s, and was ended",
                self.patience.as_secs_f64()
            ),
            Some(ended) => format!("nothing more, and ended: {ended}"),
            None => "nothing more, did not end, and was ended".to_owned(),
        };
        match verdict.or_else(|| self.verdict.recv_timeout(GRACE).ok()) {
            Some(Some(mismatch)) if mismatch.silent => Some(Mismatch {
                got: how,
                ..mismatch
            }),
            Some(Some(mismatch)) => Some(mismatch),
            Some(None) if ended.is_some_and(|status| status.success()) => None,
            Some(None) => Some(at_the_end("exit status: 0", how)),
            None => Some(self.unseen(how)),
        }
    }

    /// What the checker came to, unless the program hangs.
    fn wait_for_verdict(&mut self) -> Option<Option<Mismatch>> {
        let mut wait = Wait::new(&self.signs, self.patience);
        while !self.hangs {
            match self.verdict.recv_timeout(LOOK) {
                Ok(verdict) => return Some(verdict),
                Err(RecvTimeoutError::Disconnected) => return None,
                Err(RecvTimeoutError::Timeout) => self.hangs = wait.is_over(&self.signs),
            }
        }
        None
    }

    /// For a program whose pipes stay open though it was ended.
    fn unseen(&self, got: String) -> Mismatch {
        Mismatch {
            call: self.signs.compared.load(Ordering::Relaxed) + 1,
            line: "(one of those that follow the answers compared)".to_owned(),
            expected: "an answer".to_owned(),
            got,
            silent: true,
        }
    }
}

/// Waiting for a program that may hang.
struct Wait {
    moved: u64,
    since: Instant,
    patience: Duration,
}

impl Wait {
    fn new(signs: &Signs, patience: Duration) -> Self {
        Self {
            moved: signs.moved.load(Ordering::Relaxed),
            since: Instant::now(),
            patience,
        }
    }

    /// Whether nothing has moved for too long.
    fn is_over(&mut self, signs: &Signs) -> bool {
        let moved = signs.moved.load(Ordering::Relaxed);
        if moved != self.moved {
            (self.moved, self.since) = (moved, Instant::now());
        }
        self.since.elapsed() > self.patience
    }
}

fn write_all(mut stdin: ChildStdin, calls: &Receiver<Vec<u8>>, signs: &Signs) {
    for piece in calls {
        // A program that stops reading shows in its answers.
        if write_piece(&mut stdin, &piece, signs).is_err() {
            return;
        }
    }
}

fn write_piece(stdin: &mut ChildStdin, piece: &[u8], signs: &Signs) -> io::Result<()> {
    let mut rest = piece;
    while !rest.is_empty() {
        match stdin.write(rest) {
            Err(error) if error.kind() == io::ErrorKind::Interrupted => {}
            written => {
                let count = written?;
                signs.moved.fetch_add(count as u64, Ordering::Relaxed);
                rest = &rest[count..];
            }
        }
    }
    Ok(())
}

/// A program's output, whose octets are counted as they come.
struct Counted<'a> {
    output: ChildStdout,
    signs: &'a Signs,
}

impl Read for Counted<'_> {
    fn read(&mut self, room: &mut [u8]) -> io::Result<usize> {
        let count = self.output.read(room)?;
        self.signs.moved.fetch_add(count as u64, Ordering::Relaxed);
        Ok(count)
    }
}

fn check_all(output: ChildStdout, pieces: &Receiver<Piece>, signs: &Signs) -> Option<Mismatch> {
    let mut output = Counted { output, signs };
    let mut done = 0;
    let mut got = Vec::new();
    for piece in pieces {
        got.clear();
        let limit = piece.answers.len() as u64;
        let read = output.by_ref().take(limit).read_to_end(&mut got);
        if read.is_err() || got != piece.answers {
            signs.stopped.store(true, Ordering::Relaxed);
            return Some(first_mismatch(done, &piece, &got));
        }
        done += piece.calls.iter().filter(|&&octet| octet == b'\n').count() as u64;
        signs.compared.store(done, Ordering::Relaxed);
    }
    let more = output.read(&mut [0]);
    let ended = more.is_ok_and(|count| count == 0);
    (!ended).then(|| at_the_end("no more answers", "further answers".to_owned()))
}

fn at_the_end(expected: &str, got: String) -> Mismatch {
    Mismatch {
        call: 0,
        line: "the end of the input".to_owned(),
        expected: expected.to_owned(),
        got,
        silent: false,
    }
}

fn first_mismatch(done: u64, piece: &Piece, got: &[u8]) -> Mismatch {
    let lines = |text: &[u8]| -> Vec<String> {
        let text = String::from_utf8_lossy(text);
        text.split('\n').map(str::to_owned).collect()
    };
    let silent = got.len() < piece.answers.len() && piece.answers.starts_with(got);
    let (answers, got) = (lines(&piece.answers), lines(got));
    let alike = answers.iter().zip(&got).take_while(|(a, b)| a == b).count();
    let at = |lines: &[String]| lines.get(alike).cloned().unwrap_or_default();
    Mismatch {
        call: done + alike as u64 + 1,
        line: at(&lines(&piece.calls)),
        expected: at(&answers),
        got: at(&got),
        silent,
    }
}
