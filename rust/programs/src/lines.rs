//! Standard input line by line, and its answers on standard output, in the same
//! memory whatever the input. What a read brings is answered before the next
//! one, so a host that asks line by line gets its answers line by line.

use std::fs::File;
use std::io::{self, BufRead, ErrorKind, Read, Write};
use std::os::fd::AsFd;
use std::process::ExitCode;

/// No program here can read a longer line, so no more of one is kept.
pub const LONGEST_LINE: usize = 4_096;

/// So much is read at once, and answers are written when they come to as much.
const BLOCK: usize = 1 << 16;

/// Lines out of blocks.
#[derive(Default)]
pub struct Lines {
    /// The front of the line that the blocks so far leave unfinished.
    unfinished: Vec<u8>,
}

impl Lines {
    /// Calls `each` for every line that ends in `block`, without its line end,
    /// and with `None` for a line that is too long to be of use.
    pub fn feed<E>(
        &mut self,
        block: &[u8],
        mut each: impl FnMut(Option<&[u8]>) -> Result<(), E>,
    ) -> Result<(), E> {
        let mut rest = block;
        while let Some((line, behind)) = first_line(rest) {
            if self.unfinished.is_empty() {
                each(short(line))?;
            } else {
                self.keep(line);
                each(short(&self.unfinished))?;
                self.unfinished.clear();
            }
            rest = behind;
        }
        self.keep(rest);
        Ok(())
    }

    /// The last line, if the input ends without a line end.
    #[must_use]
    pub fn last(&self) -> Option<Option<&[u8]>> {
        (!self.unfinished.is_empty()).then(|| short(&self.unfinished))
    }

    /// Keeps what can be of use: one octet more than the longest line shows
    /// that it is too long.
    fn keep(&mut self, part: &[u8]) {
        let room = LONGEST_LINE + 1 - self.unfinished.len();
        self.unfinished.extend(&part[..part.len().min(room)]);
    }
}

fn short(line: &[u8]) -> Option<&[u8]> {
    (line.len() <= LONGEST_LINE).then_some(line)
}

/// The line that `text` begins with and what is behind its end, if it has one.
fn first_line(text: &[u8]) -> Option<(&[u8], &[u8])> {
    let mut behind = text;
    let length = behind.skip_until(b'\n').expect("memory can be read");
    let line = text[..length].strip_suffix(b"\n")?;
    Some((line, behind))
}

/// Answers on their way out.
struct Answers<W> {
    output: W,
    text: Vec<u8>,
    /// Lines in `text`.
    lines: u64,
    /// Lines that were written whole.
    written: u64,
}

impl<W: Write> Answers<W> {
    /// An answer more is in `text`.
    fn count(&mut self) -> io::Result<()> {
        self.lines += 1;
        if self.text.len() < BLOCK {
            Ok(())
        } else {
            self.write()
        }
    }

    /// Writes what there is.
    fn write(&mut self) -> io::Result<()> {
        let mut done = 0;
        while done < self.text.len() {
            match self.output.write(&self.text[done..]) {
                Ok(0) => return self.failed(done, ErrorKind::WriteZero.into()),
                Ok(count) => done += count,
                Err(error) if error.kind() == ErrorKind::Interrupted => {}
                Err(error) => return self.failed(done, error),
            }
        }
        self.written += std::mem::take(&mut self.lines);
        self.text.clear();
        Ok(())
    }

    /// Only so many octets were written.
    fn failed(&mut self, done: usize, error: io::Error) -> io::Result<()> {
        let whole = self.text[..done].iter().filter(|&&octet| octet == b'\n');
        self.written += whole.count() as u64;
        Err(error)
    }
}

/// What can fail.
enum Failure {
    Reading(io::Error),
    Writing(io::Error),
}

/// The body of the program `name`: answers every line of standard input on
/// standard output. It takes no arguments but `--help`, which prints `help`.
pub fn answer_each(
    name: &str,
    help: &str,
    answer: impl FnMut(Option<&[u8]>, &mut Vec<u8>) -> io::Result<()>,
) -> ExitCode {
    match std::env::args_os().nth(1) {
        Some(word) if word == "--help" || word == "-h" => {
            println!("{help}");
            return ExitCode::SUCCESS;
        }
        Some(word) => {
            eprintln!("{name}: takes no arguments, not {word:?} (--help says more)");
            return ExitCode::from(2);
        }
        None => {}
    }
    let (written, outcome) = answer_standard(answer);
    let (what, error) = match outcome {
        Ok(()) => return ExitCode::SUCCESS,
        Err(Failure::Reading(error)) => ("reading", error),
        Err(Failure::Writing(error)) => ("writing", error),
    };
    eprintln!(
        "{name}: lines answered: {written}; {what} failed, {}",
        numbered(&error)
    );
    ExitCode::FAILURE
}

/// An error as `error 28: No space left on device`.
fn numbered(error: &io::Error) -> String {
    let words = error.to_string();
    match error.raw_os_error() {
        Some(number) => {
            let end = format!(" (os error {number})");
            format!(
                "error {number}: {}",
                words.strip_suffix(&end).unwrap_or(&words)
            )
        }
        None => words,
    }
}

/// Answers standard input on standard output: the plain files, since Rust's own
/// standard output writes at line ends.
fn answer_standard(
    answer: impl FnMut(Option<&[u8]>, &mut Vec<u8>) -> io::Result<()>,
) -> (u64, Result<(), Failure>) {
    let input = io::stdin().as_fd().try_clone_to_owned().map(File::from);
    let output = io::stdout().as_fd().try_clone_to_owned().map(File::from);
    match (input, output) {
        (Err(error), _) => (0, Err(Failure::Reading(error))),
        (_, Err(error)) => (0, Err(Failure::Writing(error))),
        (Ok(input), Ok(output)) => {
            let mut answers = Answers {
                output,
                text: Vec::with_capacity(2 * BLOCK),
                lines: 0,
                written: 0,
            };
            let outcome = answer_all(input, &mut answers, answer);
            (answers.written, outcome)
        }
    }
}

fn answer_all(
    mut input: impl Read,
    answers: &mut Answers<impl Write>,
    mut answer: impl FnMut(Option<&[u8]>, &mut Vec<u8>) -> io::Result<()>,
) -> Result<(), Failure> {
    let mut lines = Lines::default();
    let mut block = vec![0; BLOCK];
    let mut each = |line: Option<&[u8]>, answers: &mut Answers<_>| {
        answer(line, &mut answers.text)?;
        answers.count()
    };
    loop {
        let count = match input.read(&mut block) {
            Err(error) if error.kind() == ErrorKind::Interrupted => continue,
            read => read.map_err(Failure::Reading)?,
        };
        let fed = lines.feed(&block[..count], |line| each(line, answers));
        fed.map_err(Failure::Writing)?;
        if count == 0 {
            let last = lines.last().map_or(Ok(()), |line| each(line, answers));
            last.map_err(Failure::Writing)?;
        }
        answers.write().map_err(Failure::Writing)?;
        if count == 0 {
            return Ok(());
        }
    }
}

#[cfg(test)]
mod tests {
    use super::{Answers, BLOCK, Failure, LONGEST_LINE, Lines, answer_all};
    use std::collections::VecDeque;
    use std::io::{self, Read, Write};

    /// Each read brings one of these; then reading fails.
    struct Pieces(VecDeque<Vec<u8>>);

    impl Read for Pieces {
        fn read(&mut self, room: &mut [u8]) -> io::Result<usize> {
            let piece = self.0.pop_front();
            let piece = piece.ok_or(io::Error::from_raw_os_error(5))?;
            room[..piece.len()].copy_from_slice(&piece);
            Ok(piece.len())
        }
    }

    /// Takes so many octets, and fails then.
    struct Small(usize);

    impl Write for Small {
        fn write(&mut self, text: &[u8]) -> io::Result<usize> {
            let count = text.len().min(self.0).min(7);
            self.0 -= count;
            if count == 0 {
                return Err(io::Error::from_raw_os_error(28));
            }
            Ok(count)
        }

        fn flush(&mut self) -> io::Result<()> {
            Ok(())
        }
    }

    /// Echoes what the reads bring into room for so many octets; answers the
    /// lines written whole and what failed.
    fn echoed(pieces: &[&str], room: usize) -> (u64, &'static str) {
        let pieces = pieces.iter().map(|piece| piece.as_bytes().to_vec());
        let mut answers = Answers {
            output: Small(room),
            text: Vec::new(),
            lines: 0,
            written: 0,
        };
        let echo = |line: Option<&[u8]>, out: &mut Vec<u8>| {
            out.write_all(line.unwrap_or_default())?;
            out.write_all(b"\n")
        };
        let outcome = answer_all(Pieces(pieces.collect()), &mut answers, echo);
        let failed = match outcome {
            Ok(()) => "nothing",
            Err(Failure::Reading(_)) => "reading",
            Err(Failure::Writing(_)) => "writing",
        };
        (answers.written, failed)
    }

    #[test]
    fn lines_written_whole_are_counted() {
        assert_eq!(echoed(&["ab\ncd\nef\n", ""], 9), (3, "nothing"));
        assert_eq!(echoed(&["ab\ncd\nef\n", ""], 8), (2, "writing"));
        assert_eq!(echoed(&["ab\ncd\nef\n", ""], 3), (1, "writing"));
        assert_eq!(echoed(&["ab\ncd\nef\n", ""], 2), (0, "writing"));
        assert_eq!(echoed(&["ab\n", "cd", ""], 6), (2, "nothing"));
        assert_eq!(echoed(&["ab\n", "cd", ""], 5), (1, "writing"));
        let much = "a\n".repeat(BLOCK / 2);
        assert_eq!(
            echoed(&[&much, &much], BLOCK + 11),
            (BLOCK as u64 / 2 + 5, "writing")
        );
    }

    #[test]
    fn an_unfinished_line_before_a_failed_read_is_not_answered() {
        assert_eq!(echoed(&["ab\ncd"], 100), (1, "reading"));
        assert_eq!(echoed(&["ab\ncd", "ef\ngh"], 100), (2, "reading"));
        assert_eq!(echoed(&[], 100), (0, "reading"));
    }

    /// The lines that `text` has if it comes in blocks of so many octets; `-`
    /// is one too long.
    fn lines(text: &str, block: usize) -> Vec<String> {
        let mut found = Vec::new();
        let mut lines = Lines::default();
        let mut see = |line: Option<&[u8]>| {
            let line = line.unwrap_or(b"-");
            found.push(String::from_utf8_lossy(line).into_owned());
        };
        for block in text.as_bytes().chunks(block) {
            let Ok(()) = lines.feed::<std::convert::Infallible>(block, |line| {
                see(line);
                Ok(())
            });
        }
        if let Some(last) = lines.last() {
            see(last);
        }
        found
    }

    #[test]
    fn blocks_do_not_matter() {
        let longest = "x".repeat(LONGEST_LINE);
        let text = format!("\nab\n{longest}\n{longest}y\n\n{longest}yz\nlast");
        let expected = ["", "ab", &longest, "-", "", "-", "last"];
        for block in [1, 2, 3, 1_000, 4_096, 4_097, 100_000] {
            assert_eq!(lines(&text, block), expected, "{block}");
        }
        assert!(lines("", 1).is_empty());
    }
}
