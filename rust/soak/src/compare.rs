//! Two makes of one program on the same lines.

use crate::process::{self, Outcome};
use crate::rng::Rng;
use crate::table::Table;
use crate::{frames, moods, shrink};
use std::fmt::{self, Display, Formatter};
use std::path::Path;

/// About as many lines go to one run of the programs.
const CHUNK: usize = 50_000;

/// Lines for one run of the programs.
#[derive(Default)]
pub struct Chunk {
    /// The lines, without their ends.
    pub lines: Vec<Vec<u8>>,
    /// The lines from which a script can be played by itself.
    starts: Vec<usize>,
}

/// Where lines come from, and what a line of theirs is called in the table.
pub trait Source {
    /// Lines for the next run.
    fn chunk(&mut self) -> Chunk;
    /// The kind of call that a line is.
    fn word<'a>(&self, line: &'a [u8]) -> &'a [u8];
}

/// Scripts for `replay`.
pub struct Scripts {
    rng: Rng,
    chunks: u32,
}

/// Frames for `lister`.
pub struct Frames {
    rng: Rng,
}

impl Scripts {
    /// The scripts of that seed.
    #[must_use]
    pub fn new(seed: u64) -> Self {
        Self {
            rng: Rng::new(seed),
            chunks: 0,
        }
    }

    fn fork(&mut self) -> Rng {
        Rng::new(self.rng.bits())
    }
}

impl Frames {
    /// The frames of that seed.
    #[must_use]
    pub fn new(seed: u64) -> Self {
        Self {
            rng: Rng::new(seed),
        }
    }
}

impl Chunk {
    fn add(&mut self, text: &[u8]) {
        self.starts.push(self.lines.len());
        let lines = text.split_inclusive(|&octet| octet == b'\n');
        let bare = |line: &[u8]| line.strip_suffix(b"\n").unwrap_or(line).to_vec();
        self.lines.extend(lines.map(bare));
    }
}

impl Source for Scripts {
    fn chunk(&mut self) -> Chunk {
        let mut chunk = Chunk::default();
        chunk.add(&moods::unopened(self.fork()));
        // A few chunks hold little else than a long script.
        match self.chunks % 8 {
            2 => chunk.add(&moods::long_script(self.fork(), false).text),
            6 => chunk.add(&moods::long_script(self.fork(), true).text),
            _ => {}
        }
        while chunk.lines.len() < CHUNK {
            chunk.add(&moods::script(self.fork()).text);
        }
        self.chunks += 1;
        chunk
    }

    fn word<'a>(&self, line: &'a [u8]) -> &'a [u8] {
        line.split(|&octet| octet == b'\t')
            .next()
            .unwrap_or_default()
    }
}

impl Source for Frames {
    fn chunk(&mut self) -> Chunk {
        Chunk {
            lines: (0..CHUNK).map(|_| frames::line(&mut self.rng)).collect(),
            starts: (0..CHUNK).collect(),
        }
    }

    fn word<'a>(&self, _: &'a [u8]) -> &'a [u8] {
        b"read"
    }
}

/// Lines on which the programs differ, as few as could be found.
#[derive(Debug)]
pub struct Mismatch {
    /// The lines.
    pub script: Vec<Vec<u8>>,
    /// What each program did on them.
    pub outcomes: [Outcome; 2],
}

/// Both programs, to be compared.
pub struct Comparison<'a> {
    /// Their paths.
    pub programs: [&'a Path; 2],
}

impl Comparison<'_> {
    /// Compares at least `least` lines of `source`. `progress` is told how many
    /// are done.
    pub fn run(
        &self,
        source: &mut impl Source,
        least: usize,
        mut progress: impl FnMut(usize),
    ) -> Result<(usize, Table), Box<Mismatch>> {
        let mut table = Table::default();
        let mut done = 0;
        while done < least {
            let chunk = source.chunk();
            let outcomes = self.play(&chunk.lines);
            if let Some(place) = first_difference(chunk.lines.len(), &outcomes) {
                return Err(Box::new(self.shrunk(&chunk, place)));
            }
            let answers = outcomes[0].output.split(|&octet| octet == b'\n');
            for (line, answer) in chunk.lines.iter().zip(answers) {
                table.count(source.word(line), answer);
            }
            done += chunk.lines.len();
            progress(done);
        }
        Ok((done, table))
    }

    /// Plays lines on both programs. Every other input lacks its last line end.
    fn play(&self, lines: &[Vec<u8>]) -> [Outcome; 2] {
        let mut input = lines.join(&b'\n');
        let ended = lines.len().is_multiple_of(2) || lines.last().is_some_and(Vec::is_empty);
        if ended && !lines.is_empty() {
            input.push(b'\n');
        }
        process::run_both(self.programs, &input)
    }

    fn differ(&self, lines: &[Vec<u8>]) -> bool {
        first_difference(lines.len(), &self.play(lines)).is_some()
    }

    /// A short script that shows the difference at line `place` of a chunk.
    fn shrunk(&self, chunk: &Chunk, place: usize) -> Mismatch {
        let starts = chunk.starts.iter().rev();
        let start = starts.copied().find(|&start| start <= place).unwrap_or(0);
        let end = chunk.lines.len().min(place + 1);
        let mut script = chunk.lines[start..end].to_vec();
        if !self.differ(&script) {
            // It takes what went before, or what comes after.
            script = chunk.lines[..end].to_vec();
            if !self.differ(&script) {
                script.clone_from(&chunk.lines);
            }
        }
        script = shrink::shortest(script, |lines| self.differ(lines));
        if let [line] = &script[..] {
            let fails = |digits: &[u8]| self.differ(&[digits.to_vec()]);
            script = vec![shrink::shortest(line.clone(), fails)];
        }
        let outcomes = self.play(&script);
        Mismatch { script, outcomes }
    }
}

/// The first line that the programs don't both answer alike.
fn first_difference(lines: usize, outcomes: &[Outcome; 2]) -> Option<usize> {
    let [one, other] = outcomes;
    let answers = |outcome: &Outcome| outcome.output.iter().filter(|&&o| o == b'\n').count();
    let ended = |outcome: &Outcome| outcome.output.last().is_none_or(|&octet| octet == b'\n');
    let whole = |outcome| answers(outcome) == lines && ended(outcome) && outcome.trouble.is_none();
    if one.output == other.output && whole(one) && whole(other) {
        return None;
    }
    let one_lines = one.output.split(|&octet| octet == b'\n');
    let other_lines = other.output.split(|&octet| octet == b'\n');
    let alike = one_lines
        .zip(other_lines)
        .take_while(|(a, b)| a == b)
        .count();
    Some(alike.min(lines.saturating_sub(1)))
}

impl Display for Mismatch {
    fn fmt(&self, out: &mut Formatter<'_>) -> fmt::Result {
        writeln!(out, "The programs differ on these lines:\n")?;
        for line in &self.script {
            writeln!(
                out,
                "{}",
                line.escape_ascii().to_string().replace("\\t", "\t")
            )?;
        }
        for (which, outcome) in ["first", "second"].iter().zip(&self.outcomes) {
            writeln!(out, "\nThe {which} program answers:\n")?;
            write!(out, "{}", String::from_utf8_lossy(&outcome.output))?;
            if let Some(trouble) = &outcome.trouble {
                writeln!(out, "and {trouble}")?;
            }
        }
        Ok(())
    }
}
