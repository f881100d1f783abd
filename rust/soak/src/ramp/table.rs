//! Several ramps in one table.

use super::facts::Facts;
use super::files::Kept;
use super::run::Played;
use super::verdict::Verdict;
use super::words::{grouped, times};
use std::fmt::{self, Display, Formatter};
use std::path::Path;

/// The table, and the file that it is saved to.
pub struct Table {
    facts: Facts,
    file: Kept,
    asked: String,
    rows: Vec<Played>,
}

impl Table {
    /// A table without rows, with its file in a folder; `asked` says what its
    /// ramps have in common.
    pub fn prepare(folder: &Path, asked: String) -> Result<Self, String> {
        let facts = Facts::now();
        let stem = format!("ramp-{}-all", facts.began.stamp());
        let mut file = Kept::fresh(folder, &stem, "txt")?;
        file.fill("Result: NONE, the runs were not played to their end\n")?;
        Ok(Self {
            facts,
            file,
            asked,
            rows: Vec::new(),
        })
    }

    /// A ramp more.
    pub fn add(&mut self, played: Played) {
        self.rows.push(played);
    }

    /// How many came to that.
    #[must_use]
    pub fn count(&self, verdict: Verdict) -> usize {
        self.rows
            .iter()
            .filter(|row| row.verdict == verdict)
            .count()
    }

    /// Saves it.
    pub fn save(&mut self) -> Result<(), String> {
        let text = self.to_string();
        self.file.fill(&text)
    }

    fn last_line(&self) -> String {
        let runs = times(self.rows.len() as u64, "run");
        let (failed, slow) = (self.count(Verdict::Failed), self.count(Verdict::Slow));
        let below = if slow > 0 {
            format!("; the rate was not reached in {slow}")
        } else {
            String::new()
        };
        match failed {
            0 => format!("PASSED, all of {runs}{below}"),
            _ => format!("FAILED, {failed} of {runs}{below}"),
        }
    }
}

/// What the columns are called, and how wide they are.
const COLUMNS: [(&str, usize); 12] = [
    ("L", 2),
    ("seed", 6),
    ("result", 24),
    ("sent", 11),
    ("rate", 7),
    ("lost", 9),
    ("saved", 7),
    ("freed", 11),
    ("taken", 9),
    ("X2-U", 5),
    ("PDCP", 5),
    ("mismatches", 10),
];

/// A row's cells, as the columns are.
fn cells(row: &Played) -> [String; COLUMNS.len()] {
    [
        row.bits.to_string(),
        row.seed.to_string(),
        row.verdict.word().to_owned(),
        grouped(row.sent[0]),
        grouped(row.sent[1]),
        grouped(row.tally.lost),
        grouped(row.saved),
        grouped(row.tally.freed),
        grouped(row.tally.taken),
        row.rollovers[0].to_string(),
        row.rollovers[1].to_string(),
        row.mismatches.to_string(),
    ]
}

fn line(out: &mut Formatter<'_>, cells: &[String; COLUMNS.len()], report: &str) -> fmt::Result {
    for (cell, (name, width)) in cells.iter().zip(COLUMNS) {
        match name {
            "result" => write!(out, " {cell:<width$} ")?,
            _ => write!(out, "{cell:>width$} ")?,
        }
    }
    writeln!(out, " {report}")
}

impl Display for Table {
    fn fmt(&self, out: &mut Formatter<'_>) -> fmt::Result {
        let facts = &self.facts;
        let runs = times(self.rows.len() as u64, "run");
        writeln!(
            out,
            "RAMP SOAK, X2 user plane (TS 36.425): {runs}, {}",
            self.asked
        )?;
        writeln!(out, "{}; {}", facts.began.words(), facts.host)?;
        writeln!(out, "commit {}; kit {}", facts.commit, facts.kit)?;
        writeln!(
            out,
            "build: {}; SHA-256: {}\n",
            facts.build.words(),
            facts.hash
        )?;
        line(out, &COLUMNS.map(|(name, _)| name.to_owned()), "report")?;
        for row in &self.rows {
            line(out, &cells(row), &row.report_file)?;
        }
        let file = self.file.path.display();
        writeln!(
            out,
            "\nrate: packets sent a second. saved: packets that arrived, and that document 01's expiry would have declared lost.\nX2-U, PDCP: rollovers met."
        )?;
        writeln!(out, "This table is saved to {file}")?;
        writeln!(out, "Result: {}", self.last_line())
    }
}
