//! One ramp from its settings to its report and its chart.

use super::Settings;
use super::chart::Chart;
use super::facts::Facts;
use super::figures::{Figures, Stores};
use super::files::Kept;
use super::play::{self, Ending};
use super::report::{Report, head};
use super::verdict::{Verdict, rate_sent, result};
use super::words::grouped;
use model::demand::Tally;
use std::io::{self, IsTerminal};
use std::path::PathBuf;
use std::time::Instant;

/// Where a report and a chart go.
pub struct Where {
    /// The folder of those that aren't named.
    pub folder: PathBuf,
    /// The report's name.
    pub report: Option<PathBuf>,
    /// The chart's name.
    pub chart: Option<PathBuf>,
    /// Whether files of these names are overwritten.
    pub force: bool,
}

/// A ramp that is ready to be played.
pub struct Run {
    settings: Settings,
    facts: Facts,
    report: Kept,
    chart: Kept,
}

/// A ramp that was played, and saved.
pub struct Played {
    /// L.
    pub bits: u32,
    /// Where chance began.
    pub seed: u64,
    /// What it came to.
    pub verdict: Verdict,
    /// In words.
    pub result: String,
    /// Packets sent, and sent a second.
    pub sent: [u64; 2],
    /// The watch's figures.
    pub tally: Tally,
    /// Good packets saved by the marks of expiries.
    pub saved: u64,
    /// Rollovers of the X2-U and of the PDCP numbers.
    pub rollovers: [usize; 2],
    /// Answers that differed or were missing.
    pub mismatches: u64,
    /// The report's text.
    pub report: String,
    /// Where it was saved.
    pub report_file: String,
    /// Where the chart was saved.
    pub chart_file: String,
}

impl Run {
    /// Makes both files, so that a ramp isn't played in vain. Until it is over,
    /// its report says that it wasn't played to its end.
    pub fn prepare(settings: Settings, place: &Where) -> Result<Self, String> {
        if place.report.is_some() && place.report == place.chart {
            return Err("--report and --chart are one file".to_owned());
        }
        let facts = Facts::now();
        let stem = format!(
            "ramp-{}-L{}-seed{}",
            facts.began.stamp(),
            settings.bits,
            settings.seed
        );
        let file = |named: &Option<PathBuf>, ending: &str| match named {
            Some(path) => Kept::named(path, place.force),
            None => Kept::fresh(&place.folder, &stem, ending),
        };
        let mut report = file(&place.report, "txt")?;
        let chart = match (&place.report, &place.chart) {
            (None, None) => report.beside("svg").or_else(|_| file(&None, "svg")),
            (_, chart) => file(chart, "svg"),
        };
        let chart = match chart {
            Ok(chart) => chart,
            Err(trouble) => {
                report.give_up();
                return Err(trouble);
            }
        };
        let mut begun = String::new();
        head(&facts, &settings, &mut begun).map_err(|error| error.to_string())?;
        report.fill(&format!(
            "{begun}\nResult: NONE, the run was not played to its end\n"
        ))?;
        Ok(Self {
            settings,
            facts,
            report,
            chart,
        })
    }

    /// Plays it and saves report and chart.
    pub fn play(mut self) -> Result<Played, String> {
        let start = Instant::now();
        let shows = io::stderr().is_terminal();
        let ending = play::play(&self.settings, |second, figures, tally| {
            if shows {
                eprint!("\r{}", progress(&self.settings, second, figures, tally));
            }
        });
        if shows {
            eprintln!();
        }
        let report = Report {
            facts: &self.facts,
            settings: &self.settings,
            ending: &ending,
            took: start.elapsed(),
        };
        let report = report.to_string();
        self.report.fill(&report)?;
        self.chart
            .fill(&chart(&self.settings, &ending).to_string())?;
        Ok(self.played(ending, report))
    }

    fn played(self, ending: Ending, report: String) -> Played {
        let Settings { bits, seed, .. } = self.settings;
        Played {
            bits,
            seed,
            verdict: Verdict::of(&self.settings, &ending),
            result: result(&self.settings, &ending),
            sent: [ending.sent, rate_sent(&ending)],
            tally: ending.tally,
            saved: ending.figures.losses.spared.arrived,
            rollovers: [&ending.figures.numbers, &ending.figures.pdcp].map(|met| met.times.len()),
            mismatches: u64::from(ending.mismatch.is_some()),
            report,
            report_file: self.report.path.display().to_string(),
            chart_file: self.chart.path.display().to_string(),
        }
    }
}

fn chart<'a>(settings: &'a Settings, ending: &'a Ending) -> Chart<'a> {
    let (tally, sent) = (ending.tally, rate_sent(ending));
    let verdict = Verdict::of(settings, ending);
    Chart {
        settings,
        figures: &ending.figures,
        subtitle: format!(
            "Seed {}: {} packets sent, {} a second; {} declared lost, {} freed, {} taken; {}",
            settings.seed,
            grouped(ending.sent),
            grouped(sent),
            grouped(tally.lost),
            grouped(tally.freed),
            grouped(tally.taken),
            if verdict == Verdict::Failed {
                "see the report"
            } else {
                "0 mismatches"
            },
        ),
        verdict,
    }
}

fn progress(settings: &Settings, second: u64, figures: &Figures, tally: Tally) -> String {
    let whole = settings.seconds;
    let last = figures
        .seconds
        .last()
        .map_or(Stores::default(), |s| s.fullest);
    let limits = Stores::LIMITS;
    format!(
        "{:>2}:{:02} of {}:{:02}  freed {:>9}  lost {:>7}  saved {:>5}  ledger {:>3}/{}  runs {:>3}/{}",
        second / 60,
        second % 60,
        whole / 60,
        whole % 60,
        tally.freed,
        tally.lost,
        figures.losses.spared.arrived,
        last.entries,
        limits.entries,
        last.runs,
        limits.runs
    )
}
