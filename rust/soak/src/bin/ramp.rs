//! Plays the warm-up ramp on a `replay` program beside the library.

use soak::options::Options;
use soak::ramp::Settings;
use soak::ramp::run::{Run, Where};
use soak::ramp::table::Table;
use soak::ramp::verdict::Verdict;
use soak::ramp::words::grouped;
use std::io::{self, Write};
use std::path::PathBuf;
use std::process::ExitCode;
use std::time::Duration;

const USAGE: &str = "\
usage: ramp REPLAY [--bits 12|15|18] [--rate N] [--minutes N] [--seed N]
                   [--patience SECONDS] [--folder DIR] [--report FILE]
                   [--chart FILE] [--force]
       ramp REPLAY --all [--seeds N,N,..] [--rate N] [--minutes N]
                   [--patience SECONDS] [--folder DIR]

Plays eleven minutes (--minutes) of one bearer at N packets a second (2000)
with PDCP numbers of so many bits (12), as fast as the machine goes. The
program REPLAY makes every call beside the library; every answer is compared
and demand 3 is checked by packet identity. Prints a report to be signed, saves
it and draws a chart, in DIR (.) by date, L and seed, or to each FILE, which
only --force overwrites. --all plays every L with each seed (1,2,3) and ends
with one table. A program that neither reads nor answers for SECONDS (60) fails.
RAMP_HOST, RAMP_COMMIT, RAMP_KIT, RAMP_COMPILERS, RAMP_BUILD (shipped, native or
other) and RAMP_HASH in the environment are what the report says of them.
Exit code: 0 passed, 1 failed, 2 wrong use, 3 passed below the rate asked for.";

const VALUES: [&str; 9] = [
    "bits", "rate", "minutes", "seed", "seeds", "patience", "folder", "report", "chart",
];
const FLAGS: [&str; 3] = ["all", "force", "help"];

fn main() -> ExitCode {
    match Options::of(std::env::args().skip(1), &VALUES, &FLAGS) {
        Ok(options) if options.has("help") => {
            println!("{USAGE}");
            ExitCode::SUCCESS
        }
        Ok(options) => played(&options),
        Err(trouble) => wrong_use(&trouble),
    }
}

fn wrong_use(trouble: &str) -> ExitCode {
    eprintln!("ramp: {trouble} (ramp --help says more)");
    ExitCode::from(2)
}

fn played(options: &Options) -> ExitCode {
    let prepared = if options.has("all") {
        every(options)
    } else {
        one(options)
    };
    match prepared {
        Err(trouble) => wrong_use(&trouble),
        Ok(ramp) => ramp().unwrap_or_else(|trouble| {
            eprintln!("ramp: {trouble}");
            ExitCode::FAILURE
        }),
    }
}

/// What is left to do once all is seen to be well asked for.
type Ramp = Box<dyn FnOnce() -> Result<ExitCode, String>>;

/// One ramp.
fn one(options: &Options) -> Result<Ramp, String> {
    excluded(options, &["seeds"], "goes with --all")?;
    let settings = settings(
        options,
        options.value("bits", 12)?,
        options.value("seed", 1)?,
    )?;
    let place = Where {
        folder: PathBuf::from(options.value("folder", ".".to_owned())?),
        report: options.path("report"),
        chart: options.path("chart"),
        force: options.has("force"),
    };
    let run = Run::prepare(settings, &place)?;
    Ok(Box::new(|| {
        let played = run.play()?;
        print(&format!(
            "{}\nreport saved to {}\nchart saved to {}\n",
            played.report, played.report_file, played.chart_file
        ));
        Ok(ExitCode::from(played.verdict.exit_code()))
    }))
}

/// Every L with each seed.
fn every(options: &Options) -> Result<Ramp, String> {
    excluded(
        options,
        &["bits", "seed", "report", "chart", "force"],
        "doesn't go with --all",
    )?;
    let folder = PathBuf::from(options.value("folder", ".".to_owned())?);
    let seeds: String = options.value("seeds", "1,2,3".to_owned())?;
    let mut all = Vec::new();
    for seed in seeds.split(',') {
        let seed = seed
            .parse()
            .map_err(|_| format!("--seeds can't be {seeds}"))?;
        all.extend([12, 15, 18].map(|bits| settings(options, bits, seed)));
    }
    let mut all = all.into_iter().collect::<Result<Vec<_>, _>>()?;
    all.sort_by_key(|settings| settings.bits);
    let table = Table::prepare(&folder, asked(&all[0]))?;
    Ok(Box::new(|| play_all(all, folder, table)))
}

fn play_all(all: Vec<Settings>, folder: PathBuf, mut table: Table) -> Result<ExitCode, String> {
    let place = Where {
        folder,
        report: None,
        chart: None,
        force: false,
    };
    for settings in all {
        let played = Run::prepare(settings, &place)?.play()?;
        eprintln!("L {}, seed {}: {}", played.bits, played.seed, played.result);
        table.add(played);
    }
    table.save()?;
    print(&table.to_string());
    let worst = if table.count(Verdict::Failed) > 0 {
        Verdict::Failed
    } else if table.count(Verdict::Slow) > 0 {
        Verdict::Slow
    } else {
        Verdict::Passed
    };
    Ok(ExitCode::from(worst.exit_code()))
}

/// What the ramps of a table have in common.
fn asked(settings: &Settings) -> String {
    let (minutes, rest) = (settings.seconds / 60, settings.seconds % 60);
    format!(
        "each {minutes} min {rest:02} s at {} packets a second asked for",
        grouped(settings.rate.into())
    )
}

/// Refuses options that don't belong here.
fn excluded(options: &Options, names: &[&str], why: &str) -> Result<(), String> {
    match names.iter().find(|name| options.has(name)) {
        Some(name) => Err(format!("--{name} {why}")),
        None => Ok(()),
    }
}

fn settings(options: &Options, bits: u32, seed: u64) -> Result<Settings, String> {
    let [program] = &options.words[..] else {
        return Err(match options.words.get(1) {
            Some(word) => format!("there is no option {word}"),
            None => "a replay program is needed".to_owned(),
        });
    };
    let minutes: f64 = options.value("minutes", 11.0)?;
    let patience: u64 = options.value("patience", 60)?;
    let settings = Settings {
        program: PathBuf::from(program),
        bits,
        rate: options.value("rate", 2_000)?,
        seconds: (minutes * 60.0) as u32,
        seed,
        patience: Duration::from_secs(patience),
    };
    if ![12, 15, 18].contains(&bits) {
        return Err(format!("--bits can't be {bits}: 12, 15 or 18"));
    }
    if !(100..=100_000).contains(&settings.rate) {
        return Err(format!("--rate can't be {}: 100 to 100000", settings.rate));
    }
    if settings.seconds == 0 || minutes > 1_000.0 {
        return Err(format!(
            "--minutes can't be {minutes}: a second (0.017) to 1000"
        ));
    }
    if !(1..=86_400).contains(&patience) {
        return Err(format!(
            "--patience can't be {patience}: 1 to 86400 seconds"
        ));
    }
    Ok(settings)
}

/// Prints on standard output. What is printed is saved too, so that nothing is
/// lost if nobody reads it.
fn print(text: &str) {
    if let Err(error) = io::stdout().write_all(text.as_bytes()) {
        eprintln!("ramp: standard output: {error}");
    }
}
