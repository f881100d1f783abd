//! The tables of docs/PERFORMANCE.md, from what was measured.

use bench::{Case, Rust, cases};
use std::collections::BTreeMap;
use std::fs;
use std::path::{Path, PathBuf};
use std::process::ExitCode;

const USAGE: &str = "\
usage: tables ROUNDS COUNTS LISTER

Prints the tables from a folder of criterion's folders, one for each round, a
file of instructions a call (case, side, count) and one of the lister's times
(side, seconds, octets).";

/// The lister's goal.
const LISTER: f64 = 2.0;

fn main() -> ExitCode {
    let words: Vec<String> = std::env::args().skip(1).collect();
    let [rounds, counts, lister] = &words[..] else {
        eprintln!("{USAGE}");
        return ExitCode::from(2);
    };
    match tables(Path::new(rounds), counts, lister) {
        Ok(text) => {
            print!("{text}");
            ExitCode::SUCCESS
        }
        Err(trouble) => {
            eprintln!("{trouble}\n\n{USAGE}");
            ExitCode::from(2)
        }
    }
}

/// A number for each side: Rust's and the product's.
type Both = [f64; 2];
const SIDES: [&str; 2] = ["rust", "rattle"];

fn tables(rounds: &Path, counts: &str, lister: &str) -> Result<String, String> {
    let read = |file: &str| fs::read_to_string(file).map_err(|error| format!("{file}: {error}"));
    let trouble = |error: std::io::Error| format!("{}: {error}", rounds.display());
    let rounds: Vec<PathBuf> = fs::read_dir(rounds)
        .and_then(|folders| folders.map(|folder| Ok(folder?.path())).collect())
        .map_err(trouble)?;
    let counts = counted(&read(counts)?)?;
    let mut text = String::new();
    let all = cases::<Rust>();
    for (table, title) in [
        ("codec", "Reading and writing"),
        ("apart", "Reading with a call for each range on both sides"),
        ("lengths", "Reading against the frame's length (long form)"),
        ("keeper", "The keeper"),
        (
            "ledger",
            "The ledger: sends, room, a status, and hostile frames (long form)",
        ),
    ] {
        text += &format!("### {title}\n\n");
        text += "| case | Rust ns | Rattle ns | ratio | goal | Rust instructions | Rattle instructions |\n";
        text += "|---|---:|---:|---:|---:|---:|---:|\n";
        for case in all.iter().filter(|case| case.table == table) {
            text += &row(case, &rounds, &counts)?;
        }
        text += "\n";
    }
    text += "### The lister\n\n";
    text += &race(&read(lister)?)?;
    Ok(text)
}

fn row(case: &Case, rounds: &[PathBuf], counts: &BTreeMap<String, Both>) -> Result<String, String> {
    let [rust, rattle] = SIDES.map(|side| fastest_of(rounds, &case.id, side));
    let (rust, rattle) = (rust?, rattle?);
    let ratio = rattle / rust;
    let goal = match case.goal {
        None => String::new(),
        Some(goal) if ratio <= goal => format!("{goal}"),
        Some(goal) => format!("{goal} **missed**"),
    };
    let count = counts.get(&case.id);
    let [ours, theirs] = count.ok_or_else(|| format!("no count of {}", case.id))?;
    Ok(format!(
        "| {} | {rust:.1} | {rattle:.1} | {ratio:.2} | {goal} | {ours:.0} | {theirs:.0} |\n",
        case.title
    ))
}

/// The fastest sample of all rounds: what else runs on a machine only ever makes
/// a sample slower, and may do so for a whole round.
fn fastest_of(rounds: &[PathBuf], case: &str, side: &str) -> Result<f64, String> {
    let each = rounds
        .iter()
        .map(|round| fastest(&round.join(case).join(side)));
    let times: Vec<f64> = each.collect::<Result<_, _>>()?;
    times
        .into_iter()
        .min_by(f64::total_cmp)
        .ok_or_else(|| "no rounds".to_string())
}

/// The fastest sample of one round in nanoseconds a call, out of criterion's file.
fn fastest(folder: &Path) -> Result<f64, String> {
    let file = folder.join("new/sample.json");
    let trouble = |what: &str| format!("{}: {what}", file.display());
    let text = fs::read_to_string(&file).map_err(|error| trouble(&error.to_string()))?;
    let list = |name: &str| -> Option<Vec<f64>> {
        let (_, rest) = text.split_once(&format!("\"{name}\":["))?;
        let (numbers, _) = rest.split_once(']')?;
        numbers.split(',').map(|n| n.parse().ok()).collect()
    };
    let (Some(times), Some(calls)) = (list("times"), list("iters")) else {
        return Err(trouble("no samples"));
    };
    let samples = times.iter().zip(&calls).map(|(time, calls)| time / calls);
    samples
        .min_by(f64::total_cmp)
        .ok_or_else(|| trouble("no samples"))
}

fn counted(text: &str) -> Result<BTreeMap<String, Both>, String> {
    let mut counts: BTreeMap<String, Both> = BTreeMap::new();
    for line in text.lines() {
        let wrong = || format!("no count: {line}");
        let fields: Vec<&str> = line.split('\t').collect();
        let [case, side, count] = fields[..] else {
            return Err(wrong());
        };
        let place = SIDES
            .iter()
            .position(|&known| known == side)
            .ok_or_else(wrong)?;
        counts.entry(case.to_owned()).or_default()[place] = count.parse().map_err(|_| wrong())?;
    }
    Ok(counts)
}

fn race(text: &str) -> Result<String, String> {
    let field = |side: &str, place: usize| -> Result<f64, String> {
        let line = text.lines().find(|line| line.starts_with(side));
        let field = line.and_then(|line| line.split('\t').nth(place));
        let number = field.and_then(|field| field.parse().ok());
        number.ok_or_else(|| format!("no time of the lister: {side}"))
    };
    let (rust, rattle) = (field("rust\t", 1)?, field("rattle\t", 1)?);
    let octets = field("rust\t", 2)?;
    let ratio = rattle / rust;
    let missed = if ratio <= LISTER { "" } else { " **missed**" };
    let mut table =
        "| input | Rust s | Rattle s | ratio | goal |\n|---|---:|---:|---:|---:|\n".to_owned();
    table += &format!(
        "| {:.0} MB of mixed frames | {rust:.3} | {rattle:.3} | {ratio:.2} | {LISTER}{missed} |\n",
        octets / 1e6
    );
    Ok(table)
}
