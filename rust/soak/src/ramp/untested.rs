//! What a ramp leaves untested, said of the one that was played.

use super::facts::Build;
use super::figures::Stores;
use super::play::Ending;
use super::refusals;
use super::report::Report;
use super::verdict::{Verdict, rate_sent};
use super::words::grouped;

/// A plain list.
#[must_use]
pub fn list(report: &Report<'_>) -> Vec<String> {
    let mut list = lengths_and_build(report);
    list.extend(coverage(report));
    list.extend(ALWAYS.map(str::to_owned));
    list
}

/// True of every ramp.
const ALWAYS: [&str; 7] = [
    "A rest behind a packet that is dropped: it waits on, and from half a circle of PDCP numbers on sends are refused (35).",
    "A host that heeds the room: the source sends whatever it is. Which radio a PDU goes over is not decided here.",
    "More than one bearer at a time, a bearer opened again, a run of calls from several threads.",
    "A real clock, real timers, a real radio or handset: time, delays and confirms are simulated.",
    "The archive for C and its header: every call went to the program under test as a line of text.",
    "The codec beyond these statuses: data frames, reserved types, spare bits, extensions (compare and property do).",
    "GTP-U, UDP, X2AP and ciphering, which are not built here.",
];

/// True while the master refuses no status.
const STATUSES: &str = "Statuses lost, repeated, out of order or spoilt: each arrived once, in order, as demand 3 assumes.";

/// True of a run of this processor's build.
const SHIPPED: &str =
    "The command, which REPLAY=scripts/replay plays: this run is of the program by itself.";

/// The lengths and the build that weren't played.
fn lengths_and_build(report: &Report<'_>) -> Vec<String> {
    let bits = report.settings.bits;
    let others: Vec<String> = [12, 15, 18]
        .into_iter()
        .filter(|other| *other != bits)
        .map(|other| other.to_string())
        .collect();
    let mut list = vec![format!(
        "L of {} bits; this run has {bits}.",
        others.join(" and ")
    )];
    list.extend(match report.facts.build {
        Build::Shipped => None,
        Build::Native => Some(SHIPPED.to_owned()),
        Build::Other | Build::Unknown => {
            Some("The product's own builds, as far as this report knows.".to_owned())
        }
    });
    list
}

/// What this run might have met, and did not.
fn coverage(report: &Report<'_>) -> Vec<String> {
    let (ending, settings) = (report.ending, report.settings);
    let (asked, sent) = (grouped(settings.rate.into()), grouped(rate_sent(ending)));
    let mut list = Vec::new();
    if Verdict::of(settings, ending) == Verdict::Slow {
        list.push(format!("{asked} packets a second: {sent} were sent."));
    }
    if ending.figures.numbers.times.is_empty() {
        list.push("A rollover of the X2-U numbers.".to_owned());
    }
    if ending.figures.pdcp.times.is_empty() {
        list.push("A rollover of the PDCP numbers.".to_owned());
    }
    if ending.figures.rests.halves + ending.figures.rests.turns == 0 {
        list.push("A rest of more than half the PDCP circle.".to_owned());
    }
    if ending.figures.rests.turns == 0 {
        list.push("A rest of more than a whole turn of the PDCP circle.".to_owned());
    }
    if ending.figures.losses.spared.arrived == 0 {
        list.push("A good packet that the mark of an expiry saved.".to_owned());
    }
    list.extend(rooms(ending));
    list.extend(stores(ending.figures.fullest));
    if !refusals::any_to(&ending.table, "accept") {
        list.push(STATUSES.to_owned());
    }
    let (all, met) = refusals::counts(&ending.table);
    let never = all - met;
    list.push(format!(
        "{never} of {all} refusals, each call's counted apart: see \"Refusals never met\"."
    ));
    list
}

/// Rooms that were never met.
fn rooms(ending: &Ending) -> impl Iterator<Item = String> {
    let (rooms, tally) = (ending.figures.rooms, ending.tally);
    [
        (rooms.none == 0, "A room of 0."),
        (rooms.most == 0, "A room above 0."),
        (
            tally.taken <= tally.lost,
            "Room that a closed end gains by a take: nothing waited when Final closed it.",
        ),
    ]
    .into_iter()
    .filter(|(never, _)| *never)
    .map(|(_, what)| what.to_owned())
}

/// Stores that were never full.
fn stores(most: Stores) -> impl Iterator<Item = String> {
    let limits = Stores::LIMITS;
    [
        (most.entries, limits.entries, "the ledger's entries"),
        (most.records, limits.records, "the keeper's records"),
        (most.runs, limits.runs, "the keeper's runs"),
    ]
    .into_iter()
    .filter(|(most, limit, _)| most < limit)
    .map(|(most, limit, what)| format!("A full store of {what}: {most} of {limit} was the most."))
}
