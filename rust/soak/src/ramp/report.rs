//! The report that a test engineer signs.

use super::Settings;
use super::bench::Trouble;
use super::conditions::{self, GAP, OVERTAKEN_BY, ROAD, Row};
use super::facts::Facts;
use super::figures::Stores;
use super::play::Ending;
use super::source::HeldBy;
use super::verdict::{rate_of, rate_sent, result, unaccounted};
use super::words::grouped;
use super::{refusals, untested};
use std::fmt::{self, Display, Formatter};
use std::time::Duration;
use x2u::frame::MOST_RANGES;

/// Why more packets are declared lost than are dropped.
const WHY_LATE: &str = "An expiry gives up every open number before its mark, and an arrival those far below it: also packets
  that are merely late, still on the road.";

/// What the mark of an expiry spares.
const WHY_SPARED: &str = "Document 01's expiry gave up every open number below the highest accepted, however young. Its mark spares
  those at or past the highest accepted when the timer started. Each packet that an expiry spared so is counted once:
  it arrived between the next timer's start and its end, though the old rule would have declared it lost, or it didn't.";

/// What the figures of a run are that the program failed.
const RUNS_AHEAD: &str = "\
The figures above are the library's. It runs ahead of the program, which is read as it answers: they go past the
call that failed.";

/// What it takes to pass.
const PASSED: &str = "PASSED says that every answer of the program was that of the independent library, and that on these answers
  the bearer kept demand 3, packet by packet, and had the room that the sizes of its packets leave.";

/// A ramp that is over, to be printed.
pub struct Report<'a> {
    /// Where and on what it was played.
    pub facts: &'a Facts,
    /// What was played.
    pub settings: &'a Settings,
    /// How it ended.
    pub ending: &'a Ending,
    /// How long it took.
    pub took: Duration,
}

/// What every report begins with, before its ramp is played too.
pub fn head(facts: &Facts, settings: &Settings, out: &mut impl fmt::Write) -> fmt::Result {
    writeln!(
        out,
        "RAMP SOAK, X2 user plane (TS 36.425), both ends of one bearer"
    )?;
    writeln!(
        out,
        "==============================================================\n"
    )?;
    let opening = settings.opening();
    let rows = [
        ("Date", facts.began.words()),
        ("Host", facts.host.clone()),
        ("Commit", facts.commit.clone()),
        ("Kit", facts.kit.clone()),
        ("Compilers", facts.compilers.clone()),
        ("Program under test", settings.program.display().to_string()),
        ("  build", facts.build.words().to_owned()),
        ("  SHA-256", facts.hash.clone()),
        ("PDCP number length L", format!("{} bits", settings.bits)),
        ("X2-U numbers below M", grouped(opening.numbers())),
        ("First X2-U number", opening.first.to_string()),
        ("First PDCP number", opening.first_pdcp.to_string()),
        (
            "Packet rate asked for",
            format!("{} a second", grouped(settings.rate.into())),
        ),
        ("Time asked for", minutes(settings.seconds.into())),
        ("Seed", settings.seed.to_string()),
        (
            "Patience",
            format!("{} s of no read and no answer", settings.patience.as_secs()),
        ),
    ];
    for (what, value) in rows {
        writeln!(out, "{what:<24} {value}")?;
    }
    Ok(())
}

impl Report<'_> {
    fn time(&self, out: &mut Formatter<'_>) -> fmt::Result {
        let played = self.ending.figures.seconds.len() as u64;
        let took = self.took.as_secs_f64();
        let faster = played as f64 / took.max(0.001);
        section(out, "Time")?;
        writeln!(
            out,
            "  Time is simulated, a millisecond at a time: packets go as fast as the machine goes."
        )?;
        row(out, "simulated", minutes(played))?;
        row(
            out,
            "by the wall clock",
            format!("{took:.1} s, {faster:.1} times as fast"),
        )
    }

    fn settings(&self, out: &mut Formatter<'_>) -> fmt::Result {
        let troubles = conditions::troubles(self.settings);
        rows(
            out,
            "Settings: the source",
            conditions::source(self.settings),
        )?;
        rows(out, "Settings: the roads", conditions::road())?;
        rows(
            out,
            "Settings: the secondary's host",
            conditions::secondary(self.settings),
        )?;
        rows(out, "Settings: the master's host", conditions::master())?;
        rows(out, "Settings: troubles that come and go", troubles)?;
        rows(out, "Limits of both ends", conditions::limits())
    }

    fn rate(&self, out: &mut Formatter<'_>) -> fmt::Result {
        let each = || self.ending.figures.seconds.iter().map(|second| second.sent);
        let flow = &self.ending.figures.flow;
        section(out, "Packet rate")?;
        line(out, "asked for, a second", self.settings.rate.into())?;
        line(
            out,
            "offered by the source, a second",
            rate_of(flow.offered, flow),
        )?;
        line(out, "sent, a second, on average", rate_sent(self.ending))?;
        line(out, "  in the slowest second", each().min().unwrap_or(0))?;
        line(out, "  in the fastest second", each().max().unwrap_or(0))
    }

    fn flow(&self, out: &mut Formatter<'_>) -> fmt::Result {
        let flow = &self.ending.figures.flow;
        section(out, "What became of the packets offered by the source")?;
        let parts = [
            ("sent", self.ending.sent),
            ("turned away, the queue being full", flow.turned_away),
            ("in the queue when the time was over", flow.left),
        ];
        sum(out, "offered", &parts, flow.offered)?;
        section(out, "Packets that had to wait in the queue")?;
        let parts = HeldBy::ALL.map(|(by, words)| (words, flow.waited[by as usize]));
        sum(out, "that had to wait", &parts, flow.waited.iter().sum())?;
        line(out, "longest queue, packets", flow.longest_queue as u64)?;
        line(out, "longest wait of a sent packet, ms", flow.longest_wait)
    }

    fn packets(&self, out: &mut Formatter<'_>) -> fmt::Result {
        let (figures, tally) = (&self.ending.figures, self.ending.tally);
        section(out, "Packets")?;
        line(out, "sent over X2", self.ending.sent)?;
        line(out, "dropped on the road", figures.losses.dropped())?;
        line(out, "arrived after a later one", figures.overtaken)?;
        line(out, "further copies sent after them", figures.copies)?;
        line(
            out,
            "arrivals refused: late, opposite, repeated",
            figures.strays,
        )?;
        line(out, "declared lost", tally.lost)?;
        line(out, "reported lost", tally.reported)?;
        line(out, "confirmed by the handset", tally.confirmed)?;
        line(out, "freed by the master", tally.freed)?;
        line(out, "taken from the master", tally.taken)?;
        let waiting = tally.taken.saturating_sub(tally.lost);
        line(out, "  of them still waiting when Final closed it", waiting)
    }

    fn octets(&self, out: &mut Formatter<'_>) -> fmt::Result {
        let (rooms, octets) = (self.ending.figures.rooms, self.ending.tally.octets);
        section(out, "Octets of the packets sent over X2")?;
        let parts = [
            ("freed by the master", octets.freed),
            ("taken from the master", octets.taken),
        ];
        sum(out, "octets sent", &parts, octets.sent)?;
        line(out, "of packets declared lost", octets.lost)?;
        section(out, "Room: octets desired less those that wait")?;
        line(out, "times it was asked for", rooms.asked)?;
        line(out, "  times it was 0", rooms.none)?;
        line(out, "least above 0", rooms.least.into())?;
        line(out, "most", rooms.most.into())?;
        line(out, "on average", rooms.average())
    }

    fn rests(&self, out: &mut Formatter<'_>) -> fmt::Result {
        let figures = &self.ending.figures;
        let rests = figures.rests;
        section(out, "Rests: every PDU went over the master's own radio")?;
        let parts = [
            ("of up to half the PDCP circle", rests.parts),
            ("of more than half of it", rests.halves),
            ("of more than a whole turn", rests.turns),
        ];
        sum(out, "rests", &parts, rests.count())?;
        line(out, "  of them gone by while packets waited", rests.at_once)?;
        line(out, "longest rest, PDCP numbers", rests.longest)?;
        section(out, "What became of the PDCP numbers")?;
        let parts = [
            ("sent over X2", self.ending.sent),
            ("on the master's own radio alone, in rests", rests.pdus),
            (
                "on the master's own radio, between packets",
                figures.own_radio,
            ),
        ];
        sum(out, "PDCP numbers used", &parts, figures.pdcps_used)?;
        let highest = figures.bore_highest;
        line(out, "  of those between packets, H: refused (35)", highest)
    }

    fn losses(&self, out: &mut Formatter<'_>) -> fmt::Result {
        let losses = &self.ending.figures.losses;
        let (dropped, late) = (losses.dropped_lost, losses.late);
        section(out, "Why packets were declared lost")?;
        writeln!(
            out,
            "  {WHY_LATE}\n  The gap timer is {GAP} ms, delays differ by up to {} ms.",
            OVERTAKEN_BY.end - 1 + ROAD.end - 1 - ROAD.start
        )?;
        let parts = [
            ("dropped, given up by an expiry", dropped.by_expiry),
            ("dropped, given up by an arrival", dropped.by_window),
            ("late (on the road), given up by an expiry", late.by_expiry),
            ("late (on the road), given up by an arrival", late.by_window),
        ];
        sum(out, "declared lost", &parts, self.ending.tally.lost)
    }

    fn spared(&self, out: &mut Formatter<'_>) -> fmt::Result {
        let spared = &self.ending.figures.losses.spared;
        section(out, "What the marks of expiries saved")?;
        writeln!(out, "  {WHY_SPARED}")?;
        line(out, "expiries accepted", spared.expiries)?;
        line(
            out,
            "  of them, spared a packet by their mark",
            spared.sparing,
        )?;
        if let Some(youngest) = self.ending.figures.losses.youngest {
            line(out, "youngest gap that an expiry gave up, ms", youngest)?;
        }
        let parts = [
            ("arrived after all: good packets saved", spared.arrived),
            ("given up later, dropped on the road", spared.dropped_lost),
            ("given up later, merely late", spared.late_lost),
            ("still open at the end", spared.open),
        ];
        sum(out, "spared by a mark", &parts, spared.packets)
    }

    fn dropped(&self, out: &mut Formatter<'_>) -> fmt::Result {
        let losses = &self.ending.figures.losses;
        section(out, "What became of the packets dropped")?;
        let parts = [
            ("declared lost", losses.dropped_lost.sum()),
            ("arrived after all, as a copy from long ago", losses.saved),
            (
                "never declared: nothing arrived after them",
                losses.never_declared,
            ),
        ];
        sum(out, "dropped", &parts, losses.dropped())
    }

    fn statuses(&self, out: &mut Formatter<'_>) -> fmt::Result {
        let (figures, tally) = (&self.ending.figures, self.ending.tally);
        section(out, "Statuses")?;
        line(out, "built", tally.built.into())?;
        line(out, "accepted by the master", tally.accepted.into())?;
        line(out, "ranges carried", figures.ranges)?;
        line(
            out,
            "ranges that run over a rollover",
            figures.ranges_over_rollover,
        )?;
        line(
            out,
            "left runs out and held the highest back",
            figures.held_back,
        )?;
        section(out, "Rollovers met")?;
        line(out, "X2-U numbers", figures.numbers.times.len() as u64)?;
        line(out, "PDCP numbers", figures.pdcp.times.len() as u64)?;
        line(out, "  of them in rests", figures.pdcp_in_rests)
    }

    fn stores(&self, out: &mut Formatter<'_>) -> fmt::Result {
        let figures = &self.ending.figures;
        let (most, limit) = (figures.fullest, Stores::LIMITS);
        section(out, "Largest stores")?;
        fill(out, "entries in the ledger", most.entries, limit.entries)?;
        fill(out, "records in the keeper", most.records, limit.records)?;
        fill(out, "listed runs in the keeper", most.runs, limit.runs)?;
        fill(
            out,
            "ranges in one status",
            figures.most_ranges,
            MOST_RANGES,
        )
    }

    fn refusals(&self, out: &mut Formatter<'_>) -> fmt::Result {
        let (all, met) = refusals::counts(&self.ending.table);
        section(
            out,
            &format!("Refusals met: {met} of {all}, each call's counted apart"),
        )?;
        refusals::met(&self.ending.table, out)?;
        section(out, "Refusals never met")?;
        refusals::never_met(&self.ending.table, out)
    }

    fn checks(&self, out: &mut Formatter<'_>) -> fmt::Result {
        let violated = matches!(self.ending.trouble, Some(Trouble::Demand(_)));
        let silent = self
            .ending
            .mismatch
            .as_ref()
            .map(|mismatch| mismatch.silent);
        section(out, "Checks")?;
        writeln!(out, "  {PASSED}")?;
        line(out, "calls made on program and library", self.ending.calls)?;
        line(
            out,
            "answers that differ (stops at the first)",
            u64::from(silent == Some(false)),
        )?;
        line(
            out,
            "calls without an answer (likewise)",
            u64::from(silent == Some(true)),
        )?;
        line(
            out,
            "violations of demand 3 (likewise)",
            u64::from(violated),
        )?;
        let unreported = self.ending.tally.lost - self.ending.tally.reported;
        line(out, "packets lost and not reported", unreported)?;
        line(
            out,
            "packets neither freed nor taken",
            unaccounted(self.ending),
        )
    }

    fn trouble(&self, out: &mut Formatter<'_>) -> fmt::Result {
        if self.ending.trouble.is_some() {
            let played = self.ending.figures.seconds.len() as u64;
            writeln!(
                out,
                "\nStopped in second {played}; what was under way then is not settled."
            )?;
        }
        if self.ending.mismatch.is_some() {
            writeln!(out, "\n{RUNS_AHEAD}")?;
        }
        match &self.ending.trouble {
            Some(Trouble::Demand(words)) => writeln!(out, "\nDemand 3: {words}")?,
            Some(Trouble::Room(words)) => writeln!(out, "\nOf the library: {words}")?,
            _ => {}
        }
        if let Some(mismatch) = &self.ending.mismatch {
            match mismatch.call {
                0 => writeln!(out, "\nAt {}", mismatch.line)?,
                call => writeln!(out, "\nCall {call}: {}", shown(&mismatch.line))?,
            }
            writeln!(out, "  library: {}", shown(&mismatch.expected))?;
            writeln!(out, "  program: {}", shown(&mismatch.got))?;
        }
        Ok(())
    }

    fn untested(&self, out: &mut Formatter<'_>) -> fmt::Result {
        section(out, "Not tested in this run")?;
        for what in untested::list(self) {
            writeln!(out, "  - {what}")?;
        }
        Ok(())
    }
}

/// A line, cut where it would fill a page.
fn shown(line: &str) -> String {
    match line.char_indices().nth(400) {
        Some((cut, _)) => format!("{} ...", &line[..cut]),
        None => line.to_owned(),
    }
}

fn minutes(seconds: u64) -> String {
    format!("{} min {:02} s", seconds / 60, seconds % 60)
}

fn section(out: &mut Formatter<'_>, title: &str) -> fmt::Result {
    writeln!(out, "\n{title}")
}

fn rows(out: &mut Formatter<'_>, title: &str, rows: Vec<Row>) -> fmt::Result {
    section(out, title)?;
    for (what, value) in rows {
        row(out, what, value)?;
    }
    Ok(())
}

fn row(out: &mut Formatter<'_>, what: &str, value: String) -> fmt::Result {
    writeln!(out, "  {what:<36} {value}")
}

/// A figure that ends where all figures do, unless its words are too long.
fn line(out: &mut Formatter<'_>, what: &str, count: u64) -> fmt::Result {
    let figure = grouped(count);
    let width = 57_usize.saturating_sub(what.len()).max(figure.len() + 1);
    writeln!(out, "  {what}{figure:>width$}")
}

/// Shows parts, and that they add up to a whole, or that they don't.
fn sum(out: &mut Formatter<'_>, whole: &str, parts: &[(&str, u64)], count: u64) -> fmt::Result {
    for &(what, part) in parts {
        line(out, what, part)?;
    }
    let total: u64 = parts.iter().map(|(_, part)| part).sum();
    if total == count {
        line(out, &format!("together, all {whole}"), total)
    } else {
        line(out, &format!("together, but not all {whole}"), total)?;
        line(out, whole, count)
    }
}

fn fill(out: &mut Formatter<'_>, what: &str, most: usize, limit: usize) -> fmt::Result {
    writeln!(out, "  {what:<44} {most:>12} of {limit}")
}

impl Display for Report<'_> {
    fn fmt(&self, out: &mut Formatter<'_>) -> fmt::Result {
        head(self.facts, self.settings, out)?;
        self.time(out)?;
        self.settings(out)?;
        self.rate(out)?;
        self.flow(out)?;
        self.packets(out)?;
        self.octets(out)?;
        self.rests(out)?;
        self.losses(out)?;
        self.spared(out)?;
        self.dropped(out)?;
        self.statuses(out)?;
        self.stores(out)?;
        self.refusals(out)?;
        self.checks(out)?;
        self.untested(out)?;
        self.trouble(out)?;
        writeln!(out, "\nResult: {}\n", result(self.settings, self.ending))?;
        writeln!(
            out,
            "Signed ______________________________   Date ________________"
        )
    }
}
