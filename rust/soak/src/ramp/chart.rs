//! The ramp as a picture (SVG): five panels over one axis of time.

use super::Settings;
use super::conditions::desired_below;
use super::figures::{Figures, Second, Stores};
use super::verdict::Verdict;
use super::weather::TROUBLES;
use super::words::grouped;
use std::fmt::{self, Display, Formatter};
use x2u::frame::MOST_RANGES;

const WIDTH: f64 = 1_220.0;
const HEIGHT: f64 = 1_425.0;
const LEFT: f64 = 90.0;
const RIGHT: f64 = 190.0;
const PANEL: f64 = 180.0;

const BLUE: &str = "#1f6fb4";
const ORANGE: &str = "#c8611a";
const GREEN: &str = "#2b8a57";
const RED: &str = "#b3261e";
const PURPLE: &str = "#6a4c93";
const TEAL: &str = "#13858c";
const GREY: &str = "#6b6b6b";

/// A ramp, to be drawn.
pub struct Chart<'a> {
    /// What was played.
    pub settings: &'a Settings,
    /// Its figures.
    pub figures: &'a Figures,
    /// A line of text under the title.
    pub subtitle: String,
    /// What it came to.
    pub verdict: Verdict,
}

/// A panel: where it is, and what its full height stands for.
struct Panel<'a> {
    chart: &'a Chart<'a>,
    top: f64,
    full: f64,
}

impl Chart<'_> {
    fn x(&self, seconds: f64) -> f64 {
        let whole = f64::from(self.settings.seconds.max(1));
        LEFT + (WIDTH - LEFT - RIGHT) * (seconds / whole).min(1.0)
    }

    fn panel(&self, place: u32, full: f64) -> Panel<'_> {
        Panel {
            chart: self,
            top: 110.0 + f64::from(place) * (PANEL + 55.0),
            full,
        }
    }

    /// Every so many seconds there is a mark on the axis of time.
    fn time_step(&self) -> u32 {
        let fits = |step: &u32| self.settings.seconds / step <= 12;
        [1, 2, 5, 10, 20, 30, 60, 120, 300, 600]
            .into_iter()
            .find(fits)
            .unwrap_or(1_800)
    }
}

impl Panel<'_> {
    fn y(&self, value: f64) -> f64 {
        self.top + PANEL * (1.0 - (value / self.full).min(1.0))
    }

    fn frame(&self, out: &mut Formatter<'_>, title: &str, marks: &[f64]) -> fmt::Result {
        let (x, right) = (LEFT, self.chart.x(f64::INFINITY));
        text(out, x, self.top - 10.0, "start", "#222", 15.0, title)?;
        for &mark in marks {
            let y = self.y(mark);
            stroke(out, [x, y, right, y], "#dddddd", "")?;
            let label = grouped(mark as u64);
            text(out, x - 8.0, y + 4.0, "end", GREY, 12.0, &label)?;
        }
        let step = self.chart.time_step();
        for second in (0..=self.chart.settings.seconds).step_by(step as usize) {
            let x = self.chart.x(f64::from(second));
            let bottom = self.top + PANEL;
            stroke(out, [x, bottom, x, bottom + 5.0], GREY, "")?;
            let label = format!("{}:{:02}", second / 60, second % 60);
            text(out, x, bottom + 19.0, "middle", GREY, 12.0, &label)?;
        }
        stroke(
            out,
            [x, self.top + PANEL, right, self.top + PANEL],
            GREY,
            "",
        )
    }

    /// A limit, named at its right end.
    fn limit(&self, out: &mut Formatter<'_>, value: usize, name: &str) -> fmt::Result {
        let (y, right) = (self.y(value as f64), self.chart.x(f64::INFINITY));
        stroke(out, [LEFT, y, right, y], RED, "6 4")?;
        let named = format!("{value}: {name}");
        text(out, right + 8.0, y + 4.0, "start", RED, 12.0, &named)
    }

    /// A line through the fullest of each second.
    fn line(
        &self,
        out: &mut Formatter<'_>,
        colour: &str,
        value: impl Fn(&Second) -> f64,
    ) -> fmt::Result {
        write!(
            out,
            r#"<polyline fill="none" stroke="{colour}" stroke-width="1.3" points=""#
        )?;
        for (second, at) in self.chart.figures.seconds.iter().zip(1_u32..) {
            let (x, y) = (self.chart.x(f64::from(at)), self.y(value(second)));
            write!(out, "{x:.1},{y:.1} ")?;
        }
        writeln!(out, r#""/>"#)
    }

    /// Base second by second, in one stroke from rollover to rollover.
    fn teeth(&self, out: &mut Formatter<'_>) -> fmt::Result {
        let mut last: Option<u32> = None;
        write!(
            out,
            r#"<path fill="none" stroke="{GREEN}" stroke-width="1.6" d=""#
        )?;
        for (second, at) in self.chart.figures.seconds.iter().zip(1_u32..) {
            let pen = if last.is_some_and(|last| last <= second.base) {
                'L'
            } else {
                'M'
            };
            let (x, y) = (self.chart.x(f64::from(at)), self.y(f64::from(second.base)));
            write!(out, "{pen}{x:.1} {y:.1} ")?;
            last = Some(second.base);
        }
        writeln!(out, r#""/>"#)
    }
}

fn text(
    out: &mut Formatter<'_>,
    x: f64,
    y: f64,
    anchor: &str,
    colour: &str,
    size: f64,
    words: &str,
) -> fmt::Result {
    let words = words.replace('&', "&amp;").replace('<', "&lt;");
    writeln!(
        out,
        r#"<text x="{x:.1}" y="{y:.1}" text-anchor="{anchor}" fill="{colour}" font-size="{size}">{words}</text>"#
    )
}

/// Marks at the quarters of a panel's height.
fn quarters(full: usize) -> [f64; 5] {
    [0, 1, 2, 3, 4].map(|quarter| (full * quarter / 4) as f64)
}

fn stroke(out: &mut Formatter<'_>, line: [f64; 4], colour: &str, dashes: &str) -> fmt::Result {
    let [x1, y1, x2, y2] = line;
    writeln!(
        out,
        r#"<line x1="{x1:.1}" y1="{y1:.1}" x2="{x2:.1}" y2="{y2:.1}" stroke="{colour}" stroke-dasharray="{dashes}"/>"#
    )
}

impl Chart<'_> {
    fn stores(&self, out: &mut Formatter<'_>) -> fmt::Result {
        let limit = Stores::LIMITS.entries;
        let panel = self.panel(0, limit as f64 * 1.08);
        let title = "Ledger fill: packets held by the master, fullest in each second";
        panel.frame(out, title, &quarters(limit))?;
        panel.limit(out, limit, "ledger full")?;
        panel.line(out, BLUE, |second| second.fullest.entries as f64)?;

        let limit = Stores::LIMITS.records;
        let panel = self.panel(1, limit as f64 * 1.08);
        let title =
            "Records: arrivals the secondary holds until the handset has them, most in each second";
        panel.frame(out, title, &quarters(limit))?;
        panel.limit(out, limit, "records full")?;
        panel.line(out, TEAL, |second| second.fullest.records as f64)?;

        let limit = Stores::LIMITS.runs;
        let panel = self.panel(2, limit as f64 * 1.08);
        let title = "Listed runs: losses the secondary has not reported yet, most in each second";
        panel.frame(out, title, &quarters(limit))?;
        panel.limit(out, limit, "list full")?;
        panel.limit(out, MOST_RANGES, "frame full")?;
        panel.line(out, ORANGE, |second| second.fullest.runs as f64)
    }

    fn rooms(&self, out: &mut Formatter<'_>) -> fmt::Result {
        let full = desired_below(self.settings.rate) as usize;
        let panel = self.panel(3, full as f64);
        let title = "Room: octets the secondary still wants, most and on average in each second";
        panel.frame(out, title, &quarters(full))?;
        panel.line(out, BLUE, |second| second.rooms.most.into())?;
        panel.line(out, ORANGE, |second| second.rooms.average() as f64)?;
        let rooms = self.figures.rooms;
        let zero = format!("0 in {} of 100", 100 * rooms.none / rooms.asked.max(1));
        let right = self.x(f64::INFINITY) + 8.0;
        for (row, colour, words) in [
            (14.0, BLUE, "most"),
            (30.0, ORANGE, "on average"),
            (46.0, GREY, &zero),
        ] {
            text(out, right, panel.top + row, "start", colour, 12.0, words)?;
        }
        Ok(())
    }

    fn base(&self, out: &mut Formatter<'_>) -> fmt::Result {
        let size = self.settings.opening().numbers() as usize;
        let panel = self.panel(4, size as f64);
        let title = "Base: the lowest X2-U number still open at the secondary";
        panel.frame(out, title, &quarters(size))?;
        for &time in &self.figures.numbers.times {
            let x = self.x(time as f64 / 1_000.0);
            stroke(out, [x, panel.top, x, panel.top + PANEL], RED, "2 3")?;
        }
        panel.teeth(out)?;
        let count = grouped(self.figures.numbers.times.len() as u64);
        let right = self.x(f64::INFINITY) + 8.0;
        text(
            out,
            right,
            panel.top + 14.0,
            "start",
            RED,
            12.0,
            "X2-U rollovers:",
        )?;
        text(
            out,
            right,
            panel.top + 30.0,
            "start",
            RED,
            12.0,
            &format!("{count} (dotted)"),
        )?;
        self.pdcp_strip(out, panel.top + PANEL + 30.0)
    }

    /// One small mark for each rollover of the PDCP numbers.
    fn pdcp_strip(&self, out: &mut Formatter<'_>, top: f64) -> fmt::Result {
        write!(out, r#"<path stroke="{GREY}" stroke-width="0.8" d=""#)?;
        for &time in &self.figures.pdcp.times {
            let x = self.x(time as f64 / 1_000.0);
            write!(out, "M{x:.1} {top:.1}V{:.1} ", top + 10.0)?;
        }
        writeln!(out, r#""/>"#)?;
        let count = grouped(self.figures.pdcp.times.len() as u64);
        let right = self.x(f64::INFINITY) + 8.0;
        text(
            out,
            right,
            top + 9.0,
            "start",
            GREY,
            12.0,
            &format!("PDCP rollovers: {count}"),
        )?;
        text(out, LEFT - 8.0, top + 9.0, "end", GREY, 12.0, "PDCP")
    }
}

impl Chart<'_> {
    /// When there was which trouble, second by second.
    fn troubles(&self, out: &mut Formatter<'_>, top: f64) -> fmt::Result {
        text(out, LEFT - 8.0, top + 8.0, "end", GREY, 12.0, "Seconds")?;
        text(out, LEFT - 8.0, top + 23.0, "end", GREY, 12.0, "with")?;
        for (row, name) in TROUBLES.iter().enumerate() {
            let y = top + 4.0 + 15.0 * row as f64;
            write!(out, r#"<path stroke="{PURPLE}" stroke-width="8" d=""#)?;
            for (second, at) in self.figures.seconds.iter().zip(0_u32..) {
                if second.troubles[row] {
                    let (from, to) = (self.x(f64::from(at)), self.x(f64::from(at + 1)));
                    write!(out, "M{from:.1} {y:.1}H{to:.1} ")?;
                }
            }
            writeln!(out, r#""/>"#)?;
            let right = self.x(f64::INFINITY) + 8.0;
            text(out, right, y + 4.0, "start", PURPLE, 12.0, name)?;
        }
        Ok(())
    }

    fn title(&self, out: &mut Formatter<'_>) -> fmt::Result {
        let Settings {
            bits,
            rate,
            seconds,
            ..
        } = self.settings;
        let (minutes, rest) = (seconds / 60, seconds % 60);
        let rate = grouped(u64::from(*rate));
        let title = format!(
            "Ramp soak: {minutes} min {rest:02} s, L = {bits}, {rate} packets a second asked for"
        );
        text(out, LEFT, 38.0, "start", "#111", 20.0, &title)?;
        text(out, LEFT, 62.0, "start", "#444", 13.0, &self.subtitle)?;
        let right = self.x(f64::INFINITY) + 8.0;
        let (verdict, colour) = match self.verdict {
            Verdict::Passed => ("PASSED", GREEN),
            Verdict::Slow => ("PASSED", ORANGE),
            Verdict::Failed => ("FAILED", RED),
        };
        text(out, right, 38.0, "start", colour, 20.0, verdict)?;
        if self.verdict == Verdict::Slow {
            text(out, right, 62.0, "start", ORANGE, 13.0, "rate not reached")?;
        }
        Ok(())
    }
}

impl Display for Chart<'_> {
    fn fmt(&self, out: &mut Formatter<'_>) -> fmt::Result {
        writeln!(
            out,
            r#"<svg xmlns="http://www.w3.org/2000/svg" width="{WIDTH}" height="{HEIGHT}" viewBox="0 0 {WIDTH} {HEIGHT}" font-family="DejaVu Sans, Arial, sans-serif">"#
        )?;
        writeln!(out, r#"<rect width="100%" height="100%" fill="white"/>"#)?;
        self.title(out)?;
        self.stores(out)?;
        self.rooms(out)?;
        self.base(out)?;
        self.troubles(out, HEIGHT - 129.0)?;
        let middle = (LEFT + self.x(f64::INFINITY)) / 2.0;
        let axis = "minutes:seconds into the ramp";
        text(out, middle, HEIGHT - 20.0, "middle", GREY, 13.0, axis)?;
        writeln!(out, "</svg>")
    }
}
