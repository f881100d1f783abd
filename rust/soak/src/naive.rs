//! The naive model as a `replay` program would answer with it, beside the library.

use model::master::Fate;
use model::{Master, Opening, Secondary};
use programs::replay::{Call, Replay};
use x2u::frame::{self, Frame, LONGEST, Range};
use x2u::{Bearer, Form, Refusal};

/// Both naive ends of one bearer.
struct Naive {
    opening: Opening,
    secondary: Secondary,
    master: Master,
}

impl Naive {
    fn open([bits, first, first_pdcp]: [u32; 3]) -> Result<Self, Refusal> {
        Bearer::judged(bits, first, first_pdcp)?;
        let opening = Opening {
            bits,
            first: first.into(),
            first_pdcp: first_pdcp.into(),
        };
        Ok(Self {
            opening,
            secondary: Secondary::open(opening),
            master: Master::open(opening),
        })
    }

    /// The answer to a call, on the bearer opened last.
    fn make(opened: &mut Option<Self>, call: Call<'_>) -> Result<String, Refusal> {
        if let Call::Open(numbers) = call {
            *opened = Some(Self::open(numbers)?);
        }
        match opened {
            Some(naive) => naive.answer(call),
            None => Ok("unopened".to_owned()),
        }
    }

    fn answer(&mut self, call: Call<'_>) -> Result<String, Refusal> {
        Ok(match call {
            Call::Open(_) => "ok".to_owned(),
            Call::Arrive([number, pdcp]) => {
                format!("lost\t{}", self.secondary.arrive(number, pdcp)?)
            }
            Call::Expire(mark) => format!("lost\t{}", self.secondary.expire(mark)?),
            Call::Confirm(number) => {
                self.secondary.confirm(number)?;
                "ok".to_owned()
            }
            Call::Status { is_final, room, .. } => self.status(is_final, room)?,
            Call::Send([pdcp, size]) => format!("sent\t{}", self.master.send(pdcp, size)?),
            Call::Accept(octets) => self.accept(octets)?,
            Call::Take => {
                let (number, pdcp, size) = self.master.take()?;
                format!("taken\t{number}\t{pdcp}\t{size}")
            }
            Call::Room => format!("room\t{}", self.master.room()),
            Call::Keeper => self.keeper(),
            Call::Ledger => self.ledger(),
        })
    }

    fn ranges(&self, indexes: &[(usize, usize)]) -> Vec<Range> {
        let number = |index| self.opening.number(index);
        let range = |&(start, end): &(usize, usize)| Range {
            start: number(start),
            end: number(end),
        };
        indexes.iter().map(range).collect()
    }

    /// What the frame says; its octets are the codec's matter.
    fn status(&mut self, is_final: bool, room: usize) -> Result<String, Refusal> {
        let built = self.secondary.status(is_final, room)?;
        let ranges = self.ranges(&built.ranges);
        Ok(told(built.length, built.highest, is_final, &ranges))
    }

    fn accept(&mut self, octets: &[u8]) -> Result<String, Refusal> {
        if self.master.is_closed() {
            return Err(Refusal::Closed);
        }
        let ours = if self.opening.bits == 18 {
            Form::Long
        } else {
            Form::Short
        };
        match frame::read(octets) {
            Frame::Refused(refusal) => Err(refusal),
            Frame::Status {
                form,
                report,
                ranges,
            } if form == ours => {
                let ranges: Vec<Range> = ranges.collect();
                let (freed, lost) = self.master.accept(&report, &ranges)?;
                let last = u8::from(report.is_final);
                Ok(format!("freed\t{freed}\tlost\t{lost}\tfinal\t{last}"))
            }
            _ => Err(Refusal::NotOurStatus),
        }
    }

    fn keeper(&self) -> String {
        let model = &self.secondary;
        let runs = self.ranges(&model.listed());
        let runs = joined(runs.iter().map(|run| format!("{}-{}", run.start, run.end)));
        let records = joined(model.records().map(|index| {
            let confirmed = u8::from(model.confirmed(index));
            let number = self.opening.number(index);
            format!("{number}:{}:{confirmed}", model.pdcp(index))
        }));
        let base = self.opening.number(model.base());
        let closed = u8::from(model.is_closed());
        let highest = model.reported_highest();
        format!("keeper\t{base}\t{highest}\t{closed}\t{runs}\t{records}")
    }

    fn ledger(&self) -> String {
        let model = &self.master;
        let entries = joined(model.held().into_iter().map(|index| {
            let (number, pdcp, size, fate) = model.entry(index);
            let mark = if fate == Fate::Lost { 'l' } else { 'w' };
            format!("{number}:{pdcp}:{mark}:{size}")
        }));
        let next = self.opening.number(model.sent());
        let (highest, last_sent) = model.pdcp_marks();
        let (desired, minimum) = model.sizes();
        let closed = u8::from(model.is_closed());
        let octets = model.waiting_octets();
        format!(
            "ledger\t{next}\t{highest}\t{last_sent}\t{closed}\t{desired}\t{minimum}\t{octets}\t{entries}"
        )
    }
}

fn joined(items: impl Iterator<Item = String>) -> String {
    let items: Vec<String> = items.collect();
    if items.is_empty() {
        "none".to_owned()
    } else {
        items.join(",")
    }
}

fn told(length: usize, highest: u32, is_final: bool, ranges: &[Range]) -> String {
    format!("{length} octets, highest {highest}, final {is_final}, {ranges:?}")
}

/// A frame that the library built, as `told` tells it; other answers as they are.
fn read_back(answer: &str) -> String {
    let Some(digits) = answer.strip_prefix("frame\t") else {
        return answer.to_owned();
    };
    let mut room = [0; LONGEST];
    let octets = programs::text::octets_of(digits.as_bytes(), &mut room).unwrap_or_default();
    match frame::read(octets) {
        Frame::Status { report, ranges, .. } => {
            let ranges: Vec<Range> = ranges.collect();
            told(octets.len(), report.highest, report.is_final, &ranges)
        }
        other => format!("{other:?} is no status"),
    }
}

/// Plays lines on the library and on the model; those that are no calls are left
/// out. Answers what both said, or where they differ.
pub fn alike<'a>(lines: impl IntoIterator<Item = &'a [u8]>) -> Result<Vec<String>, String> {
    let mut naive = None;
    let mut replay = Replay::default();
    let mut answers = Vec::new();
    for (place, line) in lines.into_iter().enumerate() {
        let mut room = [0; LONGEST];
        let Some(call) = Call::of_line(line, &mut room) else {
            continue;
        };
        let mut out = Vec::new();
        let printed = replay.answer(Some(line), &mut out);
        printed.map_err(|error| error.to_string())?;
        let answer = String::from_utf8_lossy(&out).trim_end().to_owned();
        let expected = Naive::make(&mut naive, call);
        let expected = expected.unwrap_or_else(|refusal| format!("refused\t{}", refusal.number()));
        if read_back(&answer) != expected {
            return Err(format!(
                "line {}, {}: the library answers {answer}, the model {expected}",
                place + 1,
                line.escape_ascii()
            ));
        }
        answers.push(answer);
    }
    Ok(answers)
}
