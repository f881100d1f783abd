//! Demand 3 on another make's own trace: its answers, and nothing else, are
//! told to a watch.

use model::demand::Tally;
use model::{Opening, Watch};
use programs::replay::Call;
use std::collections::VecDeque;
use std::fmt::{self, Debug, Formatter};
use x2u::frame::{self, Frame, Range};
use x2u::ledger::{Entry, Fate, Settled};
use x2u::{Answer, Refusal};

/// What a line of a trace means to the watch.
#[derive(Clone, Copy, Debug, PartialEq, Eq)]
pub enum Event {
    /// Both ends are opened.
    Opened,
    /// A send of this PDCP number, and of a PDU of this size.
    Sent(u32, u32),
    /// A copy of this packet arrives.
    Arrived(usize),
    /// An expiry with this mark.
    Expired(u32),
    /// A confirm of this number.
    Confirmed(u32),
    /// A status is asked for.
    Built,
    /// The oldest frame under way reaches the master; a look at it follows.
    Accepted,
    /// A take.
    Taken,
    /// The room is asked for.
    Room,
    /// A call that has to be refused.
    Refused,
    /// A look at the secondary.
    Keeper,
    /// A look at the master.
    Ledger,
}

/// The calls made on one bearer.
#[derive(Clone)]
pub struct Trace {
    opening: Opening,
    /// Their lines.
    pub lines: Vec<Vec<u8>>,
    events: Vec<Event>,
}

impl Debug for Trace {
    fn fmt(&self, out: &mut Formatter<'_>) -> fmt::Result {
        write!(out, "{} lines", self.lines.len())
    }
}

impl Trace {
    /// The trace of a bearer that is opened.
    #[must_use]
    pub fn new(opening: Opening) -> Self {
        let mut trace = Self {
            opening,
            lines: Vec::new(),
            events: Vec::new(),
        };
        let numbers = [
            opening.bits,
            opening.first as u32,
            opening.first_pdcp as u32,
        ];
        trace.call(&Call::Open(numbers), Event::Opened);
        trace
    }

    /// Adds a call.
    pub fn call(&mut self, call: &Call<'_>, event: Event) {
        let mut line = Vec::new();
        call.print(&mut line).expect("memory takes all");
        self.lines.push(line);
        self.events.push(event);
    }

    /// Checks demand 3 on the answers that a program gave to the lines.
    pub fn check(&self, answers: &[Vec<u8>]) -> Result<Tally, String> {
        let mut told = Told {
            watch: Watch::new(self.opening),
            frames: VecDeque::new(),
            closed: false,
        };
        let mut place = 0;
        while let (Some(&event), Some(answer)) = (self.events.get(place), answers.get(place)) {
            let next = answers.get(place + 1);
            told.tell(event, &self.lines[place], answer, next)
                .map_err(|what| format!("line {}: {what}", place + 1))?;
            place += 1;
        }
        if place < self.lines.len() {
            return Err(format!("{} lines, but {place} answers", self.lines.len()));
        }
        Ok(told.watch.tally())
    }
}

struct Told {
    watch: Watch,
    /// Frames that were built and have not reached the master.
    frames: VecDeque<Vec<u8>>,
    closed: bool,
}

impl Told {
    fn tell(
        &mut self,
        event: Event,
        line: &[u8],
        answer: &[u8],
        next: Option<&Vec<u8>>,
    ) -> Result<(), String> {
        let said = Said::of(answer);
        match event {
            Event::Opened => said
                .ok()?
                .map_err(|refusal| format!("not opened: {refusal:?}")),
            Event::Sent(pdcp, size) => match said.numbers::<1>("sent")? {
                Ok([number]) => self.watch.sent(pdcp, size, number),
                Err(_) => Ok(()),
            },
            Event::Arrived(packet) => self.watch.arrived(packet, said.lost()?),
            Event::Expired(mark) => self.watch.expired(mark, said.lost()?),
            Event::Confirmed(number) => self.watch.confirmed(number, said.ok()?),
            Event::Built => self.built(&said),
            Event::Accepted => self.accepted(line, &said, next),
            Event::Taken => self.watch.taken(self.closed, said.taken()?),
            Event::Room => self.watch.room(said.room()?),
            Event::Refused => match said.refusal() {
                Some(_) => Ok(()),
                None => Err(format!("not refused: {said:?}")),
            },
            Event::Keeper => {
                let (base, runs) = said.keeper()?;
                self.watch.stands(base, &runs)
            }
            Event::Ledger => {
                let shown = said.ledger()?;
                self.watch.held(shown.entries.iter(), shown.octets)
            }
        }
    }

    fn built(&mut self, said: &Said<'_>) -> Result<(), String> {
        let Some(octets) = said.frame()? else {
            return Ok(());
        };
        let Frame::Status { report, ranges, .. } = frame::read(&octets) else {
            return Err(format!("no status was built: {said:?}"));
        };
        self.watch.built(&report, ranges)?;
        self.frames.push_back(octets);
        Ok(())
    }

    fn accepted(
        &mut self,
        line: &[u8],
        said: &Said<'_>,
        next: Option<&Vec<u8>>,
    ) -> Result<(), String> {
        // E3: each frame reaches the master unchanged, once and in order.
        let built = self.frames.pop_front();
        let digits = line.strip_prefix(b"accept\t").unwrap_or_default();
        let delivered = octets_of(digits);
        if built != delivered {
            return Err(format!("{built:?} was built, but {delivered:?} delivered"));
        }
        let settled = said.settled()?;
        let shown = next.map(|next| Said::of(next).ledger());
        let shown = shown.ok_or("no look at the master follows")??;
        self.watch
            .accepted(settled, shown.entries.iter(), shown.octets)?;
        self.closed |= settled.is_ok_and(|settled| settled.is_final);
        Ok(())
    }
}

/// An answer, taken apart.
#[derive(Debug)]
struct Said<'a> {
    fields: Vec<&'a str>,
}

impl<'a> Said<'a> {
    fn of(answer: &'a [u8]) -> Self {
        let text = std::str::from_utf8(answer).unwrap_or("");
        Self {
            fields: text.split('\t').collect(),
        }
    }

    fn wrong<T>(&self) -> Result<T, String> {
        Err(format!("no such answer was looked for: {:?}", self.fields))
    }

    fn refusal(&self) -> Option<Refusal> {
        let ["refused", number] = self.fields[..] else {
            return None;
        };
        let number: u8 = number.parse().ok()?;
        Refusal::ALL
            .into_iter()
            .find(|refusal| refusal.number() == number)
    }

    /// `N` numbers behind `word`, or a refusal.
    fn numbers<const N: usize>(&self, word: &str) -> Result<Answer<[u32; N]>, String> {
        if let Some(refusal) = self.refusal() {
            return Ok(Err(refusal));
        }
        match self.fields.split_first() {
            Some((first, rest)) if *first == word && rest.len() == N => {
                let mut numbers = [0; N];
                for (number, field) in numbers.iter_mut().zip(rest) {
                    *number = number_of(field)?;
                }
                Ok(Ok(numbers))
            }
            _ => self.wrong(),
        }
    }

    fn ok(&self) -> Result<Answer<()>, String> {
        Ok(self.numbers::<0>("ok")?.map(|_| ()))
    }

    fn lost(&self) -> Result<Answer<u32>, String> {
        Ok(self.numbers::<1>("lost")?.map(|[lost]| lost))
    }

    fn frame(&self) -> Result<Option<Vec<u8>>, String> {
        match self.fields[..] {
            ["frame", digits] => match octets_of(digits.as_bytes()) {
                Some(octets) => Ok(Some(octets)),
                None => self.wrong(),
            },
            _ if self.refusal().is_some() => Ok(None),
            _ => self.wrong(),
        }
    }

    fn settled(&self) -> Result<Answer<Settled>, String> {
        match self.fields[..] {
            ["freed", freed, "lost", lost, "final", last] => Ok(Ok(Settled {
                freed: number_of(freed)?,
                lost: number_of(lost)?,
                is_final: last == "1",
            })),
            _ => match self.refusal() {
                Some(refusal) => Ok(Err(refusal)),
                None => self.wrong(),
            },
        }
    }

    fn taken(&self) -> Result<Answer<(u32, u32, u32)>, String> {
        let taken = self.numbers("taken")?;
        Ok(taken.map(|[number, pdcp, size]| (number, pdcp, size)))
    }

    /// The room, which is never refused.
    fn room(&self) -> Result<u32, String> {
        match self.numbers("room")? {
            Ok([octets]) => Ok(octets),
            Err(_) => self.wrong(),
        }
    }

    /// Base and the listed runs.
    fn keeper(&self) -> Result<(u32, Vec<Range>), String> {
        match self.fields[..] {
            ["keeper", base, _, _, runs, _] => Ok((number_of(base)?, listed(runs, run_of)?)),
            _ => self.wrong(),
        }
    }

    fn ledger(&self) -> Result<Shown, String> {
        match self.fields[..] {
            ["ledger", _, _, _, _, _, _, octets, entries] => Shown {
                octets: number_of(octets)?,
                entries: listed(entries, entry_of)?,
            }
            .added_up(),
            _ => self.wrong(),
        }
    }
}

/// What a `ledger` line shows of the master.
struct Shown {
    /// How many octets wait, by its sum.
    octets: u32,
    entries: Vec<Entry>,
}

impl Shown {
    /// Itself, if its sum is that over the entries beside it.
    fn added_up(self) -> Result<Self, String> {
        let waiting = self.entries.iter().filter(|e| e.fate == Fate::Waiting);
        let sum: u64 = waiting.map(|entry| u64::from(entry.size)).sum();
        if u64::from(self.octets) == sum {
            return Ok(self);
        }
        let octets = self.octets;
        Err(format!(
            "{octets} octets wait, it says, but its entries that wait have {sum}"
        ))
    }
}

/// A run as a `keeper` line lists it.
fn run_of(text: &str) -> Option<Range> {
    let (start, end) = text.split_once('-')?;
    Some(Range {
        start: start.parse().ok()?,
        end: end.parse().ok()?,
    })
}

/// An entry as a `ledger` line lists it.
fn entry_of(text: &str) -> Option<Entry> {
    let parts: Vec<&str> = text.split(':').collect();
    let [number, pdcp, fate, size] = parts[..] else {
        return None;
    };
    Some(Entry {
        number: number.parse().ok()?,
        pdcp: pdcp.parse().ok()?,
        size: size.parse().ok()?,
        fate: match fate {
            "w" => Fate::Waiting,
            "l" => Fate::Lost,
            _ => return None,
        },
    })
}

fn number_of(field: &str) -> Result<u32, String> {
    field.parse().map_err(|_| format!("{field} is no number"))
}

/// Items joined by commas, or `none`.
fn listed<T>(text: &str, item: impl Fn(&str) -> Option<T>) -> Result<Vec<T>, String> {
    if text == "none" {
        return Ok(Vec::new());
    }
    let items: Option<Vec<T>> = text.split(',').map(item).collect();
    items.ok_or_else(|| format!("{text} is no list"))
}

fn octets_of(digits: &[u8]) -> Option<Vec<u8>> {
    let mut room = [0; frame::LONGEST];
    programs::text::octets_of(digits, &mut room).map(<[u8]>::to_vec)
}
