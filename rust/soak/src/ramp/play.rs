//! Playing the ramp, millisecond by millisecond.

use super::Settings;
use super::bench::{Bench, Trouble, held_by};
use super::conditions::{
    GAP, HANDSET_AGAIN, HASTY, OLD_COPY, OLD_COPY_QUIET, OLDEST_COPY, OWN_RADIO, OWN_RADIO_PACKETS,
    ROLLOVER_DROPS, ROOM, SHORT_BUFFER, SHORT_BUFFER_BELOW, SHOW, STATUS, STATUS_ARRIVALS, TAKE,
    TAKE_MOST, TWIN_LATER, WIND_UP, WRONG_MARK, WRONG_MARK_PAST, WRONG_SIZE, WRONG_SIZES,
    desired_below,
};
use super::figures::Figures;
use super::link::Mismatch;
use super::losses::By;
use super::source::{HeldBy, Source};
use super::weather::Weather;
use crate::rng::Rng;
use crate::table::Table;
use model::Opening;
use model::demand::Tally;
use std::cmp::Reverse;
use std::collections::{BinaryHeap, VecDeque};
use x2u::Refusal;
use x2u::frame::LONGEST;

/// How a ramp ended.
#[derive(Default)]
pub struct Ending {
    /// Its figures.
    pub figures: Figures,
    /// The watch's figures.
    pub tally: Tally,
    /// Packets sent.
    pub sent: u64,
    /// Calls made on the program.
    pub calls: u64,
    /// Refusals met.
    pub table: Table,
    /// What went wrong, if anything did.
    pub trouble: Option<Trouble>,
    /// The first answer that differed, if one did.
    pub mismatch: Option<Mismatch>,
}

/// Packets with the times they are due at.
type Queue = BinaryHeap<Reverse<(u64, usize)>>;

/// The host's gap timer, while it runs.
#[derive(Clone, Copy)]
struct Timer {
    /// The highest packet accepted at its start.
    mark: usize,
    since: u64,
}

struct Play {
    bench: Bench,
    opening: Opening,
    weather: Weather,
    rng: Rng,
    figures: Figures,
    now: u64,
    source: Source,
    /// Desired sizes are below this.
    desired_below: u32,
    next_pdcp: u64,
    road: Queue,
    handset: Queue,
    frames: VecDeque<u64>,
    timer: Option<Timer>,
    last_status: u64,
    arrivals: u32,
    newest_arrived: usize,
}

/// Plays a ramp. `progress` is told every ten seconds of it.
pub fn play(settings: &Settings, progress: impl FnMut(u64, &Figures, Tally)) -> Ending {
    let opening = settings.opening();
    match Bench::open(settings, opening) {
        Ok(bench) => Play::new(settings, opening, bench).run(settings, progress),
        Err(error) => Ending {
            trouble: Some(Trouble::Start(error.to_string())),
            ..Ending::default()
        },
    }
}

impl Play {
    fn new(settings: &Settings, opening: Opening, bench: Bench) -> Self {
        let mut rng = Rng::new(settings.seed);
        let weather_rng = Rng::new(rng.bits());
        let source_rng = Rng::new(rng.bits());
        Self {
            bench,
            opening,
            weather: Weather::new(settings, weather_rng),
            rng,
            figures: Figures::default(),
            now: 0,
            source: Source::new(settings.rate, source_rng),
            desired_below: desired_below(settings.rate),
            next_pdcp: opening.first_pdcp,
            road: Queue::new(),
            handset: Queue::new(),
            frames: VecDeque::new(),
            timer: None,
            last_status: 0,
            arrivals: 0,
            newest_arrived: 0,
        }
    }

    fn run(mut self, settings: &Settings, progress: impl FnMut(u64, &Figures, Tally)) -> Ending {
        let trouble = self.warm_up(settings, progress).err();
        if trouble.is_some() {
            self.figures.second(&self.bench.pair);
        }
        self.figures.flow = self.source.flow();
        self.figures.rests = self.weather.rests.rested;
        self.figures.pdcps_used = self.next_pdcp - self.opening.first_pdcp;
        self.figures.losses.end(self.bench.pair.watch.base());
        let sent = self.bench.pair.watch.sent_count() as u64;
        let calls = self.bench.calls;
        let (pair, table, mismatch) = self.bench.finish();
        Ending {
            figures: self.figures,
            tally: pair.tally(),
            sent,
            calls,
            table,
            trouble,
            mismatch,
        }
    }

    fn warm_up(
        &mut self,
        settings: &Settings,
        mut progress: impl FnMut(u64, &Figures, Tally),
    ) -> Result<(), Trouble> {
        let whole = u64::from(settings.seconds) * 1_000;
        while self.now < whole {
            self.millisecond()?;
            if self.now.is_multiple_of(1_000) {
                self.figures.second(&self.bench.pair);
            }
            if self.now.is_multiple_of(10_000) {
                progress(self.now / 1_000, &self.figures, self.bench.pair.tally());
            }
        }
        self.wind_up()
    }

    fn millisecond(&mut self) -> Result<(), Trouble> {
        self.now += 1;
        let fill = self.bench.pair.ledger.entry_count();
        self.weather.advance(self.now, fill);
        self.sends()?;
        self.arrive_due()?;
        self.gap_timer()?;
        self.wrong_mark()?;
        self.figures.look(&self.bench.pair, self.weather.troubles());
        self.confirm_due()?;
        self.build_status()?;
        self.deliver_due()?;
        if self.now.is_multiple_of(TAKE) && !self.weather.leaves_losses() {
            self.take_some(TAKE_MOST)?;
        }
        if self.now.is_multiple_of(ROOM) {
            self.room()?;
        }
        Ok(())
    }

    fn room(&mut self) -> Result<(), Trouble> {
        let room = self.bench.room()?;
        self.figures.room(room);
        Ok(())
    }

    fn sends(&mut self) -> Result<(), Trouble> {
        self.source.offer(self.now);
        if self.weather.rests.drains() && self.nothing_waits() {
            self.rest();
        }
        while !self.weather.holds_sending()
            && let Some(size) = self.source.next_size()
        {
            let pdcp = (self.next_pdcp % self.opening.pdcps()) as u32;
            if self.rng.once_in(WRONG_SIZE) {
                // The host gives another size than the PDU has, and tries again.
                let wrong = self.rng.pick(&WRONG_SIZES);
                let _ = self.bench.send(pdcp, wrong)?;
            }
            match self.bench.send(pdcp, size)? {
                Ok(number) => self.went_out(number),
                Err(Refusal::PdcpOrder) if pdcp == self.bench.pair.ledger.highest() => {
                    self.pass_highest();
                }
                Err(refusal) => {
                    let by = held_by(refusal).ok_or_else(|| {
                        Trouble::Demand(format!("a send was refused: {refusal:?}"))
                    })?;
                    self.source.held(by);
                    return Ok(());
                }
            }
        }
        if self.weather.holds_sending() {
            self.source.held(HeldBy::Pause);
        }
        Ok(())
    }

    fn nothing_waits(&self) -> bool {
        self.bench.pair.ledger.oldest_waiting().is_none()
    }

    /// A rest goes by: its PDUs use up their numbers, and no time.
    fn rest(&mut self) {
        let pdcps = self.opening.pdcps();
        let next = (self.next_pdcp % pdcps) as u32;
        let highest = self.bench.pair.ledger.highest();
        let to_highest = self.opening.pdcps_forward(next, highest);
        let pdus = self.weather.rests.go_by(self.now, to_highest);
        let turn = self.next_pdcp / pdcps;
        self.next_pdcp += pdus;
        self.figures.pdcp_in_rests += self.next_pdcp / pdcps - turn;
    }

    /// The PDU that bears H goes over the master's own radio. Nothing may wait,
    /// or what waits never arrive: then no status would ever change H.
    fn pass_highest(&mut self) {
        self.next_pdcp += 1;
        self.figures.own_radio += 1;
        self.figures.bore_highest += 1;
    }

    fn went_out(&mut self, number: u32) {
        self.source.sent(self.now);
        let packet = self.bench.pair.watch.sent_count() - 1;
        let counted = self.opening.first + packet as u64;
        let turns = [
            counted / self.opening.numbers(),
            self.next_pdcp / self.opening.pdcps(),
        ];
        self.figures.sent(turns, self.now);
        // A few packets go over the master's own radio and use up their numbers.
        let skipped = if self.rng.once_in(OWN_RADIO) {
            self.rng.within(OWN_RADIO_PACKETS)
        } else {
            0
        };
        self.next_pdcp += 1 + u64::from(skipped);
        self.figures.own_radio += u64::from(skipped);
        let dropped = self.weather.drops() || self.drops_over_rollover(number);
        self.figures.losses.sent(dropped);
        if dropped {
            return;
        }
        self.road
            .push(Reverse((self.now + self.weather.road(), packet)));
        if self.weather.copies() {
            let later = self.now + TWIN_LATER * self.weather.road();
            self.road.push(Reverse((later, packet)));
            self.figures.copies += 1;
        }
        if self.weather.begins_rest() {
            self.rest();
        }
    }

    /// A short burst falls on every second rollover of the X2-U numbers, so
    /// that a range runs over it.
    fn drops_over_rollover(&self, number: u32) -> bool {
        let (number, size) = (u64::from(number), self.opening.numbers());
        let met = self.figures.numbers.times.len();
        // Just after a rollover, it is among those met.
        let burst_now = met.is_multiple_of(2) != (number < ROLLOVER_DROPS);
        burst_now && (number < ROLLOVER_DROPS || number >= size - ROLLOVER_DROPS)
    }

    fn arrive_due(&mut self) -> Result<(), Trouble> {
        while let Some(packet) = pop_due(&mut self.road, self.now) {
            self.arrive(packet)?;
        }
        let watch = &self.bench.pair.watch;
        // With nothing open, the oldest that may arrive lies opposite base.
        let often = if watch.base() == watch.sent_count() {
            OLD_COPY_QUIET
        } else {
            OLD_COPY
        };
        if self.rng.once_in(often) {
            self.arrive_old_copy()?;
        }
        Ok(())
    }

    fn arrive(&mut self, packet: usize) -> Result<(), Trouble> {
        if !self.bench.pair.watch.may_arrive(packet) {
            return Ok(());
        }
        let highest = self.bench.pair.watch.highest_accepted();
        match self.bench.arrive(packet)? {
            Ok(lost) => {
                let next = highest.map_or(0, |highest| highest + 1);
                self.figures.losses.passed(next..packet, self.now);
                self.figures.losses.arrived(packet);
                self.gave_up(lost, By::Window);
                let due = self.now + self.weather.handset();
                self.handset.push(Reverse((due, packet)));
                self.figures.overtaken += u64::from(packet < self.newest_arrived);
                self.newest_arrived = self.newest_arrived.max(packet);
                self.arrivals += 1;
            }
            Err(_) => self.figures.strays += 1,
        }
        Ok(())
    }

    /// A copy from long ago, up to the oldest that may still arrive.
    fn arrive_old_copy(&mut self) -> Result<(), Trouble> {
        let exactly = self.rng.once_in(OLDEST_COPY);
        let watch = &self.bench.pair.watch;
        let Some(oldest) = watch.oldest_copy() else {
            return Ok(());
        };
        let newer = if exactly {
            0
        } else {
            self.rng.place(watch.sent_count() - oldest)
        };
        self.figures.copies += 1;
        self.arrive(oldest + newer)
    }

    /// The gap timer stops when no packet before its mark is open any more, and
    /// hands its mark over when it ends. If a gap is left, it starts anew.
    fn gap_timer(&mut self) -> Result<(), Trouble> {
        let base = self.bench.pair.watch.base();
        self.timer = self.timer.filter(|timer| base < timer.mark);
        if let Some(ended) = self.timer.take_if(|timer| self.now - timer.since >= GAP) {
            self.expire(self.opening.number(ended.mark))?;
        }
        if self.timer.is_none() {
            self.timer = self.started_timer();
        }
        Ok(())
    }

    /// A timer that starts now, if there is a gap.
    fn started_timer(&self) -> Option<Timer> {
        let watch = &self.bench.pair.watch;
        let mark = watch.highest_accepted().filter(|_| watch.has_gap())?;
        let since = self.now;
        Some(Timer { mark, since })
    }

    /// Now and then the host hands over a mark that no timer had.
    fn wrong_mark(&mut self) -> Result<(), Trouble> {
        if !self.rng.once_in(WRONG_MARK) {
            return Ok(());
        }
        let watch = &self.bench.pair.watch;
        let (base, numbers) = (watch.base(), self.opening.numbers());
        let next = watch.highest_accepted().map_or(0, |highest| highest + 1);
        let mark = match self.rng.within(0..3) {
            0 => {
                let past = self.rng.place(WRONG_MARK_PAST);
                self.opening.number(next.max(base) + past)
            }
            1 if base > 0 => {
                let oldest = base.saturating_sub(numbers as usize / 2);
                let old = oldest + self.rng.place(base - oldest);
                self.opening.number(old)
            }
            _ => numbers as u32 + self.opening.number(next),
        };
        self.expire(mark)
    }

    fn expire(&mut self, mark: u32) -> Result<(), Trouble> {
        if let Ok(lost) = self.bench.expire(mark)? {
            self.gave_up(lost, By::Expiry);
            let missing = self.bench.pair.watch.missing();
            self.figures.losses.spared.expired(missing);
        }
        Ok(())
    }

    /// So many packets were declared lost just now.
    fn gave_up(&mut self, lost: u32, by: By) {
        for packet in self.bench.pair.watch.last_lost(lost) {
            self.figures.losses.lost(packet, by, self.now);
        }
    }

    fn confirm_due(&mut self) -> Result<(), Trouble> {
        if self.weather.handset_sleeps() {
            return Ok(());
        }
        while let Some(packet) = pop_due(&mut self.handset, self.now) {
            let in_order = packet < self.bench.pair.watch.base();
            // A packet above a gap has to wait; a hasty handset is refused.
            if in_order || self.rng.once_in(HASTY) {
                let _ = self.bench.confirm(packet)?;
            }
            if !in_order {
                self.handset
                    .push(Reverse((self.now + HANDSET_AGAIN, packet)));
            }
        }
        Ok(())
    }

    fn build_status(&mut self) -> Result<(), Trouble> {
        let waited = self.now - self.last_status >= STATUS;
        if self.weather.withholds_statuses() || !(waited || self.arrivals >= STATUS_ARRIVALS) {
            return Ok(());
        }
        self.status(false)?;
        // With runs left out, the next status follows at once.
        while !self.bench.pair.keeper.listed_runs().is_empty() {
            self.status(false)?;
        }
        Ok(())
    }

    fn status(&mut self, is_final: bool) -> Result<(), Trouble> {
        let desired = self.rng.within(0..self.desired_below);
        if self.rng.once_in(SHORT_BUFFER) {
            // The host's buffer is too short, and it tries again.
            let room = self.rng.place(SHORT_BUFFER_BELOW);
            let _ = self.bench.status(desired, is_final, room)?;
        }
        if let Ok(octets) = self.bench.status(desired, is_final, LONGEST)? {
            let left = self.bench.pair.keeper.listed_runs().len();
            self.figures.built(&octets, left);
            let due = self.now + self.weather.road_back();
            let due = self.frames.back().map_or(due, |&last| due.max(last));
            self.frames.push_back(due);
        }
        if self.bench.pair.tally().built.is_multiple_of(SHOW) {
            self.bench.show()?;
        }
        self.last_status = self.now;
        self.arrivals = 0;
        Ok(())
    }

    fn deliver_due(&mut self) -> Result<(), Trouble> {
        while self.frames.front().is_some_and(|&due| due <= self.now) {
            self.frames.pop_front();
            self.bench.deliver()?;
            self.room()?;
        }
        Ok(())
    }

    fn take_some(&mut self, most: u32) -> Result<(), Trouble> {
        for _ in 0..most {
            if self.bench.take()?.is_err() {
                break;
            }
        }
        Ok(())
    }

    /// Sending is over: what is under way arrives, and the bearer is closed.
    fn wind_up(&mut self) -> Result<(), Trouble> {
        self.now += WIND_UP;
        self.arrive_due()?;
        while self.bench.pair.watch.has_gap() {
            self.now += GAP;
            self.gap_timer()?;
        }
        // With nothing open any more, as in every pause.
        if let Some(oldest) = self.bench.pair.watch.oldest_copy() {
            self.figures.copies += 1;
            self.arrive(oldest)?;
        }
        while let Some(Reverse((_, packet))) = self.handset.pop() {
            let _ = self.bench.confirm(packet)?;
        }
        self.status(false)?;
        self.status(false)?;
        self.status(true)?;
        self.now = self.frames.back().map_or(self.now, |&last| last);
        self.deliver_due()?;
        self.bench.show()?;
        // Each that still waits gives its octets back.
        while self.bench.take()?.is_ok() {
            self.room()?;
        }
        self.bench.show()
    }
}

fn pop_due(queue: &mut Queue, now: u64) -> Option<usize> {
    let Reverse((due, packet)) = *queue.peek()?;
    if due > now {
        return None;
    }
    queue.pop();
    Some(packet)
}
