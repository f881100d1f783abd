//! What is measured, once for all makes of the code.
//!
//! A make is a [`Side`]. [`cases`] are what is measured on it: each case makes
//! batches of calls between which it sets up what the next batch needs, and
//! only the batches count.

mod cases;
#[cfg(feature = "product")]
mod rattle;
mod rust;

pub use cases::{Case, cases};
#[cfg(feature = "product")]
pub use rattle::Rattle;
pub use rust::Rust;
use std::hint::black_box;
use std::time::{Duration, Instant};
pub use x2u::frame::{Range, Report};
pub use x2u::{Form, Refusal};

/// One make of the code. An answer is a number, below zero for a refusal.
pub trait Side: 'static {
    /// Its name in the results.
    const NAME: &'static str;
    /// The secondary's end.
    type Keeper: Clone;

    /// Reads a frame to its last range and answers a sum over all its fields,
    /// so that none of them can be left unread.
    fn read(octets: &[u8]) -> i64;
    /// The same with a call for each range, which can't be inlined, as there is
    /// one across a C boundary in any case.
    fn read_apart(octets: &[u8]) -> i64;
    /// Writes a data frame.
    fn write_data(form: Form, number: u32, buffer: &mut [u8]) -> i64;
    /// Writes a status.
    fn write_status(form: Form, report: &Report, list: &List, buffer: &mut [u8]) -> i64;

    /// Opens a secondary.
    fn keeper(pdcp_bits: u32, first: u32, first_pdcp: u32) -> Self::Keeper;
    /// A packet arrives.
    fn arrive(keeper: &mut Self::Keeper, number: u32, pdcp: u32) -> i64;
    /// The gaps before a mark are given up.
    fn expire(keeper: &mut Self::Keeper, mark: u32) -> i64;
    /// A packet is confirmed.
    fn confirm(keeper: &mut Self::Keeper, number: u32) -> i64;
    /// A status is built.
    fn status(keeper: &mut Self::Keeper, buffer: &mut [u8]) -> i64;

    /// Opens a master at number 0 and PDCP number 0 and sends so many packets,
    /// each into a ledger that has room: one opened afresh takes the place of a
    /// full one. The answer is the sum of their numbers.
    fn sends(pdcp_bits: u32, turns: u32) -> u32;
    /// Opens a master at number 0 and PDCP number 0, sends `entries` packets,
    /// and gives it the frame so many times. The answer tells the last one.
    fn accepts(pdcp_bits: u32, entries: u32, turns: u32, octets: &[u8]) -> u32;
    /// Opens a master at number 0 and PDCP number 0, sends `entries` packets,
    /// gives it the frame once, and sends so many packets behind what is left, 16
    /// into each copy of that ledger. The answer is the sum of their numbers.
    fn sends_behind(pdcp_bits: u32, entries: u32, turns: u32, octets: &[u8]) -> u32;
    /// Opens a master at number 0 and PDCP number 0, sends `entries` packets,
    /// gives it the frame once, and asks for the room so many times. Each answer
    /// has one octet more desired, or two if it is odd, so that no turn can be
    /// told without the one before. The answer is the sum of the rooms.
    fn rooms(pdcp_bits: u32, entries: u32, turns: u32, octets: &[u8]) -> u32;
}

/// The size of each PDU sent, in octets.
pub const PDU: u32 = 1_500;

/// Ranges, as either side takes them.
pub struct List {
    /// For the library.
    pub ranges: Vec<Range>,
    /// For the product.
    pub starts: Vec<u32>,
    /// For the product.
    pub ends: Vec<u32>,
}

impl List {
    /// A list of `count` ranges, one number in three lost.
    #[must_use]
    pub fn of(count: u32) -> Self {
        Self::from(|i| 3 * i, count)
    }

    fn from(number: impl Fn(u32) -> u32, count: u32) -> Self {
        let numbers: Vec<u32> = (0..count).map(number).collect();
        Self {
            ranges: numbers
                .iter()
                .map(|&number| Range {
                    start: number,
                    end: number,
                })
                .collect(),
            starts: numbers.clone(),
            ends: numbers,
        }
    }
}

/// The fields of a status like any other.
pub const REPORT: Report = Report {
    highest: 4_000,
    desired: 1 << 20,
    minimum: 1 << 16,
    is_final: false,
};

/// What so many calls took.
#[derive(Clone, Copy, Debug, Default)]
pub struct Measured {
    /// The time.
    pub time: Duration,
    /// The calls.
    pub calls: u64,
}

impl Measured {
    fn add(&mut self, time: Duration, calls: u64) {
        self.time += time;
        self.calls += calls;
    }
}

/// Runs a batch. Instructions are counted from here on and to the end of this
/// function, whose name the counter is told.
#[inline(never)]
fn measured_batch<T>(batch: impl FnOnce() -> T) -> T {
    // Looked at, so that this function ends after the batch and not in it.
    black_box(batch())
}

fn raw_time<T>(batch: impl FnOnce() -> T) -> Duration {
    let start = Instant::now();
    black_box(measured_batch(batch));
    start.elapsed()
}

/// How long a batch takes, without what looking at the clock takes.
struct Clock {
    look: Duration,
}

impl Clock {
    fn new() -> Self {
        let looks = (0..1_000).map(|_| {
            let start = Instant::now();
            black_box(());
            start.elapsed()
        });
        Self {
            look: looks.min().unwrap_or_default(),
        }
    }

    fn time<T>(&self, batch: impl FnOnce() -> T) -> Duration {
        raw_time(batch).saturating_sub(self.look)
    }
}
