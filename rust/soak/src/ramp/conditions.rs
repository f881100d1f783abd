//! Every figure that a ramp is played by, and how a report says it. Times are
//! in milliseconds of the ramp.

use super::Settings;
use super::figures::Stores;
use super::words::{grouped, times};
use std::ops::Range;
use x2u::frame::MOST_RANGES;
use x2u::keeper::WINDOW;
use x2u::ledger::LARGEST_SIZE;

/// The source's queue at the master holds what it makes in so many seconds,
pub const QUEUE_SECONDS: u32 = 5;
/// and a few packets more, at the lowest rates.
pub const QUEUE_LEAST: u32 = 20;
/// The master's line carries so many times the rate. It must not carry a whole
/// ledger within a burst: with all of it dropped nothing is ever given up, and
/// the bearer stands still.
pub const LINE: u32 = 2;
/// A rate counts as reached if so many of 100 packets were sent in time.
pub const REACHED: u64 = 99;
/// So many of 1,000 PDUs have such a size, in octets: acknowledgements, full
/// packets, some of any size, and both limits.
pub const SIZES: [(u32, Range<u32>); 5] = [
    (300, 40..101),
    (670, 1_300..1_501),
    (26, 1..LARGEST_SIZE + 1),
    (2, 1..2),
    (2, LARGEST_SIZE..LARGEST_SIZE + 1),
];
/// One send in so many is first tried with a wrong size,
pub const WRONG_SIZE: u32 = 1_000;
/// one of these.
pub const WRONG_SIZES: [u32; 4] = [0, LARGEST_SIZE + 1, LARGEST_SIZE + 100, u32::MAX];

/// Drops at random, of 1,000 packets: at both ends of the ramp, and in its middle.
pub const DROPS: [f64; 2] = [1.0, 8.0];
/// So many packets before and as many after every second rollover are dropped.
pub const ROLLOVER_DROPS: u64 = 5;
/// One packet in so many gets a twin,
pub const TWIN: u32 = 50;
/// which takes so many times as long.
pub const TWIN_LATER: u64 = 10;
/// In one millisecond of so many a copy from long ago arrives,
pub const OLD_COPY: u32 = 400;
/// in one of so many while no packet sent is open,
pub const OLD_COPY_QUIET: u32 = 10;
/// one in so many of them as old as demand 3 allows.
pub const OLDEST_COPY: u32 = 4;
/// One send in so many is followed by packets on the master's own radio.
pub const OWN_RADIO: u32 = 200;
/// How many those are.
pub const OWN_RADIO_PACKETS: Range<u32> = 1..4;

/// The bearer rests after such a pause: every PDU goes over the master's own
/// radio. A rest begins behind a packet that the road carries, since one that is
/// dropped would wait for ever: no send would be in order half a circle on.
pub const REST_PAUSE: Range<u32> = 3_000..7_000;
/// It is so many hundredths of the PDCP circle long, in turn, and every fourth
/// goes on to H.
pub const REST_LENGTHS: [Range<u32>; 3] = [1..49, 51..99, 101..250];
/// One in so many goes by at once, while packets wait; before the others nothing
/// is sent until nothing waits.
pub const REST_AT_ONCE: u32 = 3;

/// From master to secondary.
pub const ROAD: Range<u32> = 6..8;
/// One packet in so many takes longer,
pub const OVERTAKEN: u32 = 40;
/// by so much.
pub const OVERTAKEN_BY: Range<u32> = 2..45;
/// From an arrival to the handset's confirm.
pub const HANDSET: Range<u32> = 8..20;
/// A confirm that has to wait for a gap is tried again after so long,
pub const HANDSET_AGAIN: u64 = 3;
/// one in so many of them too early, at the gap.
pub const HASTY: u32 = 100;
/// From secondary back to master.
pub const ROAD_BACK: Range<u32> = 6..12;

/// The gap timer: a gap this old is given up.
pub const GAP: u64 = 30;
/// In one millisecond of so many the host hands over a mark that no timer had,
pub const WRONG_MARK: u32 = 1_000;
/// past all that was accepted by fewer than so many, or up to half the circle
/// old, or past the circle.
pub const WRONG_MARK_PAST: usize = 300;
/// A status is built at least this often.
pub const STATUS: u64 = 40;
/// And after as many arrivals.
pub const STATUS_ARRIVALS: u32 = 120;
/// One status in so many is first asked for in a buffer that is too short,
pub const SHORT_BUFFER: u32 = 30;
/// of fewer octets than this.
pub const SHORT_BUFFER_BELOW: usize = 14;
/// Desired sizes are below what the source makes in so long,
pub const DESIRED_TIME: u64 = 160;
/// in PDUs of so many octets.
pub const DESIRED_PDU: u64 = 1_500;
/// The minimum size is this part of the desired one.
pub const MINIMUM_PART: u32 = 4;
/// Lost packets are taken so often,
pub const TAKE: u64 = 10;
/// so many at most.
pub const TAKE_MOST: u32 = 60;
/// The master is asked for the room so often, besides after each status.
pub const ROOM: u64 = 10;
/// Both ends are shown after as many statuses.
pub const SHOW: u32 = 20;
/// After the last send, what is under way has so long to arrive, before the
/// bearer is closed.
pub const WIND_UP: u64 = 10_000;

/// How long a spell of trouble lasts.
pub enum Lasts {
    /// As long as so many packets take at the rate asked for.
    Packets(Range<u32>),
    /// So many milliseconds.
    Time(Range<u32>),
}

impl Lasts {
    /// In milliseconds at a rate, at least one.
    #[must_use]
    pub fn at(&self, rate: u32) -> Range<u32> {
        let time = |packets: u32| (packets * 1_000 / rate).max(1);
        let range = match self {
            Self::Packets(packets) => time(packets.start)..time(packets.end),
            Self::Time(range) => range.clone(),
        };
        range.start..range.end.max(range.start + 1)
    }
}

/// A kind of trouble that comes and goes.
pub struct Spells {
    /// What it is.
    pub what: &'static str,
    /// The pause before each.
    pub pause: Range<u32>,
    /// How long each lasts.
    pub lasts: Lasts,
}

/// The road to the secondary drops everything.
pub const BURST: Spells = Spells {
    what: "burst: every packet dropped",
    pause: 400..2_500,
    lasts: Lasts::Packets(2..120),
};
/// The road back is stuck.
pub const STUCK: Spells = Spells {
    what: "statuses stuck on their way",
    pause: 15_000..40_000,
    lasts: Lasts::Packets(350..700),
};
/// The handset confirms nothing.
pub const ASLEEP: Spells = Spells {
    what: "handset asleep, confirms nothing",
    pause: 17_000..45_000,
    lasts: Lasts::Packets(350..700),
};
/// Nobody takes lost packets from the master.
pub const NOT_TAKEN: Spells = Spells {
    what: "lost packets not taken",
    pause: 20_000..50_000,
    lasts: Lasts::Time(1_500..6_000),
};

/// The first comb (every second packet dropped, no status built) begins then,
pub const COMB_FIRST: u64 = 5_000;
/// each later one after such a pause.
pub const COMB_PAUSE: Range<u32> = 12_000..30_000;
/// Before a comb nothing is sent until the ledger is empty, for so long at most.
pub const COMB_QUIET: u64 = 1_500;
/// A comb has one of these lengths in packets,
pub const COMB_TEETH: [u32; 5] = [300, 400, 480, 505, 512];
/// and ends when so many packets should have gone out.
pub const COMB_PACKETS: u64 = 700;
/// After it nothing is sent for so long, and its gaps expire.
pub const COMB_OVER: u64 = 80;

/// What a row of a report says, and its figure.
pub type Row = (&'static str, String);

/// The rows of the road to the secondary.
#[must_use]
pub fn road() -> Vec<Row> {
    let [ends, middle] = DROPS;
    vec![
        (
            "dropped at random",
            format!(
                "{ends} of 1,000 packets at both ends of the time, rising to {middle} in its middle"
            ),
        ),
        (
            "dropped over a rollover",
            format!(
                "{ROLLOVER_DROPS} before and {ROLLOVER_DROPS} after every 2nd rollover of the X2-U numbers"
            ),
        ),
        ("time to the secondary", milliseconds(&ROAD)),
        (
            "longer for some",
            format!("1 in {OVERTAKEN}, by {}", milliseconds(&OVERTAKEN_BY)),
        ),
        (
            "repeated",
            format!("1 in {TWIN}, its copy {TWIN_LATER} times as long on the road"),
        ),
        (
            "copies from long ago",
            format!("in 1 ms of {OLD_COPY}, 1 in {OLDEST_COPY} of them as old as demand 3 allows"),
        ),
        (
            "  while no packet sent is open",
            format!("in 1 ms of {OLD_COPY_QUIET}; the oldest once more after the last send"),
        ),
        (
            "time back to the master",
            format!("{}, in order", milliseconds(&ROAD_BACK)),
        ),
    ]
}

/// The rows of the secondary's host.
#[must_use]
pub fn secondary(settings: &Settings) -> Vec<Row> {
    let often = format!("every {STATUS} ms, or after {STATUS_ARRIVALS} arrivals");
    let short = format!("1 in {SHORT_BUFFER} first asked for");
    let desired = grouped(desired_below(settings.rate).into());
    let again = format!("tried every {HANDSET_AGAIN} ms, 1 in {HASTY} made too early");
    let mut rows = gap_timer().to_vec();
    rows.extend([
        (
            "status",
            format!("{often}; again at once while runs are listed"),
        ),
        (
            "status buffer",
            format!("{short} with fewer than {SHORT_BUFFER_BELOW} octets"),
        ),
        (
            "sizes in a status",
            format!("desired below {desired} octets, minimum 1/{MINIMUM_PART} of it"),
        ),
        (
            "confirm by the handset",
            format!("{} after the arrival", milliseconds(&HANDSET)),
        ),
        ("confirm of a packet above a gap", again),
    ]);
    rows
}

/// The rows of its gap timer.
fn gap_timer() -> [Row; 3] {
    [
        (
            "gap timer (expiry)",
            format!("{GAP} ms after a gap is seen; again while one is left"),
        ),
        (
            "  its mark",
            "the highest accepted when it starts; it stops when none before that is open"
                .to_owned(),
        ),
        (
            "  marks that no timer had",
            format!(
                "in 1 ms of {}: past all that was accepted, up to half a circle old, or M and more",
                grouped(WRONG_MARK.into())
            ),
        ),
    ]
}

/// The rows of the master's host.
#[must_use]
pub fn master() -> Vec<Row> {
    let radio = shown(&OWN_RADIO_PACKETS);
    let mut rows = vec![
        (
            "lost packets taken",
            format!("every {TAKE} ms, at most {TAKE_MOST}"),
        ),
        (
            "on the master's own radio",
            format!("{radio} packets after 1 send in {OWN_RADIO}"),
        ),
    ];
    rows.extend(rests());
    rows.push((
        "room asked for",
        format!(
            "every {ROOM} ms, after each status, and after each take once closed; the source doesn't heed it"
        ),
    ));
    rows.push((
        "both ends shown and compared",
        format!("after every {SHOW} statuses"),
    ));
    rows
}

/// The rows of its rests.
fn rests() -> [Row; 4] {
    let lengths = REST_LENGTHS.map(|length| format!("{} to {}", length.start, length.end));
    let lengths = lengths.join(", ");
    [
        (
            "rests there, nothing over X2",
            format!("after a pause of {}", milliseconds(&REST_PAUSE)),
        ),
        (
            "  a rest begins",
            "behind a packet that arrives; not while statuses are stuck or withheld, or the handset sleeps"
                .to_owned(),
        ),
        (
            "  its PDUs, none of the source's",
            format!("{lengths} hundredths of the PDCP circle in turn, then up to H"),
        ),
        (
            "  its time",
            format!(
                "until nothing waits; 1 in {REST_AT_ONCE} is over at once, and sends wait for the PDCP order"
            ),
        ),
    ]
}

/// The rows of the limits that both ends have.
#[must_use]
pub fn limits() -> Vec<Row> {
    let Stores {
        entries,
        records,
        runs,
    } = Stores::LIMITS;
    vec![
        ("entries in the ledger", entries.to_string()),
        (
            "size of a PDU",
            format!("1 to {} octets", grouped(LARGEST_SIZE.into())),
        ),
        ("records in the keeper", records.to_string()),
        ("listed runs in the keeper", runs.to_string()),
        ("ranges in one status", MOST_RANGES.to_string()),
        (
            "given up by an arrival",
            format!("what is open {WINDOW} or more below it"),
        ),
    ]
}

/// The rows of the troubles, at the rate of these settings.
#[must_use]
pub fn troubles(settings: &Settings) -> Vec<Row> {
    let mut rows: Vec<Row> = [BURST, STUCK, ASLEEP, NOT_TAKEN]
        .iter()
        .map(|spells| {
            let lasts = milliseconds(&spells.lasts.at(settings.rate));
            (
                spells.what,
                format!(
                    "for {lasts}, after a pause of {}",
                    milliseconds(&spells.pause)
                ),
            )
        })
        .collect();
    let teeth = COMB_TEETH.map(|teeth| teeth.to_string()).join(", ");
    rows.push((
        "every 2nd packet dropped, no status",
        format!(
            "for {teeth} packets, or the time of {COMB_PACKETS}; first at {} ms, then after {}",
            grouped(COMB_FIRST),
            milliseconds(&COMB_PAUSE)
        ),
    ));
    rows.push((
        "  nothing sent around that",
        format!(
            "before, at most {} ms until the ledger is empty; after, {COMB_OVER} ms",
            grouped(COMB_QUIET)
        ),
    ));
    rows
}

/// The rows of the source.
#[must_use]
pub fn source(settings: &Settings) -> Vec<Row> {
    vec![
        (
            "made by the source",
            format!("{} a second, evenly", times(settings.rate.into(), "packet")),
        ),
        ("  octets in a PDU, of 1,000 PDUs", sizes()),
        (
            "  first tried with a wrong size",
            format!(
                "1 send in {}: 0 octets, or too many",
                grouped(WRONG_SIZE.into())
            ),
        ),
        (
            "its queue at the master",
            format!("{} at most", times(queue(settings.rate) as u64, "packet")),
        ),
        (
            "its line",
            format!("carries {LINE} times the rate, until the queue is empty"),
        ),
        (
            "rate counted as reached",
            format!("if {REACHED} of 100 packets were sent within the time"),
        ),
        (
            "after the last send",
            format!("{} ms for what is under way, then Final", grouped(WIND_UP)),
        ),
    ]
}

/// The sizes of PDUs in words.
fn sizes() -> String {
    let each = SIZES.map(|(times, sizes)| format!("{times} of {}", shown(&sizes)));
    each.join(", ")
}

/// Desired sizes at a rate are below this.
#[must_use]
pub fn desired_below(rate: u32) -> u32 {
    (u64::from(rate) * DESIRED_TIME * DESIRED_PDU / 1_000) as u32
}

/// The longest queue at a rate.
#[must_use]
pub fn queue(rate: u32) -> usize {
    (QUEUE_LEAST + QUEUE_SECONDS * rate) as usize
}

fn milliseconds(range: &Range<u32>) -> String {
    format!("{} ms", shown(range))
}

fn shown(range: &Range<u32>) -> String {
    let (least, most) = (range.start, range.end - 1);
    let [least, most] = [least, most].map(|n| grouped(n.into()));
    if least == most {
        least
    } else {
        format!("{least} to {most}")
    }
}
