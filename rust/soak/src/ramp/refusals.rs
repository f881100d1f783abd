//! Which refusals a ramp met, by end and call, and which it didn't.

use super::words::grouped;
use crate::table::Table;
use std::fmt::{self, Formatter};
use x2u::Refusal::{
    self, BufferShort, Closed, FieldsCut, FinalTooEarly, FrameLength, HighestNotWaiting,
    HighestOutside, HighestTooLarge, Late, LedgerFull, ListCut, MarkBeyond, NotConfirmable,
    NotOurStatus, NothingOpen, NothingToTake, NumberTooLarge, Opposite, PdcpLength, PdcpOrder,
    RangeCount, RangesNotWaiting, RecordsFull, Repeated, ReservedType, RunsFull, SizeOutside, Span,
};

/// The end, the call's word, and its refusals in their order.
type Call = (&'static str, &'static str, &'static [Refusal]);

const CALLS: [Call; 8] = [
    ("both ends", "open", &[PdcpLength, NumberTooLarge]),
    (
        "secondary",
        "arrive",
        &[
            Closed,
            NumberTooLarge,
            Opposite,
            Late,
            Repeated,
            Span,
            RunsFull,
            RecordsFull,
        ],
    ),
    (
        "secondary",
        "expire",
        &[Closed, NumberTooLarge, MarkBeyond, NothingOpen, RunsFull],
    ),
    (
        "secondary",
        "confirm",
        &[Closed, NumberTooLarge, NotConfirmable],
    ),
    ("secondary", "status", &[Closed, FinalTooEarly, BufferShort]),
    (
        "master",
        "send",
        &[Closed, NumberTooLarge, SizeOutside, PdcpOrder, LedgerFull],
    ),
    (
        "master",
        "accept",
        &[
            Closed,
            FrameLength,
            ReservedType,
            FieldsCut,
            HighestTooLarge,
            RangeCount,
            ListCut,
            NotOurStatus,
            HighestOutside,
            RangesNotWaiting,
            HighestNotWaiting,
        ],
    ),
    ("master", "take", &[NothingToTake]),
];

/// A refusal in words.
fn words(refusal: Refusal) -> &'static str {
    match refusal {
        FrameLength => "length of the frame",
        ReservedType => "reserved type",
        FieldsCut => "frame ends before its last field",
        HighestTooLarge => "highest above its type's maximum",
        RangeCount => "count of ranges",
        ListCut => "frame ends inside its list",
        PdcpLength => "L is not 12, 15 or 18",
        Closed => "this end is closed",
        NumberTooLarge => "number past its circle",
        Late => "late: behind base",
        Repeated => "repeated: has a record",
        Span => "span over half the circle",
        RunsFull => "more than 256 runs",
        RecordsFull => "512 records held",
        NotConfirmable => "nothing to confirm by that number",
        NothingOpen => "no open number before the mark",
        Opposite => "opposite: half the circle from base",
        MarkBeyond => "mark past all that was accepted",
        BufferShort => "buffer too short",
        FinalTooEarly => "Final with more than 162 runs",
        NotOurStatus => "not this bearer's status",
        HighestOutside => "highest past the PDCP circle",
        RangesNotWaiting => "ranges not of waiting packets",
        HighestNotWaiting => "highest not of a waiting packet",
        PdcpOrder => "PDCP order",
        LedgerFull => "ledger full, 512 held",
        NothingToTake => "nothing to take",
        SizeOutside => "size of 0 or above 16,384 octets",
    }
}

/// Every refusal of every call, with how often it was given: end, call, refusal, times.
fn given(table: &Table) -> impl Iterator<Item = (&'static str, &'static str, Refusal, u64)> {
    CALLS.iter().flat_map(move |&(end, word, refusals)| {
        let times = move |&refusal| (end, word, refusal, table.times_to(word, refusal));
        refusals.iter().map(times)
    })
}

/// How many refusals there are, each call's counted apart, and how many of them
/// were met.
#[must_use]
pub fn counts(table: &Table) -> (usize, usize) {
    let met = given(table).filter(|&(_, _, _, times)| times > 0);
    (given(table).count(), met.count())
}

/// Prints those that were met, and how often.
pub fn met(table: &Table, out: &mut Formatter<'_>) -> fmt::Result {
    for (end, word, refusal, times) in given(table).filter(|&(_, _, _, times)| times > 0) {
        let call = format!("{end}, {word}");
        let (number, words) = (refusal.number(), words(refusal));
        writeln!(
            out,
            "  {call:<20} {number:>2}  {words:<35} {:>12}",
            grouped(times)
        )?;
    }
    Ok(())
}

/// Prints those that weren't.
pub fn never_met(table: &Table, out: &mut Formatter<'_>) -> fmt::Result {
    let mut last = String::new();
    for (end, word, refusal, _) in given(table).filter(|&(_, _, _, times)| times == 0) {
        let call = format!("{end}, {word}");
        let shown = if call == last { "" } else { &call };
        writeln!(
            out,
            "  {shown:<20} {:>2}  {}",
            refusal.number(),
            words(refusal)
        )?;
        last = call;
    }
    Ok(())
}

/// Whether any refusal of a call was met.
#[must_use]
pub fn any_to(table: &Table, word: &str) -> bool {
    given(table).any(|(_, call, _, times)| call == word && times > 0)
}
