//! The refusal numbers, the only place where they are written down.

use crate::Answer;

/// Why a call was refused. The value of each case is its number on paper.
#[derive(Clone, Copy, Debug, PartialEq, Eq, PartialOrd, Ord, Hash)]
#[repr(u8)]
pub enum Refusal {
    /// Length below 6, above 1,018, or not 4k - 2.
    FrameLength = 1,
    /// Type 4 to 15.
    ReservedType = 2,
    /// The frame ends before the last fixed field.
    FieldsCut = 3,
    /// Highest PDCP number above its type's maximum.
    HighestTooLarge = 4,
    /// Range count 0 (reading only) or above 162.
    RangeCount = 5,
    /// The frame ends inside the list.
    ListCut = 6,
    /// The PDCP number length is not 12, 15 or 18.
    PdcpLength = 7,
    /// This end is closed.
    Closed = 9,
    /// An X2-U number is M or more, or a PDCP number 2^L or more.
    NumberTooLarge = 10,
    /// The number lies behind base: forward to it is more than M/2.
    Late = 11,
    /// The number already has a record.
    Repeated = 12,
    /// The arrival would stretch what is held over half the circle.
    Span = 13,
    /// More than 256 runs would be listed.
    RunsFull = 14,
    /// 512 records are held.
    RecordsFull = 15,
    /// No record of that number before base that is still unconfirmed.
    NotConfirmable = 16,
    /// No open number before the mark.
    NothingOpen = 17,
    /// The number lies opposite base: forward to it is exactly M/2.
    Opposite = 18,
    /// The mark lies at or past base, and past the highest accepted or with
    /// nothing accepted from base on.
    MarkBeyond = 19,
    /// The buffer is shorter than the frame.
    BufferShort = 20,
    /// Final asked while more runs are listed than a frame carries.
    FinalTooEarly = 22,
    /// The frame is not the bearer's status type.
    NotOurStatus = 31,
    /// Highest PDCP number is 2^L or more.
    HighestOutside = 32,
    /// The ranges are not strictly rising numbers of waiting entries.
    RangesNotWaiting = 33,
    /// Highest is neither the last accepted nor that of an entry left waiting.
    HighestNotWaiting = 34,
    /// The PDCP number breaks the sending order.
    PdcpOrder = 35,
    /// 512 entries are held.
    LedgerFull = 36,
    /// Nothing to take.
    NothingToTake = 38,
    /// The PDU's size is 0 or above 16,384 octets.
    SizeOutside = 39,
}

impl Refusal {
    /// Every refusal, in rising order of number.
    pub const ALL: [Self; 28] = [
        Self::FrameLength,
        Self::ReservedType,
        Self::FieldsCut,
        Self::HighestTooLarge,
        Self::RangeCount,
        Self::ListCut,
        Self::PdcpLength,
        Self::Closed,
        Self::NumberTooLarge,
        Self::Late,
        Self::Repeated,
        Self::Span,
        Self::RunsFull,
        Self::RecordsFull,
        Self::NotConfirmable,
        Self::NothingOpen,
        Self::Opposite,
        Self::MarkBeyond,
        Self::BufferShort,
        Self::FinalTooEarly,
        Self::NotOurStatus,
        Self::HighestOutside,
        Self::RangesNotWaiting,
        Self::HighestNotWaiting,
        Self::PdcpOrder,
        Self::LedgerFull,
        Self::NothingToTake,
        Self::SizeOutside,
    ];

    /// The number on paper.
    #[must_use]
    pub const fn number(self) -> u8 {
        self as u8
    }
}

/// `Err(refusal)` when `refused`, so that an order of refusals reads as a list.
pub(crate) const fn refuse_if(refused: bool, refusal: Refusal) -> Answer<()> {
    if refused { Err(refusal) } else { Ok(()) }
}
