//! The product's ledger, by the probe that makes calls on one: a ledger is
//! passed by value and can't cross the boundary itself.
#![allow(unsafe_code)]

unsafe extern "C" {
    fn probe_ledger_accept(
        length: u32,
        entries: u32,
        turns: u32,
        frame: *const u8,
        frame_len: usize,
    ) -> u32;
    fn probe_ledger_room(
        length: u32,
        entries: u32,
        turns: u32,
        frame: *const u8,
        frame_len: usize,
    ) -> u32;
    fn probe_ledger_send(length: u32, turns: u32) -> u32;
    fn probe_ledger_send_behind(
        length: u32,
        entries: u32,
        turns: u32,
        frame: *const u8,
        frame_len: usize,
    ) -> u32;
}

/// Opens a ledger, sends `entries` packets, and accepts `frame` so many times.
#[inline]
#[must_use]
pub fn ledger_accepts(length: u32, entries: u32, turns: u32, frame: &[u8]) -> u32 {
    // SAFETY: pointer and length are those of one slice.
    unsafe { probe_ledger_accept(length, entries, turns, frame.as_ptr(), frame.len()) }
}

/// Opens a ledger, sends `entries` packets, accepts `frame` once, and asks for
/// the room so many times. Each answer raises the desired size by 1, or by 2 if
/// it is odd.
#[inline]
#[must_use]
pub fn ledger_rooms(length: u32, entries: u32, turns: u32, frame: &[u8]) -> u32 {
    // SAFETY: pointer and length are those of one slice.
    unsafe { probe_ledger_room(length, entries, turns, frame.as_ptr(), frame.len()) }
}

/// Opens a ledger and sends so many packets.
#[inline]
#[must_use]
pub fn ledger_sends(length: u32, turns: u32) -> u32 {
    // SAFETY: numbers only.
    unsafe { probe_ledger_send(length, turns) }
}

/// Opens a ledger, sends `entries` packets, accepts `frame` once, and sends so
/// many packets behind what is left, 16 into each copy of that ledger.
#[inline]
#[must_use]
pub fn ledger_sends_behind(length: u32, entries: u32, turns: u32, frame: &[u8]) -> u32 {
    // SAFETY: pointer and length are those of one slice.
    unsafe { probe_ledger_send_behind(length, entries, turns, frame.as_ptr(), frame.len()) }
}
