//! The calls, safe to make.
#![allow(unsafe_code)]

use crate::foreign::{
    self, Cursor, Fields, MOST_RECORDS, MOST_RUNS, Range, Ranges, Records, Runs, WORDS, Words,
};
use std::mem::MaybeUninit;

/// Reads a frame: its type, or the refusal below zero.
#[inline]
pub fn read(frame: &[u8], fields: &mut Fields) -> i64 {
    // SAFETY: pointer and length are those of one slice, `fields` is a struct.
    unsafe { foreign::x2u_read(frame.as_ptr(), frame.len(), fields) }
}

/// Room for one end of each range of a frame.
pub type Room = MaybeUninit<Ranges>;

/// Reads a frame with all its ranges: its type or the refusal below zero, and
/// the starts and the ends of the ranges, laid at the front of the room.
#[inline]
pub fn read_all<'a>(
    frame: &[u8],
    fields: &mut Fields,
    starts: &'a mut Room,
    ends: &'a mut Room,
) -> (i64, &'a [u32], &'a [u32]) {
    // SAFETY: as in `read`; the rooms are written to and never read.
    let kind = unsafe {
        let (starts, ends) = (starts.as_mut_ptr(), ends.as_mut_ptr());
        foreign::x2u_read_all(frame.as_ptr(), frame.len(), fields, starts, ends)
    };
    let count = if kind == 1 || kind == 2 {
        fields.ranges as usize
    } else {
        0
    };
    // SAFETY: of a status so many places were written, `MOST_RANGES` at most.
    unsafe {
        (
            kind,
            std::slice::from_raw_parts(starts.as_ptr().cast(), count),
            std::slice::from_raw_parts(ends.as_ptr().cast(), count),
        )
    }
}

/// Lays the place before a status's first range in `cursor`.
#[inline]
pub fn first_range(frame: &[u8], cursor: &mut Cursor) -> i64 {
    // SAFETY: as in `read`.
    unsafe { foreign::x2u_first_range(frame.as_ptr(), frame.len(), cursor) }
}

/// Lays the range at `cursor` in `range` and goes on to the next: 1, or 0 if
/// there is none.
#[inline]
pub fn next_range(frame: &[u8], cursor: &mut Cursor, range: &mut Range) -> i64 {
    // SAFETY: as in `read`.
    unsafe { foreign::x2u_next_range(frame.as_ptr(), frame.len(), cursor, range) }
}

/// Writes a data frame: its length, or the refusal below zero.
#[inline]
pub fn write_data(long: bool, number: u32, dst: &mut [u8]) -> i64 {
    // SAFETY: pointer and length are those of one slice.
    unsafe { foreign::x2u_write_data(long.into(), number, dst.as_mut_ptr(), dst.len()) }
}

/// Writes a status: its length, or the refusal below zero. `head` is highest,
/// desired and minimum.
#[inline]
pub fn write_status(
    long: bool,
    last: bool,
    head: [u32; 3],
    starts: &[u32],
    ends: &[u32],
    dst: &mut [u8],
) -> i64 {
    let [highest, desired, minimum] = head;
    // SAFETY: pointers and lengths are those of three slices that don't overlap.
    unsafe {
        foreign::x2u_write_status_parts(
            long.into(),
            last.into(),
            highest,
            desired,
            minimum,
            starts.as_ptr(),
            starts.len(),
            ends.as_ptr(),
            ends.len(),
            dst.as_mut_ptr(),
            dst.len(),
        )
    }
}

/// The product's state of a secondary, as it lies in memory.
#[derive(Clone, Debug, PartialEq, Eq)]
pub struct Keeper {
    /// X2-U numbers of the records.
    pub numbers: Records,
    /// Their PDCP numbers.
    pub pdcps: Records,
    /// Not 0 where one is confirmed.
    pub marks: Records,
    /// Starts of the listed runs.
    pub starts: Runs,
    /// Their ends.
    pub ends: Runs,
    /// L, base, reported highest, open or not, how many runs, how many records.
    pub words: Words,
}

impl Keeper {
    /// A state with `word` in every place.
    #[must_use]
    pub const fn of(word: u32) -> Self {
        Self {
            numbers: [word; MOST_RECORDS],
            pdcps: [word; MOST_RECORDS],
            marks: [word; MOST_RECORDS],
            starts: [word; MOST_RUNS],
            ends: [word; MOST_RUNS],
            words: [word; WORDS],
        }
    }

    /// Opens this end: 0, or the refusal below zero.
    #[inline]
    pub fn open(&mut self, length: u32, number: u32, pdcp: u32) -> i64 {
        // SAFETY: six arrays of one struct, none of which overlap.
        unsafe {
            foreign::x2u_keeper_open(
                &mut self.numbers,
                &mut self.pdcps,
                &mut self.marks,
                &mut self.starts,
                &mut self.ends,
                &mut self.words,
                length,
                number,
                pdcp,
            )
        }
    }

    /// A packet arrives: how many became lost, or the refusal below zero.
    #[inline]
    pub fn arrive(&mut self, number: u32, pdcp: u32) -> i64 {
        // SAFETY: as in `open`.
        unsafe {
            foreign::x2u_keeper_arrive(
                &mut self.numbers,
                &mut self.pdcps,
                &mut self.marks,
                &mut self.starts,
                &mut self.ends,
                &mut self.words,
                number,
                pdcp,
            )
        }
    }

    /// Gives up the open numbers before a mark: how many became lost, or the
    /// refusal below zero.
    #[inline]
    pub fn expire(&mut self, mark: u32) -> i64 {
        // SAFETY: as in `open`.
        unsafe {
            foreign::x2u_keeper_expire(
                &mut self.numbers,
                &mut self.pdcps,
                &mut self.marks,
                &mut self.starts,
                &mut self.ends,
                &mut self.words,
                mark,
            )
        }
    }

    /// A packet is confirmed: 0, or the refusal below zero.
    #[inline]
    pub fn confirm(&mut self, number: u32) -> i64 {
        // SAFETY: as in `open`.
        unsafe {
            foreign::x2u_keeper_confirm(
                &mut self.numbers,
                &mut self.pdcps,
                &mut self.marks,
                &mut self.starts,
                &mut self.ends,
                &mut self.words,
                number,
            )
        }
    }

    /// Builds a status: its length, or the refusal below zero.
    #[inline]
    pub fn status(&mut self, desired: u32, minimum: u32, last: bool, dst: &mut [u8]) -> i64 {
        // SAFETY: as in `open`; `dst` is borrowed beside this state.
        unsafe {
            foreign::x2u_keeper_status(
                &mut self.numbers,
                &mut self.pdcps,
                &mut self.marks,
                &mut self.starts,
                &mut self.ends,
                &mut self.words,
                desired,
                minimum,
                last.into(),
                dst.as_mut_ptr(),
                dst.len(),
            )
        }
    }

    /// Whether there is anything to say: 1 or 0, or the refusal below zero.
    #[inline]
    pub fn anything(&self) -> i64 {
        // SAFETY: six arrays of one struct, all of them only read.
        unsafe {
            foreign::x2u_keeper_anything(
                &self.numbers,
                &self.pdcps,
                &self.marks,
                &self.starts,
                &self.ends,
                &self.words,
            )
        }
    }
}
