//! The declarations, as the product's header has them.
#![allow(unsafe_code)]

/// The words of a cursor.
pub const CURSOR: usize = 3;
/// The most ranges of a status.
pub const MOST_RANGES: usize = 162;
/// The records that a keeper holds.
pub const MOST_RECORDS: usize = 512;
/// The runs that it lists.
pub const MOST_RUNS: usize = 256;
/// Its words.
pub const WORDS: usize = 6;
/// The fourth of them, where the end is open; any other number is closed.
pub const OPEN: u32 = 0x6f70_656e;

/// What is lent for a frame's fields; what a frame hasn't is 0.
#[repr(C)]
#[derive(Clone, Copy, Debug, Default, PartialEq, Eq)]
pub struct Fields {
    /// The X2-U number of data.
    pub number: u32,
    /// A status's highest PDCP number.
    pub highest: u32,
    /// Its desired size.
    pub desired: u32,
    /// Its minimum size.
    pub minimum: u32,
    /// Its Final, 0 or 1.
    pub is_final: u32,
    /// How many ranges it has.
    pub ranges: u32,
}

/// What is lent for a range.
#[repr(C)]
#[derive(Clone, Copy, Debug, Default, PartialEq, Eq)]
pub struct Range {
    /// Its first number.
    pub start: u32,
    /// Its last.
    pub end: u32,
}

/// What is lent for a cursor.
pub type Cursor = [u32; CURSOR];
/// What is lent for one end of each range of a status.
pub type Ranges = [u32; MOST_RANGES];
/// A number of each record.
pub type Records = [u32; MOST_RECORDS];
/// An end of each listed run.
pub type Runs = [u32; MOST_RUNS];
/// A keeper's words.
pub type Words = [u32; WORDS];

unsafe extern "C" {
    pub fn x2u_read(frame: *const u8, frame_len: usize, fields: *mut Fields) -> i64;
    pub fn x2u_read_all(
        frame: *const u8,
        frame_len: usize,
        fields: *mut Fields,
        starts: *mut Ranges,
        ends: *mut Ranges,
    ) -> i64;
    pub fn x2u_first_range(frame: *const u8, frame_len: usize, cursor: *mut Cursor) -> i64;
    pub fn x2u_next_range(
        frame: *const u8,
        frame_len: usize,
        cursor: *mut Cursor,
        range: *mut Range,
    ) -> i64;
    pub fn x2u_write_data(long: u32, number: u32, dst: *mut u8, dst_len: usize) -> i64;
    pub fn x2u_write_status_parts(
        long: u32,
        last: u32,
        highest: u32,
        desired: u32,
        minimum: u32,
        starts: *const u32,
        starts_len: usize,
        ends: *const u32,
        ends_len: usize,
        dst: *mut u8,
        dst_len: usize,
    ) -> i64;
    pub fn x2u_keeper_open(
        numbers: *mut Records,
        pdcps: *mut Records,
        marks: *mut Records,
        starts: *mut Runs,
        ends: *mut Runs,
        words: *mut Words,
        length: u32,
        number: u32,
        pdcp: u32,
    ) -> i64;
    pub fn x2u_keeper_arrive(
        numbers: *mut Records,
        pdcps: *mut Records,
        marks: *mut Records,
        starts: *mut Runs,
        ends: *mut Runs,
        words: *mut Words,
        number: u32,
        pdcp: u32,
    ) -> i64;
    pub fn x2u_keeper_expire(
        numbers: *mut Records,
        pdcps: *mut Records,
        marks: *mut Records,
        starts: *mut Runs,
        ends: *mut Runs,
        words: *mut Words,
        mark: u32,
    ) -> i64;
    pub fn x2u_keeper_confirm(
        numbers: *mut Records,
        pdcps: *mut Records,
        marks: *mut Records,
        starts: *mut Runs,
        ends: *mut Runs,
        words: *mut Words,
        number: u32,
    ) -> i64;
    pub fn x2u_keeper_status(
        numbers: *mut Records,
        pdcps: *mut Records,
        marks: *mut Records,
        starts: *mut Runs,
        ends: *mut Runs,
        words: *mut Words,
        desired: u32,
        minimum: u32,
        last: u32,
        dst: *mut u8,
        dst_len: usize,
    ) -> i64;
    pub fn x2u_keeper_anything(
        numbers: *const Records,
        pdcps: *const Records,
        marks: *const Records,
        starts: *const Runs,
        ends: *const Runs,
        words: *const Words,
    ) -> i64;
}
