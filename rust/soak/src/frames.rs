//! Frames of every kind, good and bad, and the lines that spell them.

use crate::rng::Rng;
use x2u::Form;
use x2u::frame::{self, LONGEST, MOST_RANGES, Range, Report};

/// A frame as the writer makes it.
pub fn good(rng: &mut Rng) -> Vec<u8> {
    let form = rng.pick(&[Form::Short, Form::Long]);
    if rng.chance(30) {
        return data(form, rng.word() % form.numbers().size());
    }
    let highest = match rng.within(0..8) {
        0 => form.largest_highest(),
        1 => 0,
        _ => rng.word() % (form.largest_highest() + 1),
    };
    let count = match rng.within(0..12) {
        0..4 => 0,
        4..9 => rng.within(1..6),
        9 => MOST_RANGES as u32,
        _ => rng.within(1..1 + MOST_RANGES as u32),
    };
    let size = form.numbers().size();
    let ranges: Vec<Range> = (0..count)
        .map(|_| Range {
            start: rng.word() % size,
            end: rng.word() % size,
        })
        .collect();
    let report = Report {
        highest,
        desired: rng.word() >> rng.within(0..32),
        minimum: rng.word() >> rng.within(0..32),
        is_final: rng.chance(30),
    };
    status(form, &report, &ranges)
}

/// A data frame.
#[must_use]
pub fn data(form: Form, number: u32) -> Vec<u8> {
    written(|buffer| frame::write_data(form, number, buffer))
}

/// A status.
#[must_use]
pub fn status(form: Form, report: &Report, ranges: &[Range]) -> Vec<u8> {
    written(|buffer| frame::write_status(form, report, ranges, buffer))
}

fn written(write: impl FnOnce(&mut [u8]) -> x2u::Answer<usize>) -> Vec<u8> {
    let mut buffer = [0; LONGEST];
    let length = write(&mut buffer).expect("what is made here can be written");
    buffer[..length].to_vec()
}

/// Sets spare bits and puts an extension behind the frame: a good frame stays
/// good.
pub fn extend(rng: &mut Rng, octets: &mut Vec<u8>) {
    if let Some(first) = octets.first_mut() {
        let spare = if *first >> 4 == 1 || *first >> 4 == 2 {
            0x0C
        } else {
            0x0F
        };
        *first |= rng.word() as u8 & spare;
    }
    let room = (LONGEST - octets.len().min(LONGEST)) / 4;
    let words = rng.place(room.min(6) + 1);
    let tail = rng.octets(4 * words);
    octets.extend(tail);
}

/// Spoils a frame in one of the ways that the reader has to notice.
pub fn damage(rng: &mut Rng, octets: &mut Vec<u8>) {
    match rng.within(0..8) {
        0 => {
            let length = rng.place(octets.len() + 1);
            octets.truncate(length);
        }
        1 => {
            let length = rng.place(octets.len() / 4 + 1) * 4 + 2;
            octets.truncate(length);
        }
        2 => octets.resize(rng.pick(&[6, 10, 14, 18, LONGEST, LONGEST + 4]), 0),
        3 => set(octets, 0, rng.word() as u8),
        4 => set(octets, 1, rng.word() as u8),
        5 => {
            // The count octet stands at 11 or 12.
            let count = rng.pick(&[0, 1, 2, 162, 163, 255]);
            set(octets, rng.pick(&[11, 12]), count);
        }
        _ => {
            let place = rng.place(octets.len() + 1);
            set(octets, place, rng.word() as u8);
        }
    }
}

fn set(octets: &mut [u8], place: usize, value: u8) {
    if let Some(octet) = octets.get_mut(place) {
        *octet = value;
    }
}

/// A frame of any kind.
pub fn any(rng: &mut Rng) -> Vec<u8> {
    let mut octets = good(rng);
    match rng.within(0..10) {
        0..3 => {}
        3..5 => extend(rng, &mut octets),
        5..9 => {
            for _ in 0..rng.within(1..4) {
                damage(rng, &mut octets);
            }
        }
        _ => {
            let length = match rng.within(0..3) {
                0 => rng.place(64),
                1 => rng.place(16) * 4 + 2,
                _ => rng.place(LONGEST + 20),
            };
            octets = rng.octets(length);
        }
    }
    octets
}

/// Octets in hexadecimal, in one letter case, the other or both.
pub fn spell(rng: &mut Rng, octets: &[u8], line: &mut Vec<u8>) {
    let digits: [&[u8; 16]; 2] = match rng.within(0..3) {
        0 => [b"0123456789ABCDEF"; 2],
        1 => [b"0123456789ABCDEF", b"0123456789abcdef"],
        _ => [b"0123456789abcdef"; 2],
    };
    for octet in octets {
        line.push(digits[0][usize::from(octet >> 4)]);
        line.push(digits[1][usize::from(octet & 0xF)]);
    }
}

/// A line for the lister, without its line end.
pub fn line(rng: &mut Rng) -> Vec<u8> {
    let mut line = Vec::new();
    let octets = any(rng);
    spell(rng, &octets, &mut line);
    if rng.once_in(20) {
        blemish(rng, &mut line);
    }
    line
}

/// Makes a line unreadable, mostly.
pub fn blemish(rng: &mut Rng, line: &mut Vec<u8>) {
    match rng.within(0..7) {
        0 => line.clear(),
        1 => drop(line.pop()),
        2 => line.push(rng.pick(b"0f \r\t\0,")),
        3 => line.resize(rng.pick(&[2_034, 2_035, 2_036, 2_037, 2_038, 2_040]), b'0'),
        4 => line.resize(rng.pick(&[4_095, 4_096, 4_097, 70_000]), b'0'),
        _ => {
            let place = rng.place(line.len() + 1);
            // Any octet may stand in a line but its end.
            let octet = rng.pick(&[
                b'g', b'G', b'/', b':', b'@', b'`', b' ', 0x80, 0xFF, b'\r', 0,
            ]);
            line.insert(place, octet);
        }
    }
}
