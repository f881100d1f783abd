//! Numbers and octets as text, without the machinery of format strings: the
//! programs spend most of their time here.

use std::io::{self, Write};
use x2u::frame::{LONGEST, Range};

const DIGITS: &[u8; 16] = b"0123456789abcdef";
const NO_DIGIT: u8 = 0xFF;

/// The value of each character as a hexadecimal digit.
const DIGIT_VALUES: [u8; 256] = {
    let mut values = [NO_DIGIT; 256];
    let mut value = 0;
    while value < 16 {
        values[DIGITS[value].to_ascii_lowercase() as usize] = value as u8;
        values[DIGITS[value].to_ascii_uppercase() as usize] = value as u8;
        value += 1;
    }
    values
};

/// The frame that `digits` spell in `room`, unless they are unreadable: an odd
/// count, another character or more than the longest frame has.
pub fn octets_of<'a>(digits: &[u8], room: &'a mut [u8; LONGEST]) -> Option<&'a [u8]> {
    let (pairs, odd) = digits.as_chunks::<2>();
    let octets = room.get_mut(..pairs.len())?;
    let mut seen = 0;
    for (octet, [high, low]) in octets.iter_mut().zip(pairs) {
        let high = DIGIT_VALUES[usize::from(*high)];
        let low = DIGIT_VALUES[usize::from(*low)];
        seen |= high | low;
        *octet = high << 4 | low & 0xF;
    }
    (odd.is_empty() && seen < 16).then_some(octets)
}

/// The number that `digits` spell: 1 to 10 decimal digits, at most 2^32 - 1.
#[must_use]
pub fn number_of(digits: &[u8]) -> Option<u32> {
    if !(1..=10).contains(&digits.len()) {
        return None;
    }
    let mut number = 0_u64;
    for digit in digits {
        let value = digit.wrapping_sub(b'0');
        if value > 9 {
            return None;
        }
        number = number * 10 + u64::from(value);
    }
    u32::try_from(number).ok()
}

/// Ways of printing that the programs share.
pub trait Text: Write + Sized {
    /// Prints a number in decimal.
    fn decimal(&mut self, mut number: u32) -> io::Result<()> {
        let mut digits = [0; 10];
        let mut first = digits.len();
        loop {
            first -= 1;
            digits[first] = b'0' + (number % 10) as u8;
            number /= 10;
            if number == 0 {
                return self.write_all(&digits[first..]);
            }
        }
    }

    /// Prints numbers in decimal, each after a tab.
    fn fields(&mut self, numbers: &[u32]) -> io::Result<()> {
        for &number in numbers {
            self.write_all(b"\t")?;
            self.decimal(number)?;
        }
        Ok(())
    }

    /// Prints octets in lower-case hexadecimal.
    fn hexadecimal(&mut self, octets: &[u8]) -> io::Result<()> {
        for octet in octets {
            let high = DIGITS[usize::from(octet >> 4)];
            let low = DIGITS[usize::from(octet & 0xF)];
            self.write_all(&[high, low])?;
        }
        Ok(())
    }

    /// Prints items joined by commas, or `none`.
    fn joined<T>(
        &mut self,
        items: impl IntoIterator<Item = T>,
        print: impl Fn(&mut Self, T) -> io::Result<()>,
    ) -> io::Result<()> {
        let mut items = items.into_iter();
        match items.next() {
            None => return self.write_all(b"none"),
            Some(first) => print(self, first)?,
        }
        for item in items {
            self.write_all(b",")?;
            print(self, item)?;
        }
        Ok(())
    }

    /// Prints ranges as start-end joined by commas, or `none`.
    fn ranges(&mut self, ranges: impl IntoIterator<Item = Range>) -> io::Result<()> {
        self.joined(ranges, |out, range| {
            out.decimal(range.start)?;
            out.write_all(b"-")?;
            out.decimal(range.end)
        })
    }
}

impl<W: Write> Text for W {}
