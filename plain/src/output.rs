//! What a script prints, which is kept to its end.

use crate::escapes::escape_onto;
use crate::flags::Flags;

/// The digits of the numbers below 100, two for each.
const PAIRS: [[u8; 2]; 100] = pairs();

const fn pairs() -> [[u8; 2]; 100] {
    let mut pairs = [[0; 2]; 100];
    let mut number = 0;
    while number < 100 {
        pairs[number] = [b'0' + number as u8 / 10, b'0' + number as u8 % 10];
        number += 1;
    }
    pairs
}

const ZEROS: u64 = u64::from_le_bytes([b'0'; 8]);

#[derive(Default)]
pub struct Output(Vec<u8>);

impl Output {
    pub fn bytes(&self) -> &[u8] {
        &self.0
    }

    #[inline]
    pub fn text(&mut self, text: &[u8]) {
        self.0.extend_from_slice(text);
    }

    pub fn escaped(&mut self, bytes: &[u8]) {
        escape_onto(&mut self.0, bytes);
    }

    pub fn number(&mut self, number: u64) {
        const EIGHT_DIGITS: u64 = 100_000_000;
        if number < 10 {
            self.0.push(b'0' + number as u8);
        } else if number < EIGHT_DIGITS {
            let digits = u64::from_le_bytes(digits(number as u32));
            // Each zero in front is a byte that is as in `ZEROS`, the first of them lowest.
            let zeros = (digits ^ ZEROS).trailing_zeros() / 8;
            self.text(&(digits >> (8 * zeros)).to_le_bytes());
            self.0.truncate(self.0.len() - zeros as usize);
        } else {
            self.number(number / EIGHT_DIGITS);
            self.text(&digits((number % EIGHT_DIGITS) as u32));
        }
    }

    /// The letters of flags, or `-` for none.
    pub fn flags(&mut self, flags: Flags) {
        if flags == Flags::EMPTY {
            self.0.push(b'-');
        } else {
            for letter in flags.letters() {
                self.0.push(letter);
            }
        }
    }
}

/// The eight digits of a number that has no more, zeros in front.
fn digits(number: u32) -> [u8; 8] {
    let pair = |unit: u32| PAIRS[(number / unit % 100) as usize];
    let [[a, b], [c, d], [e, f], [g, h]] = [1_000_000, 10_000, 100, 1].map(pair);
    [a, b, c, d, e, f, g, h]
}
