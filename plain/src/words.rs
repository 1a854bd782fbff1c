//! The words of a line, which are parted by exactly one space.

use crate::escapes::unescape;
use crate::flags::Flags;
use crate::refusal::Refusal;
use crate::search::find;

/// What is left of a line; none where no word is left.
pub struct Words<'a>(Option<&'a [u8]>);

impl<'a> Words<'a> {
    pub fn of(line: &'a [u8]) -> Words<'a> {
        Words(Some(line))
    }

    pub fn word(&mut self) -> Result<&'a [u8], Refusal> {
        let rest = self.0.ok_or(Refusal::BadCommand)?;
        let word = match find(rest, [b' ']) {
            Some(at) => {
                self.0 = Some(&rest[at + 1..]);
                &rest[..at]
            }
            None => {
                self.0 = None;
                rest
            }
        };
        if word.is_empty() { Err(Refusal::BadCommand) } else { Ok(word) }
    }

    pub fn number(&mut self) -> Result<u64, Refusal> {
        number(self.word()?).ok_or(Refusal::BadNumber)
    }

    /// A number that may be left out at the end of a line.
    pub fn last_number(&mut self) -> Result<Option<u64>, Refusal> {
        self.0.is_some().then(|| self.number()).transpose()
    }

    pub fn flags(&mut self) -> Result<Flags, Refusal> {
        match self.word()? {
            b"-" => Ok(Flags::EMPTY),
            word => Flags::parse(word).ok_or(Refusal::BadFlag),
        }
    }

    /// The rest of the line, its escapes read; empty where it is left out.
    pub fn body(&mut self) -> Result<Vec<u8>, Refusal> {
        unescape(self.0.take().unwrap_or_default())
    }

    pub fn end(&self) -> Result<(), Refusal> {
        if self.0.is_none() { Ok(()) } else { Err(Refusal::BadCommand) }
    }
}

/// A number of 1 to 20 digits, of which the first 19 can't be too much.
fn number(word: &[u8]) -> Option<u64> {
    const SAFE_DIGITS: usize = 19;
    let (safe, rest) = word.split_at(word.len().min(SAFE_DIGITS));
    let mut number = 0;
    for byte in safe {
        number = number * 10 + digit(*byte)?;
    }
    match rest {
        [] => Some(number),
        [last] => number.checked_mul(10)?.checked_add(digit(*last)?),
        _ => None,
    }
}

fn digit(byte: u8) -> Option<u64> {
    byte.is_ascii_digit().then(|| u64::from(byte - b'0'))
}
