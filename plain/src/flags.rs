//! Sets of flags, which are the letters of ASCII.

/// Bit k is the letter that comes k after `A`.
#[derive(Clone, Copy, PartialEq, Eq)]
pub struct Flags(u64);

impl Flags {
    pub const EMPTY: Flags = Flags(0);
    pub const TRASHED: Flags = Flags(1 << (b'T' - b'A'));

    /// The set of a list of letters in any order; none where another byte is among them.
    pub fn parse(letters: &[u8]) -> Option<Flags> {
        letters.iter().try_fold(Flags::EMPTY, |flags, letter| {
            letter.is_ascii_alphabetic().then(|| flags.with(Flags(1 << (letter - b'A'))))
        })
    }

    pub fn with(self, other: Flags) -> Flags {
        Flags(self.0 | other.0)
    }

    pub fn without(self, other: Flags) -> Flags {
        Flags(self.0 & !other.0)
    }

    pub fn has(self, other: Flags) -> bool {
        other.without(self) == Flags::EMPTY
    }

    /// The letters in order.
    pub fn letters(self) -> impl Iterator<Item = u8> {
        let mut left = self.0;
        std::iter::from_fn(move || {
            let bit = (left != 0).then(|| left.trailing_zeros())?;
            left &= left - 1;
            Some(b'A' + bit as u8)
        })
    }
}
