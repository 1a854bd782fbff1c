//! The flags of a message.

use std::fmt;

/// The flags of a message: letters, of which each is there or not.
///
/// ```
/// use deolmutt::{split_name, Info};
///
/// let parts = split_name(b"1000.M1P7Q1.a:2,SF")?;
/// let flags = match parts.info {
///     Info::Flags(flags) => flags,
///     _ => unreachable!(),
/// };
/// assert!(flags.contains('S') && !flags.contains('T'));
/// assert_eq!(flags.to_string(), "FS");
/// # Ok::<(), deolmutt::Refusal>(())
/// ```
#[derive(Clone, Copy, Debug, PartialEq, Eq, Hash, Default)]
pub struct Flags(pub(crate) u64);

impl Flags {
    /// Whether a letter is among them.
    ///
    /// ```
    /// assert!(!deolmutt::Flags::default().contains('S'));
    /// ```
    pub fn contains(self, letter: char) -> bool {
        self.letters().any(|found| found == letter)
    }

    /// The letters in order, large ones first.
    ///
    /// ```
    /// use deolmutt::{split_name, Info};
    ///
    /// if let Info::Flags(flags) = split_name(b"1000.M1P7Q1.a:2,aTS")?.info {
    ///     assert_eq!(flags.letters().collect::<Vec<_>>(), ['S', 'T', 'a']);
    /// }
    /// # Ok::<(), deolmutt::Refusal>(())
    /// ```
    pub fn letters(self) -> impl Iterator<Item = char> {
        ('A'..='Z')
            .chain('a'..='z')
            .enumerate()
            .filter(move |(bit, _)| self.0 >> bit & 1 == 1)
            .map(|(_, letter)| letter)
    }
}

impl fmt::Display for Flags {
    fn fmt(&self, out: &mut fmt::Formatter<'_>) -> fmt::Result {
        self.letters().try_for_each(|letter| write!(out, "{letter}"))
    }
}
