//! Names of files: the unique part, and the info after the colon.

use crate::flags::Flags;
use crate::names::{NameId, Names};
use crate::search::find;

/// What comes after the first colon of a message's name.
#[derive(Clone, Copy, PartialEq, Eq)]
pub enum Info {
    Bare,
    /// `2,` and these letters in order.
    Flags(Flags),
    /// Anything else: the whole name, as it is spelled.
    Spelled(NameId),
}

/// The name of a file. One in tmp is unique as a whole.
#[derive(Clone, Copy, PartialEq, Eq)]
pub struct FileName {
    pub unique: NameId,
    pub info: Info,
}

impl FileName {
    pub fn bare(unique: NameId) -> FileName {
        FileName { unique, info: Info::Bare }
    }

    pub fn flagged(unique: NameId, flags: Flags) -> FileName {
        FileName { unique, info: Info::Flags(flags) }
    }
}

impl Info {
    /// The flags that info says; none for other info.
    pub fn flags(self, names: &Names) -> Option<Flags> {
        match self {
            Info::Bare => Some(Flags::EMPTY),
            Info::Flags(flags) => Some(flags),
            Info::Spelled(whole) => flags_of(info_of(names.text(whole))),
        }
    }
}

/// The place of the first colon of a name.
pub fn colon_of(name: &[u8]) -> Option<usize> {
    find(name, [b':'])
}

/// All after the first colon of a name that has one.
fn info_of(name: &[u8]) -> &[u8] {
    colon_of(name).map_or(&[], |at| &name[at + 1..])
}

/// The flags of an info text; none for other info.
fn flags_of(info: &[u8]) -> Option<Flags> {
    Flags::parse(info.strip_prefix(b"2,")?)
}

/// The flags of an info text that spells them as they are written.
pub fn written_flags(info: &[u8]) -> Option<Flags> {
    let flags = flags_of(info)?;
    flags.letters().eq(info[2..].iter().copied()).then_some(flags)
}

/// Whether a file of new or cur is a message: one whose unique part isn't empty, and that doesn't begin with a dot.
pub fn is_message(name: &[u8]) -> bool {
    !matches!(name, [] | [b':' | b'.', ..])
}

/// Whether no file can have this name.
pub fn is_bad_name(name: &[u8]) -> bool {
    name.is_empty() || name.len() > 255 || find(name, *b"/\0\n\r").is_some()
}

pub const LONGEST_UNIQUE: usize = 200;

/// Whether this is no unique name.
pub fn is_bad_unique(unique: &[u8]) -> bool {
    let is_long = unique.len() > LONGEST_UNIQUE;
    unique.is_empty() || is_long || unique[0] == b'.' || find(unique, *b":/\0\n\r").is_some()
}
