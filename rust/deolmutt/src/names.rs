//! Names of files and summaries of headers, which need no world.

use crate::buffer::given;
use crate::flags::Flags;
use crate::refusal::Refusal;
use deolmutt_sys as sys;

/// A unique name as "Using maildir format" has it.
///
/// ```
/// assert_eq!(deolmutt::unique_name(1000, 5, 7, 1, b"a/b")?, b"1000.M5P7Q1.a\\057b");
/// # Ok::<(), deolmutt::Refusal>(())
/// ```
pub fn unique_name(second: u64, microsecond: u64, process: u64, count: u64, host: &[u8]) -> Result<Vec<u8>, Refusal> {
    // The host is read as far as it goes, and the buffer's room is told.
    given(|out, room, length| unsafe {
        sys::deolmutt_unique(second, microsecond, process, count, host.as_ptr(), host.len(), out, room, length)
    })
}

/// What stands after the unique part of a name.
///
/// ```
/// use deolmutt::{split_name, Flags, Info};
///
/// assert_eq!(split_name(b"a")?.info, Info::None);
/// assert_eq!(split_name(b"a:2,")?.info, Info::Flags(Flags::default()));
/// assert_eq!(split_name(b"a:1,x")?.info, Info::Other);
/// # Ok::<(), deolmutt::Refusal>(())
/// ```
#[derive(Clone, Copy, Debug, PartialEq, Eq)]
pub enum Info {
    /// Nothing.
    None,
    /// Flags.
    Flags(Flags),
    /// Another program's mark.
    Other,
}

/// The parts of a message's file name.
///
/// ```
/// let parts = deolmutt::split_name(b"1000.M1P7Q1.a:2,S")?;
/// assert_eq!(parts.unique, b"1000.M1P7Q1.a");
/// # Ok::<(), deolmutt::Refusal>(())
/// ```
#[derive(Clone, Copy, Debug, PartialEq, Eq)]
pub struct Parts<'a> {
    /// The unique name.
    pub unique: &'a [u8],
    /// What stands after it.
    pub info: Info,
}

/// The parts of a message's file name.
///
/// ```
/// use deolmutt::{split_name, Info, Refusal};
///
/// let parts = split_name(b"1000.M1P7Q1.a:1,x")?;
/// assert_eq!((parts.unique, parts.info), (&b"1000.M1P7Q1.a"[..], Info::Other));
/// assert_eq!(split_name(b".hidden"), Err(Refusal::NO_MESSAGE_NAME));
/// # Ok::<(), deolmutt::Refusal>(())
/// ```
pub fn split_name(name: &[u8]) -> Result<Parts<'_>, Refusal> {
    let (mut unique_length, mut info, mut flags) = (0, 0, 0);
    // The name is read as far as it goes, and the rest are places for one value each.
    let status = unsafe { sys::deolmutt_split(name.as_ptr(), name.len(), &mut unique_length, &mut info, &mut flags) };
    Refusal::check(status)?;
    let info = match info {
        0 => Info::None,
        1 => Info::Flags(Flags(flags)),
        _ => Info::Other,
    };
    Ok(Parts { unique: &name[..unique_length], info })
}

/// The summary of a message's header: lines `subject=`, `from=`, `message-id=`, `date=` and `seconds=`, each that is there, and `end`.
///
/// ```
/// assert_eq!(deolmutt::summary(b"Subject: lunch\n\nAt noon?\n")?, b"subject=lunch\nend\n");
/// # Ok::<(), deolmutt::Refusal>(())
/// ```
pub fn summary(message: &[u8]) -> Result<Vec<u8>, Refusal> {
    // The message is read as far as it goes, and the buffer's room is told.
    given(|out, room, length| unsafe { sys::deolmutt_summary(message.as_ptr(), message.len(), out, room, length) })
}
