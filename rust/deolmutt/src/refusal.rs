//! Why calls are not taken.

use crate::answer::Failure;
use crate::call::Job;
use deolmutt_sys as sys;
use std::error::Error;
use std::fmt;

/// Why a call was not taken: a number of `deolmutt.h`, whose text the library says. Nothing has changed.
///
/// ```
/// use deolmutt::{Refusal, World};
///
/// let refused = World::with_folders(&["inbox"])?.list(7).unwrap_err();
/// assert_eq!(refused, Refusal::NO_FOLDER);
/// assert_eq!(refused.to_string(), "no folder");
/// # Ok::<(), deolmutt::LineError>(())
/// ```
#[derive(Clone, Copy, PartialEq, Eq, Hash)]
pub struct Refusal(pub(crate) u32);

#[allow(missing_docs)]
impl Refusal {
    pub const NO_MEMORY: Refusal = Refusal(4);
    pub const NOT_THERE: Refusal = Refusal(8);
    pub const NO_MESSAGE_NAME: Refusal = Refusal(9);
    pub const UNANSWERED: Refusal = Refusal(10);
    pub const NOT_ASKED: Refusal = Refusal(12);
    pub const ASKED: Refusal = Refusal(13);
    pub const BAD_NAME: Refusal = Refusal(20);
    pub const LONG_UNIQUE: Refusal = Refusal(21);
    pub const DUPLICATE_UNIQUE: Refusal = Refusal(22);
    pub const NAME_USED: Refusal = Refusal(23);
    pub const NO_FOLDER: Refusal = Refusal(24);
    pub const SAME_FOLDER: Refusal = Refusal(25);
    pub const BAD_UNIQUE: Refusal = Refusal(26);
    pub const TOO_MANY_JOBS: Refusal = Refusal(29);
    pub const BODY_TOO_LONG: Refusal = Refusal(30);
    pub const NO_JOB: Refusal = Refusal(31);
    pub const ANSWERED: Refusal = Refusal(32);
    pub const BAD_HOST: Refusal = Refusal(40);
    pub const BAD_MICRO: Refusal = Refusal(41);
    pub const BAD_FLAG: Refusal = Refusal(42);
    pub const BAD_COMMAND: Refusal = Refusal(50);
    pub const BAD_NUMBER: Refusal = Refusal(51);
    pub const BAD_ESCAPE: Refusal = Refusal(52);
    pub const BAD_PLACE: Refusal = Refusal(53);
    pub const BAD_FOLDER: Refusal = Refusal(54);
    pub const UNKNOWN_FOLDER: Refusal = Refusal(55);
    pub const SAME_PATH: Refusal = Refusal(58);
    pub const NOT_IN_THIS_RUN: Refusal = Refusal(59);
}

pub(crate) const ROOM: u32 = 3;

impl Refusal {
    /// Its number in `deolmutt.h`.
    ///
    /// ```
    /// assert_eq!(deolmutt::Refusal::NO_FOLDER.number(), 24);
    /// ```
    pub fn number(self) -> u32 {
        self.0
    }

    /// Nothing where the status is that of success.
    pub(crate) fn check(status: u32) -> Result<(), Refusal> {
        if status == 0 { Ok(()) } else { Err(Refusal(status)) }
    }
}

impl fmt::Display for Refusal {
    fn fmt(&self, out: &mut fmt::Formatter<'_>) -> fmt::Result {
        let mut text = [0; 32];
        // The library writes into the text, and at most as much as there is room for.
        let length = unsafe { sys::deolmutt_text(self.0, text.as_mut_ptr(), text.len()) };
        out.write_str(std::str::from_utf8(&text[..length.min(text.len())]).unwrap_or_default())
    }
}

impl fmt::Debug for Refusal {
    fn fmt(&self, out: &mut fmt::Formatter<'_>) -> fmt::Result {
        write!(out, "Refusal({}: {self})", self.0)
    }
}

impl Error for Refusal {}

/// Why lines were refused: of a load, a script, an index or a log.
///
/// ```
/// use deolmutt::{Refusal, World};
///
/// let refused = World::load(b"folder inbox\nfile sent new a 1000\n").unwrap_err();
/// assert_eq!((refused.refusal, refused.line), (Refusal::UNKNOWN_FOLDER, 2));
/// assert_eq!(refused.to_string(), "line 2: unknown folder");
/// ```
#[derive(Clone, Debug, PartialEq, Eq)]
pub struct LineError {
    /// Why.
    pub refusal: Refusal,
    /// The line, from 1; 0 where no line is to blame.
    pub line: u64,
    /// What was printed before it.
    pub printed: Vec<u8>,
}

impl fmt::Display for LineError {
    fn fmt(&self, out: &mut fmt::Formatter<'_>) -> fmt::Result {
        if self.line > 0 {
            write!(out, "line {}: ", self.line)?;
        }
        self.refusal.fmt(out)
    }
}

impl Error for LineError {}

/// Why a call did not come to success.
///
/// ```
/// use deolmutt::{Call, CallError, Failure, Refusal, World};
///
/// let mut world = World::with_folders(&["inbox"])?;
/// let refused = world.call(&Call::Clean { folder: 7 }, 1000).unwrap_err();
/// assert_eq!(refused, CallError::Refused(Refusal::NO_FOLDER, None));
/// let failed = world.call(&Call::Expunge { folder: 0, unique: b"a" }, 1000).unwrap_err();
/// assert_eq!(failed, CallError::Failed(Failure::NotThere));
/// # Ok::<(), deolmutt::LineError>(())
/// ```
#[derive(Clone, Copy, Debug, PartialEq, Eq)]
pub enum CallError {
    /// It was not taken, and nothing has changed; but where memory was refused amid its steps, the job is there, and goes on by its steps.
    Refused(Refusal, Option<Job>),
    /// Its job ended without an effect.
    Failed(Failure),
}

impl From<Refusal> for CallError {
    fn from(refusal: Refusal) -> CallError {
        CallError::Refused(refusal, None)
    }
}

impl fmt::Display for CallError {
    fn fmt(&self, out: &mut fmt::Formatter<'_>) -> fmt::Result {
        match self {
            CallError::Refused(refusal, _) => refusal.fmt(out),
            CallError::Failed(failure) => failure.fmt(out),
        }
    }
}

impl Error for CallError {}

impl From<LineError> for CallError {
    fn from(error: LineError) -> CallError {
        CallError::Refused(error.refusal, None)
    }
}

/// Why a world was not settled.
///
/// ```
/// use deolmutt::{Call, Refusal, World};
///
/// let mut world = World::with_folders(&["inbox"])?;
/// world.submit(&Call::Clean { folder: 0 })?;
/// assert_eq!(world.settle().unwrap_err().refusal, Refusal::UNANSWERED);
/// # Ok::<(), deolmutt::CallError>(())
/// ```
#[derive(Clone, Copy, Debug, PartialEq, Eq)]
pub struct Unanswered {
    /// Why: a job has no answer.
    pub refusal: Refusal,
    /// The first job without an answer.
    pub job: Option<Job>,
}

impl fmt::Display for Unanswered {
    fn fmt(&self, out: &mut fmt::Formatter<'_>) -> fmt::Result {
        self.refusal.fmt(out)
    }
}

impl Error for Unanswered {}
