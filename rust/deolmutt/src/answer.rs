//! How jobs end, and what their steps do.

use crate::flags::Flags;
use crate::listing::Place;
use deolmutt_sys as sys;
use std::fmt;

/// How a job ended that took effect.
///
/// ```
/// use deolmutt::{Answer, Call, World};
///
/// let mut world = World::load(b"folder inbox\nfile inbox tmp old 1000 x\n")?;
/// assert_eq!(world.call(&Call::Clean { folder: 0 }, 200_000)?, Answer::Cleaned(1));
/// # Ok::<(), Box<dyn std::error::Error>>(())
/// ```
#[derive(Clone, Copy, Debug, PartialEq, Eq)]
pub enum Answer {
    /// The message is in new.
    Delivered,
    /// The flags that the message has now.
    Flags(Flags),
    /// The message is in the other folder.
    Moved,
    /// The message is gone.
    Expunged,
    /// The copy is there.
    Copied,
    /// So many files were removed from tmp.
    Cleaned(u64),
}

/// How a job ended that changed no message.
///
/// ```
/// use deolmutt::{Call, CallError, Failure, World};
///
/// let mut world = World::with_folders(&["inbox"])?;
/// let failed = world.call(&Call::Expunge { folder: 0, unique: b"a" }, 1000).unwrap_err();
/// assert!(matches!(failed, CallError::Failed(Failure::NotThere)));
/// # Ok::<(), Box<dyn std::error::Error>>(())
/// ```
#[derive(Clone, Copy, Debug, PartialEq, Eq)]
#[non_exhaustive]
pub enum Failure {
    /// No message of that name where the call acts.
    NotThere,
    /// The message has not the flag T.
    NotTrashed,
    /// The message's info holds no flags: another program's mark.
    OtherInfo,
    /// The message's name was gone at each try.
    Lost,
    /// A delivery is given up after 24 hours.
    TimedOut,
    /// The delivery's file in tmp was gone: a cleaner took it.
    TmpGone,
    /// A message of that name is there.
    NameTaken,
    /// A directory call failed.
    Fault,
}

impl fmt::Display for Failure {
    fn fmt(&self, out: &mut fmt::Formatter<'_>) -> fmt::Result {
        out.write_str(match self {
            Failure::NotThere => "no message of that name",
            Failure::NotTrashed => "the message has not the flag T",
            Failure::OtherInfo => "the message has another program's info",
            Failure::Lost => "the message's name was gone at each try",
            Failure::TimedOut => "the delivery took 24 hours",
            Failure::TmpGone => "the delivery's file in tmp was gone",
            Failure::NameTaken => "a message of that name is there",
            Failure::Fault => "a directory call failed",
        })
    }
}

impl std::error::Error for Failure {}

/// How a job ended: none while it has no answer.
pub(crate) fn ended(answer: sys::Answer) -> Option<Result<Answer, Failure>> {
    let ended = match answer.kind {
        0 => return None,
        1 => Ok(Answer::Delivered),
        2 => Ok(Answer::Flags(Flags(answer.value))),
        3 => Ok(Answer::Moved),
        4 => Ok(Answer::Expunged),
        5 => Ok(Answer::Copied),
        6 => Ok(Answer::Cleaned(answer.value)),
        7 => Err(Failure::NotThere),
        8 => Err(Failure::NotTrashed),
        9 => Err(Failure::OtherInfo),
        10 => Err(Failure::Lost),
        11 => Err(Failure::TimedOut),
        12 => Err(Failure::TmpGone),
        13 => Err(Failure::NameTaken),
        _ => Err(Failure::Fault),
    };
    Some(ended)
}

/// The directory call of a step.
///
/// ```
/// use deolmutt::{Call, DirCall, Place, World};
///
/// let mut world = World::with_folders(&["inbox"])?;
/// let job = world.submit(&Call::Clean { folder: 0 })?;
/// assert_eq!(world.step(job, 1000)?.call, DirCall::List(Place::Tmp));
/// # Ok::<(), deolmutt::CallError>(())
/// ```
#[derive(Clone, Copy, Debug, PartialEq, Eq)]
pub enum DirCall {
    /// A file is made in tmp.
    Create,
    /// So many bytes are added to it.
    Append(u64),
    /// It gets a name in new, or a message a second one.
    Link,
    /// A message gets another name.
    Rename,
    /// A name is taken away.
    Unlink,
    /// A directory is read.
    List(Place),
}

/// What the directories replied.
///
/// ```
/// use deolmutt::{Call, Reply, World};
///
/// let mut world = World::load(b"folder i\nfile i new a 1000\n")?;
/// let seen = Call::Seen { folder: 0, unique: b"a", flags: "S" };
/// let jobs = [world.submit(&seen)?, world.submit(&seen)?];
/// let replies = [0, 1, 0, 1].map(|at: usize| world.step(jobs[at], 1000).map(|step| step.reply));
/// assert_eq!(replies, [Ok(Reply::Done), Ok(Reply::Done), Ok(Reply::Done), Ok(Reply::NotFound)]);
/// # Ok::<(), deolmutt::CallError>(())
/// ```
#[derive(Clone, Copy, Debug, PartialEq, Eq)]
pub enum Reply {
    /// It was done.
    Done,
    /// The name that was to be made is there.
    Exists,
    /// The name is not there.
    NotFound,
    /// The call failed, as no call of a world does.
    Faulted,
}

impl Reply {
    pub(crate) fn number(self) -> u32 {
        self as u32 + 1
    }
}

/// What a step of a job did.
///
/// ```
/// use deolmutt::{Call, DirCall, World};
///
/// let mut world = World::with_folders(&["inbox"])?;
/// let job = world.submit(&Call::Deliver { folder: 0, unique: b"a", body: b"hello" })?;
/// let mut calls = Vec::new();
/// loop {
///     let step = world.step(job, 1000)?;
///     calls.push(step.call);
///     if step.answer.is_some() {
///         break;
///     }
/// }
/// assert_eq!(calls, [DirCall::Create, DirCall::Append(5), DirCall::Link, DirCall::Unlink]);
/// # Ok::<(), deolmutt::CallError>(())
/// ```
#[derive(Clone, Copy, Debug, PartialEq, Eq)]
pub struct Step {
    /// The directory call.
    pub call: DirCall,
    /// What was replied to it.
    pub reply: Reply,
    /// Whether it is the job's effect: what it does to messages, it does here.
    pub is_effect: bool,
    /// How the job ended, where this was its last step.
    pub answer: Option<Result<Answer, Failure>>,
}

impl Step {
    pub(crate) fn of(step: sys::Step) -> Step {
        let call = match step.call {
            1 => DirCall::Create,
            2 => DirCall::Append(step.value),
            3 => DirCall::Link,
            4 => DirCall::Rename,
            5 => DirCall::Unlink,
            _ => DirCall::List(Place::of(step.value as u32)),
        };
        let reply = match step.reply {
            1 => Reply::Done,
            2 => Reply::Exists,
            3 => Reply::NotFound,
            _ => Reply::Faulted,
        };
        Step { call, reply, is_effect: step.effect == 1, answer: ended(step.answer) }
    }
}
