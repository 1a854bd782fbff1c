//! Jobs: each is a machine that makes one directory call at each of its steps, until it has its answer.

mod clean;
mod delivery;
mod expunge;
mod mark;
mod transfer;

pub use clean::Clean;
pub use delivery::Delivery;
pub use expunge::Expunge;
pub use mark::{Mark, Marking};
pub use transfer::{Transfer, Way};

use crate::directories::{Directories, Reply};
use crate::flags::Flags;
use crate::history::{Change, Effect};
use crate::names::Names;
use crate::place::Place;

pub enum Job {
    Deliver(Delivery),
    Mark(Marking),
    Transfer(Transfer),
    Expunge(Expunge),
    Clean(Clean),
    /// A job that has its answer, and holds nothing else.
    Answered,
}

/// A directory call, as a step line shows it.
#[derive(Clone, Copy)]
pub enum Call {
    Create,
    Append(u64),
    Link,
    Rename,
    Unlink,
    List(Place),
}

#[derive(Clone, Copy)]
pub enum Answer {
    Delivered,
    Flags(Flags),
    Moved,
    Copied,
    Expunged,
    Cleaned(u64),
    NotThere,
    NotTrashed,
    OtherInfo,
    Lost,
    TimedOut,
    TmpGone,
    NameTaken,
}

/// What a step shows.
pub struct Step {
    pub call: Call,
    pub reply: Reply,
    pub answer: Option<Answer>,
}

impl Step {
    fn new(call: Call, reply: Reply, answer: Option<Answer>) -> Step {
        Step { call, reply, answer }
    }

    /// A listing, which always succeeds.
    fn list(place: Place, answer: Option<Answer>) -> Step {
        Step::new(Call::List(place), Reply::Ok, answer)
    }
}

/// What a step is given.
pub struct Turn<'a> {
    pub directories: &'a mut Directories,
    pub names: &'a Names,
    pub effects: &'a mut Vec<Effect>,
    pub job: u64,
    /// The moment of the store's clock, and that of the job's host.
    pub clock: u64,
    pub own: u64,
}

impl Turn<'_> {
    /// The step has an effect on the mailbox.
    fn effect(&mut self, answer: Answer, change: Change) {
        self.effects.push(Effect { job: self.job, answer, change });
    }
}

impl Job {
    /// Makes the next step; none where the job has its answer.
    pub fn step(&mut self, turn: &mut Turn<'_>) -> Option<Step> {
        let step = match self {
            Job::Deliver(delivery) => delivery.step(turn),
            Job::Mark(marking) => marking.step(turn),
            Job::Transfer(transfer) => transfer.step(turn),
            Job::Expunge(expunge) => expunge.step(turn),
            Job::Clean(clean) => clean.step(turn),
            Job::Answered => return None,
        };
        if step.answer.is_some() {
            *self = Job::Answered;
        }
        Some(step)
    }
}
