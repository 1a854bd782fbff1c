//! What a store keeps of its run for those who use it: the steps that were taken, and their effects on the mailbox.
//!
//! No script asks for them, and no code here reads them. They are kept as the proved store keeps them, so that both programs do the
//! same work.

use crate::directories::Path;
use crate::jobs::Answer;

/// A step of a job, and the moments that it was given.
#[allow(dead_code)]
pub struct Event {
    pub job: u64,
    pub now: u64,
    pub own: Option<u64>,
}

/// What a step does to the names of the mailbox.
#[allow(dead_code)]
pub enum Change {
    Add { path: Path, size: u64 },
    Rename { old: Path, new: Path },
    Remove { path: Path },
    Same,
}

#[allow(dead_code)]
pub struct Effect {
    pub job: u64,
    pub answer: Answer,
    pub change: Change,
}

#[derive(Default)]
pub struct History {
    pub log: Vec<Event>,
    pub effects: Vec<Effect>,
}
