//! A seen-move or a flag change: the message is looked for, and renamed to the name that has its new flags.

use crate::directories::{Path, Reply};
use crate::file_name::{FileName, Info};
use crate::flags::Flags;
use crate::history::Change;
use crate::jobs::{Answer, Call, Step, Turn};
use crate::names::NameId;
use crate::place::{Directory, Folder, Place};

/// What is done to the flags.
#[derive(Clone, Copy)]
pub enum Mark {
    /// A message of new goes to cur, its flags joined by these.
    Seen(Flags),
    /// A message of cur is given flags, and then others are taken from it.
    Flag { add: Flags, remove: Flags },
}

impl Mark {
    fn apply(self, flags: Flags) -> Flags {
        match self {
            Mark::Seen(given) => flags.with(given),
            Mark::Flag { add, remove } => flags.with(add).without(remove),
        }
    }

    fn is_seen(self) -> bool {
        matches!(self, Mark::Seen(_))
    }
}

pub struct Marking {
    folder: Folder,
    unique: NameId,
    mark: Mark,
    tries: u64,
    stage: Stage,
}

#[derive(Clone, Copy)]
enum Stage {
    Look,
    Act { found: Info, flags: Flags },
}

impl Marking {
    pub fn new(folder: Folder, unique: NameId, mark: Mark, tries: u64) -> Marking {
        Marking { folder, unique, mark, tries, stage: Stage::Look }
    }

    pub fn step(&mut self, turn: &mut Turn<'_>) -> Step {
        match self.stage {
            Stage::Look => self.look(turn),
            Stage::Act { found, flags } => self.act(found, flags, turn),
        }
    }

    /// Where the message is looked for.
    fn from(&self) -> Directory {
        self.folder.at(if self.mark.is_seen() { Place::New } else { Place::Cur })
    }

    fn look(&mut self, turn: &mut Turn<'_>) -> Step {
        let from = self.from();
        let answer = match turn.directories.find(from, self.unique) {
            None => Some(Answer::NotThere),
            Some(found) => self.found(found, turn),
        };
        Step::list(from.place, answer)
    }

    fn found(&mut self, found: Info, turn: &mut Turn<'_>) -> Option<Answer> {
        let had = match found.flags(turn.names) {
            Some(had) => had,
            None => return Some(Answer::OtherInfo),
        };
        let flags = self.mark.apply(had);
        // A flag change that changes nothing takes effect here, and leaves the spelling.
        if flags == had && !self.mark.is_seen() {
            turn.effect(Answer::Flags(flags), Change::Same);
            return Some(Answer::Flags(flags));
        }
        self.stage = Stage::Act { found, flags };
        None
    }

    fn act(&mut self, found: Info, flags: Flags, turn: &mut Turn<'_>) -> Step {
        let old = Path::new(self.from(), FileName { unique: self.unique, info: found });
        let new = Path::new(self.folder.at(Place::Cur), FileName::flagged(self.unique, flags));
        let reply = turn.directories.rename(old, new);
        let answer = if reply == Reply::Ok {
            turn.effect(Answer::Flags(flags), Change::Rename { old, new });
            Some(Answer::Flags(flags))
        } else {
            self.stage = Stage::Look;
            lost(&mut self.tries)
        };
        Step::new(Call::Rename, reply, answer)
    }
}

/// The answer where a message's name was gone at the act: none while tries are left.
pub fn lost(tries: &mut u64) -> Option<Answer> {
    *tries -= 1;
    (*tries == 0).then_some(Answer::Lost)
}
