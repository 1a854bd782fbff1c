//! An expunge: a message of cur that has the flag T goes.

use crate::directories::{Path, Reply};
use crate::file_name::{FileName, Info};
use crate::flags::Flags;
use crate::history::Change;
use crate::jobs::mark::lost;
use crate::jobs::{Answer, Call, Step, Turn};
use crate::names::NameId;
use crate::place::{Folder, Place};

pub struct Expunge {
    folder: Folder,
    unique: NameId,
    tries: u64,
    stage: Stage,
}

#[derive(Clone, Copy)]
enum Stage {
    Look,
    Act(Info),
}

impl Expunge {
    pub fn new(folder: Folder, unique: NameId, tries: u64) -> Expunge {
        Expunge { folder, unique, tries, stage: Stage::Look }
    }

    pub fn step(&mut self, turn: &mut Turn<'_>) -> Step {
        match self.stage {
            Stage::Look => self.look(turn),
            Stage::Act(info) => self.act(info, turn),
        }
    }

    fn look(&mut self, turn: &mut Turn<'_>) -> Step {
        let answer = match turn.directories.find(self.folder.at(Place::Cur), self.unique) {
            None => Some(Answer::NotThere),
            Some(info) if is_trashed(info, turn) => {
                self.stage = Stage::Act(info);
                None
            }
            Some(_) => Some(Answer::NotTrashed),
        };
        Step::list(Place::Cur, answer)
    }

    fn act(&mut self, info: Info, turn: &mut Turn<'_>) -> Step {
        let path = Path::new(self.folder.at(Place::Cur), FileName { unique: self.unique, info });
        let reply = turn.directories.unlink(path);
        let answer = if reply == Reply::Ok {
            turn.effect(Answer::Expunged, Change::Remove { path });
            Some(Answer::Expunged)
        } else {
            self.stage = Stage::Look;
            lost(&mut self.tries)
        };
        Step::new(Call::Unlink, reply, answer)
    }
}

fn is_trashed(info: Info, turn: &Turn<'_>) -> bool {
    info.flags(turn.names).map_or(false, |flags| flags.has(Flags::TRASHED))
}
