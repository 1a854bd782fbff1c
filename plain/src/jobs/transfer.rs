//! A move or a copy to a folder: the message is looked for in new and then in cur, and renamed or linked.

use crate::directories::{Path, Reply};
use crate::file_name::{FileName, Info};
use crate::history::Change;
use crate::jobs::mark::lost;
use crate::jobs::{Answer, Call, Step, Turn};
use crate::names::NameId;
use crate::place::{Folder, Place};

#[derive(Clone, Copy)]
pub enum Way {
    Move,
    /// Under this unique name.
    Copy(NameId),
}

pub struct Transfer {
    folder: Folder,
    unique: NameId,
    to: Folder,
    way: Way,
    tries: u64,
    stage: Stage,
}

#[derive(Clone, Copy)]
enum Stage {
    Look(Place),
    Act(Place, Info),
}

impl Transfer {
    pub fn new(folder: Folder, unique: NameId, to: Folder, way: Way, tries: u64) -> Transfer {
        Transfer { folder, unique, to, way, tries, stage: Stage::Look(Place::New) }
    }

    pub fn step(&mut self, turn: &mut Turn<'_>) -> Step {
        match self.stage {
            Stage::Look(place) => self.look(place, turn),
            Stage::Act(place, info) => self.act(place, info, turn),
        }
    }

    fn look(&mut self, place: Place, turn: &mut Turn<'_>) -> Step {
        let answer = match turn.directories.find(self.folder.at(place), self.unique) {
            Some(info) if self.can_take(info, turn) => {
                self.stage = Stage::Act(place, info);
                None
            }
            Some(_) => Some(Answer::OtherInfo),
            None if place == Place::New => {
                self.stage = Stage::Look(Place::Cur);
                None
            }
            None => Some(Answer::NotThere),
        };
        Step::list(place, answer)
    }

    /// A copy takes the flags over, so it takes no message with other info.
    fn can_take(&self, info: Info, turn: &Turn<'_>) -> bool {
        matches!(self.way, Way::Move) || info.flags(turn.names).is_some()
    }

    fn act(&mut self, place: Place, info: Info, turn: &mut Turn<'_>) -> Step {
        let old = Path::new(self.folder.at(place), FileName { unique: self.unique, info });
        let (call, reply, done) = match self.way {
            Way::Move => self.rename(old, turn),
            Way::Copy(fresh) => self.link(old, fresh, turn),
        };
        let answer = match reply {
            Reply::Ok => Some(done),
            Reply::Exists => Some(Answer::NameTaken),
            Reply::NotFound => {
                self.stage = Stage::Look(Place::New);
                lost(&mut self.tries)
            }
        };
        Step::new(call, reply, answer)
    }

    fn rename(&self, old: Path, turn: &mut Turn<'_>) -> (Call, Reply, Answer) {
        let new = Path::new(self.to.at(old.directory.place), old.name);
        let reply = turn.directories.rename(old, new);
        if reply == Reply::Ok {
            turn.effect(Answer::Moved, Change::Rename { old, new });
        }
        (Call::Rename, reply, Answer::Moved)
    }

    fn link(&self, old: Path, fresh: NameId, turn: &mut Turn<'_>) -> (Call, Reply, Answer) {
        let name = match (old.name.info, old.name.info.flags(turn.names)) {
            (Info::Bare, _) | (_, None) => FileName::bare(fresh),
            (_, Some(flags)) => FileName::flagged(fresh, flags),
        };
        let new = Path::new(self.to.at(old.directory.place), name);
        let reply = turn.directories.link(old, new);
        if reply == Reply::Ok {
            let size = turn.directories.size(new);
            turn.effect(Answer::Copied, Change::Add { path: new, size });
        }
        (Call::Link, reply, Answer::Copied)
    }
}
