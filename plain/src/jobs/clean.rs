//! A clean: the files of tmp that were not used for 36 hours go.

use crate::directories::{Path, Reply};
use crate::file_name::FileName;
use crate::jobs::{Answer, Call, Step, Turn};
use crate::names::NameId;
use crate::place::{Folder, Place};

/// How old a file of tmp is that goes, in seconds.
const OLD: u64 = 129_600;

pub struct Clean {
    folder: Folder,
    stage: Stage,
}

enum Stage {
    Look,
    /// The names that are left, the next of them last, and how many files went.
    Remove {
        left: Vec<NameId>,
        removed: u64,
    },
}

impl Clean {
    pub fn new(folder: Folder) -> Clean {
        Clean { folder, stage: Stage::Look }
    }

    pub fn step(&mut self, turn: &mut Turn<'_>) -> Step {
        match &mut self.stage {
            Stage::Look => self.look(turn),
            Stage::Remove { left, removed } => remove(self.folder, left, removed, turn),
        }
    }

    fn look(&mut self, turn: &mut Turn<'_>) -> Step {
        let tmp = self.folder.at(Place::Tmp);
        turn.directories.settle(tmp, turn.names);
        let files = turn.directories.files();
        let cells = turn.directories.settled(tmp).rev();
        let old = cells.filter(|cell| turn.own.saturating_sub(files.stamp(cell.file)) >= OLD);
        let left: Vec<NameId> = old.map(|cell| cell.unique).collect();
        let answer = left.is_empty().then_some(Answer::Cleaned(0));
        self.stage = Stage::Remove { left, removed: 0 };
        Step::list(Place::Tmp, answer)
    }
}

fn remove(folder: Folder, left: &mut Vec<NameId>, removed: &mut u64, turn: &mut Turn<'_>) -> Step {
    let next = left.pop().expect("a clean with no name left has its answer");
    let path = Path::new(folder.at(Place::Tmp), FileName::bare(next));
    let reply = turn.directories.unlink(path);
    *removed += u64::from(reply == Reply::Ok);
    let answer = left.is_empty().then_some(Answer::Cleaned(*removed));
    Step::new(Call::Unlink, reply, answer)
}
