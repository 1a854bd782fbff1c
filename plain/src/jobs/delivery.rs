//! A delivery: its message is written to tmp, linked into new, and then its name in tmp is taken away.

use crate::directories::{Path, Reply};
use crate::file_name::FileName;
use crate::history::Change;
use crate::jobs::{Answer, Call, Step, Turn};
use crate::names::NameId;
use crate::place::{Folder, Place};

/// How long a delivery is tried, in seconds of its host's clock.
const DAY: u64 = 86_400;

pub struct Delivery {
    folder: Folder,
    unique: NameId,
    chunk: u64,
    len: u64,
    stage: Stage,
}

enum Stage {
    Start { body: Vec<u8> },
    Writing { written: u64, start: u64 },
    Linked,
    Undo(Answer),
}

impl Delivery {
    pub fn new(folder: Folder, unique: NameId, chunk: u64, body: Vec<u8>) -> Delivery {
        Delivery { folder, unique, chunk, len: body.len() as u64, stage: Stage::Start { body } }
    }

    pub fn step(&mut self, turn: &mut Turn<'_>) -> Step {
        match &mut self.stage {
            Stage::Start { body } => {
                let body = std::mem::take(body);
                self.create(body, turn)
            }
            Stage::Writing { start, .. } if turn.own.saturating_sub(*start) >= DAY => {
                self.unlink(Answer::TimedOut, turn)
            }
            Stage::Writing { written, start } if *written < self.len => {
                let (written, start) = (*written, *start);
                self.append(written, start, turn)
            }
            Stage::Writing { .. } => self.link(turn),
            Stage::Linked => self.unlink(Answer::Delivered, turn),
            Stage::Undo(answer) => {
                let answer = *answer;
                self.unlink(answer, turn)
            }
        }
    }

    fn path(&self, place: Place) -> Path {
        Path::new(self.folder.at(place), FileName::bare(self.unique))
    }

    fn create(&mut self, body: Vec<u8>, turn: &mut Turn<'_>) -> Step {
        let reply = turn.directories.create(self.path(Place::Tmp), body, turn.clock);
        self.stage = Stage::Writing { written: 0, start: turn.own };
        let answer = (reply != Reply::Ok).then_some(Answer::NameTaken);
        Step::new(Call::Create, reply, answer)
    }

    fn append(&mut self, written: u64, start: u64, turn: &mut Turn<'_>) -> Step {
        let count = self.chunk.min(self.len - written);
        let reply = turn.directories.append(self.path(Place::Tmp), count, turn.clock);
        self.stage = Stage::Writing { written: written + count, start };
        let answer = (reply != Reply::Ok).then_some(Answer::TmpGone);
        Step::new(Call::Append(count), reply, answer)
    }

    fn link(&mut self, turn: &mut Turn<'_>) -> Step {
        let new = self.path(Place::New);
        let reply = turn.directories.link(self.path(Place::Tmp), new);
        let answer = match reply {
            Reply::Ok => {
                self.stage = Stage::Linked;
                turn.effect(Answer::Delivered, Change::Add { path: new, size: self.len });
                None
            }
            Reply::Exists => {
                self.stage = Stage::Undo(Answer::NameTaken);
                None
            }
            Reply::NotFound => Some(Answer::TmpGone),
        };
        Step::new(Call::Link, reply, answer)
    }

    fn unlink(&mut self, answer: Answer, turn: &mut Turn<'_>) -> Step {
        let reply = turn.directories.unlink(self.path(Place::Tmp));
        Step::new(Call::Unlink, reply, Some(answer))
    }
}
