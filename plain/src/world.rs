//! The world: jobs over the directories, whose steps come in any order.

use crate::directories::Directories;
use crate::file_name::is_bad_unique;
use crate::history::{Event, History};
use crate::jobs::{Clean, Delivery, Expunge, Job, Mark, Marking, Step, Transfer, Turn, Way};
use crate::names::{NameId, NameSet, Names};
use crate::place::{Folder, Place};
use crate::refusal::Refusal;

const LONGEST_BODY: usize = 16_777_216;
const MOST_JOBS: usize = 10_000;
const MOST_TRIES: u64 = 16;

pub struct World {
    names: Names,
    /// The names that no delivery and no copy may take any more.
    used: NameSet,
    directories: Directories,
    jobs: Vec<Job>,
    clock: u64,
    history: History,
}

/// Each submission answers the number of its job, or its first check that fails.
impl World {
    pub fn new(names: Names, used: NameSet, directories: Directories, clock: u64) -> World {
        World { names, used, directories, jobs: Vec::new(), clock, history: History::default() }
    }

    pub fn deliver(&mut self, folder: Folder, unique: &[u8], chunk: u64, body: Vec<u8>) -> Result<u64, Refusal> {
        check_unique(unique)?;
        if chunk == 0 {
            return Err(Refusal::BadChunk);
        }
        if body.len() > LONGEST_BODY {
            return Err(Refusal::BodyTooLong);
        }
        self.check_jobs()?;
        let unique = self.use_name(unique)?;
        Ok(self.add(Job::Deliver(Delivery::new(folder, unique, chunk, body))))
    }

    pub fn mark(&mut self, folder: Folder, unique: &[u8], mark: Mark, tries: u64) -> Result<u64, Refusal> {
        let unique = self.look_for(unique, tries)?;
        Ok(self.add(Job::Mark(Marking::new(folder, unique, mark, tries))))
    }

    pub fn transfer(&mut self, folder: Folder, unique: &[u8], to: Folder, tries: u64) -> Result<u64, Refusal> {
        if to == folder {
            return Err(Refusal::SameFolder);
        }
        let unique = self.look_for(unique, tries)?;
        Ok(self.add(Job::Transfer(Transfer::new(folder, unique, to, Way::Move, tries))))
    }

    pub fn copy(
        &mut self,
        folder: Folder,
        unique: &[u8],
        to: Folder,
        fresh: &[u8],
        tries: u64,
    ) -> Result<u64, Refusal> {
        check_unique(fresh)?;
        let unique = self.look_for(unique, tries)?;
        let fresh = self.use_name(fresh)?;
        Ok(self.add(Job::Transfer(Transfer::new(folder, unique, to, Way::Copy(fresh), tries))))
    }

    pub fn expunge(&mut self, folder: Folder, unique: &[u8], tries: u64) -> Result<u64, Refusal> {
        let unique = self.look_for(unique, tries)?;
        Ok(self.add(Job::Expunge(Expunge::new(folder, unique, tries))))
    }

    pub fn clean(&mut self, folder: Folder) -> Result<u64, Refusal> {
        self.check_jobs()?;
        Ok(self.add(Job::Clean(Clean::new(folder))))
    }

    /// Makes the next directory call of a job, at a moment of the store's clock and one of the job's host, which is the clock's
    /// where it is left out.
    pub fn step(&mut self, job: u64, now: u64, own: Option<u64>) -> Result<Step, Refusal> {
        let at = usize::try_from(job).ok().and_then(|job| job.checked_sub(1));
        let stepped = at.and_then(|at| self.jobs.get_mut(at)).ok_or(Refusal::NoJob)?;
        let clock = self.clock.max(now);
        let mut turn = Turn {
            directories: &mut self.directories,
            names: &self.names,
            effects: &mut self.history.effects,
            job,
            clock,
            own: own.unwrap_or(clock),
        };
        let step = stepped.step(&mut turn).ok_or(Refusal::Answered)?;
        self.clock = clock;
        self.history.log.push(Event { job, now, own });
        Ok(step)
    }

    /// The bytes of the message of a unique name.
    pub fn read(&self, unique: &[u8]) -> Option<&[u8]> {
        self.directories.message(self.names.find(unique)?)
    }

    /// The directories, those of a folder put in order for its listings, and the names.
    pub fn settled(&mut self, folder: Folder) -> (&Directories, &Names) {
        self.directories.settle(folder.at(Place::New), &self.names);
        self.directories.settle(folder.at(Place::Cur), &self.names);
        (&self.directories, &self.names)
    }

    /// The checks of a job that looks for a message, and the name that it looks for.
    fn look_for(&mut self, unique: &[u8], tries: u64) -> Result<NameId, Refusal> {
        check_unique(unique)?;
        if !(1..=MOST_TRIES).contains(&tries) {
            return Err(Refusal::BadTries);
        }
        self.check_jobs()?;
        Ok(self.names.name(unique))
    }

    fn check_jobs(&self) -> Result<(), Refusal> {
        if self.jobs.len() == MOST_JOBS { Err(Refusal::TooManyJobs) } else { Ok(()) }
    }

    /// Takes a name that must not be used yet.
    fn use_name(&mut self, unique: &[u8]) -> Result<NameId, Refusal> {
        let name = self.names.name(unique);
        if self.used.insert(name) { Ok(name) } else { Err(Refusal::NameUsed) }
    }

    fn add(&mut self, job: Job) -> u64 {
        self.jobs.push(job);
        self.jobs.len() as u64
    }
}

fn check_unique(unique: &[u8]) -> Result<(), Refusal> {
    if is_bad_unique(unique) { Err(Refusal::BadUnique) } else { Ok(()) }
}
