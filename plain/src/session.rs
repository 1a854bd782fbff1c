//! What the lines of a script do.

use crate::folders::Folders;
use crate::header::Summary;
use crate::jobs::Mark;
use crate::listing::{self, Row, rows};
use crate::made_name::print_made_name;
use crate::output::Output;
use crate::place::{Folder, Place};
use crate::refusal::Refusal;
use crate::steps::print_step;
use crate::store::Store;
use crate::words::Words;
use crate::world::World;

const NO_READING: Option<Vec<Row>> = None;

pub struct Session {
    folders: Folders,
    store: Store,
    /// The kept reading of each folder.
    readings: [Option<Vec<Row>>; Folder::MOST],
    summary: Summary,
    output: Output,
}

impl Session {
    pub fn new() -> Session {
        Session {
            folders: Folders::new(),
            store: Store::new(),
            readings: [NO_READING; Folder::MOST],
            summary: Summary::default(),
            output: Output::default(),
        }
    }

    /// What was printed so far.
    pub fn output(&self) -> &[u8] {
        self.output.bytes()
    }

    /// Runs a line. Empty lines and comments are passed over.
    pub fn run(&mut self, line: &[u8]) -> Result<(), Refusal> {
        if matches!(line, [] | [b'#', ..]) {
            return Ok(());
        }
        let mut words = Words::of(line);
        match words.word()? {
            b"folder" => self.folder(&mut words),
            b"file" => self.file(&mut words),
            b"job" => self.job(&mut words),
            b"step" => self.step(&mut words),
            b"finish" => self.finish(&mut words),
            b"list" => self.list(&mut words),
            b"first" => self.first(&mut words),
            b"second" => self.second(&mut words),
            b"read" => self.read(&mut words),
            b"unique" => print_made_name(&mut words, &mut self.output),
            b"summary" => self.summary(&mut words),
            _ => Err(Refusal::BadCommand),
        }
    }

    fn world(&mut self) -> Result<&mut World, Refusal> {
        self.store.world(self.folders.count())
    }

    fn folder(&mut self, words: &mut Words<'_>) -> Result<(), Refusal> {
        self.store.check_closed()?;
        self.folders.add(words.word()?)?;
        words.end()
    }

    fn file(&mut self, words: &mut Words<'_>) -> Result<(), Refusal> {
        self.store.check_closed()?;
        let folder = self.folders.read(words)?;
        let place = Place::parse(words.word()?).ok_or(Refusal::BadPlace)?;
        let (name, stamp, body) = (words.word()?, words.number()?, words.body()?);
        self.store.add(folder.at(place), name, stamp, body);
        Ok(())
    }

    fn job(&mut self, words: &mut Words<'_>) -> Result<(), Refusal> {
        let job = match words.word()? {
            b"deliver" => self.deliver(words)?,
            b"seen" => self.seen(words)?,
            b"flag" => self.flag(words)?,
            b"move" => self.transfer(words)?,
            b"copy" => self.copy(words)?,
            b"expunge" => self.expunge(words)?,
            b"clean" => self.clean(words)?,
            _ => return Err(Refusal::BadCommand),
        };
        self.output.text(b"job ");
        self.output.number(job);
        self.output.text(b"\n");
        Ok(())
    }

    fn deliver(&mut self, words: &mut Words<'_>) -> Result<u64, Refusal> {
        let (folder, unique) = (self.folders.read(words)?, words.word()?);
        let (chunk, body) = (words.number()?, words.body()?);
        self.world()?.deliver(folder, unique, chunk, body)
    }

    fn seen(&mut self, words: &mut Words<'_>) -> Result<u64, Refusal> {
        let (folder, unique) = (self.folders.read(words)?, words.word()?);
        let mark = Mark::Seen(words.flags()?);
        let tries = words.number()?;
        words.end()?;
        self.world()?.mark(folder, unique, mark, tries)
    }

    fn flag(&mut self, words: &mut Words<'_>) -> Result<u64, Refusal> {
        let (folder, unique) = (self.folders.read(words)?, words.word()?);
        let mark = Mark::Flag { add: words.flags()?, remove: words.flags()? };
        let tries = words.number()?;
        words.end()?;
        self.world()?.mark(folder, unique, mark, tries)
    }

    fn transfer(&mut self, words: &mut Words<'_>) -> Result<u64, Refusal> {
        let (folder, unique, to) = (self.folders.read(words)?, words.word()?, self.folders.read(words)?);
        let tries = words.number()?;
        words.end()?;
        self.world()?.transfer(folder, unique, to, tries)
    }

    fn copy(&mut self, words: &mut Words<'_>) -> Result<u64, Refusal> {
        let (folder, unique, to) = (self.folders.read(words)?, words.word()?, self.folders.read(words)?);
        let (fresh, tries) = (words.word()?, words.number()?);
        words.end()?;
        self.world()?.copy(folder, unique, to, fresh, tries)
    }

    fn expunge(&mut self, words: &mut Words<'_>) -> Result<u64, Refusal> {
        let (folder, unique, tries) = (self.folders.read(words)?, words.word()?, words.number()?);
        words.end()?;
        self.world()?.expunge(folder, unique, tries)
    }

    fn clean(&mut self, words: &mut Words<'_>) -> Result<u64, Refusal> {
        let folder = self.folders.read(words)?;
        words.end()?;
        self.world()?.clean(folder)
    }

    fn step(&mut self, words: &mut Words<'_>) -> Result<(), Refusal> {
        let (job, now, own) = (words.number()?, words.number()?, words.last_number()?);
        words.end()?;
        let step = self.world()?.step(job, now, own)?;
        print_step(&mut self.output, job, &step);
        Ok(())
    }

    fn finish(&mut self, words: &mut Words<'_>) -> Result<(), Refusal> {
        let (job, now, own) = (words.number()?, words.number()?, words.last_number()?);
        words.end()?;
        let world = self.store.world(self.folders.count())?;
        loop {
            let step = world.step(job, now, own)?;
            print_step(&mut self.output, job, &step);
            if step.answer.is_some() {
                return Ok(());
            }
        }
    }

    fn list(&mut self, words: &mut Words<'_>) -> Result<(), Refusal> {
        let folder = self.folders.read(words)?;
        words.end()?;
        let world = self.store.world(self.folders.count())?;
        let (directories, names) = world.settled(folder);
        let (new, cur) = (rows(directories, folder.at(Place::New)), rows(directories, folder.at(Place::Cur)));
        listing::print(&mut self.output, names, new, cur);
        Ok(())
    }

    fn first(&mut self, words: &mut Words<'_>) -> Result<(), Refusal> {
        let folder = self.folders.read(words)?;
        words.end()?;
        let (directories, _) = self.world()?.settled(folder);
        let new = rows(directories, folder.at(Place::New)).collect();
        self.readings[folder.index()] = Some(new);
        Ok(())
    }

    fn second(&mut self, words: &mut Words<'_>) -> Result<(), Refusal> {
        let folder = self.folders.read(words)?;
        words.end()?;
        let world = self.store.world(self.folders.count())?;
        let new = self.readings[folder.index()].take().ok_or(Refusal::NoFirstReading)?;
        let (directories, names) = world.settled(folder);
        let cur = rows(directories, folder.at(Place::Cur));
        listing::print(&mut self.output, names, new.into_iter(), cur);
        Ok(())
    }

    fn read(&mut self, words: &mut Words<'_>) -> Result<(), Refusal> {
        let unique = words.word()?;
        words.end()?;
        match self.store.world(self.folders.count())?.read(unique) {
            Some(bytes) => {
                self.output.text(b"bytes=");
                self.output.escaped(bytes);
                self.output.text(b"\n");
            }
            None => self.output.text(b"none\n"),
        }
        Ok(())
    }

    fn summary(&mut self, words: &mut Words<'_>) -> Result<(), Refusal> {
        let message = words.body()?;
        self.summary.print(&message, &mut self.output);
        Ok(())
    }
}
