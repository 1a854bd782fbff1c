//! The folders that a script names.

use crate::names::Names;
use crate::place::Folder;
use crate::refusal::Refusal;
use crate::search::find;
use crate::words::Words;

const LONGEST_NAME: usize = 100;

/// The names of the folders, which are numbered as they came.
pub struct Folders(Names);

impl Folders {
    pub fn new() -> Folders {
        Folders(Names::new())
    }

    pub fn count(&self) -> usize {
        self.0.count()
    }

    pub fn add(&mut self, name: &[u8]) -> Result<(), Refusal> {
        let is_bad = name.len() > LONGEST_NAME || name[0] == b'.' || find(name, *b"/\0\r").is_some();
        if is_bad || self.count() == Folder::MOST || self.0.find(name).is_some() {
            return Err(Refusal::BadFolder);
        }
        self.0.name(name);
        Ok(())
    }

    /// The folder that the next word names.
    pub fn read(&self, words: &mut Words<'_>) -> Result<Folder, Refusal> {
        let name = self.0.find(words.word()?).ok_or(Refusal::UnknownFolder)?;
        Ok(Folder::from_index(name.index()))
    }
}
