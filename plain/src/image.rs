//! The files that a store begins with, and the store that they make.

use crate::directories::{Directories, Path};
use crate::file_name::{FileName, Info, LONGEST_UNIQUE, colon_of, is_bad_name, is_message, written_flags};
use crate::names::{NameSet, Names, Span};
use crate::order::sort_by_name;
use crate::place::{Directory, Place};
use crate::refusal::Refusal;
use crate::world::World;

struct ImageFile {
    name: Span,
    body: Vec<u8>,
    stamp: u64,
}

pub struct Image {
    names: Names,
    /// The files of each directory.
    files: Vec<Vec<ImageFile>>,
    /// The greatest stamp.
    clock: u64,
}

impl Image {
    pub fn new() -> Image {
        Image { names: Names::new(), files: Vec::new(), clock: 0 }
    }

    pub fn add(&mut self, directory: Directory, name: &[u8], stamp: u64, body: Vec<u8>) {
        if self.files.len() <= directory.index() {
            self.files.resize_with(directory.index() + 1, Vec::new);
        }
        let name = self.names.keep(name);
        self.files[directory.index()].push(ImageFile { name, body, stamp });
        self.clock = self.clock.max(stamp);
    }

    /// The store of these files. Two of one path are refused before any name is looked at; names are looked at by folder, then
    /// tmp, new, cur, and then in order.
    pub fn open(self, directories: Directories) -> Result<World, Refusal> {
        let Image { names, files, clock } = self;
        let sort = |files: &Vec<ImageFile>| sorted(files, &names);
        let orders = files.iter().map(sort).collect::<Result<Vec<_>, _>>()?;
        let mut loading = Loading { names, used: NameSet::default(), directories };
        for (index, (mut files, order)) in files.into_iter().zip(orders).enumerate() {
            let directory = Directory::from_index(index);
            for at in order {
                let ImageFile { name, ref mut body, stamp } = files[at as usize];
                loading.add(directory, name, std::mem::take(body), stamp)?;
            }
        }
        Ok(World::new(loading.names, loading.used, loading.directories, clock))
    }
}

/// The files of a directory in order of their names.
fn sorted(files: &[ImageFile], names: &Names) -> Result<Vec<u32>, Refusal> {
    let text = |at: u32| names.text_at(files[at as usize].name);
    let mut order: Vec<u32> = (0..files.len() as u32).collect();
    sort_by_name(&mut order, text);
    let is_twice = order.windows(2).any(|pair| text(pair[0]) == text(pair[1]));
    if is_twice { Err(Refusal::SamePathTwice) } else { Ok(order) }
}

struct Loading {
    names: Names,
    used: NameSet,
    directories: Directories,
}

impl Loading {
    fn add(&mut self, directory: Directory, name: Span, body: Vec<u8>, stamp: u64) -> Result<(), Refusal> {
        let text = self.names.text_at(name);
        if is_bad_name(text) {
            return Err(Refusal::BadName);
        }
        let name = if directory.place == Place::Tmp {
            FileName::bare(self.names.name_at(name))
        } else if is_message(text) {
            self.message(name)?
        } else {
            // No call reaches a name of new or cur that is no message's.
            return Ok(());
        };
        self.used.insert(name.unique);
        self.directories.add(Path::new(directory, name), body, stamp);
        Ok(())
    }

    fn message(&mut self, name: Span) -> Result<FileName, Refusal> {
        let text = self.names.text_at(name);
        let colon = colon_of(text);
        let unique = colon.map_or(name, |at| name.first(at));
        if unique.len() > LONGEST_UNIQUE {
            return Err(Refusal::LongUnique);
        }
        let info = match colon.map(|at| written_flags(&text[at + 1..])) {
            None => Info::Bare,
            Some(Some(flags)) => Info::Flags(flags),
            Some(None) => Info::Spelled(self.names.name_at(name)),
        };
        let unique = self.names.name_at(unique);
        if self.directories.message(unique).is_some() {
            return Err(Refusal::DuplicateUnique);
        }
        Ok(FileName { unique, info })
    }
}
