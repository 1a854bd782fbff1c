//! The directories of all folders, their files, and the calls that jobs make of them.

use crate::cells::{Cell, CellId, Cells};
use crate::file_name::{FileName, Info};
use crate::files::{FileId, Files};
use crate::names::{NameId, Names};
use crate::order::Order;
use crate::place::{Directory, Place};

/// What a directory call answers.
#[derive(Clone, Copy, PartialEq, Eq)]
pub enum Reply {
    Ok,
    Exists,
    NotFound,
}

/// A name in a directory.
#[derive(Clone, Copy)]
pub struct Path {
    pub directory: Directory,
    pub name: FileName,
}

impl Path {
    pub fn new(directory: Directory, name: FileName) -> Path {
        Path { directory, name }
    }
}

pub struct Directories {
    cells: Cells,
    orders: Vec<Order>,
    files: Files,
}

impl Directories {
    pub fn new(folders: usize) -> Directories {
        let mut orders = Vec::new();
        orders.resize_with(folders * Place::COUNT, Order::default);
        Directories { cells: Cells::default(), orders, files: Files::default() }
    }

    /// Adds a file that the store begins with.
    pub fn add(&mut self, path: Path, body: Vec<u8>, stamp: u64) {
        let written = body.len();
        self.add_written(path, body, written, stamp);
    }

    /// Makes an empty file, and takes the body that will be appended to it.
    pub fn create(&mut self, path: Path, body: Vec<u8>, now: u64) -> Reply {
        if self.cell_at(path).is_some() {
            return Reply::Exists;
        }
        self.add_written(path, body, 0, now);
        Reply::Ok
    }

    /// Appends the next bytes of the body.
    pub fn append(&mut self, path: Path, count: u64, now: u64) -> Reply {
        let cell = match self.cell_at(path) {
            Some(cell) => cell,
            None => return Reply::NotFound,
        };
        self.files.append(self.cells[cell].file, count, now);
        Reply::Ok
    }

    /// Gives a file a second name.
    pub fn link(&mut self, old: Path, new: Path) -> Reply {
        let cell = match self.cell_at(old) {
            Some(cell) => cell,
            None => return Reply::NotFound,
        };
        if self.cell_at(new).is_some() {
            return Reply::Exists;
        }
        let file = self.cells[cell].file;
        self.files.add_name(file);
        self.add_cell(new, file);
        Reply::Ok
    }

    /// Gives a file another name in place of its old one. A file that had the new name loses it; where both names are one file's,
    /// nothing is done.
    pub fn rename(&mut self, old: Path, new: Path) -> Reply {
        let cell = match self.cell_at(old) {
            Some(cell) => cell,
            None => return Reply::NotFound,
        };
        let file = self.cells[cell].file;
        if let Some(replaced) = self.cell_at(new) {
            if self.cells[replaced].file == file {
                return Reply::Ok;
            }
            self.take(replaced);
        }
        if old.directory == new.directory && old.name.unique == new.name.unique {
            self.cells.set_info(cell, new.name.info);
        } else {
            self.take_cell(cell);
            self.add_cell(new, file);
        }
        Reply::Ok
    }

    /// Takes a name away.
    pub fn unlink(&mut self, path: Path) -> Reply {
        let cell = match self.cell_at(path) {
            Some(cell) => cell,
            None => return Reply::NotFound,
        };
        self.take(cell);
        Reply::Ok
    }

    /// The info of the name that has a unique part in a directory: a listing of which one row is kept.
    pub fn find(&self, directory: Directory, unique: NameId) -> Option<Info> {
        self.cells.find(directory, unique).map(|id| self.cells[id].info)
    }

    /// Puts the cells of a directory in order.
    pub fn settle(&mut self, directory: Directory, names: &Names) {
        self.orders[directory.index()].settle(&mut self.cells, names);
    }

    /// The cells of a directory that were put in order.
    pub fn settled(&self, directory: Directory) -> impl DoubleEndedIterator<Item = &Cell> {
        self.orders[directory.index()].settled().iter().map(|id| &self.cells[*id])
    }

    /// The bytes of the message of a unique name, in whatever folder.
    pub fn message(&self, unique: NameId) -> Option<&[u8]> {
        let message = self.cells.of(unique).find(|id| self.cells[*id].directory.place != Place::Tmp);
        message.map(|id| self.files.bytes(self.cells[id].file))
    }

    /// The bytes that a path's file has; none where there is no such path.
    pub fn size(&self, path: Path) -> u64 {
        self.cell_at(path).map_or(0, |id| self.files.size(self.cells[id].file))
    }

    pub fn files(&self) -> &Files {
        &self.files
    }

    fn cell_at(&self, path: Path) -> Option<CellId> {
        self.cells.at(path.directory, path.name)
    }

    fn add_written(&mut self, path: Path, body: Vec<u8>, written: usize, stamp: u64) {
        let file = self.files.add(body, written, stamp);
        self.add_cell(path, file);
    }

    fn add_cell(&mut self, path: Path, file: FileId) {
        let cell = self.cells.add(path.directory, path.name, file);
        self.orders[path.directory.index()].add(cell);
    }

    /// Takes a name, and the file where it was the last.
    fn take(&mut self, cell: CellId) {
        self.files.take_name(self.cells[cell].file);
        self.take_cell(cell);
    }

    fn take_cell(&mut self, cell: CellId) {
        let directory = self.cells[cell].directory;
        self.cells.take(cell);
        self.orders[directory.index()].take(&mut self.cells);
    }
}
