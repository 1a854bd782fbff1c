//! Cells: each is a name in a directory, and the file that it leads to.

use std::ops::Index;

use crate::file_name::{FileName, Info};
use crate::files::FileId;
use crate::names::NameId;
use crate::place::Directory;
use crate::slab::{Id, Slab};

pub type CellId = Id<Cell>;

#[derive(Clone, Copy)]
pub struct Cell {
    pub unique: NameId,
    pub info: Info,
    pub file: FileId,
    pub directory: Directory,
    /// The next cell of the same unique name, in whatever directory.
    next: Option<CellId>,
    is_live: bool,
}

#[derive(Default)]
pub struct Cells {
    cells: Slab<Cell>,
    /// For each name the first of its cells.
    first: Vec<Option<CellId>>,
}

impl Index<CellId> for Cells {
    type Output = Cell;

    fn index(&self, id: CellId) -> &Cell {
        &self.cells[id]
    }
}

impl Cells {
    /// The cell of a unique name in a directory.
    #[inline]
    pub fn find(&self, directory: Directory, unique: NameId) -> Option<CellId> {
        self.of(unique).find(|id| self[*id].directory == directory)
    }

    /// The cell of a name in a directory.
    #[inline]
    pub fn at(&self, directory: Directory, name: FileName) -> Option<CellId> {
        self.of(name.unique).find(|id| self[*id].directory == directory && self[*id].info == name.info)
    }

    /// The cells of a unique name.
    #[inline]
    pub fn of(&self, unique: NameId) -> impl Iterator<Item = CellId> + '_ {
        let first = self.first.get(unique.index()).copied().flatten();
        std::iter::successors(first, |id| self[*id].next)
    }

    pub fn add(&mut self, directory: Directory, name: FileName, file: FileId) -> CellId {
        let FileName { unique, info } = name;
        if self.first.len() <= unique.index() {
            self.first.resize(unique.index() + 1, None);
        }
        let first = &mut self.first[unique.index()];
        let id = self.cells.add(Cell { unique, info, file, directory, next: *first, is_live: true });
        *first = Some(id);
        id
    }

    pub fn set_info(&mut self, id: CellId, info: Info) {
        self.cells[id].info = info;
    }

    /// Takes a cell from those of its name. Its place is used again when the order of its directory has let it go.
    pub fn take(&mut self, id: CellId) {
        let Cell { unique, next, .. } = self[id];
        self.cells[id].is_live = false;
        let before = self.of(unique).find(|before| self[*before].next == Some(id));
        match before {
            Some(before) => self.cells[before].next = next,
            None => self.first[unique.index()] = next,
        }
    }

    /// Whether a cell is live; the place of one that isn't is free from then on.
    pub fn keep_or_free(&mut self, id: CellId) -> bool {
        let is_live = self[id].is_live;
        if !is_live {
            self.cells.free(id);
        }
        is_live
    }
}
