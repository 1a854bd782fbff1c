//! The directories of the folders.

#[derive(Clone, Copy, PartialEq, Eq)]
pub enum Place {
    Tmp,
    New,
    Cur,
}

impl Place {
    pub const COUNT: usize = 3;

    pub fn parse(word: &[u8]) -> Option<Place> {
        match word {
            b"tmp" => Some(Place::Tmp),
            b"new" => Some(Place::New),
            b"cur" => Some(Place::Cur),
            _ => None,
        }
    }
}

/// A folder, by its number from 0.
#[derive(Clone, Copy, PartialEq, Eq)]
pub struct Folder(u8);

impl Folder {
    /// The most folders that a script may name.
    pub const MOST: usize = 64;

    pub fn from_index(index: usize) -> Folder {
        Folder(index as u8)
    }

    pub fn index(self) -> usize {
        usize::from(self.0)
    }

    pub fn at(self, place: Place) -> Directory {
        Directory { folder: self, place }
    }
}

#[derive(Clone, Copy, PartialEq, Eq)]
pub struct Directory {
    pub folder: Folder,
    pub place: Place,
}

impl Directory {
    pub fn from_index(index: usize) -> Directory {
        let place = match index % Place::COUNT {
            0 => Place::Tmp,
            1 => Place::New,
            _ => Place::Cur,
        };
        Folder::from_index(index / Place::COUNT).at(place)
    }

    /// Directories are numbered by folder, then tmp, new, cur.
    pub fn index(self) -> usize {
        self.folder.index() * Place::COUNT + self.place as usize
    }
}
