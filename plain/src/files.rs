//! Files, each with the names that lead to it counted.

use crate::slab::{Id, Slab};

pub type FileId = Id<File>;

pub struct File {
    /// All that its delivery will write, of which the first `written` bytes are there by now: so a piece that is appended is not
    /// copied.
    body: Vec<u8>,
    written: u32,
    names: u32,
    stamp: u64,
}

#[derive(Default)]
pub struct Files(Slab<File>);

impl Files {
    /// A file with one name.
    pub fn add(&mut self, body: Vec<u8>, written: usize, stamp: u64) -> FileId {
        self.0.add(File { body, written: written as u32, names: 1, stamp })
    }

    pub fn bytes(&self, id: FileId) -> &[u8] {
        let file = &self.0[id];
        &file.body[..file.written as usize]
    }

    pub fn size(&self, id: FileId) -> u64 {
        u64::from(self.0[id].written)
    }

    pub fn stamp(&self, id: FileId) -> u64 {
        self.0[id].stamp
    }

    /// Writes the next bytes of the body.
    pub fn append(&mut self, id: FileId, count: u64, stamp: u64) {
        let file = &mut self.0[id];
        file.written += count as u32;
        file.stamp = stamp;
    }

    pub fn add_name(&mut self, id: FileId) {
        self.0[id].names += 1;
    }

    /// Takes a name away. A file goes with its last one.
    pub fn take_name(&mut self, id: FileId) {
        let file = &mut self.0[id];
        file.names -= 1;
        if file.names == 0 {
            file.body = Vec::new();
            self.0.free(id);
        }
    }
}
