//! The store of a script: the files that it begins with, and from the first line that needs it the world that they make.

use crate::directories::Directories;
use crate::image::Image;
use crate::place::Directory;
use crate::refusal::Refusal;
use crate::world::World;

pub struct Store {
    image: Image,
    world: Option<World>,
}

impl Store {
    pub fn new() -> Store {
        Store { image: Image::new(), world: None }
    }

    /// Folders and files are only taken before the store is opened.
    pub fn check_closed(&self) -> Result<(), Refusal> {
        if self.world.is_some() { Err(Refusal::TooLate) } else { Ok(()) }
    }

    pub fn add(&mut self, directory: Directory, name: &[u8], stamp: u64, body: Vec<u8>) {
        self.image.add(directory, name, stamp, body);
    }

    /// The world, which the first call opens.
    pub fn world(&mut self, folders: usize) -> Result<&mut World, Refusal> {
        if self.world.is_none() {
            let image = std::mem::replace(&mut self.image, Image::new());
            self.world = Some(image.open(Directories::new(folders))?);
        }
        Ok(self.world.as_mut().expect("it was opened"))
    }
}
