//! Slabs: items that are known by numbers, whose places are used again when they are gone.

use std::marker::PhantomData;
use std::num::NonZeroU32;
use std::ops::{Index, IndexMut};

/// The number of an item, in four bytes that leave room for none.
pub struct Id<T> {
    number: NonZeroU32,
    of: PhantomData<fn() -> T>,
}

impl<T> Clone for Id<T> {
    fn clone(&self) -> Id<T> {
        *self
    }
}

impl<T> Copy for Id<T> {}

impl<T> PartialEq for Id<T> {
    fn eq(&self, other: &Id<T>) -> bool {
        self.number == other.number
    }
}

impl<T> Eq for Id<T> {}

impl<T> Id<T> {
    pub fn from_index(index: usize) -> Id<T> {
        let number = u32::try_from(index + 1).ok().and_then(NonZeroU32::new);
        Id { number: number.expect("a script makes fewer items than it has bytes"), of: PhantomData }
    }

    pub fn index(self) -> usize {
        self.number.get() as usize - 1
    }
}

pub struct Slab<T> {
    items: Vec<T>,
    free: Vec<Id<T>>,
}

impl<T> Default for Slab<T> {
    fn default() -> Slab<T> {
        Slab { items: Vec::new(), free: Vec::new() }
    }
}

impl<T> Slab<T> {
    pub fn add(&mut self, item: T) -> Id<T> {
        match self.free.pop() {
            Some(id) => {
                self[id] = item;
                id
            }
            None => {
                self.items.push(item);
                Id::from_index(self.items.len() - 1)
            }
        }
    }

    /// Gives the place of an item to one that comes later.
    pub fn free(&mut self, id: Id<T>) {
        self.free.push(id);
    }
}

impl<T> Index<Id<T>> for Slab<T> {
    type Output = T;

    fn index(&self, id: Id<T>) -> &T {
        &self.items[id.index()]
    }
}

impl<T> IndexMut<Id<T>> for Slab<T> {
    fn index_mut(&mut self, id: Id<T>) -> &mut T {
        &mut self.items[id.index()]
    }
}
