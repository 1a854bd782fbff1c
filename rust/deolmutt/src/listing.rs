//! The messages of a folder.

use std::convert::TryInto;

/// The directory of a file.
///
/// ```
/// use deolmutt::{Place, World};
///
/// let world = World::load(b"folder inbox\nfile inbox cur a:2,S 1000\n")?;
/// assert_eq!(world.names(0, Place::New).count(), 0);
/// assert_eq!(world.names(0, Place::Cur).count(), 1);
/// # Ok::<(), deolmutt::LineError>(())
/// ```
#[derive(Clone, Copy, Debug, PartialEq, Eq, Hash)]
pub enum Place {
    /// What is being delivered.
    Tmp,
    /// Messages that nobody has seen yet.
    New,
    /// Messages that were seen, with their flags.
    Cur,
}

impl Place {
    pub(crate) fn of(number: u32) -> Place {
        match number {
            0 => Place::Tmp,
            1 => Place::New,
            _ => Place::Cur,
        }
    }

    pub(crate) fn number(self) -> u32 {
        self as u32
    }
}

/// A message of a listing.
///
/// ```
/// use deolmutt::{Entry, Place, World};
///
/// let world = World::load(b"folder inbox\nfile inbox new a 1000 hello\n")?;
/// let listing = world.list(0)?;
/// assert_eq!(listing.iter().next(), Some(Entry { place: Place::New, name: b"a", size: 5 }));
/// # Ok::<(), Box<dyn std::error::Error>>(())
/// ```
#[derive(Clone, Copy, Debug, PartialEq, Eq)]
pub struct Entry<'a> {
    /// Its directory.
    pub place: Place,
    /// The whole name of its file.
    pub name: &'a [u8],
    /// How many bytes it has.
    pub size: u64,
}

/// The messages of a folder as they were at one moment, in order of their unique names.
///
/// ```
/// use deolmutt::{Place, World};
///
/// let world = World::load(b"folder inbox\nfile inbox new b 1000 two\nfile inbox cur a:2,S 1000 one\n")?;
/// let listing = world.list(0)?;
/// let rows: Vec<_> = listing.iter().map(|entry| (entry.place, entry.name, entry.size)).collect();
/// assert_eq!(rows, [(Place::Cur, &b"a:2,S"[..], 3), (Place::New, &b"b"[..], 3)]);
/// # Ok::<(), Box<dyn std::error::Error>>(())
/// ```
#[derive(Clone, Debug)]
pub struct Listing(pub(crate) Vec<u8>);

impl Listing {
    /// Its messages.
    ///
    /// ```
    /// let world = deolmutt::World::load(b"folder inbox\nfile inbox new a 1000 hello\nfile inbox new b 1000 hi\n")?;
    /// assert_eq!(world.list(0)?.iter().map(|entry| entry.size).sum::<u64>(), 7);
    /// # Ok::<(), Box<dyn std::error::Error>>(())
    /// ```
    pub fn iter(&self) -> Entries<'_> {
        Entries(&self.0)
    }
}

impl<'a> IntoIterator for &'a Listing {
    type Item = Entry<'a>;
    type IntoIter = Entries<'a>;

    fn into_iter(self) -> Entries<'a> {
        self.iter()
    }
}

/// The messages of a listing.
///
/// ```
/// let world = deolmutt::World::load(b"folder inbox\nfile inbox new a 1000 hello\n")?;
/// for entry in &world.list(0)? {
///     assert_eq!(entry.name, b"a");
/// }
/// # Ok::<(), Box<dyn std::error::Error>>(())
/// ```
#[derive(Clone, Debug)]
pub struct Entries<'a>(&'a [u8]);

const HEAD: usize = 16;

impl<'a> Iterator for Entries<'a> {
    type Item = Entry<'a>;

    fn next(&mut self) -> Option<Entry<'a>> {
        let head = self.0.get(..HEAD)?;
        let place = u32::from_le_bytes(head[..4].try_into().ok()?);
        let length = u32::from_le_bytes(head[4..8].try_into().ok()?) as usize;
        let size = u64::from_le_bytes(head[8..].try_into().ok()?);
        let name = self.0.get(HEAD..HEAD + length)?;
        self.0 = &self.0[HEAD + length..];
        Some(Entry { place: Place::of(place), name, size })
    }
}
