//! What a job is asked to do.

/// A call: what a job is to do. Folders are numbers from 0; a unique name is that of a message, without its info.
///
/// A job that looks for a message has 16 tries, where other jobs change its name meanwhile. A delivery is written in pieces of 4,096 bytes.
///
/// ```
/// use deolmutt::{Answer, Call, World};
///
/// let mut world = World::load(b"folder inbox\nfolder sent\nfile inbox cur a:2,T 1000 hello\n")?;
/// let moved = world.call(&Call::Move { folder: 0, unique: b"a", to: 1 }, 1000)?;
/// assert_eq!(moved, Answer::Moved);
/// assert_eq!(world.call(&Call::Expunge { folder: 1, unique: b"a" }, 1001)?, Answer::Expunged);
/// # Ok::<(), Box<dyn std::error::Error>>(())
/// ```
#[derive(Clone, Copy, Debug, PartialEq, Eq)]
pub enum Call<'a> {
    /// Delivers a message to new, under a unique name that was never used.
    Deliver {
        /// Its folder.
        folder: u32,
        /// Its unique name.
        unique: &'a [u8],
        /// The message, of at most 16,777,216 bytes.
        body: &'a [u8],
    },
    /// Takes a message from new to cur, its flags joined by these letters.
    Seen {
        /// Its folder.
        folder: u32,
        /// Its unique name.
        unique: &'a [u8],
        /// The letters.
        flags: &'a str,
    },
    /// Adds and removes flags of a message in cur.
    Flag {
        /// Its folder.
        folder: u32,
        /// Its unique name.
        unique: &'a [u8],
        /// The letters to add.
        add: &'a str,
        /// The letters to remove.
        remove: &'a str,
    },
    /// Takes a message to another folder: from new to new, and from cur to cur.
    Move {
        /// The folder that it is in.
        folder: u32,
        /// Its unique name.
        unique: &'a [u8],
        /// The folder that it goes to.
        to: u32,
    },
    /// Removes a message of cur that has the flag T.
    Expunge {
        /// Its folder.
        folder: u32,
        /// Its unique name.
        unique: &'a [u8],
    },
    /// Gives a message a second name, which was never used, in this folder or another.
    Copy {
        /// The folder that it is in.
        folder: u32,
        /// Its unique name.
        unique: &'a [u8],
        /// The folder of the copy.
        to: u32,
        /// The copy's unique name.
        fresh: &'a [u8],
    },
    /// Removes the files of tmp that were not used for 36 hours.
    Clean {
        /// The folder.
        folder: u32,
    },
}

/// The number of a job in its world.
///
/// ```
/// use deolmutt::{Call, World};
///
/// let mut world = World::with_folders(&["inbox"])?;
/// let first = world.submit(&Call::Clean { folder: 0 })?;
/// assert!(first < world.submit(&Call::Clean { folder: 0 })?);
/// # Ok::<(), deolmutt::CallError>(())
/// ```
#[derive(Clone, Copy, Debug, PartialEq, Eq, Hash, PartialOrd, Ord)]
pub struct Job(pub(crate) u64);

const TRIES: u64 = 16;
const PIECE_BYTES: u64 = 4096;

/// A call in the words of the library.
pub(crate) struct Asked<'a> {
    pub(crate) kind: u32,
    pub(crate) folder: u32,
    pub(crate) unique: &'a [u8],
    pub(crate) to: u32,
    pub(crate) first: &'a [u8],
    pub(crate) second: &'a [u8],
    pub(crate) number: u64,
}

impl<'a> Call<'a> {
    pub(crate) fn asked(&self) -> Asked<'a> {
        let nothing = Asked { kind: 7, folder: 0, unique: b"", to: 0, first: b"", second: b"", number: TRIES };
        match *self {
            Call::Deliver { folder, unique, body } => {
                Asked { kind: 1, folder, unique, first: body, number: PIECE_BYTES, ..nothing }
            }
            Call::Seen { folder, unique, flags } => {
                Asked { kind: 2, folder, unique, first: flags.as_bytes(), ..nothing }
            }
            Call::Flag { folder, unique, add, remove } => {
                Asked { kind: 3, folder, unique, first: add.as_bytes(), second: remove.as_bytes(), ..nothing }
            }
            Call::Move { folder, unique, to } => Asked { kind: 4, folder, unique, to, ..nothing },
            Call::Expunge { folder, unique } => Asked { kind: 5, folder, unique, ..nothing },
            Call::Copy { folder, unique, to, fresh } => Asked { kind: 6, folder, unique, to, first: fresh, ..nothing },
            Call::Clean { folder } => Asked { folder, ..nothing },
        }
    }
}
