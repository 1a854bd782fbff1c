//! Jobs whose directory calls their caller makes.

use crate::answer::{Answer, Failure, Reply, Step, ended};
use crate::buffer::given;
use crate::call::{Asked, Call};
use crate::listing::Place;
use crate::refusal::Refusal;
use deolmutt_sys as sys;
use std::ptr::{self, NonNull};

/// A job whose directory calls its caller makes, on a disk say: it asks for one call after the other, and goes on by what was replied.
///
/// The calls are those of the proved machine, whatever is replied. What they are to do on a disk, `deolmutt.h` says.
///
/// ```
/// use deolmutt::{Answer, Call, Driven, Reply, Request};
///
/// let mut job = Driven::new(&Call::Deliver { folder: 0, unique: b"a", body: b"hello" })?;
/// let mut requests = Vec::new();
/// let answer = loop {
///     job.ask(1000)?;
///     requests.push(job.request()?);
///     if let Some(answer) = job.take(Reply::Done)?.answer {
///         break answer;
///     }
/// };
/// assert_eq!(answer, Ok(Answer::Delivered));
/// assert!(matches!(&requests[1], Request::Append { bytes, .. } if bytes == b"hello"));
/// # Ok::<(), deolmutt::Refusal>(())
/// ```
#[derive(Debug)]
pub struct Driven {
    // What deolmutt_drive gave, and deolmutt_driven_free takes back.
    handle: NonNull<sys::Driven>,
}

// As a world.
unsafe impl Send for Driven {}

/// The name of a file in a directory.
///
/// ```
/// use deolmutt::{Call, Driven, Path, Place, Request};
///
/// let mut job = Driven::new(&Call::Deliver { folder: 3, unique: b"a", body: b"hello" })?;
/// job.ask(1000)?;
/// let path = Path { folder: 3, place: Place::Tmp, name: b"a".to_vec() };
/// assert_eq!(job.request()?, Request::Create { path });
/// # Ok::<(), deolmutt::Refusal>(())
/// ```
#[derive(Clone, Debug, PartialEq, Eq)]
pub struct Path {
    /// Its folder, by the caller's own number.
    pub folder: u32,
    /// Its directory there.
    pub place: Place,
    /// Its name.
    pub name: Vec<u8>,
}

/// A directory call that a driven job asks for.
///
/// ```
/// use deolmutt::{Call, Driven, Place, Request};
///
/// let mut job = Driven::new(&Call::Expunge { folder: 3, unique: b"a" })?;
/// job.ask(1000)?;
/// assert_eq!(job.request()?, Request::List { folder: 3, place: Place::Cur });
/// # Ok::<(), deolmutt::Refusal>(())
/// ```
#[derive(Clone, Debug, PartialEq, Eq)]
pub enum Request {
    /// Make a file, which is not there yet.
    Create {
        /// Its name.
        path: Path,
    },
    /// Add all of these bytes to a file.
    Append {
        /// Its name.
        path: Path,
        /// The bytes.
        bytes: Vec<u8>,
    },
    /// Give a file a second name, which is not there yet.
    Link {
        /// The name that it has.
        old: Path,
        /// The name that it gets.
        new: Path,
    },
    /// Give a file another name, which is not there yet.
    Rename {
        /// The name that it has.
        old: Path,
        /// The name that it gets.
        new: Path,
    },
    /// Take a name away.
    Unlink {
        /// The name.
        path: Path,
    },
    /// Read a directory, and tell its rows by [`Driven::row`].
    List {
        /// Its folder.
        folder: u32,
        /// Which of the folder's directories.
        place: Place,
    },
}

impl Request {
    fn of(asked: sys::Request, mut bytes: Vec<u8>) -> Request {
        let second = bytes.split_off((asked.name as usize).min(bytes.len()));
        let place = Place::of(asked.place);
        let path = Path { folder: asked.folder, place, name: bytes };
        let new = |name| Path { folder: asked.to_folder, place: Place::of(asked.to_place), name };
        match asked.call {
            1 => Request::Create { path },
            2 => Request::Append { path, bytes: second },
            3 => Request::Link { old: path, new: new(second) },
            4 => Request::Rename { old: path, new: new(second) },
            5 => Request::Unlink { path },
            _ => Request::List { folder: asked.folder, place },
        }
    }
}

impl Driven {
    /// The job of a call, of which no step was taken.
    ///
    /// ```
    /// use deolmutt::{Call, Driven, Refusal};
    ///
    /// let refused = Driven::new(&Call::Move { folder: 0, unique: b"a", to: 0 }).unwrap_err();
    /// assert_eq!(refused, Refusal::SAME_FOLDER);
    /// ```
    pub fn new(call: &Call<'_>) -> Result<Driven, Refusal> {
        let Asked { kind, folder, unique, to, first, second, number } = call.asked();
        let mut handle = ptr::null_mut();
        // Each slice is read as far as it goes, and the handle is a place for one value.
        let status = unsafe {
            sys::deolmutt_drive(
                kind,
                folder,
                unique.as_ptr(),
                unique.len(),
                to,
                first.as_ptr(),
                first.len(),
                second.as_ptr(),
                second.len(),
                number,
                &mut handle,
            )
        };
        Refusal::check(status)?;
        NonNull::new(handle).map(|handle| Driven { handle }).ok_or(Refusal::NO_MEMORY)
    }

    /// Asks for the next call, at a second by the caller's clock.
    ///
    /// ```
    /// use deolmutt::{Call, Driven, Refusal};
    ///
    /// let mut job = Driven::new(&Call::Clean { folder: 0 })?;
    /// job.ask(1000)?;
    /// assert_eq!(job.ask(1000), Err(Refusal::ASKED));
    /// # Ok::<(), deolmutt::Refusal>(())
    /// ```
    pub fn ask(&mut self, second: u64) -> Result<(), Refusal> {
        Refusal::check(unsafe { sys::deolmutt_driven_ask(self.handle.as_ptr(), second) })
    }

    /// The call that was asked for, as often as wanted.
    ///
    /// ```
    /// use deolmutt::{Call, Driven, Refusal};
    ///
    /// let mut job = Driven::new(&Call::Clean { folder: 0 })?;
    /// assert_eq!(job.request(), Err(Refusal::NOT_ASKED));
    /// job.ask(1000)?;
    /// assert_eq!(job.request()?, job.request()?);
    /// # Ok::<(), deolmutt::Refusal>(())
    /// ```
    pub fn request(&self) -> Result<Request, Refusal> {
        let mut asked = sys::Request::default();
        // The buffer's room is told, and what is asked is a place for one value.
        let bytes = given(|out, room, length| unsafe {
            sys::deolmutt_driven_request(self.handle.as_ptr(), &mut asked, out, room, length)
        })?;
        Ok(Request::of(asked, bytes))
    }

    /// A row of the reading that was asked for: a name, the stamp of its file in seconds, and its size.
    ///
    /// ```
    /// use deolmutt::{Call, Driven, Reply, Request};
    ///
    /// let mut job = Driven::new(&Call::Flag { folder: 0, unique: b"a", add: "F", remove: "" })?;
    /// job.ask(1000)?;
    /// job.row(b"a:2,S", 900, 5)?;
    /// job.take(Reply::Done)?;
    /// job.ask(1000)?;
    /// assert!(matches!(job.request()?, Request::Rename { new, .. } if new.name == b"a:2,FS"));
    /// # Ok::<(), deolmutt::Refusal>(())
    /// ```
    pub fn row(&mut self, name: &[u8], stamp: u64, size: u64) -> Result<(), Refusal> {
        // The name is read as far as it goes.
        Refusal::check(unsafe {
            sys::deolmutt_driven_row(self.handle.as_ptr(), name.as_ptr(), name.len(), stamp, size)
        })
    }

    /// What was replied to the call that was asked for, and what this came to.
    ///
    /// ```
    /// use deolmutt::{Call, Driven, Failure, Reply};
    ///
    /// let mut job = Driven::new(&Call::Clean { folder: 0 })?;
    /// job.ask(1000)?;
    /// assert_eq!(job.take(Reply::Faulted)?.answer, Some(Err(Failure::Fault)));
    /// # Ok::<(), deolmutt::Refusal>(())
    /// ```
    pub fn take(&mut self, reply: Reply) -> Result<Step, Refusal> {
        let mut step = sys::Step::default();
        // The step is a place for one value.
        let status = unsafe { sys::deolmutt_driven_take(self.handle.as_ptr(), reply.number(), &mut step) };
        Refusal::check(status).map(|()| Step::of(step))
    }

    /// How the job ended, or none while it has no answer.
    ///
    /// ```
    /// use deolmutt::{Answer, Call, Driven, Reply};
    ///
    /// let mut job = Driven::new(&Call::Clean { folder: 0 })?;
    /// assert_eq!(job.answer()?, None);
    /// job.ask(1000)?;
    /// job.take(Reply::Done)?;
    /// assert_eq!(job.answer()?, Some(Ok(Answer::Cleaned(0))));
    /// # Ok::<(), deolmutt::Refusal>(())
    /// ```
    pub fn answer(&self) -> Result<Option<Result<Answer, Failure>>, Refusal> {
        let mut answer = sys::Answer::default();
        // The answer is a place for one value.
        Refusal::check(unsafe { sys::deolmutt_driven_answer(self.handle.as_ptr(), &mut answer) })?;
        Ok(ended(answer))
    }
}

impl Drop for Driven {
    fn drop(&mut self) {
        // No call on it can come after this.
        unsafe { sys::deolmutt_driven_free(self.handle.as_ptr()) };
    }
}
