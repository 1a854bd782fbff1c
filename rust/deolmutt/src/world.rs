//! A store, and the calls on it.

use crate::answer::{Answer, Failure, Step, ended};
use crate::buffer::given;
use crate::call::{Asked, Call, Job};
use crate::listing::{Listing, Place};
use crate::refusal::{CallError, LineError, Refusal, Unanswered};
use deolmutt_sys as sys;
use std::ptr::{self, NonNull};

/// A store: folders, numbered from 0, and their messages, in memory. It takes 10,000 calls until [`World::settle`] lets it take as many again.
///
/// ```
/// use deolmutt::{Call, World};
/// use std::thread;
///
/// let mut world = World::with_folders(&["inbox"])?;
/// let world = thread::spawn(move || {
///     world.call(&Call::Deliver { folder: 0, unique: b"a", body: b"hello" }, 1000).map(|_| world)
/// });
/// assert_eq!(world.join().unwrap()?.read(b"a")?, b"hello");
/// # Ok::<(), Box<dyn std::error::Error>>(())
/// ```
#[derive(Debug)]
pub struct World {
    // What deolmutt_load gave, and deolmutt_free takes back.
    handle: NonNull<sys::World>,
}

// A world may go from one thread to another, and keeps no state of a thread. It is not Sync: two calls on it may not overlap.
unsafe impl Send for World {}

impl World {
    /// A world over `folder` and `file` lines of the script language.
    ///
    /// ```
    /// let world = deolmutt::World::load(b"folder inbox\nfile inbox cur a:2,S 1000 hello\n")?;
    /// assert_eq!(world.read(b"a")?, b"hello");
    /// # Ok::<(), Box<dyn std::error::Error>>(())
    /// ```
    pub fn load(lines: &[u8]) -> Result<World, LineError> {
        let (mut handle, mut line) = (ptr::null_mut(), 0);
        // The lines are read as far as they go, and the rest are places for one value each.
        let status = unsafe { sys::deolmutt_load(lines.as_ptr(), lines.len(), &mut handle, &mut line) };
        match (Refusal::check(status), NonNull::new(handle)) {
            (Ok(()), Some(handle)) => Ok(World { handle }),
            (checked, _) => {
                let refusal = checked.err().unwrap_or(Refusal::NO_MEMORY);
                Err(LineError { refusal, line, printed: Vec::new() })
            }
        }
    }

    /// A world of empty folders, numbered from 0 as they are named here. A name is one word of a line.
    ///
    /// ```
    /// use deolmutt::{Refusal, World};
    ///
    /// assert_eq!(World::with_folders(&["a", "a"]).unwrap_err().line, 2);
    /// assert_eq!(World::with_folders(&["a\nfolder b"]).unwrap_err().refusal, Refusal::BAD_NAME);
    /// ```
    pub fn with_folders(names: &[&str]) -> Result<World, LineError> {
        if let Some(at) = names.iter().position(|name| name.contains(&[' ', '\n', '\r'][..])) {
            return Err(LineError { refusal: Refusal::BAD_NAME, line: at as u64 + 1, printed: Vec::new() });
        }
        World::load(names.iter().map(|name| format!("folder {name}\n")).collect::<String>().as_bytes())
    }

    /// Makes a call at one moment, up to its answer.
    ///
    /// ```
    /// use deolmutt::{Call, CallError, Refusal, World};
    ///
    /// let mut world = World::with_folders(&["inbox"])?;
    /// let call = Call::Deliver { folder: 0, unique: b"a", body: b"hello" };
    /// world.call(&call, 1000)?;
    /// assert_eq!(world.call(&call, 1000), Err(CallError::Refused(Refusal::NAME_USED, None)));
    /// # Ok::<(), Box<dyn std::error::Error>>(())
    /// ```
    pub fn call(&mut self, call: &Call<'_>, now: u64) -> Result<Answer, CallError> {
        let Asked { kind, folder, unique, to, first, second, number } = call.asked();
        let (mut job, mut answer) = (0, sys::Answer::default());
        // Each slice is read as far as it goes, and the rest are places for one value each.
        let status = unsafe {
            sys::deolmutt_call(
                self.handle.as_ptr(),
                kind,
                folder,
                unique.as_ptr(),
                unique.len(),
                to,
                first.as_ptr(),
                first.len(),
                second.as_ptr(),
                second.len(),
                number,
                now,
                ptr::null(),
                &mut job,
                &mut answer,
            )
        };
        Refusal::check(status).map_err(|refusal| CallError::Refused(refusal, numbered(job)))?;
        ended(answer).unwrap_or(Err(Failure::Fault)).map_err(CallError::Failed)
    }

    /// Makes a call a job, of which no step is taken yet.
    ///
    /// ```
    /// use deolmutt::{Call, World};
    ///
    /// let mut world = World::with_folders(&["inbox"])?;
    /// let job = world.submit(&Call::Clean { folder: 0 })?;
    /// assert_eq!(world.answer(job)?, None);
    /// # Ok::<(), Box<dyn std::error::Error>>(())
    /// ```
    pub fn submit(&mut self, call: &Call<'_>) -> Result<Job, Refusal> {
        let Asked { kind, folder, unique, to, first, second, number } = call.asked();
        let mut job = 0;
        // Each slice is read as far as it goes, and the job is a place for one value.
        let status = unsafe {
            sys::deolmutt_submit(
                self.handle.as_ptr(),
                kind,
                folder,
                unique.as_ptr(),
                unique.len(),
                to,
                first.as_ptr(),
                first.len(),
                second.as_ptr(),
                second.len(),
                number,
                &mut job,
            )
        };
        Refusal::check(status).map(|()| Job(job))
    }

    /// Takes one step of a job, one directory call.
    ///
    /// ```
    /// use deolmutt::{Answer, Call, World};
    ///
    /// let mut world = World::with_folders(&["inbox"])?;
    /// let job = world.submit(&Call::Clean { folder: 0 })?;
    /// assert_eq!(world.step(job, 1000)?.answer, Some(Ok(Answer::Cleaned(0))));
    /// assert!(world.step(job, 1000).is_err());
    /// # Ok::<(), Box<dyn std::error::Error>>(())
    /// ```
    pub fn step(&mut self, job: Job, now: u64) -> Result<Step, Refusal> {
        let mut step = sys::Step::default();
        // The step is a place for one value, and the job's host has the store's clock.
        let status = unsafe { sys::deolmutt_step(self.handle.as_ptr(), job.0, now, ptr::null(), &mut step) };
        Refusal::check(status).map(|()| Step::of(step))
    }

    /// How a job ended, or none while it has no answer.
    ///
    /// ```
    /// use deolmutt::{Answer, Call, World};
    ///
    /// let mut world = World::with_folders(&["inbox"])?;
    /// let job = world.submit(&Call::Clean { folder: 0 })?;
    /// world.step(job, 1000)?;
    /// assert_eq!(world.answer(job)?, Some(Ok(Answer::Cleaned(0))));
    /// # Ok::<(), deolmutt::CallError>(())
    /// ```
    pub fn answer(&self, job: Job) -> Result<Option<Result<Answer, Failure>>, Refusal> {
        let mut answer = sys::Answer::default();
        // The answer is a place for one value.
        let status = unsafe { sys::deolmutt_job_answer(self.handle.as_ptr(), job.0, &mut answer) };
        Refusal::check(status).map(|()| ended(answer))
    }

    /// Begins again over the same messages, with no job, so that 10,000 calls may come again.
    ///
    /// ```
    /// use deolmutt::{Call, World};
    ///
    /// let mut world = World::with_folders(&["inbox"])?;
    /// let job = world.submit(&Call::Clean { folder: 0 })?;
    /// assert_eq!(world.settle().unwrap_err().job, Some(job));
    /// world.step(job, 1000)?;
    /// world.settle()?;
    /// # Ok::<(), Box<dyn std::error::Error>>(())
    /// ```
    pub fn settle(&mut self) -> Result<(), Unanswered> {
        let mut job = 0;
        // The job is a place for one value.
        let status = unsafe { sys::deolmutt_settle(self.handle.as_ptr(), &mut job) };
        Refusal::check(status).map_err(|refusal| Unanswered { refusal, job: numbered(job) })
    }

    /// The messages of a folder, in order of their unique names.
    ///
    /// ```
    /// use deolmutt::{Refusal, World};
    ///
    /// let world = World::with_folders(&["inbox"])?;
    /// assert_eq!(world.list(0)?.iter().count(), 0);
    /// assert_eq!(world.list(1).unwrap_err(), Refusal::NO_FOLDER);
    /// # Ok::<(), Box<dyn std::error::Error>>(())
    /// ```
    pub fn list(&self, folder: u32) -> Result<Listing, Refusal> {
        // The buffer's room is told.
        given(|out, room, length| unsafe { sys::deolmutt_list(self.handle.as_ptr(), folder, out, room, length) })
            .map(Listing)
    }

    /// The bytes of a message, in new or cur of any folder.
    ///
    /// ```
    /// use deolmutt::{Refusal, World};
    ///
    /// assert_eq!(World::with_folders(&["inbox"])?.read(b"a"), Err(Refusal::NOT_THERE));
    /// # Ok::<(), deolmutt::LineError>(())
    /// ```
    pub fn read(&self, unique: &[u8]) -> Result<Vec<u8>, Refusal> {
        // The name is read as far as it goes, and the buffer's room is told.
        given(|out, room, length| unsafe {
            sys::deolmutt_read(self.handle.as_ptr(), unique.as_ptr(), unique.len(), out, room, length)
        })
    }

    /// The names of a directory in order, tmp too.
    ///
    /// ```
    /// use deolmutt::{Place, World};
    ///
    /// let world = World::load(b"folder inbox\nfile inbox tmp b 1000\nfile inbox tmp a 1000\n")?;
    /// assert_eq!(world.names(0, Place::Tmp).collect::<Result<Vec<_>, _>>()?, [b"a", b"b"]);
    /// # Ok::<(), Box<dyn std::error::Error>>(())
    /// ```
    pub fn names(&self, folder: u32, place: Place) -> impl Iterator<Item = Result<Vec<u8>, Refusal>> + '_ {
        // The buffer's room is told.
        let name_at = move |at| {
            given(|out, room, length| unsafe {
                sys::deolmutt_names(self.handle.as_ptr(), folder, place.number(), at, out, room, length)
            })
        };
        (0..).map(name_at).take_while(|name| *name != Err(Refusal::NOT_THERE))
    }
}

impl Drop for World {
    fn drop(&mut self) {
        // No call on it can come after this.
        unsafe { sys::deolmutt_free(self.handle.as_ptr()) };
    }
}

/// A job, where the number is one's.
fn numbered(job: u64) -> Option<Job> {
    (job > 0).then_some(Job(job))
}
