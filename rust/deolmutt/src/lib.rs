//! A Maildir store in memory that is proved to lose no mail to a race.
//!
//! A [`World`] holds folders, numbered from 0, and their messages. A [`Call`] delivers, marks seen, flags, moves, copies, expunges or cleans,
//! as a job of single directory calls: at once by [`World::call`], or step by step by [`World::submit`] and [`World::step`]. A [`Driven`] is
//! such a job over directory calls of your own. What is proved is the library below, `libdeolmutt`; this crate calls it safely, and is tested.
//!
//! ```
//! use deolmutt::{Answer, Call, World};
//!
//! let mut world = World::with_folders(&["inbox"])?;
//! world.call(&Call::Deliver { folder: 0, unique: b"1000.M1P7Q1.a", body: b"hello\n" }, 1000)?;
//! let answer = world.call(&Call::Seen { folder: 0, unique: b"1000.M1P7Q1.a", flags: "S" }, 1001)?;
//! assert!(matches!(answer, Answer::Flags(flags) if flags.to_string() == "S"));
//! let names: Vec<_> = world.list(0)?.iter().map(|entry| entry.name.to_vec()).collect();
//! assert_eq!(names, [b"1000.M1P7Q1.a:2,S"]);
//! assert_eq!(world.read(b"1000.M1P7Q1.a")?, b"hello\n");
//! # Ok::<(), Box<dyn std::error::Error>>(())
//! ```
//!
//! A world is for one thread at a time, and may go to another: it is `Send`. Moments are seconds since 1970.

#![warn(missing_docs)]

mod answer;
mod buffer;
mod call;
mod driven;
mod flags;
mod judging;
mod listing;
mod names;
mod refusal;
mod script;
mod world;

pub use answer::{Answer, DirCall, Failure, Reply, Step};
pub use call::{Call, Job};
pub use driven::{Driven, Path, Request};
pub use flags::Flags;
pub use judging::{Finding, judge};
pub use listing::{Entries, Entry, Listing, Place};
pub use names::{Info, Parts, split_name, summary, unique_name};
pub use refusal::{CallError, LineError, Refusal, Unanswered};
pub use script::{index, transcript};
pub use world::World;

/// The version of the library's interface, which has to be that of this crate: 1.
///
/// ```
/// assert_eq!(deolmutt::abi(), 1);
/// ```
pub fn abi() -> u32 {
    // It takes nothing, and always answers.
    unsafe { deolmutt_sys::deolmutt_abi() }
}
