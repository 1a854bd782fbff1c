//! Runs a program once and says what it took: measure OUTPUT PROGRAM [WORD ..] < SCRIPT.
//!
//! It prints the seconds that went by, the seconds of processor time, the page faults, the most memory in KiB and the status. The
//! program's output goes to the file OUTPUT. A process of its own for each run, and a small one: a child's memory is counted from its
//! fork on, when it still has that of its parent.

use std::env::args_os;
use std::error::Error;
use std::fs::File;
use std::process::Command;
use std::time::Instant;

#[repr(C)]
#[derive(Default)]
struct Time {
    seconds: i64,
    microseconds: i64,
}

impl Time {
    fn seconds(&self) -> f64 {
        self.seconds as f64 + self.microseconds as f64 / 1e6
    }
}

/// `struct rusage` of getrusage(2), as Linux has it.
#[repr(C)]
#[derive(Default)]
struct Usage {
    user: Time,
    system: Time,
    most_kibibytes: i64,
    unused: [i64; 3],
    faults: i64,
    rest: [i64; 9],
}

unsafe extern "C" {
    fn getrusage(who: i32, usage: *mut Usage) -> i32;
}

const CHILDREN: i32 = -1;

fn children() -> Usage {
    let mut usage = Usage::default();
    // SAFETY: the struct has the form that the call fills.
    unsafe { getrusage(CHILDREN, &mut usage) };
    usage
}

fn main() -> Result<(), Box<dyn Error>> {
    let mut words = args_os().skip(1);
    let usage = "usage: measure OUTPUT PROGRAM [WORD ..] < SCRIPT";
    let (output, program) = (words.next().ok_or(usage)?, words.next().ok_or(usage)?);
    let output = File::create(output)?;
    let begin = Instant::now();
    let status = Command::new(program).args(words).stdout(output).status()?;
    let wall = begin.elapsed().as_secs_f64();
    let used = children();
    let processor = used.user.seconds() + used.system.seconds();
    let status = status.code().ok_or("the program was ended by a signal")?;
    println!("{wall} {processor} {} {} {status}", used.faults, used.most_kibibytes);
    Ok(())
}
