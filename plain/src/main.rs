//! The script language in plain Rust, with std alone: what `maildir_cli play` is measured against, and compared with on random scripts.
//!
//! It keeps what the proved program promises: names and bodies are its own and not lent out of the script, lines are run while the
//! script is read, and all output is kept to the end, so that nothing is written where reading fails or memory is refused.

mod cells;
mod date;
mod directories;
mod ends;
mod escapes;
mod file_name;
mod files;
mod flags;
mod folders;
mod header;
mod history;
mod image;
mod jobs;
mod lines;
mod listing;
mod made_name;
mod memory;
mod names;
mod order;
mod output;
mod place;
mod refusal;
mod script;
mod search;
mod session;
mod slab;
mod steps;
mod store;
mod words;
mod world;

use std::env::args_os;
use std::io::{Read, Write, stdin, stdout};
use std::process::exit;

use refusal::{Refusal, Refused};
use script::Script;
use session::Session;

fn main() {
    if !args_os().skip(1).eq(["play"]) {
        eprintln!("usage: plain play < SCRIPT");
        exit(2);
    }
    let mut session = Session::new();
    let ended = play(Script::new(stdin().lock()), &mut session).and_then(|refused| {
        write(session.output())?;
        refused.map_or(Ok(()), Err)
    });
    if let Err(refused) = ended {
        eprintln!("{refused}");
        exit(1);
    }
    // What the session holds goes with the process, and not piece by piece.
    exit(0);
}

/// Runs the lines of a script up to the first that is refused, which it answers, and reads the script to its end.
fn play(mut script: Script<impl Read>, session: &mut Session) -> Result<Option<Refused>, Refused> {
    while let Some(line) = script.next_line()? {
        if let Err(refusal) = session.run(line) {
            let line = script.lines();
            script.read_to_end()?;
            return Ok(Some(Refused { line, refusal }));
        }
    }
    Ok(None)
}

fn write(output: &[u8]) -> Result<(), Refused> {
    let mut stdout = stdout().lock();
    let written = stdout.write_all(output).and_then(|()| stdout.flush());
    written.map_err(|_| Refusal::WriteFault.into())
}
