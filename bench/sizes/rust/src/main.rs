//! Loads of real size by the crate `deolmutt`: sizes WHAT NAMES BYTES, as bench/sizes/sizes.c has them.

use deolmutt::{Call, World};
use std::env::args;
use std::error::Error;
use std::fs::File;
use std::io::{BufRead, BufReader};

type Done = Result<(), Box<dyn Error>>;

const FOLDERS: u32 = 64;
const MOST_CALLS: u64 = 10_000;
const NOW: u64 = 1_700_000_000;

/// A world, and how many calls it took.
struct Load {
    world: World,
    calls: u64,
}

impl Load {
    fn new() -> Result<Load, Box<dyn Error>> {
        let folders: String = (0..FOLDERS).map(|number| format!("folder {number}\n")).collect();
        Ok(Load { world: World::load(folders.as_bytes())?, calls: 0 })
    }

    /// A call to its answer, which has to be a success, and a settle where it is time.
    fn call(&mut self, call: &Call<'_>) -> Done {
        self.world.call(call, NOW)?;
        self.calls += 1;
        if self.calls % MOST_CALLS == 0 {
            self.world.settle()?;
        }
        Ok(())
    }

    /// Deliveries to so many folders in turn.
    fn deliver_all(&mut self, names: &str, folders: u32, bytes: usize) -> Done {
        let body = vec![b'x'; bytes];
        each(names, |at, unique| {
            let folder = (at % u64::from(folders)) as u32;
            self.call(&Call::Deliver { folder, unique, body: &body })
        })
    }

    /// A folder: all delivered, each tenth seen and flagged, all listed once, each hundredth expunged.
    fn one_folder(&mut self, names: &str, bytes: usize) -> Done {
        self.deliver_all(names, 1, bytes)?;
        let messages = self.calls;
        each(names, |at, unique| if at % 10 == 0 { self.flag(at, unique) } else { Ok(()) })?;
        if self.world.list(0)?.iter().count() as u64 != messages {
            return Err("a listing of other messages".into());
        }
        each(names, |at, unique| {
            if at % 100 == 0 {
                self.call(&Call::Expunge { folder: 0, unique })?;
            }
            Ok(())
        })
    }

    /// Each hundredth message is marked for its expunge too.
    fn flag(&mut self, at: u64, unique: &[u8]) -> Done {
        self.call(&Call::Seen { folder: 0, unique, flags: "S" })?;
        let add = if at % 100 == 0 { "FT" } else { "F" };
        self.call(&Call::Flag { folder: 0, unique, add, remove: "" })
    }

    /// Each delivered and read.
    fn bodies(&mut self, names: &str, bytes: usize) -> Done {
        let body = vec![b'x'; bytes];
        each(names, |_, unique| {
            self.call(&Call::Deliver { folder: 0, unique, body: &body })?;
            if self.world.read(unique)? != body {
                return Err("other bytes than were delivered".into());
            }
            Ok(())
        })
    }
}

/// Goes through the lines of a file, with the number of each from 0.
fn each(names: &str, mut what: impl FnMut(u64, &[u8]) -> Done) -> Done {
    let (mut lines, mut line) = (BufReader::new(File::open(names)?), Vec::new());
    for at in 0.. {
        line.clear();
        if lines.read_until(b'\n', &mut line)? == 0 {
            break;
        }
        what(at, line.strip_suffix(b"\n").unwrap_or(&line))?;
    }
    Ok(())
}

fn main() -> Done {
    let words: Vec<String> = args().skip(1).collect();
    let [what, names, bytes] = &words[..] else { return Err("usage: sizes WHAT NAMES BYTES".into()) };
    let (mut load, bytes) = (Load::new()?, bytes.parse()?);
    match what.as_str() {
        "deliveries" => load.deliver_all(names, FOLDERS, bytes),
        "folder" => load.one_folder(names, bytes),
        _ => load.bodies(names, bytes),
    }
}
