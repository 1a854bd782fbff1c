//! The script: read in parts, and given line by line while it is read.

use std::io::{ErrorKind, Read};

use crate::lines::without_return;
use crate::refusal::Refusal;
use crate::search::find;

const MOST_BYTES: usize = 67_108_864;
const MOST_READS: u32 = 1_048_576;

/// How much room is made for a read, and how little of it may be left before more is made.
const ROOM: usize = 65_536;
const LEAST_ROOM: usize = 4_096;

pub struct Script<R> {
    reader: R,
    /// What was read and not given yet is here from `start` to `end`; up to `searched` it has no LF.
    room: Vec<u8>,
    start: usize,
    searched: usize,
    end: usize,
    is_read: bool,
    lines: u64,
    bytes: usize,
    reads: u32,
}

impl<R: Read> Script<R> {
    pub fn new(reader: R) -> Script<R> {
        Script {
            reader,
            room: vec![0; ROOM],
            start: 0,
            searched: 0,
            end: 0,
            is_read: false,
            lines: 0,
            bytes: 0,
            reads: 0,
        }
    }

    /// How many lines were given.
    pub fn lines(&self) -> u64 {
        self.lines
    }

    /// The next line without its end. What comes after the last LF is a line where it isn't empty.
    pub fn next_line(&mut self) -> Result<Option<&[u8]>, Refusal> {
        loop {
            if let Some(at) = find(&self.room[self.searched..self.end], [b'\n']) {
                let (start, end) = (self.start, self.searched + at);
                self.give_up_to(end + 1);
                return Ok(Some(without_return(&self.room[start..end])));
            }
            self.searched = self.end;
            if !self.read_more()? {
                break;
            }
        }
        if self.start == self.end {
            return Ok(None);
        }
        let start = self.start;
        self.give_up_to(self.end);
        Ok(Some(&self.room[start..self.end]))
    }

    /// Reads what is left of the script, and gives none of it.
    pub fn read_to_end(&mut self) -> Result<(), Refusal> {
        loop {
            self.start = self.end;
            self.searched = self.end;
            if !self.read_more()? {
                return Ok(());
            }
        }
    }

    fn give_up_to(&mut self, at: usize) {
        self.start = at;
        self.searched = at;
        self.lines += 1;
    }

    /// Whether there was more to read.
    fn read_more(&mut self) -> Result<bool, Refusal> {
        while !self.is_read {
            self.make_room();
            self.reads += 1;
            match self.reader.read(&mut self.room[self.end..]) {
                Ok(0) => self.is_read = true,
                Ok(count) => {
                    self.take(count)?;
                    return Ok(true);
                }
                Err(error) if error.kind() == ErrorKind::Interrupted => self.check_reads()?,
                Err(_) => return Err(Refusal::ReadFault),
            }
        }
        Ok(false)
    }

    fn take(&mut self, count: usize) -> Result<(), Refusal> {
        self.end += count;
        self.bytes += count;
        if self.bytes > MOST_BYTES {
            return Err(Refusal::ScriptTooLong);
        }
        self.check_reads()
    }

    fn check_reads(&self) -> Result<(), Refusal> {
        if self.reads == MOST_READS { Err(Refusal::TooManyReads) } else { Ok(()) }
    }

    /// Moves what was not given yet to the front, and makes more room where too little is left after it.
    fn make_room(&mut self) {
        self.room.copy_within(self.start..self.end, 0);
        self.searched -= self.start;
        self.end -= self.start;
        self.start = 0;
        if self.room.len() - self.end < LEAST_ROOM {
            self.room.resize(self.end + ROOM, 0);
        }
    }
}
