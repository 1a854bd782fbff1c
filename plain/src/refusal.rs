//! Why a script is refused, and what is said of it.

use std::fmt;

#[derive(Clone, Copy)]
pub enum Refusal {
    BadCommand,
    BadNumber,
    BadEscape,
    BadPlace,
    BadFolder,
    UnknownFolder,
    TooLate,
    SamePathTwice,
    BadName,
    LongUnique,
    DuplicateUnique,
    BadUnique,
    BadFlag,
    SameFolder,
    BadTries,
    BadChunk,
    BadMicro,
    BadHost,
    BodyTooLong,
    TooManyJobs,
    NameUsed,
    NoFirstReading,
    NoJob,
    Answered,
    ReadFault,
    WriteFault,
    ScriptTooLong,
    TooManyReads,
    NoMemory,
}

impl Refusal {
    fn text(self) -> &'static str {
        match self {
            Refusal::BadCommand => "bad command",
            Refusal::BadNumber => "bad number",
            Refusal::BadEscape => "bad escape",
            Refusal::BadPlace => "bad place",
            Refusal::BadFolder => "bad folder",
            Refusal::UnknownFolder => "unknown folder",
            Refusal::TooLate => "too late",
            Refusal::SamePathTwice => "same path twice",
            Refusal::BadName => "bad name",
            Refusal::LongUnique => "long unique",
            Refusal::DuplicateUnique => "duplicate unique",
            Refusal::BadUnique => "bad unique",
            Refusal::BadFlag => "bad flag",
            Refusal::SameFolder => "same folder",
            Refusal::BadTries => "bad tries",
            Refusal::BadChunk => "bad chunk",
            Refusal::BadMicro => "bad micro",
            Refusal::BadHost => "bad host",
            Refusal::BodyTooLong => "body too long",
            Refusal::TooManyJobs => "too many jobs",
            Refusal::NameUsed => "name used",
            Refusal::NoFirstReading => "no first reading",
            Refusal::NoJob => "no job",
            Refusal::Answered => "answered",
            Refusal::ReadFault => "read fault",
            Refusal::WriteFault => "write fault",
            Refusal::ScriptTooLong => "script too long",
            Refusal::TooManyReads => "too many reads",
            Refusal::NoMemory => "no memory",
        }
    }
}

/// A refusal, and the line that is to blame: 0 where none is.
pub struct Refused {
    pub line: u64,
    pub refusal: Refusal,
}

impl From<Refusal> for Refused {
    fn from(refusal: Refusal) -> Refused {
        Refused { line: 0, refusal }
    }
}

impl fmt::Display for Refused {
    fn fmt(&self, f: &mut fmt::Formatter<'_>) -> fmt::Result {
        write!(f, "line {}: {}", self.line, self.refusal.text())
    }
}
