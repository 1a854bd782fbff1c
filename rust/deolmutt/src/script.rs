//! Whole scripts, and indexes of their files.

use crate::buffer::filled;
use crate::refusal::LineError;
use deolmutt_sys as sys;

/// What a script prints. Refused at a line, with what was printed before it.
///
/// ```
/// let printed = deolmutt::transcript(b"folder i\nfile i new a 1000 x\nlist i\n")?;
/// assert_eq!(printed, b"new a - 1\n");
/// assert_eq!(deolmutt::transcript(b"folder i\nnone\n").unwrap_err().line, 2);
/// # Ok::<(), deolmutt::LineError>(())
/// ```
pub fn transcript(script: &[u8]) -> Result<Vec<u8>, LineError> {
    run(script, sys::deolmutt_transcript)
}

/// The index of the messages of `folder` and `file` lines.
///
/// ```
/// let index = deolmutt::index(b"folder inbox\nfile inbox new a 1000 Subject: lunch\\n\n")?;
/// assert_eq!(index, b"inbox a\nsubject=lunch\nend\n");
/// # Ok::<(), deolmutt::LineError>(())
/// ```
pub fn index(lines: &[u8]) -> Result<Vec<u8>, LineError> {
    run(lines, sys::deolmutt_index)
}

type Function = unsafe extern "C" fn(*const u8, usize, *mut u8, usize, *mut usize, *mut u64) -> u32;

pub(crate) fn run(lines: &[u8], function: Function) -> Result<Vec<u8>, LineError> {
    let mut line = 0;
    // The lines are read as far as they go, and the buffer's room is told.
    let (checked, printed) =
        filled(|out, room, length| unsafe { function(lines.as_ptr(), lines.len(), out, room, length, &mut line) });
    match checked {
        Ok(()) => Ok(printed),
        Err(refusal) => Err(LineError { refusal, line, printed }),
    }
}
