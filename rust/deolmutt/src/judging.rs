//! Logs that are judged.

use crate::refusal::LineError;
use crate::script::run;
use deolmutt_sys as sys;
use std::convert::TryInto;
use std::ffi::CStr;

/// A step of a log that breaks a clause of the law.
///
/// ```
/// for found in deolmutt::judge(b"maildir_log 1\nfolder i\n10 p create i/new/u ok\n")? {
///     assert_eq!(format!("{}: {}: {}", found.line, found.clause, found.why),
///         "3: SeenBeforeWhole: readers see a message that is not written whole");
/// }
/// # Ok::<(), deolmutt::LineError>(())
/// ```
#[derive(Clone, Copy, Debug, PartialEq, Eq)]
pub struct Finding {
    /// The number of its line, from 1.
    pub line: u64,
    /// The name of the clause.
    pub clause: &'static str,
    /// Why such a step is wrong.
    pub why: &'static str,
}

/// The findings of a whole log of directory calls, as `deolmutt judge` has them: in the order of its lines, and none where it keeps the law.
/// Refused at its first wrong line.
///
/// ```
/// let found = deolmutt::judge(b"maildir_log 1\nfolder i\nfile i/cur/u:2,S 1\n10 p unlink i/cur/u:2,S ok\n")?;
/// assert_eq!((found.len(), found[0].line, found[0].clause), (1, 4, "Gone"));
/// assert_eq!(found[0].why, "a message leaves its folder without the flag T");
/// assert_eq!(deolmutt::judge(b"maildir_log 1\nfolder i\nnone\n").unwrap_err().to_string(), "line 3: bad line");
/// # Ok::<(), deolmutt::LineError>(())
/// ```
pub fn judge(log: &[u8]) -> Result<Vec<Finding>, LineError> {
    Ok(run(log, sys::deolmutt_judge)?.chunks_exact(16).map(finding).collect())
}

// A finding, by its record: the number of its line, that of its clause, and 0.
fn finding(record: &[u8]) -> Finding {
    let clause = u32::from_le_bytes(record[8..12].try_into().expect("4 bytes"));
    Finding {
        line: u64::from_le_bytes(record[..8].try_into().expect("8 bytes")),
        // The library gives a text of its own for each number.
        clause: text(unsafe { sys::deolmutt_clause_name(clause) }),
        why: text(unsafe { sys::deolmutt_clause_text(clause) }),
    }
}

// A text of the library's, which is there as long as the program.
fn text(at: *const u8) -> &'static str {
    unsafe { CStr::from_ptr(at.cast()) }.to_str().unwrap_or_default()
}
