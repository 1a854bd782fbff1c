//! The lines of a text: each ends at LF, and one CR right before that LF is left out.

use crate::search::find;

/// The first line of a text without its end, and what comes after it. A text that has no LF is one line.
pub fn cut_line(text: &[u8]) -> (&[u8], &[u8]) {
    match find(text, [b'\n']) {
        Some(at) => (without_return(&text[..at]), &text[at + 1..]),
        None => (text, &[]),
    }
}

/// A line that stood before an LF, without the CR at its end.
#[inline]
pub fn without_return(line: &[u8]) -> &[u8] {
    line.strip_suffix(b"\r").unwrap_or(line)
}
