//! The escapes of bodies: `\n` for LF, `\r` for CR and `\\` for a backslash.

use crate::refusal::Refusal;
use crate::search::find;

/// The bytes that a text of a script means.
pub fn unescape(text: &[u8]) -> Result<Vec<u8>, Refusal> {
    let mut bytes = Vec::with_capacity(text.len());
    let mut rest = text;
    while let Some(at) = find(rest, [b'\\']) {
        bytes.extend_from_slice(&rest[..at]);
        bytes.push(match rest.get(at + 1) {
            Some(b'n') => b'\n',
            Some(b'r') => b'\r',
            Some(b'\\') => b'\\',
            _ => return Err(Refusal::BadEscape),
        });
        rest = &rest[at + 2..];
    }
    bytes.extend_from_slice(rest);
    Ok(bytes)
}

/// Appends the text that means these bytes.
pub fn escape_onto(text: &mut Vec<u8>, bytes: &[u8]) {
    let mut rest = bytes;
    while let Some(at) = find(rest, [b'\n', b'\r', b'\\']) {
        text.extend_from_slice(&rest[..at]);
        text.extend_from_slice(match rest[at] {
            b'\n' => b"\\n",
            b'\r' => b"\\r",
            _ => b"\\\\",
        });
        rest = &rest[at + 1..];
    }
    text.extend_from_slice(rest);
}
