//! What the library writes into a caller's buffer.

use crate::refusal::{ROOM, Refusal};

const FIRST_ROOM: usize = 4096;

/// What a function writes, which is asked again with more room where it lacks room. It takes a buffer, the buffer's room, and where the whole
/// length goes, and writes no more than there is room for.
pub(crate) fn filled(mut function: impl FnMut(*mut u8, usize, *mut usize) -> u32) -> (Result<(), Refusal>, Vec<u8>) {
    let mut out: Vec<u8> = Vec::new();
    let mut room = FIRST_ROOM;
    loop {
        out.resize(room, 0);
        let mut length = 0;
        let status = function(out.as_mut_ptr(), out.len(), &mut length);
        if status == ROOM {
            room = length;
            continue;
        }
        out.truncate(length);
        return (Refusal::check(status), out);
    }
}

/// The same of a function that writes nothing where it is refused.
pub(crate) fn given(function: impl FnMut(*mut u8, usize, *mut usize) -> u32) -> Result<Vec<u8>, Refusal> {
    let (checked, out) = filled(function);
    checked.map(|()| out)
}
