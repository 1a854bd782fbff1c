//! The arrays at the ends of a slice.

/// The first bytes, where there are so many.
#[inline]
pub fn first_of<const N: usize>(text: &[u8]) -> Option<&[u8; N]> {
    text.get(..N)?.try_into().ok()
}

/// The last bytes, where there are so many.
#[inline]
pub fn last_of<const N: usize>(text: &[u8]) -> Option<&[u8; N]> {
    text[text.len().checked_sub(N)?..].try_into().ok()
}
