//! The search for bytes in a text, sixteen at a time.

use crate::ends::{first_of, last_of};

const WIDTH: usize = 16;

/// The place of the first byte of a text that is one of those wanted.
#[inline]
pub fn find<const N: usize>(text: &[u8], wanted: [u8; N]) -> Option<usize> {
    let mut at = 0;
    while let Some(block) = first_of(&text[at..]) {
        let found = matches(block, wanted);
        if found != 0 {
            return Some(at + found.trailing_zeros() as usize);
        }
        at += WIDTH;
    }
    find_in_rest(text, at, wanted)
}

/// The same, of a text that has none of those wanted before `at`, and less than a block from there.
#[inline]
fn find_in_rest<const N: usize>(text: &[u8], at: usize, wanted: [u8; N]) -> Option<usize> {
    match last_of(text) {
        // The last block overlaps what was searched, where nothing was found.
        Some(block) => {
            let found = matches(block, wanted);
            (found != 0).then(|| text.len() - WIDTH + found.trailing_zeros() as usize)
        }
        None => {
            let found = text[at..].iter().position(|byte| wanted.contains(byte))?;
            Some(at + found)
        }
    }
}

/// A bit for each byte of a block, the first byte's lowest: whether it is one of those wanted.
#[cfg(target_arch = "x86_64")]
#[inline]
fn matches<const N: usize>(block: &[u8; WIDTH], wanted: [u8; N]) -> u32 {
    use std::arch::x86_64::*;
    // SAFETY: the block has the sixteen bytes that are loaded, and x86-64 always has these instructions.
    unsafe {
        let block = _mm_loadu_si128(block.as_ptr().cast());
        let found = wanted.iter().fold(_mm_setzero_si128(), |found, byte| {
            _mm_or_si128(found, _mm_cmpeq_epi8(block, _mm_set1_epi8(*byte as i8)))
        });
        _mm_movemask_epi8(found) as u32
    }
}

#[cfg(not(target_arch = "x86_64"))]
#[inline]
fn matches<const N: usize>(block: &[u8; WIDTH], wanted: [u8; N]) -> u32 {
    let bits = block.iter().enumerate();
    bits.fold(0, |found, (k, byte)| found | (u32::from(wanted.contains(byte)) << k))
}
