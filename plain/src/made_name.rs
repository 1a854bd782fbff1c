//! Made names: the text of "Using maildir format".

use crate::output::Output;
use crate::refusal::Refusal;
use crate::search::find;
use crate::words::Words;

const LONGEST_HOST: usize = 100;
const MICROSECONDS: u64 = 1_000_000;

pub fn print_made_name(words: &mut Words<'_>, output: &mut Output) -> Result<(), Refusal> {
    let (second, micro) = (words.number()?, words.number()?);
    let (process, count) = (words.number()?, words.number()?);
    let host = words.word()?;
    words.end()?;
    if micro >= MICROSECONDS {
        return Err(Refusal::BadMicro);
    }
    if escaped_len(host) > LONGEST_HOST || find(host, *b"\0\n\r").is_some() {
        return Err(Refusal::BadHost);
    }
    output.text(b"unique ");
    output.number(second);
    for (letter, number) in [(".M", micro), ("P", process), ("Q", count)] {
        output.text(letter.as_bytes());
        output.number(number);
    }
    output.text(b".");
    print_host(host, output);
    output.text(b"\n");
    Ok(())
}

/// The escape of a byte of the host; none where the byte is written as it is.
fn escape(byte: u8) -> Option<&'static [u8]> {
    match byte {
        b'/' => Some(b"\\057"),
        b':' => Some(b"\\072"),
        _ => None,
    }
}

fn escaped_len(host: &[u8]) -> usize {
    host.iter().map(|byte| escape(*byte).map_or(1, <[u8]>::len)).sum()
}

fn print_host(host: &[u8], output: &mut Output) {
    let mut rest = host;
    while let Some(at) = find(rest, *b"/:") {
        output.text(&rest[..at]);
        output.text(escape(rest[at]).unwrap_or_default());
        rest = &rest[at + 1..];
    }
    output.text(rest);
}
