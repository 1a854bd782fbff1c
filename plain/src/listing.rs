//! Listings of folders: new and cur are read in order and joined in one pass.

use std::cmp::Ordering;

use crate::directories::Directories;
use crate::file_name::Info;
use crate::names::{NameId, Names};
use crate::output::Output;
use crate::place::Directory;

/// A message, as a reading shows it.
#[derive(Clone, Copy)]
pub struct Row {
    unique: NameId,
    info: Info,
    size: u64,
}

/// The messages of a directory in order.
pub fn rows(directories: &Directories, directory: Directory) -> impl Iterator<Item = Row> + '_ {
    let files = directories.files();
    let cells = directories.settled(directory);
    cells.map(|cell| Row { unique: cell.unique, info: cell.info, size: files.size(cell.file) })
}

/// Prints two readings in order of unique names. A message of both is shown as it is in cur.
pub fn print(output: &mut Output, names: &Names, mut new: impl Iterator<Item = Row>, cur: impl Iterator<Item = Row>) {
    let mut left = new.next();
    for row in cur {
        while let Some(other) = left {
            match names.text(other.unique).cmp(names.text(row.unique)) {
                Ordering::Less => line(output, names, b"new ", other),
                Ordering::Equal => (),
                Ordering::Greater => break,
            }
            left = new.next();
        }
        line(output, names, b"cur ", row);
    }
    for row in left.into_iter().chain(new) {
        line(output, names, b"new ", row);
    }
}

fn line(output: &mut Output, names: &Names, place: &[u8; 4], row: Row) {
    output.text(place);
    output.text(names.text(row.unique));
    output.text(b" ");
    match row.info.flags(names) {
        Some(flags) => output.flags(flags),
        None => output.text(b"?"),
    }
    output.text(b" ");
    output.number(row.size);
    output.text(b"\n");
}
