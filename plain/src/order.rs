//! The order of the names of a directory. It is made when it is asked for: until then new names are kept aside, and those that are
//! gone stay where they were.

use crate::cells::{CellId, Cells};
use crate::ends::first_of;
use crate::names::Names;

#[derive(Default)]
pub struct Order {
    sorted: Vec<CellId>,
    /// Those that came since.
    fresh: Vec<CellId>,
    /// How many of both are gone.
    gone: usize,
}

impl Order {
    pub fn add(&mut self, cell: CellId) {
        self.fresh.push(cell);
    }

    /// A name is gone. Where most are, they are swept out.
    pub fn take(&mut self, cells: &mut Cells) {
        self.gone += 1;
        if self.gone * 2 > self.sorted.len() + self.fresh.len() {
            self.sweep(cells);
        }
    }

    /// Sweeps out those that are gone, and puts the fresh ones in their places.
    pub fn settle(&mut self, cells: &mut Cells, names: &Names) {
        if self.gone > 0 {
            self.sweep(cells);
        }
        if !self.fresh.is_empty() {
            let cells = &*cells;
            self.merge(|cell| names.text(cells[cell].unique));
        }
    }

    /// The cells in order of their names, as they were settled last.
    pub fn settled(&self) -> &[CellId] {
        &self.sorted
    }

    fn sweep(&mut self, cells: &mut Cells) {
        self.sorted.retain(|cell| cells.keep_or_free(*cell));
        self.fresh.retain(|cell| cells.keep_or_free(*cell));
        self.gone = 0;
    }

    /// Sorts the fresh ones, and moves them in among the others, from the last to the first.
    fn merge<'a>(&mut self, text: impl Fn(CellId) -> &'a [u8]) {
        sort_by_name(&mut self.fresh, &text);
        let mut end = self.sorted.len();
        self.sorted.extend_from_slice(&self.fresh);
        while let Some(cell) = self.fresh.pop() {
            let left = self.fresh.len();
            let at = place_of(&self.sorted[..end], text(cell), &text);
            self.sorted.copy_within(at..end, at + left + 1);
            self.sorted[at + left] = cell;
            end = at;
        }
    }
}

/// Where a name belongs among sorted ones; most come at the end.
fn place_of<'a>(sorted: &[CellId], name: &[u8], text: impl Fn(CellId) -> &'a [u8]) -> usize {
    match sorted.last() {
        Some(last) if text(*last) > name => sorted.partition_point(|cell| text(*cell) < name),
        _ => sorted.len(),
    }
}

/// Sorts items by their names: by the eight bytes after those that all begin with, and where these are equal by all.
pub fn sort_by_name<'a, T: Copy>(items: &mut [T], text: impl Fn(T) -> &'a [u8]) {
    if items.len() < 2 {
        return;
    }
    let shared = shared_len(items, &text);
    let keyed = items.iter().map(|item| (key(&text(*item)[shared..]), *item));
    let mut keyed: Vec<(u64, T)> = keyed.collect();
    keyed.sort_unstable_by(|a, b| a.0.cmp(&b.0).then_with(|| text(a.1).cmp(text(b.1))));
    for (item, (_, sorted)) in items.iter_mut().zip(keyed) {
        *item = sorted;
    }
}

/// How many bytes at the beginning all names share.
fn shared_len<'a, T: Copy>(items: &[T], text: impl Fn(T) -> &'a [u8]) -> usize {
    let first = text(items[0]);
    items.iter().fold(first.len(), |shared, item| {
        let name = text(*item);
        if name.starts_with(&first[..shared]) {
            shared
        } else {
            first.iter().zip(name).take_while(|(a, b)| a == b).count()
        }
    })
}

/// The first eight bytes, zeros after a shorter text, as a number that is in their order.
fn key(text: &[u8]) -> u64 {
    match first_of(text) {
        Some(first) => u64::from_be_bytes(*first),
        None => {
            let mut first = [0; 8];
            first[..text.len()].copy_from_slice(text);
            u64::from_be_bytes(first)
        }
    }
}
