//! Names: each is kept once, hashed once where it is read, and known by a number from then on.

use std::collections::hash_map::RandomState;
use std::hash::{BuildHasher, Hasher};

use crate::ends::{first_of, last_of};
use crate::slab::Id;

pub type NameId = Id<Span>;

/// Where the bytes of a name are in the texts.
#[derive(Clone, Copy)]
pub struct Span {
    start: u32,
    len: u32,
}

impl Span {
    pub fn len(self) -> usize {
        self.len as usize
    }

    /// The first bytes of a span.
    pub fn first(self, len: usize) -> Span {
        Span { start: self.start, len: len as u32 }
    }
}

/// A place of the hash table; the hash is the one of the name.
#[derive(Clone, Copy)]
struct Slot {
    hash: u32,
    name: Option<NameId>,
}

const FREE: Slot = Slot { hash: 0, name: None };
const FEWEST_SLOTS: usize = 64;

pub struct Names {
    texts: Vec<u8>,
    spans: Vec<Span>,
    /// As many as a power of two, of which at least a quarter is free. A name is at the place of its hash, or after it
    /// with no free one between.
    slots: Vec<Slot>,
    seed: Seed,
}

impl Names {
    pub fn new() -> Names {
        Names { texts: Vec::new(), spans: Vec::new(), slots: vec![FREE; FEWEST_SLOTS], seed: Seed::new() }
    }

    pub fn count(&self) -> usize {
        self.spans.len()
    }

    pub fn text(&self, name: NameId) -> &[u8] {
        self.text_at(self.spans[name.index()])
    }

    pub fn text_at(&self, span: Span) -> &[u8] {
        &self.texts[span.start as usize..][..span.len as usize]
    }

    /// Keeps a text that may have names in it.
    pub fn keep(&mut self, text: &[u8]) -> Span {
        let span = Span { start: self.texts.len() as u32, len: text.len() as u32 };
        self.texts.extend_from_slice(text);
        span
    }

    /// The name of a text, where it is known.
    pub fn find(&self, text: &[u8]) -> Option<NameId> {
        self.look_up(text, self.seed.hash(text)).ok()
    }

    /// The name of a text, which is copied where it wasn't known.
    pub fn name(&mut self, text: &[u8]) -> NameId {
        let hash = self.seed.hash(text);
        self.look_up(text, hash).unwrap_or_else(|free| {
            let span = self.keep(text);
            self.add(span, hash, free)
        })
    }

    /// The name of a text that was kept.
    pub fn name_at(&mut self, span: Span) -> NameId {
        let text = self.text_at(span);
        let hash = self.seed.hash(text);
        self.look_up(text, hash).unwrap_or_else(|free| self.add(span, hash, free))
    }

    /// The name of a text, or the slot where it would be.
    #[inline]
    fn look_up(&self, text: &[u8], hash: u32) -> Result<NameId, usize> {
        let mut at = self.home(hash);
        loop {
            let slot = self.slots[at];
            match slot.name {
                None => return Err(at),
                Some(name) if slot.hash == hash && self.text(name) == text => return Ok(name),
                Some(_) => at = self.next(at),
            }
        }
    }

    fn add(&mut self, span: Span, hash: u32, free: usize) -> NameId {
        let name = NameId::from_index(self.spans.len());
        self.spans.push(span);
        self.slots[free] = Slot { hash, name: Some(name) };
        if self.spans.len() * 4 > self.slots.len() * 3 {
            self.grow();
        }
        name
    }

    fn grow(&mut self) {
        let twice = vec![FREE; self.slots.len() * 2];
        for slot in std::mem::replace(&mut self.slots, twice) {
            if slot.name.is_some() {
                let mut at = self.home(slot.hash);
                while self.slots[at].name.is_some() {
                    at = self.next(at);
                }
                self.slots[at] = slot;
            }
        }
    }

    fn home(&self, hash: u32) -> usize {
        hash as usize & (self.slots.len() - 1)
    }

    fn next(&self, at: usize) -> usize {
        (at + 1) & (self.slots.len() - 1)
    }
}

/// A set of names.
#[derive(Default)]
pub struct NameSet(Vec<bool>);

impl NameSet {
    /// Whether the name wasn't in the set.
    pub fn insert(&mut self, name: NameId) -> bool {
        if self.0.len() <= name.index() {
            self.0.resize(name.index() + 1, false);
        }
        !std::mem::replace(&mut self.0[name.index()], true)
    }
}

/// What the hashes of this process begin with, so that nobody can choose names which collide.
struct Seed(u64, u64);

/// A number that nobody knows before: the hash of nothing, by keys that std draws.
fn random() -> u64 {
    RandomState::new().build_hasher().finish()
}

impl Seed {
    fn new() -> Seed {
        Seed(random(), random())
    }

    /// Takes in sixteen bytes at a time, the last of them twice where they overlap.
    fn hash(&self, text: &[u8]) -> u32 {
        let mut state = self.0 ^ text.len() as u64;
        let mut rest = text;
        while let Some(block) = first_of(rest) {
            state = self.fold(state, halves(block));
            rest = &rest[block.len()..];
        }
        if !rest.is_empty() {
            state = self.fold(state, last_halves(text));
        }
        (state >> 32) as u32
    }

    fn fold(&self, state: u64, (low, high): (u64, u64)) -> u64 {
        let product = u128::from(state ^ low) * u128::from(self.1 ^ high);
        product as u64 ^ (product >> 64) as u64
    }
}

fn halves(block: &[u8; 16]) -> (u64, u64) {
    let both = u128::from_le_bytes(*block);
    (both as u64, (both >> 64) as u64)
}

/// The last sixteen bytes of a text, or all of a shorter one.
fn last_halves(text: &[u8]) -> (u64, u64) {
    if let Some(block) = last_of(text) {
        halves(block)
    } else if let (Some(first), Some(last)) = (first_of(text), last_of(text)) {
        (u64::from_le_bytes(*first), u64::from_le_bytes(*last))
    } else {
        let bytes = text.iter().fold(0, |bytes, byte| bytes << 8 | u64::from(*byte));
        (bytes, 0)
    }
}
