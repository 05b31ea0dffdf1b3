//! Ids of messages as keys.

use std::borrow::Borrow;
use std::fmt;
use std::hash::{BuildHasherDefault, Hash, Hasher};
use std::ops::{Deref, Range};
use std::sync::Arc;

/// An id, or the name of an attribute: a part of lines that it shares with others.
#[derive(Clone)]
pub(crate) struct Name {
    lines: Arc<str>,
    place: Range<usize>,
}

impl Name {
    /// The name at a place of lines.
    pub(crate) fn at(lines: &Arc<str>, place: Range<usize>) -> Name {
        assert!(lines.get(place.clone()).is_some(), "There is a name.");
        Name { lines: Arc::clone(lines), place }
    }

    /// The lines that it is a part of.
    pub(crate) fn lines(&self) -> &Arc<str> {
        &self.lines
    }

    /// Where it begins in them.
    pub(crate) fn start(&self) -> usize {
        self.place.start
    }
}

/// The hash of an id, whose high bits are the best.
#[inline]
pub(crate) fn hash_of(id: &str) -> u32 {
    let mut hasher = IdHasher::default();
    hasher.write(id.as_bytes());
    (hasher.0 >> 32) as u32
}

impl From<&str> for Name {
    fn from(name: &str) -> Name {
        Name { lines: Arc::from(name), place: 0..name.len() }
    }
}

impl Deref for Name {
    type Target = str;

    #[inline]
    fn deref(&self) -> &str {
        // SAFETY: each name is made of a place that the lines have, and neither of them changes.
        unsafe { self.lines.get_unchecked(self.place.clone()) }
    }
}

impl Borrow<str> for Name {
    #[inline]
    fn borrow(&self) -> &str {
        self
    }
}

impl Hash for Name {
    #[inline]
    fn hash<H: Hasher>(&self, state: &mut H) {
        str::hash(self, state);
    }
}

impl PartialEq for Name {
    fn eq(&self, other: &Name) -> bool {
        **self == **other
    }
}

impl Eq for Name {}

impl fmt::Debug for Name {
    fn fmt(&self, f: &mut fmt::Formatter<'_>) -> fmt::Result {
        str::fmt(self, f)
    }
}

/// How a map with ids as its keys hashes them.
///
/// It is fast for short texts, and isn't made to withstand a person who chooses ids to slow a program down: ids are those
/// of the program's own translations.
pub(crate) type ById = BuildHasherDefault<IdHasher>;

/// The hash of what was written so far.
#[derive(Default)]
pub(crate) struct IdHasher(u64);

/// An odd number without a pattern in its bits: the digits of 2^64 divided by the golden ratio.
const ODD: u64 = 0x9e37_79b9_7f4a_7c15;

impl IdHasher {
    fn add(&mut self, word: u64) {
        self.0 = (self.0.rotate_left(5) ^ word).wrapping_mul(ODD);
    }
}

impl Hasher for IdHasher {
    #[inline]
    fn write(&mut self, bytes: &[u8]) {
        for word in bytes.chunks_exact(8) {
            self.add(u64::from_le_bytes(word.try_into().unwrap_or_default()));
        }
        // The last eight bytes, some of them once more, which takes fewer steps than those that are left alone.
        let last = match bytes.last_chunk() {
            Some(last) => u64::from_le_bytes(*last),
            None => bytes.iter().rev().fold(0, |last, &byte| last << 8 | u64::from(byte)),
        };
        self.add(last ^ (bytes.len() as u64) << 56);
    }

    /// What follows the bytes of a text, which count themselves.
    fn write_u8(&mut self, _end: u8) {}

    fn finish(&self) -> u64 {
        // A table takes the place from the low bits and a tag from the high ones, and a product is best in its high half.
        self.0 ^ (self.0 >> 32)
    }
}
