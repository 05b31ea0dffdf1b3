//! Where the entries of a bundle are, by the hashes of their ids.

use std::mem;

/// A table of places in a list, of which at most every second is taken. A place is at the high bits of its hash, or after
/// others.
#[derive(Clone, Default)]
pub(crate) struct Places {
    /// A power of two of them, or none.
    slots: Vec<Slot>,
    len: usize,
    /// How many bits of a hash don't count.
    shift: u32,
}

/// A place in the list and its hash.
#[derive(Clone, Copy)]
struct Slot {
    hash: u32,
    place: u32,
}

impl Slot {
    const FREE: Slot = Slot { hash: 0, place: u32::MAX };

    fn is_free(self) -> bool {
        self.place == u32::MAX
    }
}

impl Places {
    /// The place that has a hash and of which `is_it` says that it is the one.
    #[inline]
    pub(crate) fn find(&self, hash: u32, is_it: impl Fn(usize) -> bool) -> Option<usize> {
        let mut at = (hash >> self.shift) as usize;
        loop {
            let slot = *self.slots.get(at)?;
            if slot.is_free() {
                return None;
            }
            if slot.hash == hash && is_it(slot.place as usize) {
                return Some(slot.place as usize);
            }
            at = (at + 1) & (self.slots.len() - 1);
        }
    }

    /// Adds the next place of the list, for which [`Places::reserve`] has made room.
    pub(crate) fn push(&mut self, hash: u32) {
        let place = u32::try_from(self.len).ok().filter(|&place| place != Slot::FREE.place);
        self.put(Slot { hash, place: place.expect("There are fewer than 2^32 entries.") });
        self.len += 1;
    }

    /// Makes room for this many more.
    pub(crate) fn reserve(&mut self, more: usize) {
        let needed = 2 * (self.len + more);
        if needed > self.slots.len() {
            let larger = vec![Slot::FREE; needed.next_power_of_two()];
            self.shift = u32::BITS - larger.len().trailing_zeros();
            let old = mem::replace(&mut self.slots, larger);
            old.into_iter().filter(|slot| !slot.is_free()).for_each(|slot| self.put(slot));
        }
    }

    fn put(&mut self, slot: Slot) {
        let mut at = (slot.hash >> self.shift) as usize;
        while !self.slots[at].is_free() {
            at = (at + 1) & (self.slots.len() - 1);
        }
        self.slots[at] = slot;
    }
}

#[cfg(test)]
mod tests {
    use super::*;

    /// Places whose hashes have few high bits are found, and no others.
    #[test]
    fn places_are_found() {
        let mut places = Places::default();
        assert_eq!(places.find(0, |_| true), None);
        let hash = |place: usize| (place % 7) as u32 * 0x1000_0001;
        for place in 0..1000 {
            places.reserve(1);
            assert_eq!(places.find(hash(place), |found| found == place), None);
            places.push(hash(place));
        }
        for place in 0..1000 {
            assert_eq!(places.find(hash(place), |found| found == place), Some(place));
            assert_eq!(places.find(hash(place), |found| found == place + 1), None);
        }
        assert_eq!(places.find(7, |_| true), None);
    }
}
