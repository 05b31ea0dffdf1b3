//! What is known of the patterns of a bundle.

use crate::message::{Numbers, Pattern};
use std::iter;
use std::sync::atomic::{AtomicBool, Ordering};
use std::sync::OnceLock;

/// How many patterns share a part of the list, which is made once one of them is asked for.
const PART: usize = 64;

/// What is known of the text of a pattern.
pub(crate) enum Known {
    /// It is the same for all arguments.
    Fixed(Box<str>),
    /// It may vary.
    Varies(Varies),
}

/// What is known of a text that may vary.
pub(crate) struct Varies {
    /// By this number the library finds the pattern.
    pub(crate) number: usize,
    is_long: AtomicBool,
}

impl Varies {
    /// That of a pattern with this number.
    pub(crate) fn of(number: usize) -> Varies {
        Varies { number, is_long: AtomicBool::new(false) }
    }

    /// Whether it is asked for as if it weren't long and called no function, which it never was and did.
    #[inline]
    pub(crate) fn is_short(&self) -> bool {
        !self.is_long.load(Ordering::Relaxed)
    }

    /// Says that it was long, or called a function.
    pub(crate) fn set_long(&self) {
        self.is_long.store(true, Ordering::Relaxed);
    }
}

/// What is known of a bundle's patterns, by their places.
#[derive(Default)]
pub(crate) struct KnownTexts(OnceLock<Box<[Part]>>);

/// What is known of as many patterns; empty of each that wasn't asked for.
type Part = OnceLock<Box<[OnceLock<Known>; PART]>>;

impl KnownTexts {
    /// What is known of a pattern with one of these numbers, which `try_it` finds out at first. It may run code of the
    /// program's own, so of threads that ask at first each finds it out.
    #[inline]
    pub(crate) fn get(&self, pattern: &Pattern, numbers: &Numbers, try_it: impl FnOnce() -> Known) -> &Known {
        let parts = self.0.get_or_init(|| iter::repeat_with(Part::new).take(numbers.len().div_ceil(PART)).collect());
        let part = parts[pattern.place() / PART].get_or_init(|| Box::new([const { OnceLock::new() }; PART]));
        let place = &part[pattern.place() % PART];
        match place.get() {
            Some(known) => known,
            None => {
                let known = try_it();
                place.get_or_init(|| known)
            }
        }
    }
}
