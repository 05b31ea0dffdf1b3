//! A bundle that the library keeps.

use crate::args::FluentArgs;
use crate::c;
use crate::message::Pattern;
use crate::text::{ShortText, Text};
use crate::value::FluentValue;
use std::sync::{Mutex, MutexGuard, PoisonError};
use std::{mem, ptr};

/// Why there is no answer.
pub(crate) enum Refusal {
    /// The bundle doesn't have the pattern.
    NoPattern,
    /// Memory was refused, or the answer nests too deep.
    Memory,
    /// A call has no answer.
    Call,
}

/// How a bundle is asked.
#[derive(Clone, Copy, PartialEq, Eq)]
pub(crate) struct Settings {
    /// Whether the values of placeables are between marks of direction.
    pub isolating: bool,
    /// Whether the last entry of an id counts, and not the first.
    pub last_counts: bool,
    /// Whether numbers are written plainly, whatever the locale.
    pub plain_numbers: bool,
    /// How many bytes of the machine's stack an answer may take, and a message or a term that is read; 0 for what suits a
    /// thread with 2 MB.
    pub stack: usize,
}

/// A bundle that the library keeps. It is freed when it is dropped.
///
/// One call at a time may use it, so it is under a lock, which no call of a program's own code holds.
pub(crate) struct Kept(Mutex<Asked>);

/// The bundle, with the text and the errors of the last answer, whose memory the next one uses.
struct Asked {
    handle: c::FluentBundle,
    text: Text,
    errors: Text,
    /// The call that an answer met last.
    call: Text,
    /// Whether messages may call functions.
    calls: bool,
}

// SAFETY: the library proves that its bundles and its texts may go to another thread.
unsafe impl Send for Asked {}

impl Kept {
    /// A bundle of copies of sources; or `None` if the locale is no tag or the library was refused memory.
    ///
    /// Its messages may call functions of these names.
    pub(crate) fn of(sources: &[&str], locale: &str, settings: Settings, functions: &[&str]) -> Option<Kept> {
        let of_texts = |texts: &[&str]| -> Vec<c::FluentSource> {
            texts.iter().map(|text| c::FluentSource { text: text.as_ptr(), len: text.len() }).collect()
        };
        let (sources, names) = (of_texts(sources), of_texts(functions));
        let mut handle =
            c::FluentBundle { held: false, sources: ptr::null_mut(), read: ptr::null_mut(), desk: ptr::null_mut() };
        let options = c::FluentBundleOptions {
            size: mem::size_of::<c::FluentBundleOptions>(),
            locale: locale.as_ptr(),
            locale_len: locale.len(),
            stack: settings.stack,
            isolating: settings.isolating,
            overriding: settings.last_counts,
            plain_numbers: settings.plain_numbers,
        };
        // SAFETY: each pointer is that of a slice of the length next to it, and the handle holds no bundle yet.
        let made = unsafe {
            if names.is_empty() {
                c::fluent_bundle_new_with(sources.as_ptr(), sources.len(), &options, &mut handle)
            } else {
                let (functions, count) = (names.as_ptr(), names.len());
                c::fluent_bundle_new_calling(sources.as_ptr(), sources.len(), &options, functions, count, &mut handle)
            }
        };
        let (text, errors, call) = (Text::none(), Text::none(), Text::none());
        let asked = Asked { handle, text, errors, call, calls: !names.is_empty() };
        (made == c::FLUENT_READ).then(|| Kept(Mutex::new(asked)))
    }

    #[inline]
    fn asked(&self) -> MutexGuard<'_, Asked> {
        // Between any two calls of the library, what is under the lock is as a call leaves it.
        self.0.lock().unwrap_or_else(PoisonError::into_inner)
    }

    /// Passes the text of a pattern on, and the lines of its errors. `took` may take the text, and doesn't ask the
    /// bundle. `answer` gives the answer to a call, by its text, and may ask the bundle.
    pub(crate) fn format<T>(
        &self,
        pattern: &Pattern,
        args: &FluentArgs<'_>,
        mut answer: impl FnMut(&str) -> Option<FluentValue<'static>>,
        took: impl FnOnce(&mut Text, &str) -> T,
    ) -> Result<T, Refusal> {
        let mut answers = FluentArgs::new();
        loop {
            let mut asked = self.asked();
            let answered = asked.ask(pattern, args, &answers);
            match answered {
                c::FLUENT_READ => {
                    let Asked { text, errors, .. } = &mut *asked;
                    return Ok(took(text, errors.as_str()));
                }
                c::FLUENT_CALL => {}
                c::FLUENT_NO_MEMORY => return Err(Refusal::Memory),
                _ => return Err(Refusal::NoPattern),
            }
            let mut calls = asked.call.as_str().to_owned();
            // A message with one call isn't asked for others.
            if !answers.are_none() {
                asked.list_calls(pattern, args, &answers, &mut calls);
            }
            drop(asked);
            for call in calls.lines() {
                // A call that the message meets twice is listed twice.
                if answers.get(call).is_none() {
                    let value = answer(call).ok_or(Refusal::Call)?;
                    answers.set(call.to_owned(), value);
                }
            }
        }
    }

    /// The number by which the library finds a pattern. Of one that isn't there it is any.
    pub(crate) fn find(&self, pattern: &Pattern) -> usize {
        let (id, name) = (pattern.id(), pattern.attribute());
        let mut number = 0;
        // SAFETY: each pointer is that of a slice of the length next to it, and the handle holds a bundle, which is lent
        // by `&mut`.
        unsafe {
            c::fluent_bundle_find(
                &mut self.asked().handle,
                id.as_ptr(),
                id.len(),
                name.as_ptr(),
                name.len(),
                &mut number,
            )
        };
        number
    }

    /// Writes the text of a pattern, which has this number, into `text`, and passes the lines of its errors on, if there
    /// are any. Gives the status of the library: there is no room for a long text.
    #[inline]
    pub(crate) fn write(
        &self,
        pattern: &Pattern,
        number: usize,
        args: &[c::FluentArgument],
        text: &mut ShortText,
        told: impl FnOnce(&str),
    ) -> u32 {
        let (id, name) = (pattern.id(), pattern.attribute());
        let pattern = c::FluentPattern {
            id: id.as_ptr(),
            id_len: id.len(),
            attribute: name.as_ptr(),
            attribute_len: name.len(),
            number,
        };
        let mut asked = self.asked();
        let Asked { handle, errors, .. } = &mut *asked;
        let mut status = c::FLUENT_NO_MEMORY;
        let write = |room: *mut u8, room_len, len: &mut usize| {
            let (arguments, count) = (args.as_ptr(), args.len());
            // SAFETY: each pointer is that of a slice of the length next to it, or of memory that the library only
            // writes; all texts are `str`; and the handle holds a bundle, which is lent by `&mut`.
            status = unsafe {
                c::fluent_bundle_write(handle, &pattern, arguments, count, room, room_len, len, errors.place())
            };
            status == c::FLUENT_READ
        };
        // SAFETY: the library has written the bytes of a `String` then, and how many they are.
        let is_written = unsafe { text.be_written(write) };
        if is_written && errors.is_there() {
            told(errors.as_str());
        }
        status
    }

    /// Returns a text whose memory the next answer uses.
    pub(crate) fn give_back(&self, text: Text) {
        self.asked().text = text;
    }

    /// The ids of the messages, as the library lists them.
    #[cfg(test)]
    pub(crate) fn messages(&self) -> Vec<String> {
        let mut ids = Text::none();
        // SAFETY: the handle holds a bundle, which is lent by `&mut`.
        let answered = unsafe { c::fluent_bundle_messages(&mut self.asked().handle, ids.place()) };
        assert_eq!(answered, c::FLUENT_READ);
        ids.as_str().lines().map(String::from).collect()
    }

    /// The names of a message's attributes, as the library lists them.
    #[cfg(test)]
    pub(crate) fn attributes(&self, id: &str) -> Vec<String> {
        let mut names = Text::none();
        // SAFETY: the pointer is that of a slice of the length next to it, and the handle holds a bundle, which is lent
        // by `&mut`.
        let answered =
            unsafe { c::fluent_bundle_attributes(&mut self.asked().handle, id.as_ptr(), id.len(), names.place()) };
        assert_eq!(answered, c::FLUENT_READ);
        names.as_str().lines().map(String::from).collect()
    }

    /// The variables that a message is shown with, or `None` if the library was refused memory.
    pub(crate) fn variables(&self, id: &str) -> Option<Vec<String>> {
        let mut names = Text::none();
        // SAFETY: the pointer is that of a slice of the length next to it, and the handle holds a bundle, which is lent
        // by `&mut`.
        let answered =
            unsafe { c::fluent_bundle_variables(&mut self.asked().handle, id.as_ptr(), id.len(), names.place()) };
        (answered == c::FLUENT_READ).then(|| names.as_str().lines().map(String::from).collect())
    }

    /// What a check of the sources reports, or `None` if the library was refused memory.
    pub(crate) fn report(&self) -> Option<String> {
        let mut report = Text::none();
        // SAFETY: the handle holds a bundle, which is lent by `&mut`.
        let answered = unsafe { c::fluent_bundle_errors(&mut self.asked().handle, report.place()) };
        (answered == c::FLUENT_READ).then(|| report.as_str().to_owned())
    }
}

impl Asked {
    /// Formats a pattern with these answers to calls, and gives the status of the library.
    fn ask(&mut self, pattern: &Pattern, args: &FluentArgs<'_>, answers: &FluentArgs<'_>) -> u32 {
        let Asked { handle, text, errors, call, calls } = self;
        let (id, name) = (pattern.id(), pattern.attribute());
        let (id, id_len, name, name_len) = (id.as_ptr(), id.len(), name.as_ptr(), name.len());
        let (text, errors) = (text.place(), errors.place());
        args.with_c(|args| {
            let (arguments, count) = (args.as_ptr(), args.len());
            // SAFETY: each pointer is that of a slice of the length next to it, and the handle holds a bundle, which is
            // lent by `&mut`.
            if !*calls {
                return unsafe {
                    c::fluent_bundle_format(handle, id, id_len, name, name_len, arguments, count, text, errors)
                };
            }
            answers.with_c(|answers| {
                let (answers, answered) = (answers.as_ptr(), answers.len());
                let call = call.place();
                // SAFETY: the same.
                unsafe {
                    c::fluent_bundle_call(
                        handle, id, id_len, name, name_len, arguments, count, answers, answered, text, errors, call,
                    )
                }
            })
        })
    }
}

impl Asked {
    /// Puts the calls without an answer that a pattern meets whatever any of them gives after the first of them, each
    /// in a line, unless memory is refused.
    fn list_calls(&mut self, pattern: &Pattern, args: &FluentArgs<'_>, answers: &FluentArgs<'_>, calls: &mut String) {
        let Asked { handle, call, .. } = self;
        let (id, name) = (pattern.id(), pattern.attribute());
        let (id, id_len, name, name_len) = (id.as_ptr(), id.len(), name.as_ptr(), name.len());
        let made = call.place();
        let listed = args.with_c(|args| {
            answers.with_c(|answers| {
                let (arguments, count) = (args.as_ptr(), args.len());
                let (answers, answered) = (answers.as_ptr(), answers.len());
                // SAFETY: each pointer is that of a slice of the length next to it, and the handle holds a bundle, which
                // is lent by `&mut`.
                unsafe {
                    c::fluent_bundle_calls(
                        handle, id, id_len, name, name_len, arguments, count, answers, answered, made,
                    )
                }
            })
        });
        if listed == c::FLUENT_READ {
            calls.push('\n');
            calls.push_str(call.as_str());
        }
    }
}

impl Drop for Asked {
    fn drop(&mut self) {
        // SAFETY: the library made the bundle, if there is one, and nothing has freed it.
        unsafe { c::fluent_bundle_free(&mut self.handle) }
    }
}
