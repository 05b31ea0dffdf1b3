//! Shows the messages of a mail program from Rust: asks for three of them in one call of the static library, and prints what is answered.
//!
//! Build and run it by `run.sh` beside this file.

use std::{fmt, ptr, slice, str};

const SOURCE: &str = "\
hello-world = Hello, world!
welcome = Welcome, { $name }.
unread = { $count ->
    [one] One message is unread.
   *[other] { $count } messages are unread.
}
";

/// An id a line, and its arguments after tabs.
const REQUESTS: &str = "hello-world\nwelcome\tname=Jane\nunread\tcount=3\nwelcome\n";

/// Whose plural rules choose the variants.
const LOCALE: &str = "en-GB";

/// What `fluent_c.h` declares.
mod c {
    pub const FLUENT_READ: u32 = 0;
    pub const FLUENT_UNKNOWN_LOCALE: u32 = 3;

    #[repr(C)]
    pub struct FluentSource {
        pub text: *const u8,
        pub len: usize,
    }

    #[repr(C)]
    pub struct FluentText {
        pub held: bool,
        pub bytes: *const u8,
        pub len: usize,
        pub owner: *mut u8,
    }

    extern "C" {
        pub fn fluent_answer(
            sources: *const FluentSource,
            count: usize,
            locale: *const u8,
            locale_len: usize,
            isolating: bool,
            overriding: bool,
            requests: *const u8,
            len: usize,
            answers: *mut FluentText,
        ) -> u32;
        pub fn fluent_free_text(text: *mut FluentText);
    }
}

/// Why there are no answers. Rust's texts are UTF-8, so there is no third reason.
#[derive(Debug)]
enum Refusal {
    UnknownLocale,
    OutOfMemory,
}

impl fmt::Display for Refusal {
    fn fmt(&self, f: &mut fmt::Formatter<'_>) -> fmt::Result {
        f.write_str(match self {
            Refusal::UnknownLocale => "the locale is no tag of a language",
            Refusal::OutOfMemory => "out of memory",
        })
    }
}

impl std::error::Error for Refusal {}

/// The answers to request lines, in memory of the library.
struct Answers(c::FluentText);

impl Answers {
    /// Answers request lines from sources by the plural rules of a locale, without marks around placeables.
    fn to(requests: &str, sources: &[&str], locale: &str) -> Result<Answers, Refusal> {
        let sources: Vec<c::FluentSource> = sources
            .iter()
            .map(|source| c::FluentSource { text: source.as_ptr(), len: source.len() })
            .collect();
        let mut text = c::FluentText { held: false, bytes: ptr::null(), len: 0, owner: ptr::null_mut() };
        // SAFETY: each pointer is that of a slice of the length beside it, and `text` holds no text yet.
        let answered = unsafe {
            c::fluent_answer(
                sources.as_ptr(),
                sources.len(),
                locale.as_ptr(),
                locale.len(),
                false,
                false,
                requests.as_ptr(),
                requests.len(),
                &mut text,
            )
        };
        match answered {
            c::FLUENT_READ => Ok(Answers(text)),
            c::FLUENT_UNKNOWN_LOCALE => Err(Refusal::UnknownLocale),
            _ => Err(Refusal::OutOfMemory),
        }
    }

    fn as_str(&self) -> &str {
        if self.0.len == 0 {
            return "";
        }
        // SAFETY: the library wrote so many bytes there, and they stay until the text is freed.
        let bytes = unsafe { slice::from_raw_parts(self.0.bytes, self.0.len) };
        str::from_utf8(bytes).expect("the answers to texts are a text")
    }

    fn iter(&self) -> impl Iterator<Item = Answer<'_>> {
        let mut rest = self.as_str();
        std::iter::from_fn(move || next_answer(&mut rest))
    }
}

impl Drop for Answers {
    fn drop(&mut self) {
        // SAFETY: the library made the text, and nothing has freed it.
        unsafe { c::fluent_free_text(&mut self.0) }
    }
}

/// The answer to a request line.
enum Answer<'a> {
    Text { text: &'a str, errors: Vec<&'a str> },
    /// There is no such message, or the line is bad.
    Nothing(&'a str),
}

/// Takes an answer from the front of `rest`.
fn next_answer<'a>(rest: &mut &'a str) -> Option<Answer<'a>> {
    let (head, after) = rest.split_once('\n')?;
    *rest = after;
    let Some(counts) = head.strip_prefix("ok ") else {
        return Some(Answer::Nothing(head));
    };
    let (bytes, errors) = counts.split_once(' ')?;
    let (text, after) = rest.split_at(bytes.parse().ok()?);
    *rest = after.strip_prefix('\n')?;
    let mut told = Vec::new();
    for _ in 0..errors.parse().ok()? {
        let (error, after) = rest.split_once('\n')?;
        told.push(error);
        *rest = after;
    }
    Some(Answer::Text { text, errors: told })
}

fn main() -> Result<(), Refusal> {
    for answer in Answers::to(REQUESTS, &[SOURCE], LOCALE)?.iter() {
        match answer {
            Answer::Text { text, errors } => {
                println!("{text}");
                errors.iter().for_each(|error| println!("  error: {error}"));
            }
            Answer::Nothing(why) => println!("({why})"),
        }
    }
    Ok(())
}
