//! Values of a program's own, on their way through the library, which has texts and numbers alone.

use crate::date_time::{shown_in, Locales};
use crate::value::FluentType;
use std::borrow::Cow;
use std::hash::{BuildHasher, RandomState};
use std::sync::OnceLock;

/// What changes the texts of messages, and not the values in them.
pub(crate) type Transform = fn(&str) -> Cow<'_, str>;

/// What the library has a text in the place of.
enum Held {
    /// A value of the program's own.
    Value(Box<dyn FluentType + Send>),
    /// How a value is shown, which isn't changed any more.
    Shown(String),
}

/// The values of the program's own that one answer meets. To the library each is a text that no other text has in it: it
/// is told again in the arguments of functions, and in the answer it is replaced by how the value is shown.
#[derive(Default)]
pub(crate) struct Customs(Vec<Held>);

/// What stands before and after a value's number. No text has this character by the rules of Unicode.
const MARK: char = '\u{fdd0}';

/// A number that is another one in each process, so that nobody knows which text stands for a value.
fn secret() -> u64 {
    static SECRET: OnceLock<u64> = OnceLock::new();
    *SECRET.get_or_init(|| RandomState::new().hash_one("a value of the program's own"))
}

impl Customs {
    /// Whether no text stands for anything.
    pub(crate) fn are_none(&self) -> bool {
        self.0.is_empty()
    }

    /// The text that stands for a value.
    pub(crate) fn token(&mut self, value: &(dyn FluentType + Send)) -> String {
        self.hold(Held::Value(value.duplicate()))
    }

    /// The text that stands for how a value is shown.
    pub(crate) fn token_of_text(&mut self, shown: String) -> String {
        self.hold(Held::Shown(shown))
    }

    fn hold(&mut self, held: Held) -> String {
        self.0.push(held);
        format!("{MARK}{:016x}{:x}{MARK}", secret(), self.0.len() - 1)
    }

    /// The value that a text stands for, if it stands for one.
    pub(crate) fn value(&self, text: &str) -> Option<&(dyn FluentType + Send)> {
        match self.of_number(text.strip_prefix(MARK)?.strip_suffix(MARK)?)? {
            Held::Value(value) => Some(&**value),
            Held::Shown(_) => None,
        }
    }

    fn of_number(&self, inside: &str) -> Option<&Held> {
        let number = inside.strip_prefix(&format!("{:016x}", secret()))?;
        self.0.get(usize::from_str_radix(number, 16).ok()?)
    }

    /// A text in which values are shown as in a bundle of these locales, and what is around them is changed, or `None` if
    /// that is the text as it is.
    #[inline]
    pub(crate) fn shown(&self, text: &str, transform: Option<Transform>, locales: Locales<'_>) -> Option<String> {
        if self.are_none() && transform.is_none() {
            return None;
        }
        self.replaced(text, transform, locales)
    }

    #[inline(never)]
    fn replaced(&self, text: &str, transform: Option<Transform>, locales: Locales<'_>) -> Option<String> {
        if transform.is_none() && !text.contains(MARK) {
            return None;
        }
        let mut made = String::with_capacity(text.len());
        let mut parts = text.split(MARK).peekable();
        push_text(&mut made, parts.next()?, transform);
        while let Some(part) = parts.next() {
            match self.of_number(part).filter(|_| parts.peek().is_some()) {
                Some(held) => {
                    match held {
                        Held::Value(value) => made.push_str(&shown_in(&**value, locales)),
                        Held::Shown(shown) => made.push_str(shown),
                    }
                    push_text(&mut made, parts.next().unwrap_or_default(), transform);
                }
                None => {
                    made.push(MARK);
                    push_text(&mut made, part, transform);
                }
            }
        }
        Some(made)
    }
}

/// Adds a text of a message, changed line by line, and between the marks of direction around values.
fn push_text(made: &mut String, text: &str, transform: Option<Transform>) {
    let Some(transform) = transform else { return made.push_str(text) };
    let ends = |each: char| matches!(each, '\n' | '\u{2068}' | '\u{2069}');
    for part in text.split_inclusive(ends) {
        let (line, end) = match part.strip_suffix(['\u{2068}', '\u{2069}']) {
            Some(line) => part.split_at(line.len()),
            None => (part, ""),
        };
        if !line.is_empty() {
            made.push_str(&transform(line));
        }
        made.push_str(end);
    }
}

#[cfg(test)]
mod tests {
    use super::*;
    use crate::memoizer::IntlLangMemoizer;

    #[derive(Debug, PartialEq)]
    struct Day(u32);

    impl FluentType for Day {
        fn duplicate(&self) -> Box<dyn FluentType + Send> {
            Box::new(Day(self.0))
        }

        fn as_string(&self, _: &IntlLangMemoizer) -> Cow<'static, str> {
            format!("day {}", self.0).into()
        }

        fn as_string_threadsafe(&self, intls: &IntlLangMemoizer) -> Cow<'static, str> {
            self.as_string(intls)
        }
    }

    #[test]
    fn values_are_told_again() {
        let mut customs = Customs::default();
        let (first, second) = (customs.token(&Day(1)), customs.token(&Day(2)));
        assert_ne!(first, second);
        assert_eq!(customs.value(&second).map(|day| format!("{day:?}")).as_deref(), Some("Day(2)"));
        for text in ["", "\u{fdd0}", "\u{fdd0}0\u{fdd0}", "Day(1)"] {
            assert!(customs.value(text).is_none(), "{text:?}");
            assert_eq!(customs.shown(text, None, Locales::default()).as_deref().unwrap_or(text), text);
        }
        let text = format!("\u{fdd0}{second}{first}, {first}\u{fdd0}");
        assert_eq!(
            customs.shown(&text, None, Locales::default()).as_deref(),
            Some("\u{fdd0}day 2day 1, day 1\u{fdd0}")
        );
        assert_eq!(Customs::default().shown(&text, None, Locales::default()), None);
    }

    #[test]
    fn texts_around_values_are_changed() {
        let mut customs = Customs::default();
        let text = format!("one \u{2068}{}\u{2069}\ntwo", customs.token_of_text("Jane".to_owned()));
        let shown = customs.shown(&text, Some(|text| format!("<{text}>").into()), Locales::default());
        assert_eq!(shown.as_deref(), Some("<one >\u{2068}Jane\u{2069}<\n><two>"));
    }
}
