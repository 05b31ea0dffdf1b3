//! Tags of languages, under the names of the crate `unic-langid`.

use crate::languages::is_same;
use std::error::Error;
use std::fmt;
use std::hash::{Hash, Hasher};
use std::ops::Deref;
use std::str::FromStr;

/// The tag of a language, such as `de-AT` or `zh-Hant-TW`.
///
/// It is equal to what is shown as the same tag, whatever its type: case doesn't count, and `_` is as `-`.
///
/// ```
/// use kozhvadi::langid;
/// use kozhvadi::unic_langid::LanguageIdentifier;
///
/// let tag: LanguageIdentifier = "zh_hant-tw".parse().expect("It is a tag.");
/// assert_eq!(tag, langid!("zh-Hant-TW"));
/// assert_eq!(tag, "zh-Hant-TW");
/// assert_eq!((tag.language(), tag.script(), tag.region()), ("zh", Some("Hant"), Some("TW")));
/// ```
#[derive(Clone, Debug)]
pub struct LanguageIdentifier(String);

/// A text isn't the tag of a language.
#[derive(Clone, Copy, Debug, PartialEq, Eq)]
pub struct LanguageIdentifierError;

impl fmt::Display for LanguageIdentifierError {
    fn fmt(&self, f: &mut fmt::Formatter<'_>) -> fmt::Result {
        f.write_str("the text isn't the tag of a language")
    }
}

impl Error for LanguageIdentifierError {}

impl LanguageIdentifier {
    /// A tag that was given, or a text in the place of one.
    pub(crate) fn of(text: String) -> LanguageIdentifier {
        LanguageIdentifier(text)
    }

    /// The tag that the bytes of a text are.
    ///
    /// # Errors
    /// If they are none.
    pub fn from_bytes(text: &[u8]) -> Result<LanguageIdentifier, LanguageIdentifierError> {
        std::str::from_utf8(text).map_err(|_| LanguageIdentifierError)?.parse()
    }

    /// The tag as a text.
    pub fn as_str(&self) -> &str {
        &self.0
    }

    /// The language, such as `zh`.
    pub fn language(&self) -> &str {
        self.parts().next().unwrap_or_default()
    }

    /// The script, such as `Hant`, if one is named.
    pub fn script(&self) -> Option<&str> {
        self.parts().nth(1).filter(|part| is_script(part))
    }

    /// The region, such as `TW` or `419`, if one is named.
    pub fn region(&self) -> Option<&str> {
        self.parts().skip(1).take(2).find(|part| is_region(part))
    }

    /// The variants, such as `valencia`.
    pub fn variants(&self) -> impl Iterator<Item = &str> {
        self.parts().skip(1).filter(|part| is_variant(part))
    }

    fn parts(&self) -> impl Iterator<Item = &str> {
        self.0.split('-')
    }
}

fn is_language(part: &str) -> bool {
    matches!(part.len(), 2 | 3 | 5..=8) && part.bytes().all(|byte| byte.is_ascii_alphabetic())
}

fn is_script(part: &str) -> bool {
    part.len() == 4 && part.bytes().all(|byte| byte.is_ascii_alphabetic())
}

fn is_region(part: &str) -> bool {
    let all = |test: fn(&u8) -> bool| part.as_bytes().iter().all(test);
    (part.len() == 2 && all(u8::is_ascii_alphabetic)) || (part.len() == 3 && all(u8::is_ascii_digit))
}

fn is_variant(part: &str) -> bool {
    let begins_with_digit = part.starts_with(|first: char| first.is_ascii_digit());
    (matches!(part.len(), 5..=8) || (part.len() == 4 && begins_with_digit))
        && part.bytes().all(|byte| byte.is_ascii_alphanumeric())
}

/// A text is a tag in the letters that Unicode recommends, such as `zh-Hant-TW` for `ZH_hant-tw`.
impl FromStr for LanguageIdentifier {
    type Err = LanguageIdentifierError;

    fn from_str(text: &str) -> Result<LanguageIdentifier, LanguageIdentifierError> {
        let mut parts = text.split(['-', '_']).peekable();
        let language = parts.next().filter(|part| is_language(part)).ok_or(LanguageIdentifierError)?;
        let mut tag = language.to_ascii_lowercase();
        if let Some(script) = parts.next_if(|part| is_script(part)) {
            let (first, rest) = script.split_at(1);
            tag.extend(["-", &first.to_ascii_uppercase(), &rest.to_ascii_lowercase()]);
        }
        if let Some(region) = parts.next_if(|part| is_region(part)) {
            tag.extend(["-", &region.to_ascii_uppercase()]);
        }
        for variant in parts {
            if !is_variant(variant) {
                return Err(LanguageIdentifierError);
            }
            tag.extend(["-", &variant.to_ascii_lowercase()]);
        }
        Ok(LanguageIdentifier(tag))
    }
}

impl fmt::Display for LanguageIdentifier {
    fn fmt(&self, f: &mut fmt::Formatter<'_>) -> fmt::Result {
        f.write_str(&self.0)
    }
}

impl<T: fmt::Display + ?Sized> PartialEq<T> for LanguageIdentifier {
    fn eq(&self, other: &T) -> bool {
        is_same(&self.0, &other.to_string())
    }
}

impl Eq for LanguageIdentifier {}

impl Hash for LanguageIdentifier {
    fn hash<H: Hasher>(&self, state: &mut H) {
        self.0.to_ascii_lowercase().replace('_', "-").hash(state);
    }
}

impl Deref for LanguageIdentifier {
    type Target = str;

    fn deref(&self) -> &str {
        &self.0
    }
}

impl AsRef<str> for LanguageIdentifier {
    fn as_ref(&self) -> &str {
        &self.0
    }
}

impl AsRef<LanguageIdentifier> for LanguageIdentifier {
    fn as_ref(&self) -> &LanguageIdentifier {
        self
    }
}

/// The tag of a language: `langid!("en-US")`. The program ends if the text is none.
#[macro_export]
macro_rules! langid {
    ($tag:expr) => {
        $tag.parse::<$crate::unic_langid::LanguageIdentifier>().expect("It is the tag of a language.")
    };
}

/// The tags of several languages: `langids!["en-US", "pl"]`. The program ends if a text is none.
#[macro_export]
macro_rules! langids {
    ($($tag:expr),* $(,)?) => {
        vec![$($crate::langid!($tag)),*]
    };
}

pub use crate::{langid, langids};

#[cfg(test)]
mod tests {
    use super::*;

    #[test]
    fn tags_are_read() {
        for (text, shown) in [
            ("DE", Some("de")),
            ("zh_hANT_tw", Some("zh-Hant-TW")),
            ("ca-es-VALENCIA", Some("ca-ES-valencia")),
            ("es-419", Some("es-419")),
            ("de-1996", Some("de-1996")),
            ("", None),
            ("d", None),
            ("root", None),
            ("de--AT", None),
            ("de-AT-Latn", None),
            ("de.UTF-8", None),
        ] {
            let tag = text.parse::<LanguageIdentifier>();
            assert_eq!(tag.ok().map(|tag| tag.to_string()).as_deref(), shown, "{text}");
        }
        let tag = langid!("ca-ES-valencia");
        assert_eq!((tag.script(), tag.region()), (None, Some("ES")));
        assert_eq!(tag.variants().collect::<Vec<_>>(), ["valencia"]);
        assert_eq!(LanguageIdentifier::from_bytes(b"\xff"), Err(LanguageIdentifierError));
    }
}
