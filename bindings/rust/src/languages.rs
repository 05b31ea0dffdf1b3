//! Which of a program's languages are used for a user's.

use crate::c;
use crate::unic_langid::{LanguageIdentifier, LanguageIdentifierError};
use std::{env, fmt};

/// How many of a program's languages are used.
#[derive(Clone, Copy, Debug, PartialEq, Eq)]
pub enum NegotiationStrategy {
    /// All that suit any of the user's languages: a chain to fall back along.
    Filtering = c::FLUENT_FILTERING as isize,
    /// The best one for each of the user's languages.
    Matching = c::FLUENT_MATCHING as isize,
    /// One: the best for the first of the user's languages that any suits.
    Lookup = c::FLUENT_LOOKUP as isize,
}

/// The languages of a program that are used for those that a user asks for, the best first.
///
/// The default comes last: for `Lookup` if nothing else was found, and else unless it is there. What is no language tag
/// is passed over.
///
/// ```
/// use kozhvadi::{negotiate_languages, NegotiationStrategy};
///
/// let available = ["en-US", "de", "fr-CA"];
/// let used = negotiate_languages(&["de-AT", "fr"], &available, Some(&"en-US"), NegotiationStrategy::Filtering);
/// assert_eq!(used, [&"de", &"fr-CA", &"en-US"]);
/// ```
///
/// A language is what is shown as its tag: a text, or a `LanguageIdentifier` of [this package](crate::unic_langid) or of
/// the crate `unic-langid`.
pub fn negotiate_languages<'a, R: fmt::Display, A: fmt::Display>(
    requested: &[R],
    available: &'a [A],
    default: Option<&'a A>,
    strategy: NegotiationStrategy,
) -> Vec<&'a A> {
    let offered = texts(available);
    let positions = positions(&texts(requested), &offered, strategy);
    let mut used: Vec<&A> = positions.into_iter().map(|position| &available[position]).collect();
    let Some(default) = default else {
        return used;
    };
    let is_there = match strategy {
        NegotiationStrategy::Lookup => !used.is_empty(),
        NegotiationStrategy::Filtering | NegotiationStrategy::Matching => {
            let default = default.to_string();
            used.iter().any(|tag| is_same(&tag.to_string(), &default))
        }
    };
    if !is_there {
        used.push(default);
    }
    used
}

fn texts<T: fmt::Display>(tags: &[T]) -> Vec<String> {
    tags.iter().map(T::to_string).collect()
}

/// Whether two tags are the same but for case and separators.
pub(crate) fn is_same(a: &str, b: &str) -> bool {
    let fold = |byte: u8| if byte == b'_' { b'-' } else { byte.to_ascii_lowercase() };
    a.bytes().map(fold).eq(b.bytes().map(fold))
}

/// The positions of the languages that are used.
fn positions(requested: &[String], available: &[String], strategy: NegotiationStrategy) -> Vec<usize> {
    let (requested, available) = (tags(requested), tags(available));
    let mut positions = vec![0; available.len()];
    let mut count = 0;
    // SAFETY: each pointer is that of a slice of the length next to it, and each tag is a text of its length.
    let answered = unsafe {
        c::fluent_negotiate(
            requested.as_ptr(),
            requested.len(),
            available.as_ptr(),
            available.len(),
            strategy as u32,
            positions.as_mut_ptr(),
            positions.len(),
            &mut count,
        )
    };
    if answered != c::FLUENT_READ {
        std::alloc::handle_alloc_error(std::alloc::Layout::new::<usize>());
    }
    positions.truncate(count);
    positions
}

fn tags(texts: &[String]) -> Vec<c::FluentSource> {
    texts.iter().map(|text| c::FluentSource { text: text.as_ptr(), len: text.len() }).collect()
}

/// Whether the language of a locale has plural rules of its own.
///
/// For a tag such as `oc`, Occitan, it hasn't: every number is `other` then. It hasn't for a text that is no tag.
///
/// ```
/// let known = ["pt-AO", "oc", "no tag"].map(kozhvadi::has_plural_rules);
/// assert_eq!(known, [true, false, false]);
/// ```
pub fn has_plural_rules(locale: &str) -> bool {
    // SAFETY: the pointer is that of a text of the length next to it.
    unsafe { c::fluent_has_plural_rules(locale.as_ptr(), locale.len()) }
}

/// The scripts that modifiers of POSIX names stand for.
const SCRIPTS: [(&str, &str); 3] = [("latin", "Latn"), ("cyrillic", "Cyrl"), ("devanagari", "Deva")];

/// The tag that the name of a locale of POSIX stands for, or `None` for `C`, `POSIX` and the empty name.
fn tag_of_posix(name: &str) -> Option<String> {
    let (base, modifier) = name.split_once('@').unwrap_or((name, ""));
    let base = base.split('.').next().unwrap_or_default().replace('_', "-");
    let mut parts: Vec<&str> = base.split('-').collect();
    if matches!(parts[0], "" | "C" | "POSIX") {
        return None;
    }
    match SCRIPTS.iter().find(|(known, _)| *known == modifier) {
        Some((_, script)) => parts.insert(1, script),
        None if modifier == "valencia" => parts.push(modifier),
        None => {}
    }
    Some(parts.join("-"))
}

/// The languages that the user of a POSIX system asks for, as gettext finds them.
///
/// They are those of the variable `LANGUAGE` of the environment, and else the one of `LC_ALL`, `LC_MESSAGES` or `LANG`.
/// There are none in the locale `C`.
pub fn system_languages() -> Vec<String> {
    languages_of(|name| env::var(name).ok())
}

/// The languages that an environment asks for, which gives the value of a variable.
fn languages_of(variable: impl Fn(&str) -> Option<String>) -> Vec<String> {
    let set = |name| variable(name).filter(|value| !value.is_empty());
    let locale = ["LC_ALL", "LC_MESSAGES", "LANG"].into_iter().find_map(set);
    let Some(own) = locale.as_deref().and_then(tag_of_posix) else {
        return Vec::new();
    };
    let listed: Vec<String> = set("LANGUAGE").unwrap_or_default().split(':').filter_map(tag_of_posix).collect();
    if listed.is_empty() {
        vec![own]
    } else {
        listed
    }
}

/// The languages of an HTTP header `Accept-Language`, in the order of their weights.
///
/// One without a weight, or whose weight is no number, has 1, and one of weight 0 is left out; so is `*`.
///
/// ```
/// assert_eq!(kozhvadi::accepted_languages("fr;q=0.5, de-AT, *;q=0.1, en;q=0"), ["de-AT", "fr"]);
/// ```
pub fn accepted_languages(header: &str) -> Vec<String> {
    let mut weighed: Vec<(&str, f64)> = header.split(',').map(weighed).collect();
    weighed.retain(|(tag, weight)| !matches!(*tag, "" | "*") && *weight > 0.0);
    weighed.sort_by(|(_, weight), (_, other)| other.total_cmp(weight));
    weighed.into_iter().map(|(tag, _)| tag.to_owned()).collect()
}

/// The tags of languages in an HTTP header `Accept-Language`, in their order, as in the crate `fluent-langneg`: weights
/// don't count, and what is no tag is left out. [`accepted_languages`] counts weights.
///
/// ```
/// use kozhvadi::unic_langid::langids;
///
/// assert_eq!(kozhvadi::parse_accepted_languages("fr;q=0.5, de-AT, *"), langids!["fr", "de-AT"]);
/// ```
pub fn parse_accepted_languages(header: &str) -> Vec<LanguageIdentifier> {
    let tags = header.split(',').filter_map(|part| part.split(';').next());
    convert_vec_str_to_langids_lossy(tags.map(str::trim))
}

/// The tags that texts are.
///
/// # Errors
/// If one of them is none.
pub fn convert_vec_str_to_langids<I>(tags: I) -> Result<Vec<LanguageIdentifier>, LanguageIdentifierError>
where
    I: IntoIterator<Item: AsRef<[u8]>>,
{
    tags.into_iter().map(|tag| LanguageIdentifier::from_bytes(tag.as_ref())).collect()
}

/// The tags that texts are. Those that are none are left out.
pub fn convert_vec_str_to_langids_lossy<I>(tags: I) -> Vec<LanguageIdentifier>
where
    I: IntoIterator<Item: AsRef<[u8]>>,
{
    tags.into_iter().filter_map(|tag| LanguageIdentifier::from_bytes(tag.as_ref()).ok()).collect()
}

/// A language and its weight.
fn weighed(part: &str) -> (&str, f64) {
    let mut words = part.split(';').map(str::trim);
    let tag = words.next().unwrap_or_default();
    let weight = words.find_map(|setting| {
        let (name, value) = setting.split_once('=')?;
        name.trim().eq_ignore_ascii_case("q").then(|| value.trim().parse().ok().filter(|weight: &f64| !weight.is_nan()))
    });
    (tag, weight.flatten().unwrap_or(1.0))
}

#[cfg(test)]
mod tests {
    use super::*;

    #[test]
    fn languages_of_the_environment() {
        let of = |given: &[(&str, &str)]| {
            languages_of(|name| Some(given.iter().find(|(known, _)| *known == name)?.1.to_owned()))
        };
        assert_eq!(of(&[("LANG", "de_AT.UTF-8"), ("LANGUAGE", "de_AT:fr::C")]), ["de-AT", "fr"]);
        assert_eq!(of(&[("LC_ALL", ""), ("LC_MESSAGES", "sr_RS@latin"), ("LANG", "de")]), ["sr-Latn-RS"]);
        assert_eq!(of(&[("LANG", "ca_ES.UTF-8@valencia")]), ["ca-ES-valencia"]);
        for locale in ["", "C", "C.UTF-8", "POSIX"] {
            assert!(of(&[("LANG", locale), ("LANGUAGE", "de")]).is_empty(), "{locale}");
        }
        assert!(of(&[]).is_empty());
    }

    #[test]
    fn languages_of_a_header() {
        for (header, expected) in [
            ("", ""),
            ("de", "de"),
            (" en ; q = 0.8 , de;Q=0.9,", "de en"),
            ("a;q=x, b;level=1;q=0.5, c;q=nan, d", "a c d b"),
            ("*, x;q=-1, y;q=0.0", ""),
        ] {
            assert_eq!(accepted_languages(header).join(" "), expected, "{header}");
        }
    }
}
