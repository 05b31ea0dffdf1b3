//! By what values of a program's own are shown in a language, under the names of the crate `intl-memoizer`.
//!
//! Nothing is memoized here: a formatter is made each time it is asked for.

use crate::unic_langid::LanguageIdentifier;
use crate::value::FluentType;
use std::borrow::Cow;
use std::fmt;
use std::hash::Hash;
use std::rc::Rc;

/// A formatter of a language, such as one for lists, which the program makes of another crate.
pub trait Memoizable {
    /// What it is made with, beside the language.
    type Args: 'static + Eq + Hash + Clone;

    /// Why there is none.
    type Error: fmt::Debug;

    /// The formatter of a language.
    ///
    /// # Errors
    /// Why there is none.
    fn construct(lang: LanguageIdentifier, args: Self::Args) -> Result<Self, Self::Error>
    where
        Self: Sized;
}

/// What a bundle has as its second parameter: the language that formatters are made for.
pub trait MemoizerKind: Send + Sync + 'static {
    /// That of a language.
    fn new(lang: LanguageIdentifier) -> Self
    where
        Self: Sized;

    /// What a formatter of the language gives.
    ///
    /// # Errors
    /// Why there is no formatter.
    fn with_try_get_threadsafe<I, R, U>(&self, args: I::Args, callback: U) -> Result<R, I::Error>
    where
        Self: Sized,
        I: Memoizable,
        U: FnOnce(&I) -> R;

    /// The text that a value of the program's own is shown as.
    fn stringify_value(&self, value: &dyn FluentType) -> Cow<'static, str>;
}

/// The one [`MemoizerKind`], which stands for both memoizers of the crate `intl-memoizer`. The default one is of `und`, no
/// language.
///
/// ```
/// use kozhvadi::intl_memoizer::{IntlLangMemoizer, Memoizable};
/// use kozhvadi::unic_langid::{langid, LanguageIdentifier};
///
/// struct Lists {
///     and: &'static str,
/// }
///
/// impl Memoizable for Lists {
///     type Args = ();
///     type Error = ();
///
///     fn construct(lang: LanguageIdentifier, _: ()) -> Result<Self, ()> {
///         Ok(Lists { and: if lang.language() == "de" { "und" } else { "and" } })
///     }
/// }
///
/// let intls = IntlLangMemoizer::new(langid!("de-AT"));
/// let list = intls.with_try_get::<Lists, _, _>((), |lists| format!("a {} b", lists.and));
/// assert_eq!(list, Ok("a und b".to_owned()));
/// ```
#[derive(Clone, Debug, PartialEq, Eq, Hash)]
pub struct IntlLangMemoizer {
    lang: LanguageIdentifier,
}

impl IntlLangMemoizer {
    /// That of a language.
    pub fn new(lang: LanguageIdentifier) -> IntlLangMemoizer {
        IntlLangMemoizer { lang }
    }

    /// That of a bundle whose language this is, or the default one if there is none.
    pub(crate) fn of(tag: &str) -> IntlLangMemoizer {
        if tag.is_empty() {
            return IntlLangMemoizer::default();
        }
        IntlLangMemoizer::new(LanguageIdentifier::of(tag.to_owned()))
    }

    /// What a formatter of the language gives.
    ///
    /// # Errors
    /// Why there is no formatter.
    pub fn with_try_get<I, R, U>(&self, args: I::Args, callback: U) -> Result<R, I::Error>
    where
        I: Memoizable,
        U: FnOnce(&I) -> R,
    {
        I::construct(self.lang.clone(), args).map(|made| callback(&made))
    }
}

impl Default for IntlLangMemoizer {
    fn default() -> Self {
        IntlLangMemoizer::of("und")
    }
}

impl MemoizerKind for IntlLangMemoizer {
    fn new(lang: LanguageIdentifier) -> Self {
        IntlLangMemoizer::new(lang)
    }

    fn with_try_get_threadsafe<I, R, U>(&self, args: I::Args, callback: U) -> Result<R, I::Error>
    where
        I: Memoizable,
        U: FnOnce(&I) -> R,
    {
        self.with_try_get(args, callback)
    }

    fn stringify_value(&self, value: &dyn FluentType) -> Cow<'static, str> {
        value.as_string(self)
    }
}

/// What gives the [`IntlLangMemoizer`] of each language.
#[derive(Clone, Debug, Default)]
pub struct IntlMemoizer(());

impl IntlMemoizer {
    /// That of a language.
    pub fn get_for_lang(&mut self, lang: LanguageIdentifier) -> Rc<IntlLangMemoizer> {
        Rc::new(IntlLangMemoizer::new(lang))
    }
}
