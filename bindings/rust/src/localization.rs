//! Bundles of several languages, asked one after the other.

use crate::args::FluentArgs;
use crate::bundle::FluentBundle;
use crate::errors::FluentError;
use crate::message::{FluentMessage, Pattern};
use crate::resource::FluentResource;
use std::borrow::{Borrow, Cow};
use std::error::Error;
use std::fmt;
use std::marker::PhantomData;
use std::rc::Rc;
use std::sync::Arc;

/// What goes wrong on the way along the languages.
#[derive(Clone, Debug, PartialEq, Eq)]
pub enum LocalizationError {
    /// A language has no such message, or no language if none is named.
    MissingMessage {
        /// The message's id.
        id: String,
        /// The language.
        locale: Option<String>,
    },
    /// A language has the message, but no value of it, or no such attribute. Without a locale: no language has it.
    MissingValue {
        /// The message's id.
        id: String,
        /// The language.
        locale: Option<String>,
    },
    /// A message couldn't be formatted whole. You get its text all the same.
    Resolver {
        /// The message's id.
        id: String,
        /// The language.
        locale: String,
        /// What went wrong.
        errors: Vec<FluentError>,
    },
}

impl fmt::Display for LocalizationError {
    fn fmt(&self, f: &mut fmt::Formatter<'_>) -> fmt::Result {
        use LocalizationError::{MissingMessage, MissingValue, Resolver};
        match self {
            MissingMessage { id, locale: Some(locale) } => write!(f, "[{locale}] There is no message {id}"),
            MissingMessage { id, locale: None } => write!(f, "No language has the message {id}"),
            MissingValue { id, locale: Some(locale) } => write!(f, "[{locale}] The message {id} has no such value"),
            MissingValue { id, locale: None } => write!(f, "No language has this value of the message {id}"),
            Resolver { id, locale, errors } => {
                write!(f, "[{locale}] {id}:")?;
                errors.iter().try_for_each(|error| write!(f, " {error}"))
            }
        }
    }
}

impl Error for LocalizationError {}

/// A message with its texts, as [`Localization::format_messages`] returns it.
#[derive(Clone, Debug, PartialEq, Eq)]
pub struct L10nMessage<'l> {
    /// The text of the value, if the message has one.
    pub value: Option<Cow<'l, str>>,
    /// The attributes, in their order.
    pub attributes: Vec<L10nAttribute<'l>>,
}

/// An attribute with its text.
#[derive(Clone, Debug, PartialEq, Eq)]
pub struct L10nAttribute<'l> {
    /// The name.
    pub name: Cow<'l, str>,
    /// The text.
    pub value: Cow<'l, str>,
}

/// What is asked for: the id of a message, and its arguments.
pub type L10nKey<'l> = (&'l str, Option<FluentArgs<'l>>);

/// A bundle, or what shares one: `FluentBundle<R>`, or a reference, an `Rc` or an `Arc` of it.
pub trait AsBundle {
    /// The resources of the bundle.
    type Resource: Borrow<FluentResource>;
    /// The second parameter of the bundle.
    type Memoizer;

    /// The bundle.
    fn as_bundle(&self) -> &FluentBundle<Self::Resource, Self::Memoizer>;
}

impl<R: Borrow<FluentResource>, M> AsBundle for FluentBundle<R, M> {
    type Resource = R;
    type Memoizer = M;

    fn as_bundle(&self) -> &FluentBundle<R, M> {
        self
    }
}

/// What points to a bundle is as the bundle.
macro_rules! pointers {
    ($($pointer:ty),*) => {$(
        impl<B: AsBundle + ?Sized> AsBundle for $pointer {
            type Resource = B::Resource;
            type Memoizer = B::Memoizer;

            fn as_bundle(&self) -> &FluentBundle<B::Resource, B::Memoizer> {
                B::as_bundle(self)
            }
        }
    )*};
}

pointers!(&B, Box<B>, Rc<B>, Arc<B>);

/// Bundles in the order in which they are asked: the first one that has a message answers for it.
///
/// The bundles can be shared with others: two chains may end in the same English.
///
/// ```
/// use kozhvadi::{FluentBundle, FluentResource, Localization};
///
/// let sources = [("de", "hello = Hallo\n"), ("en-US", "hello = Hello\nbye = Bye\n")];
/// let texts = Localization::new(sources.map(|(locale, source)| {
///     let mut bundle = FluentBundle::new(vec![locale]);
///     let resource = FluentResource::try_new(source.into()).expect("The source has an error.");
///     bundle.add_resource(resource).expect("An id is there twice.");
///     bundle
/// }));
/// let mut errors = vec![];
/// assert_eq!(texts.format_value("hello", None, &mut errors).as_deref(), Some("Hallo"));
/// assert_eq!(texts.format_value("bye", None, &mut errors).as_deref(), Some("Bye"));
/// assert_eq!(errors[0].to_string(), "[de] There is no message bye");
/// assert_eq!(texts.format_value("nothing", None, &mut errors), None);
/// ```
///
/// ```
/// # use kozhvadi::{FluentBundle, FluentResource, Localization};
/// use std::sync::Arc;
/// # let bundle = |locale| Arc::new(FluentBundle::<FluentResource>::new(vec![locale]));
/// let (de, fr, en) = (bundle("de"), bundle("fr"), bundle("en"));
/// let german = Localization::new([de, Arc::clone(&en)]);
/// let french = Localization::new([fr, en]);
/// assert!(Arc::ptr_eq(&german.bundles()[1], &french.bundles()[1]));
/// ```
pub struct Localization<R = FluentResource, B = FluentBundle<R>> {
    bundles: Vec<B>,
    resources: PhantomData<fn() -> R>,
}

impl<R: Borrow<FluentResource>, B: AsBundle<Resource = R>> Localization<R, B> {
    /// A chain of bundles. The one at the front is asked first.
    pub fn new(bundles: impl IntoIterator<Item = B>) -> Self {
        Localization { bundles: bundles.into_iter().collect(), resources: PhantomData }
    }

    /// The bundles.
    pub fn bundles(&self) -> &[B] {
        &self.bundles
    }

    /// The text of a message's value in the first language that has it, or `None` if none has.
    ///
    /// What is missing in the languages before it is added to `errors`, and what goes wrong in it.
    pub fn format_value<'l>(
        &'l self,
        id: &str,
        args: Option<&FluentArgs<'_>>,
        errors: &mut Vec<LocalizationError>,
    ) -> Option<Cow<'l, str>> {
        self.format_first(id, args, errors, |message| message.value())
    }

    /// The text of the first attribute of this name, from the first bundle that has it.
    pub fn format_attribute<'l>(
        &'l self,
        id: &str,
        attribute: &str,
        args: Option<&FluentArgs<'_>>,
        errors: &mut Vec<LocalizationError>,
    ) -> Option<Cow<'l, str>> {
        self.format_first(id, args, errors, |message| Some(message.get_attribute(attribute)?.value()))
    }

    /// The texts of several messages, each as [`Localization::format_value`] returns it.
    pub fn format_values<'l>(
        &'l self,
        keys: &[L10nKey<'_>],
        errors: &mut Vec<LocalizationError>,
    ) -> Vec<Option<Cow<'l, str>>> {
        keys.iter().map(|(id, args)| self.format_value(id, args.as_ref(), errors)).collect()
    }

    /// Several messages with their values and attributes, each of the first language that has the message, or `None` if
    /// none has.
    pub fn format_messages<'l>(
        &'l self,
        keys: &[L10nKey<'_>],
        errors: &mut Vec<LocalizationError>,
    ) -> Vec<Option<L10nMessage<'l>>> {
        keys.iter().map(|(id, args)| self.format_message(id, args.as_ref(), errors)).collect()
    }

    fn format_message<'l>(
        &'l self,
        id: &str,
        args: Option<&FluentArgs<'_>>,
        errors: &mut Vec<LocalizationError>,
    ) -> Option<L10nMessage<'l>> {
        for bundle in self.bundles.iter().map(B::as_bundle) {
            let Some(message) = bundle.get_message(id) else {
                errors.push(LocalizationError::MissingMessage { id: id.to_owned(), locale: locale_of(bundle) });
                continue;
            };
            let mut format = |pattern| format_in(bundle, id, pattern, args, errors);
            let value = message.value().map(&mut format);
            let attributes = message
                .attributes()
                .map(|attribute| L10nAttribute { name: attribute.id().into(), value: format(attribute.value()) });
            return Some(L10nMessage { value, attributes: attributes.collect() });
        }
        errors.push(LocalizationError::MissingMessage { id: id.to_owned(), locale: None });
        None
    }

    /// The text of the first pattern that `find` finds in a message of this id.
    fn format_first<'l>(
        &'l self,
        id: &str,
        args: Option<&FluentArgs<'_>>,
        errors: &mut Vec<LocalizationError>,
        find: impl Fn(&FluentMessage<'l>) -> Option<&'l Pattern>,
    ) -> Option<Cow<'l, str>> {
        let mut has_message = false;
        let missing = |has_message, locale| match has_message {
            true => LocalizationError::MissingValue { id: id.to_owned(), locale },
            false => LocalizationError::MissingMessage { id: id.to_owned(), locale },
        };
        for bundle in self.bundles.iter().map(B::as_bundle) {
            let message = bundle.get_message(id);
            has_message |= message.is_some();
            match message.as_ref().and_then(&find) {
                Some(pattern) => return Some(format_in(bundle, id, pattern, args, errors)),
                None => errors.push(missing(message.is_some(), locale_of(bundle))),
            }
        }
        errors.push(missing(has_message, None));
        None
    }
}

fn locale_of<R, M>(bundle: &FluentBundle<R, M>) -> Option<String> {
    bundle.locales.first().map(ToString::to_string)
}

/// The text of a pattern of a bundle. What goes wrong is added to `errors`.
fn format_in<'l, R: Borrow<FluentResource>, M>(
    bundle: &'l FluentBundle<R, M>,
    id: &str,
    pattern: &'l Pattern,
    args: Option<&FluentArgs<'_>>,
    errors: &mut Vec<LocalizationError>,
) -> Cow<'l, str> {
    let mut found = vec![];
    let text = bundle.format_pattern(pattern, args, &mut found);
    if !found.is_empty() {
        let locale = locale_of(bundle).unwrap_or_default();
        errors.push(LocalizationError::Resolver { id: id.to_owned(), locale, errors: found });
    }
    text
}
