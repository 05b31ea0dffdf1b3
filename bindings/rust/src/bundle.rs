//! Bundles of resources.

use crate::args::FluentArgs;
use crate::c;
use crate::call::{Answering, Functions};
use crate::custom::{Customs, Transform};
use crate::date_time::{shown_in, Locales};
use crate::dated::dated;
use crate::entries::{Asking, Entries, Held};
use crate::errors::{EntryKind, FluentError};
use crate::fixed::{Known, KnownTexts, Varies};
use crate::kept::{Kept, Refusal, Settings};
use crate::listing::line_end;
use crate::memoizer::IntlLangMemoizer;
use crate::message::{FluentMessage, Message, Pattern};
use crate::number::FluentNumber;
use crate::resolver::{ReferenceKind, ResolverError};
use crate::resource::FluentResource;
use crate::rewriting::{rewritten, Names};
use crate::text::{ShortText, Text};
use crate::unic_langid::LanguageIdentifier;
use crate::value::FluentValue;
use std::borrow::{Borrow, Cow};
use std::cell::RefCell;
use std::collections::HashMap;
use std::error::Error;
use std::fmt;
use std::sync::{Arc, Mutex, OnceLock, PoisonError};
use std::{mem, thread};

/// A bundle of resources, by which their messages are formatted.
///
/// The library reads all resources at the first question after one was added.
///
/// It is `Send` and `Sync`: the bundle that the library keeps is under a lock, which an answer holds for about a
/// microsecond. So threads can share one, and threads that do nothing but format are faster with a bundle each. Bundles of one
/// thread share it, if they have the same resources, locale and settings.
///
/// The second parameter is a marker: `fluent-bundle` has two kinds of bundles, and here both are one.
pub struct FluentBundle<R = FluentResource, M = IntlLangMemoizer> {
    /// The locales that [`FluentBundle::new`] was given. Plural rules and numbers stay those that it chose.
    pub locales: Vec<LanguageIdentifier>,
    /// The first of the locales that is a tag, or the empty one, whose rules are those of English.
    rules: String,
    isolating: bool,
    plain_numbers: bool,
    stack: usize,
    intls: M,
    formatter: Option<Formatter<M>>,
    transform: Option<Transform>,
    resources: Vec<Added<R>>,
    /// Messages, terms and functions by their ids, which bundles over the same resources share.
    entries: Arc<Entries>,
    functions: Functions,
    /// What is known of the texts of patterns that were asked for.
    known: KnownTexts,
    kept: OnceLock<Arc<Kept>>,
    /// A bundle of the library over sources in which each value is shown by a call.
    showing: OnceLock<Arc<Kept>>,
    /// A bundle of the library for values that it doesn't take as dates: the package answers the calls of `DATETIME`.
    answering: OnceLock<Arc<Kept>>,
    /// The variables that messages pass to `DATETIME`, if the library answers its calls.
    dated: OnceLock<Option<Vec<Box<str>>>>,
    /// What shows numbers with options, by these options.
    numbers: Mutex<HashMap<String, Kept>>,
}

/// A locale is no tag of a language.
#[derive(Clone, Debug, PartialEq, Eq)]
pub struct UnknownLocale(pub String);

impl fmt::Display for UnknownLocale {
    fn fmt(&self, f: &mut fmt::Formatter<'_>) -> fmt::Result {
        write!(f, "the locale `{}` is no tag of a language", self.0)
    }
}

impl Error for UnknownLocale {}

/// Whether the library takes a locale, which the empty one isn't here.
fn is_tag(locale: &str) -> bool {
    let plain = Settings { isolating: true, last_counts: false, plain_numbers: true, stack: 0 };
    !locale.is_empty() && Kept::of(&[], locale, plain, &[]).is_some()
}

/// What shows values in a way of the program's own.
type Formatter<M> = fn(&FluentValue<'_>, &M) -> Option<String>;

/// A resource, and whether its entries count in place of those that were there.
struct Added<R> {
    resource: R,
    overriding: bool,
}

impl<R: Borrow<FluentResource>> FluentBundle<R, IntlLangMemoizer> {
    /// A bundle without resources, for the first of these locales that is a tag of a language. It writes numbers as that
    /// one does. If none is, the rules are those of English, and numbers are written plainly.
    pub fn new<L: fmt::Display>(locales: Vec<L>) -> Self {
        let tags: Vec<String> = locales.iter().map(L::to_string).collect();
        let rules = tags.iter().find(|locale| is_tag(locale)).cloned().unwrap_or_default();
        FluentBundle {
            locales: tags.into_iter().map(LanguageIdentifier::of).collect(),
            intls: IntlLangMemoizer::of(&rules),
            rules,
            isolating: true,
            plain_numbers: false,
            stack: 0,
            formatter: None,
            transform: None,
            resources: Vec::new(),
            entries: Entries::none(),
            functions: Functions::default(),
            known: KnownTexts::default(),
            kept: OnceLock::new(),
            showing: OnceLock::new(),
            answering: OnceLock::new(),
            dated: OnceLock::new(),
            numbers: Mutex::default(),
        }
    }

    /// A bundle as [`FluentBundle::new`] makes it, if each locale is a tag of a language.
    ///
    /// A language without plural rules, such as Occitan, `oc`, has those of the root: every number is `other`.
    ///
    /// # Errors
    /// [`UnknownLocale`] with the first locale that is no tag.
    pub fn try_new<L: fmt::Display>(locales: Vec<L>) -> Result<Self, UnknownLocale> {
        match locales.iter().map(L::to_string).find(|locale| !is_tag(locale)) {
            Some(locale) => Err(UnknownLocale(locale)),
            None => Ok(FluentBundle::new(locales)),
        }
    }

    /// A bundle as [`FluentBundle::new`] makes it: threads can share every bundle.
    pub fn new_concurrent<L: fmt::Display>(locales: Vec<L>) -> Self {
        FluentBundle::new(locales)
    }
}

impl<R: Borrow<FluentResource>, M> FluentBundle<R, M> {
    /// Adds a resource. Of an id that is there the old entry stays.
    ///
    /// # Errors
    /// [`FluentError::Overriding`] for each entry whose id was there; the others are added.
    pub fn add_resource(&mut self, resource: R) -> Result<(), Vec<FluentError>> {
        self.forget();
        let errors = Entries::add(&mut self.entries, resource.borrow(), false);
        self.resources.push(Added { resource, overriding: false });
        if errors.is_empty() {
            Ok(())
        } else {
            Err(errors)
        }
    }

    /// Adds a resource. Of an id that is there the new entry counts, and of one that the resource has twice the last.
    ///
    /// If a resource that [`FluentBundle::add_resource`] added has an id twice too, the first entry of the overriding
    /// one counts.
    pub fn add_resource_overriding(&mut self, resource: R) {
        self.forget();
        Entries::add(&mut self.entries, resource.borrow(), true);
        self.resources.push(Added { resource, overriding: true });
    }

    /// Adds a function that messages call, such as `{ PLATFORM() }`.
    ///
    /// It gets copies of its arguments: texts; numbers, which keep the digits after the point as their one option; values
    /// of the program's own; and [`FluentValue::Error`] for what has no value. It is called once for each different call
    /// that an answer meets, so it has to give the same for the same arguments. It may ask the bundle.
    ///
    /// ```
    /// # use kozhvadi::{FluentBundle, FluentResource, FluentValue};
    /// let mut bundle = FluentBundle::new(vec!["en"]);
    /// bundle.add_resource(FluentResource::try_new("a = On { PLATFORM() }".to_string()).unwrap()).unwrap();
    /// bundle.add_function("PLATFORM", |_, _| FluentValue::from("linux")).unwrap();
    /// # bundle.set_use_isolating(false);
    /// let pattern = bundle.get_message("a").and_then(|message| message.value()).unwrap();
    /// assert_eq!(bundle.format_pattern(pattern, None, &mut vec![]), "On linux");
    /// ```
    ///
    /// If it returns [`FluentValue::None`], the call is shown as nothing, and if it returns [`FluentValue::Error`], as
    /// `PLATFORM()`: a function of [`FluentBundle::add_fallible_function`] says why. A panic of the function goes through
    /// the call that asked for the text, and the bundle can be asked again.
    ///
    /// A `NUMBER` of the program takes the place of the one that each bundle has, which writes numbers as the locale does
    /// by all its options. So the usual one, which merges the options, can be added or left out:
    ///
    /// ```
    /// # use kozhvadi::{FluentBundle, FluentResource, FluentValue};
    /// let mut bundle = FluentBundle::new(vec!["en"]);
    /// let source = r#"a = { NUMBER(0.5, style: "percent") }"#.to_string();
    /// bundle.add_resource(FluentResource::try_new(source).unwrap()).unwrap();
    /// bundle
    ///     .add_function("NUMBER", |positional, named| match positional.first() {
    ///         Some(FluentValue::Number(number)) => {
    ///             let mut number = number.clone();
    ///             number.options.merge(named);
    ///             FluentValue::Number(number)
    ///         }
    ///         _ => FluentValue::Error,
    ///     })
    ///     .unwrap();
    /// let pattern = bundle.get_message("a").and_then(|message| message.value()).unwrap();
    /// assert_eq!(bundle.format_pattern(pattern, None, &mut vec![]), "50%");
    /// ```
    ///
    /// # Errors
    /// [`FluentError::Overriding`] if the id was there; the function is dropped.
    pub fn add_function<F>(&mut self, id: &str, function: F) -> Result<(), FluentError>
    where
        F: for<'a> Fn(&[FluentValue<'a>], &FluentArgs<'_>) -> FluentValue<'a> + Send + Sync + 'static,
    {
        self.add_fallible_function(id, move |positional, named| Ok(function(positional, named)))
    }

    /// Adds a function that may report an error. Then the call is shown as `{PLATFORM()}`, and the answer has the error
    /// [`ResolverError::Function`] with the text, before the others.
    ///
    /// Else it is as [`FluentBundle::add_function`] says.
    ///
    /// ```
    /// # use kozhvadi::{FluentBundle, FluentResource, FluentValue};
    /// let mut bundle = FluentBundle::new(vec!["en"]);
    /// bundle.add_resource(FluentResource::try_new("a = On { PLATFORM(1) }".to_string()).unwrap()).unwrap();
    /// bundle
    ///     .add_fallible_function("PLATFORM", |given, _| match given {
    ///         [] => Ok(FluentValue::from("linux")),
    ///         _ => Err("there are arguments".to_string()),
    ///     })
    ///     .unwrap();
    /// # bundle.set_use_isolating(false);
    /// let pattern = bundle.get_message("a").and_then(|message| message.value()).unwrap();
    /// let mut errors = vec![];
    /// assert_eq!(bundle.format_pattern(pattern, None, &mut errors), "On {PLATFORM()}");
    /// assert_eq!(errors[0].to_string(), "Resolver error: PLATFORM(): there are arguments");
    /// ```
    ///
    /// # Errors
    /// [`FluentError::Overriding`] if the id was there; the function is dropped.
    pub fn add_fallible_function<F>(&mut self, id: &str, function: F) -> Result<(), FluentError>
    where
        F: for<'a> Fn(&[FluentValue<'a>], &FluentArgs<'_>) -> Result<FluentValue<'a>, String> + Send + Sync + 'static,
    {
        let is_builtin = matches!(self.entries.get(id), Some(Held::Builtin));
        if self.entries.get(id).is_some() && !is_builtin {
            return Err(FluentError::Overriding { kind: EntryKind::Function, id: id.to_owned() });
        }
        self.forget();
        Entries::add_function(&mut self.entries, id);
        self.functions.add(id, Box::new(function));
        Ok(())
    }

    /// Sets what shows values in a way of the program's own: a value for which it gives no text is shown as without it.
    ///
    /// It is asked for numbers, texts and values of the program's own that a message shows, also for what functions give
    /// and for numbers that are written in the message. The value itself chooses variants, as without it.
    ///
    /// ```
    /// # use kozhvadi::{fluent_args, FluentBundle, FluentResource, FluentValue};
    /// let mut bundle = FluentBundle::new(vec!["en"]);
    /// bundle.add_resource(FluentResource::try_new("a = { $n } and { 5.0 }".to_string()).unwrap()).unwrap();
    /// # bundle.set_use_isolating(false);
    /// bundle.set_formatter(Some(|value, _| match value {
    ///     FluentValue::Number(number) => Some(format!("<{}>", number.as_string())),
    ///     _ => None,
    /// }));
    /// let pattern = bundle.get_message("a").and_then(|message| message.value()).unwrap();
    /// let text = bundle.format_pattern(pattern, Some(&fluent_args!["n" => 3]), &mut vec![]);
    /// assert_eq!(text, "<3> and <5.0>");
    /// ```
    pub fn set_formatter(&mut self, formatter: Option<fn(&FluentValue<'_>, &M) -> Option<String>>) {
        self.forget();
        self.formatter = formatter;
    }

    /// Sets what changes the texts of messages, as a program does to try how it looks in other languages.
    ///
    /// It gets the texts of the sources line by line, without the values in them. A text in quotes, such as `{ "x" }`, is
    /// changed as the text around it; what is shown for what isn't there is, too, unless it is a variable.
    ///
    /// ```
    /// # use kozhvadi::{fluent_args, FluentBundle, FluentResource};
    /// let mut bundle = FluentBundle::new(vec!["en"]);
    /// bundle.add_resource(FluentResource::try_new("a = Hello, { $name }!".to_string()).unwrap()).unwrap();
    /// # bundle.set_use_isolating(false);
    /// bundle.set_transform(Some(|text| text.to_uppercase().into()));
    /// let pattern = bundle.get_message("a").and_then(|message| message.value()).unwrap();
    /// let text = bundle.format_pattern(pattern, Some(&fluent_args!["name" => "Jane"]), &mut vec![]);
    /// assert_eq!(text, "HELLO, Jane!");
    /// ```
    pub fn set_transform(&mut self, transform: Option<fn(&str) -> Cow<'_, str>>) {
        self.forget();
        self.transform = transform;
    }

    /// How many bytes of the machine's stack an answer may take, and a message or a term when it is read: at first 1.5 MB
    /// (1,572,864), which a thread with 2 MB has. A thread that asks needs 400 KB beside it.
    ///
    /// An answer that takes more is an error, [`ResolverError::OutOfMemory`]. Read the resources by
    /// [`FluentResource::try_new_within`] with a budget that is no larger: of a resource that nests deeper the bundle can't
    /// be asked, and the program ends as if memory had run out.
    pub fn set_stack(&mut self, stack: usize) {
        self.forget();
        self.stack = stack;
    }

    /// Whether the values of placeables are between marks that keep their direction from that of the text around them,
    /// as they do at first.
    pub fn set_use_isolating(&mut self, value: bool) {
        self.forget();
        self.isolating = value;
    }

    /// Whether numbers are written plainly, such as `1234.5`, whatever the locale. At first they are written as the
    /// locale does it, such as `1.234,5` in German.
    pub fn set_plain_numbers(&mut self, value: bool) {
        self.forget();
        self.plain_numbers = value;
    }

    /// Whether an id is that of a message.
    pub fn has_message(&self, id: &str) -> bool {
        self.message(id).is_some()
    }

    /// The message of an id.
    #[inline]
    pub fn get_message<'l>(&'l self, id: &str) -> Option<FluentMessage<'l>> {
        self.message(id).map(FluentMessage::of)
    }

    /// The messages with their ids, in the order in which each id came first.
    pub fn messages(&self) -> impl Iterator<Item = (&str, FluentMessage<'_>)> {
        self.entries.messages().map(|(id, message)| (id, FluentMessage::of(message)))
    }

    /// The variables that the message of an id is shown with, each once, or `None` if there is no such message.
    ///
    /// They are those of its value and its attributes, and those of the messages that it refers to, directly or not: first
    /// its own, then those of the messages that it names, and so on. The variables of terms are the terms' own arguments.
    ///
    /// ```
    /// # use kozhvadi::{FluentBundle, FluentResource};
    /// let source = "inbox = { $user }: { unread }\nunread = { $count } messages\n    .title = { $user }";
    /// let mut bundle = FluentBundle::new(vec!["en"]);
    /// bundle.add_resource(FluentResource::try_new(source.to_string()).unwrap()).unwrap();
    /// let names: Vec<String> = bundle.variables("inbox").unwrap().collect();
    /// assert_eq!(names, ["user", "count"]);
    /// ```
    pub fn variables(&self, id: &str) -> Option<impl Iterator<Item = String>> {
        self.message(id)?;
        let names = self.kept(false).variables(id).unwrap_or_else(|| out_of_memory());
        Some(names.into_iter())
    }

    /// The text of a pattern. Errors are added to `errors`, and you get the text even if there are errors.
    ///
    /// A text that asks for no argument is lent: the bundle keeps it once it was asked for.
    ///
    /// A pattern of another bundle is looked up in this one by the id of its message. If it isn't there, the text is
    /// that of a reference to it, such as `{login.title}`, and the error is [`ResolverError::Reference`]. If the answer
    /// nests too deep, the text is the same, and the error is [`ResolverError::OutOfMemory`].
    pub fn format_pattern<'bundle>(
        &'bundle self,
        pattern: &'bundle Pattern,
        args: Option<&FluentArgs<'_>>,
        errors: &mut Vec<FluentError>,
    ) -> Cow<'bundle, str> {
        match self.known(pattern) {
            Some(Known::Fixed(text)) => return Cow::Borrowed(text),
            Some(Known::Varies(varies)) => {
                let mut room = ShortText::none();
                if self.is_written(varies, pattern, args, errors, &mut room) {
                    return Cow::Owned(room.as_str().to_owned());
                }
            }
            None => {}
        }
        Cow::Owned(match self.formatted(pattern, args, errors, |text| text.as_str().to_owned()) {
            Some(Formatted::Taken(text) | Formatted::Shown(text)) => text,
            None => reference(pattern),
        })
    }

    /// Writes the text of a pattern, which is that of [`FluentBundle::format_pattern`]. Errors are added to `errors`.
    ///
    /// The writer may ask the bundle.
    ///
    /// # Errors
    /// Those of the writer.
    pub fn write_pattern<W: fmt::Write>(
        &self,
        w: &mut W,
        pattern: &Pattern,
        args: Option<&FluentArgs<'_>>,
        errors: &mut Vec<FluentError>,
    ) -> fmt::Result {
        let mut copy = ShortText::none();
        match self.known(pattern) {
            Some(Known::Fixed(text)) => return w.write_str(text),
            Some(Known::Varies(varies)) => {
                if self.is_written(varies, pattern, args, errors, &mut copy) {
                    return w.write_str(copy.as_str());
                }
            }
            None => {}
        }
        match self.formatted(pattern, args, errors, |text| copy.take(text)) {
            Some(Formatted::Taken(None)) => w.write_str(copy.as_str()),
            Some(Formatted::Taken(Some(text))) => {
                let written = w.write_str(text.as_str());
                self.kept_for(args.unwrap_or(&FluentArgs::new())).give_back(text);
                written
            }
            Some(Formatted::Shown(text)) => w.write_str(&text),
            None => w.write_str(&reference(pattern)),
        }
    }

    #[inline(always)]
    fn message(&self, id: &str) -> Option<&Message> {
        self.entries.message(id)
    }

    /// The pattern of this bundle that is meant by one of any bundle.
    #[inline]
    fn own<'p>(&'p self, pattern: &'p Pattern) -> Option<&'p Pattern> {
        if pattern.is_of(self.entries.numbers()) {
            return Some(pattern);
        }
        self.message(pattern.id())?.pattern(pattern.attribute())
    }

    /// What is known of the text of a pattern.
    #[inline]
    fn known(&self, pattern: &Pattern) -> Option<&Known> {
        let own = self.own(pattern)?;
        Some(self.known.get(own, self.entries.numbers(), || self.found_out(own)))
    }

    /// What is known of a pattern of this bundle once it was asked for.
    ///
    /// Its text is the same for all arguments if there are no errors without arguments, by the law `needs_no_arguments` of
    /// the library: a variable that is missing is an error, so none was asked for.
    #[cold]
    fn found_out(&self, own: &Pattern) -> Known {
        let fixed = |text: &mut Text, errors: &str| errors.is_empty().then(|| text.as_str().to_owned());
        // A text that calls a function isn't kept.
        match self.kept(self.shows(None)).format(own, &FluentArgs::new(), |_| None, fixed) {
            Ok(Some(text)) => {
                let shown = Customs::default().shown(&text, self.transform, Locales::default());
                Known::Fixed(shown.unwrap_or(text).into_boxed_str())
            }
            _ => Known::Varies(Varies::of(self.kept(false).find(own))),
        }
    }

    /// Whether the library has written the text of a pattern into `room`, which it does if it shows each value, calls no
    /// function and the text isn't long. Errors are added to `errors`.
    #[inline]
    fn is_written(
        &self,
        varies: &Varies,
        pattern: &Pattern,
        args: Option<&FluentArgs<'_>>,
        errors: &mut Vec<FluentError>,
        room: &mut ShortText,
    ) -> bool {
        let is_own = self.formatter.is_some() || self.transform.is_some();
        if !varies.is_short() || is_own || args.is_some_and(|args| self.answers_dates(args)) {
            return false;
        }
        let mut write = |args: &[c::FluentArgument]| {
            self.kept(false).write(pattern, varies.number, args, room, |lines| tell(lines, errors))
        };
        let status = match args {
            None => write(&[]),
            Some(args) => match args.with_plain(write) {
                Some(status) => status,
                None => return false,
            },
        };
        if matches!(status, c::FLUENT_CALL | c::FLUENT_NO_ROOM) {
            varies.set_long();
        }
        status == c::FLUENT_READ
    }

    /// What `took` makes of the text of a pattern, or `None` if there is none. Errors are added to `errors`.
    fn formatted<T>(
        &self,
        pattern: &Pattern,
        args: Option<&FluentArgs<'_>>,
        errors: &mut Vec<FluentError>,
        took: impl FnOnce(&mut Text) -> T,
    ) -> Option<Formatted<T>> {
        let none = FluentArgs::new();
        let args = args.unwrap_or(&none);
        let kept = self.kept_for(args);
        let mut customs = Customs::default();
        let keeps_dates = !self.shows(Some(args)) && self.dated().is_some() && !self.answers_dates(args);
        let given = args.in_library(keeps_dates, &mut customs);
        let show = |value: &FluentValue<'_>| self.shown(value);
        let functions = &self.functions;
        // A function may ask the bundle, but not for this answer.
        let answering = RefCell::new(Answering {
            functions,
            args,
            show: &show,
            is_marked: self.transform.is_some(),
            customs,
            errors: Vec::new(),
        });
        let answer = |call: &str| Some(answering.borrow_mut().answer(call));
        let answered = kept.format(pattern, &given, answer, |text, lines| {
            let mut answering = answering.borrow_mut();
            if !answering.errors.is_empty() {
                errors.extend(answering.errors.drain(..).map(FluentError::from));
            }
            if !lines.is_empty() {
                tell(lines, errors);
            }
            match answering.customs.are_none() && self.transform.is_none() {
                true => Ok(took(text)),
                // No code of the program's own runs under the lock of the bundle.
                false => Err(mem::replace(text, Text::none())),
            }
        });
        let error = match answered {
            Ok(Ok(taken)) => return Some(Formatted::Taken(taken)),
            Ok(Err(text)) => {
                let shown = answering.into_inner().customs.shown(text.as_str(), self.transform, self.locales());
                return Some(Formatted::Shown(shown.unwrap_or_else(|| text.as_str().to_owned())));
            }
            Err(Refusal::NoPattern) => ResolverError::Reference(ReferenceKind::Message {
                id: pattern.id().to_owned(),
                attribute: Some(pattern.attribute().to_owned()).filter(|name| !name.is_empty()),
            }),
            Err(Refusal::Memory | Refusal::Call) => ResolverError::OutOfMemory,
        };
        errors.push(error.into());
        None
    }

    /// Whether values are shown by calls: if the program shows them, or a number has options that its digits don't say.
    fn shows(&self, args: Option<&FluentArgs<'_>>) -> bool {
        let are_all = self.formatter.is_some() || self.transform.is_some();
        are_all || args.is_some_and(FluentArgs::have_more_options)
    }

    /// How a value is shown, if that isn't how the library shows it.
    fn shown(&self, value: &FluentValue<'_>) -> Option<String> {
        let text = self.formatter.and_then(|formatter| formatter(value, &self.intls));
        text.or_else(|| match value {
            FluentValue::Number(number) if self.transform.is_some() || number.has_more_options() => {
                Some(self.number_shown(number))
            }
            FluentValue::Custom(value) => Some(shown_in(&**value, self.locales())),
            _ => None,
        })
    }

    /// The locales that write values of the program's own. Dates are written plainly if numbers are.
    fn locales(&self) -> Locales<'_> {
        let dates = if self.plain_numbers { "" } else { &*self.rules };
        Locales { dates, formatters: &self.rules }
    }

    /// Whether messages may call the `DATETIME` that each bundle has.
    fn calls_dates(&self) -> bool {
        let calls = |added: &Added<R>| added.resource.borrow().readable().contains("DATETIME");
        self.entries.get("DATETIME").is_none() && self.resources.iter().any(calls)
    }

    /// A number as the library's `NUMBER` shows it by all its options.
    fn number_shown(&self, number: &FluentNumber) -> String {
        self.of_number("number", number).unwrap_or_else(|| number.as_string().into_owned())
    }

    /// The plural category of a number, such as `one`, or `None` if it is none of the library's numbers.
    pub(crate) fn category(&self, number: &FluentNumber) -> Option<String> {
        self.of_number("category", number)
    }

    /// What the library says of a number with all its options: its text, or its plural category.
    fn of_number(&self, id: &str, number: &FluentNumber) -> Option<String> {
        if number.is_text() {
            return None;
        }
        let options = number.options.as_arguments();
        let mut numbers = self.numbers.lock().unwrap_or_else(PoisonError::into_inner);
        let kept = numbers.entry(options).or_insert_with_key(|options| {
            let source = number_source(options);
            let settings = Settings { isolating: false, ..self.settings(false) };
            Kept::of(&[&source], &self.rules, settings, &[]).unwrap_or_else(|| out_of_memory())
        });
        let args = FluentArgs::from_iter([("number", number.without_options())]);
        kept.format(&Pattern::of_id(id), &args, |_| None, |text, _| text.as_str().to_owned()).ok()
    }

    fn settings(&self, last_counts: bool) -> Settings {
        Settings { isolating: self.isolating, last_counts, plain_numbers: self.plain_numbers, stack: self.stack }
    }

    /// The variables that messages pass to `DATETIME`, or `None` if the package answers its calls: the program has
    /// functions, which may get its values, or a call may be of what is no date.
    fn dated(&self) -> Option<&[Box<str>]> {
        let found = || {
            let has_own = !self.functions.are_none() || self.entries.get("DATETIME").is_some();
            if has_own {
                return None;
            }
            dated(self.resources.iter().map(|added| added.resource.borrow().readable()))
        };
        self.dated.get_or_init(found).as_deref()
    }

    /// Whether the package answers the calls of `DATETIME` for these arguments in the place of the library, since one of
    /// them isn't taken as a date.
    fn answers_dates(&self, args: &FluentArgs<'_>) -> bool {
        let is_other = |name: &str| args.get(name).is_some_and(|value| !value.is_plain_date());
        self.dated().is_some_and(|names| names.iter().any(|name| is_other(name)))
    }

    /// The bundle that the library keeps for these arguments.
    fn kept_for(&self, args: &FluentArgs<'_>) -> &Kept {
        let shows = self.shows(Some(args));
        if !shows && self.answers_dates(args) {
            return self.kept_as(&self.answering, false, true);
        }
        self.kept(shows)
    }

    /// The bundle that the library keeps: that in which values are shown by calls, or the usual one.
    fn kept(&self, shows: bool) -> &Kept {
        let kept = if shows { &self.showing } else { &self.kept };
        self.kept_as(kept, shows, shows || self.dated().is_none())
    }

    /// One of the bundles that the library keeps, which is made if it isn't there.
    fn kept_as<'k>(&self, kept: &'k OnceLock<Arc<Kept>>, shows: bool, answers_dates: bool) -> &'k Kept {
        kept.get_or_init(|| {
            let last_counts = self.added(true).any(FluentResource::has_doubles)
                && !self.added(false).any(FluentResource::has_doubles);
            let (thread, locale) = (thread::current().id(), self.rules.clone());
            let asking = Asking { thread, locale, settings: self.settings(last_counts), shows, answers_dates };
            self.entries.kept(&asking, || self.made(&asking))
        })
    }

    /// A bundle of the library over all resources.
    fn made(&self, asking: &Asking) -> Kept {
        let resources: Vec<&FluentResource> = if asking.settings.last_counts {
            self.added(false).rev().chain(self.added(true)).collect()
        } else {
            self.added(true).rev().chain(self.added(false)).collect()
        };
        let has_dates = asking.answers_dates && self.calls_dates();
        let sources: Vec<Cow<'_, str>> =
            resources.into_iter().map(|resource| self.source(resource.readable(), asking.shows, has_dates)).collect();
        let sources: Vec<&str> = sources.iter().map(AsRef::as_ref).collect();
        let functions = self.functions.called(asking.shows, has_dates);
        let functions: Vec<&str> = functions.iter().map(String::as_str).collect();
        Kept::of(&sources, &asking.locale, asking.settings, &functions).unwrap_or_else(|| out_of_memory())
    }

    /// A source, as the library is given it.
    fn source<'s>(&self, source: &'s str, shows: bool, has_dates: bool) -> Cow<'s, str> {
        let is_called = self.functions.is_any_in(source) || (has_dates && source.contains("DATETIME"));
        if !shows && !is_called {
            return Cow::Borrowed(source);
        }
        let is_own =
            |name: &str| matches!(self.entries.get(name), Some(Held::Function)) || (has_dates && name == "DATETIME");
        let has_number = matches!(self.entries.get("NUMBER"), Some(Held::Builtin));
        Cow::Owned(rewritten(source, &Names { is_own: &is_own, shows, has_number }))
    }

    /// The resources that were added in one of the two ways.
    fn added(&self, overriding: bool) -> impl DoubleEndedIterator<Item = &FluentResource> {
        let resources = self.resources.iter().filter(move |added| added.overriding == overriding);
        resources.map(|added| added.resource.borrow())
    }

    /// Forgets what the library was asked, before the bundle changes.
    fn forget(&mut self) {
        self.kept.take();
        self.showing.take();
        self.answering.take();
        self.dated.take();
        self.known = KnownTexts::default();
        self.numbers.get_mut().unwrap_or_else(PoisonError::into_inner).clear();
    }
}

/// A source whose messages show a number with these options, and its plural category.
fn number_source(options: &str) -> String {
    let categories = ["zero", "one", "two", "few", "many"].map(|name| format!("    [{name}] {name}\n")).concat();
    let number = format!("NUMBER($number{options})");
    format!("number = {{ {number} }}\ncategory = {{ {number} ->\n{categories}   *[other] other\n}}\n")
}

/// Adds the errors of these lines, each of which ends in a line feed.
#[cold]
fn tell(lines: &str, errors: &mut Vec<FluentError>) {
    let mut start = 0;
    while let Some(end) = line_end(lines, start) {
        errors.push(ResolverError::of_line(&lines[start..end]).into());
        start = end + 1;
    }
}

/// The text of a pattern.
enum Formatted<T> {
    /// What was made of the library's text.
    Taken(T),
    /// A text with values of the program's own.
    Shown(String),
}

/// What is shown for a pattern that has no text.
fn reference(pattern: &Pattern) -> String {
    match pattern.attribute() {
        "" => format!("{{{}}}", pattern.id()),
        name => format!("{{{}.{name}}}", pattern.id()),
    }
}

/// Ends the program, as Rust's own collections do.
fn out_of_memory() -> ! {
    std::alloc::handle_alloc_error(std::alloc::Layout::new::<Kept>())
}

impl<R: Borrow<FluentResource>> Default for FluentBundle<R, IntlLangMemoizer> {
    fn default() -> Self {
        FluentBundle::new(vec!["en"])
    }
}

#[cfg(test)]
mod tests {
    use super::*;

    /// What the library lists is what the bundle lists: its ids in the same order, unless resources override.
    #[test]
    fn the_library_lists_the_same() {
        let sources = ["z = Z\n-t = T\na = A\n    .x = X\n    .y = Y\n    .x = Z\n", "t = T\nm =\n    .k = K\nz = Y\n"];
        let mut bundle = FluentBundle::new(vec!["en"]);
        for source in sources {
            let resource = FluentResource::try_new(source.into()).expect("It is read.");
            let _overriding = bundle.add_resource(resource);
        }
        let ids: Vec<&str> = bundle.messages().map(|(id, _)| id).collect();
        assert_eq!(ids, ["z", "a", "m"]);
        assert_eq!(bundle.kept(false).messages(), ids);
        for (id, message) in bundle.messages() {
            let names: Vec<&str> = message.attributes().map(|attribute| attribute.id()).collect();
            assert_eq!(bundle.kept(false).attributes(id), names);
        }
        let over = FluentResource::try_new("n = N\nt = Message\n-z = Term\n".into()).expect("It is read.");
        bundle.add_resource_overriding(over);
        let mut ids: Vec<&str> = bundle.messages().map(|(id, _)| id).collect();
        assert_eq!(ids, ["t", "a", "m", "n"]);
        let mut listed = bundle.kept(false).messages();
        ids.sort();
        listed.sort();
        assert_eq!(listed, ids);
    }
}
