//! Fluent is a system for the messages of a program, in which a translation says what its language needs.
//!
//! This package has the names and the manners of the crate `fluent-bundle`, so that a program which formats messages
//! changes its `use` lines and little else. The texts come from a library whose every answer is proved; this package
//! only passes them on.
//!
//! - [`FluentResource`] holds a source: messages and terms.
//! - [`FluentBundle`] holds resources, and formats their messages.
//! - [`FluentMessage`] is a message of a bundle.
//! - [`FluentArgs`] are the arguments of a message.
//! - [`negotiate_languages`] finds which of a program's languages suit a user, and [`Localization`] asks their bundles.
//! - [`FluentResource::entries`] is the tree of a source, of [`ast`], and [`visit`] walks over it;
//!   [`serializer`] writes one.
//! - [`lint()`] finds what is wrong with the files of a catalog, [`tidy`] formats a source, and
//!   [`occurrences()`] says where its names are.
//!
//! ```
//! use kozhvadi::{FluentArgs, FluentBundle, FluentResource};
//!
//! let source = String::from("intro = Welcome, { $name }.\n");
//! let resource = FluentResource::try_new(source).expect("The source has an error.");
//! let mut bundle = FluentBundle::new(vec!["en-US"]);
//! bundle.add_resource(resource).expect("A message was there before.");
//!
//! let mut args = FluentArgs::new();
//! args.set("name", "John");
//! let message = bundle.get_message("intro").expect("There is no message.");
//! let pattern = message.value().expect("The message has no value.");
//! let mut errors = vec![];
//! let text = bundle.format_pattern(pattern, Some(&args), &mut errors);
//! assert_eq!(text, "Welcome, \u{2068}John\u{2069}.");
//! assert!(errors.is_empty());
//! ```
#![warn(missing_docs)]

mod args;
pub mod ast;
pub mod bundle;
mod c;
mod call;
mod custom;
mod date_time;
mod dated;
mod decimal;
mod entries;
mod errors;
mod fixed;
mod ids;
mod kept;
mod languages;
mod linting;
mod listing;
mod localization;
pub mod memoizer;
mod message;
mod number;
mod occurrences;
mod options;
pub mod parser;
mod places;
mod report;
pub mod resolver;
mod resource;
mod rewriting;
pub mod serializer;
mod text;
mod tidying;
mod tree;
pub mod unic_langid;
mod value;
pub mod visit;

/// The page of this package, whose example is a test.
#[cfg(doctest)]
#[doc = include_str!("../README.md")]
struct Page;

pub use args::FluentArgs;
pub use bundle::UnknownLocale;
pub use errors::{EntryKind, FluentError};
pub use languages::{
    accepted_languages, convert_vec_str_to_langids, convert_vec_str_to_langids_lossy, has_plural_rules,
    negotiate_languages, parse_accepted_languages, system_languages, NegotiationStrategy,
};
pub use linting::{lint, FileCounts, Finding, LintError, LintOptions, Report, Severity};
pub use localization::{AsBundle, L10nAttribute, L10nKey, L10nMessage, Localization, LocalizationError};
pub use message::{FluentAttribute, FluentMessage, Pattern};
pub use number::FluentNumber;
pub use occurrences::{occurrences, Occurrence, OutOfMemory, Symbol, SymbolKind};
pub use parser::{ErrorKind, ParserError};
pub use resolver::{ReferenceKind, ResolverError};
pub use resource::FluentResource;
pub use tidying::{tidy, TidyError};
pub use value::FluentValue;

/// A bundle with the usual marker.
pub type FluentBundle<R = FluentResource> = bundle::FluentBundle<R, memoizer::IntlLangMemoizer>;

/// Bundles that threads share: each bundle is one.
pub mod concurrent {
    pub use crate::FluentBundle;
}

/// The names of the crate `intl-memoizer`.
pub mod intl_memoizer {
    pub use crate::memoizer::{IntlLangMemoizer, IntlMemoizer, Memoizable};

    /// Memoizers that threads share: each is one.
    pub mod concurrent {
        pub use crate::memoizer::IntlLangMemoizer;
    }
}

/// Values, and how numbers and dates are shown.
pub mod types {
    pub use crate::date_time::{
        DateError, DateStyle, FluentDateTime, FluentDateTimeOptions, HourCycle, MonthWidth, NumberWidth, TextWidth,
        ZoneName,
    };
    pub use crate::number::{FluentNumber, ParseNumberError};
    pub use crate::options::{FluentNumberCurrencyDisplayStyle, FluentNumberOptions, FluentNumberStyle};
    pub use crate::value::{AnyEq, FluentType, FluentValue};
}
