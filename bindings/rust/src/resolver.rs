//! What goes wrong while a message is formatted.

use crate::args::FluentArgs;
use crate::bundle::FluentBundle;
use crate::errors::FluentError;
use std::error::Error;
use std::fmt;

/// The errors, under the path that `fluent-bundle` has for them.
pub mod errors {
    pub use super::{ReferenceKind, ResolverError};
}

/// What values are compared in: a bundle, whose locale says which plural category a number has.
pub struct Scope<'bundle, R, M> {
    /// The bundle.
    pub bundle: &'bundle FluentBundle<R, M>,
}

impl<'bundle, R, M> Scope<'bundle, R, M> {
    /// That of a bundle. The arguments and errors are there for programs that use `fluent-bundle`, and do nothing.
    pub fn new(
        bundle: &'bundle FluentBundle<R, M>,
        _args: Option<&FluentArgs<'_>>,
        _errors: Option<&mut Vec<FluentError>>,
    ) -> Self {
        Scope { bundle }
    }
}

/// What an expression refers to, and isn't there.
#[derive(Clone, Debug, PartialEq, Eq)]
pub enum ReferenceKind {
    /// A function.
    Function {
        /// Its name.
        id: String,
    },
    /// A message, or its attribute.
    Message {
        /// The message's id.
        id: String,
        /// The attribute's name.
        attribute: Option<String>,
    },
    /// A term, or its attribute.
    Term {
        /// The term's id, without `-`.
        id: String,
        /// The attribute's name.
        attribute: Option<String>,
    },
    /// A variable.
    Variable {
        /// Its name, without `$`.
        id: String,
    },
}

impl ReferenceKind {
    /// What this is that is called unknown, as in `variable: $name`.
    fn read(unknown: &str) -> Option<ReferenceKind> {
        let owned = str::to_owned;
        // Mostly it is a variable.
        if let Some(id) = unknown.strip_prefix("variable: $") {
            return Some(ReferenceKind::Variable { id: owned(id) });
        }
        let (what, name) = unknown.split_once(": ")?;
        match what {
            "function" => Some(ReferenceKind::Function { id: owned(name.strip_suffix("()")?) }),
            "message" | "term" | "attribute" => {
                let (name, attribute) = match name.split_once('.') {
                    Some((name, attribute)) => (name, Some(owned(attribute))),
                    None => (name, None),
                };
                Some(match name.strip_prefix('-') {
                    Some(id) => ReferenceKind::Term { id: owned(id), attribute },
                    None => ReferenceKind::Message { id: owned(name), attribute },
                })
            }
            _ => None,
        }
    }
}

impl fmt::Display for ReferenceKind {
    fn fmt(&self, f: &mut fmt::Formatter<'_>) -> fmt::Result {
        match self {
            ReferenceKind::Function { id } => write!(f, "Unknown function: {id}()"),
            ReferenceKind::Message { id, attribute: None } => write!(f, "Unknown message: {id}"),
            ReferenceKind::Message { id, attribute: Some(name) } => write!(f, "Unknown attribute: {id}.{name}"),
            ReferenceKind::Term { id, attribute: None } => write!(f, "Unknown term: -{id}"),
            ReferenceKind::Term { id, attribute: Some(name) } => write!(f, "Unknown attribute: -{id}.{name}"),
            ReferenceKind::Variable { id } => write!(f, "Unknown variable: ${id}"),
        }
    }
}

/// An error that came up while a message was formatted.
#[derive(Clone, Debug, PartialEq, Eq)]
pub enum ResolverError {
    /// What an expression refers to isn't there.
    Reference(ReferenceKind),
    /// The message of this id has no value.
    NoValue(String),
    /// No variant of a select was chosen, and none is the default.
    MissingDefault,
    /// A pattern refers to itself.
    Cyclic,
    /// A pattern holds more placeables than it may, those of the patterns that it refers to included.
    TooManyPlaceables,
    /// A function of the program reported an error.
    Function {
        /// Its name.
        id: String,
        /// What it reported.
        text: String,
    },
    /// Memory ran out, or the answer nests too deep for 1.5 MB of the machine's stack.
    OutOfMemory,
}

impl ResolverError {
    /// The error that this line is.
    pub(crate) fn of_line(line: &str) -> ResolverError {
        ResolverError::read(line).expect("The library reports an error as `Unknown variable: $name`.")
    }

    fn read(line: &str) -> Option<ResolverError> {
        if let Some(unknown) = line.strip_prefix("Unknown ") {
            return ReferenceKind::read(unknown).map(ResolverError::Reference);
        }
        if let Some(id) = line.strip_prefix("No value: ") {
            return Some(ResolverError::NoValue(id.to_owned()));
        }
        let plain = [ResolverError::MissingDefault, ResolverError::Cyclic, ResolverError::TooManyPlaceables];
        plain.into_iter().find(|error| error.to_string() == line)
    }
}

impl fmt::Display for ResolverError {
    fn fmt(&self, f: &mut fmt::Formatter<'_>) -> fmt::Result {
        match self {
            ResolverError::Reference(kind) => kind.fmt(f),
            ResolverError::NoValue(id) => write!(f, "No value: {id}"),
            ResolverError::MissingDefault => f.write_str("No default"),
            ResolverError::Cyclic => f.write_str("Cyclical dependency detected"),
            ResolverError::TooManyPlaceables => f.write_str("Too many placeables"),
            ResolverError::Function { id, text } => write!(f, "{id}(): {text}"),
            ResolverError::OutOfMemory => f.write_str("out of memory"),
        }
    }
}

impl Error for ResolverError {}

#[cfg(test)]
mod tests {
    use super::*;

    #[test]
    fn errors_are_read_as_they_are_shown() {
        let (id, name) = (|| "id".to_owned(), || Some("name".to_owned()));
        let references = [
            ReferenceKind::Function { id: id() },
            ReferenceKind::Message { id: id(), attribute: None },
            ReferenceKind::Message { id: id(), attribute: name() },
            ReferenceKind::Term { id: id(), attribute: None },
            ReferenceKind::Term { id: id(), attribute: name() },
            ReferenceKind::Variable { id: id() },
        ];
        let others = [
            ResolverError::NoValue(id()),
            ResolverError::MissingDefault,
            ResolverError::Cyclic,
            ResolverError::TooManyPlaceables,
        ];
        for error in references.map(ResolverError::Reference).into_iter().chain(others) {
            assert_eq!(ResolverError::read(&error.to_string()), Some(error));
        }
    }
}
