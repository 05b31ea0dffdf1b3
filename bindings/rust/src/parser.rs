//! The errors of a source.

use std::error::Error;
use std::fmt;
use std::ops::Range;

/// An error of a source, which is shown as `bytes 7..8: ExpectedToken`.
#[derive(Clone, Debug, PartialEq, Eq)]
pub struct ParserError {
    /// The bytes where it was found.
    pub pos: Range<usize>,
    /// The bytes of the lines that couldn't be read because of it, or `None` if they aren't known.
    pub slice: Option<Range<usize>>,
    /// What is wrong there.
    pub kind: ErrorKind,
}

impl ParserError {
    /// The error that this part of a line of a report is.
    pub(crate) fn of_line(line: &str) -> ParserError {
        ParserError::read(line).expect("The library reports an error as `bytes 7..8: ExpectedToken`.")
    }

    fn read(line: &str) -> Option<ParserError> {
        let (place, kind) = line.strip_prefix("bytes ")?.split_once(": ")?;
        let (start, end) = place.split_once("..")?;
        Some(ParserError { pos: start.parse().ok()?..end.parse().ok()?, slice: None, kind: ErrorKind::named(kind)? })
    }

    /// This error with the lines of its source that couldn't be read.
    pub(crate) fn with_slice(self, source: &str) -> ParserError {
        let slice = Some(junk_around(source, self.pos.start, &self.kind));
        ParserError { slice, ..self }
    }

    /// This error with the character that is expected, by the sentence of a finding of `lint`.
    pub(crate) fn with_token(mut self, sentence: &str) -> ParserError {
        if let ErrorKind::ExpectedToken(token) = &mut self.kind {
            let expected = sentence.strip_prefix("expected `").and_then(|rest| rest.chars().next());
            *token = expected.unwrap_or(' ');
        }
        self
    }
}

/// The lines that can't be read because of an error at a place: from where an entry begins to the next line that may begin
/// one.
fn junk_around(source: &str, at: usize, kind: &ErrorKind) -> Range<usize> {
    let bytes = source.as_bytes();
    let begins_line = |at: usize| at == 0 || bytes.get(at - 1) == Some(&b'\n');
    let begins_entry =
        |at: &usize| begins_line(*at) && matches!(bytes.get(*at), Some(b'a'..=b'z' | b'A'..=b'Z' | b'-' | b'#'));
    // What can't begin an entry is at the start of its junk.
    let is_start = *kind == ErrorKind::ExpectedCharRange && begins_line(at);
    let start = if is_start { at } else { (0..=at).rev().find(begins_entry).unwrap_or(0) };
    let end = (start + 1..bytes.len()).filter(|end| *end > at).find(begins_entry);
    start..end.unwrap_or(bytes.len())
}

impl fmt::Display for ParserError {
    fn fmt(&self, f: &mut fmt::Formatter<'_>) -> fmt::Result {
        write!(f, "bytes {}..{}: {}", self.pos.start, self.pos.end, self.kind)
    }
}

impl Error for ParserError {}

/// The kinds of errors of a source: each has the name that the library reports.
macro_rules! error_kinds {
    ($($(#[$comment:meta])* $kind:ident,)*) => {
        /// What is wrong with a source. It is shown as its name.
        #[derive(Clone, Copy, Debug, PartialEq, Eq)]
        pub enum ErrorKind {
            /// This character has to be here, such as `=` after an id.
            ExpectedToken(char),
            $($(#[$comment])* $kind,)*
        }

        impl ErrorKind {
            #[cfg(test)]
            const ALL: &'static [ErrorKind] = &[ErrorKind::ExpectedToken(' '), $(ErrorKind::$kind,)*];

            /// The kind of a name. The character that is expected isn't in it.
            fn named(name: &str) -> Option<ErrorKind> {
                match name {
                    "ExpectedToken" => Some(ErrorKind::ExpectedToken(' ')),
                    $(stringify!($kind) => Some(ErrorKind::$kind),)*
                    _ => None,
                }
            }
        }

        impl fmt::Display for ErrorKind {
            fn fmt(&self, f: &mut fmt::Formatter<'_>) -> fmt::Result {
                f.write_str(match self {
                    ErrorKind::ExpectedToken(_) => "ExpectedToken",
                    $(ErrorKind::$kind => stringify!($kind),)*
                })
            }
        }
    };
}

error_kinds! {
    /// A character of some range has to be here, such as a letter.
    ExpectedCharRange,
    /// A message has neither a value nor an attribute.
    ExpectedMessageField,
    /// A term has no value.
    ExpectedTermField,
    /// A name that isn't in capital letters is called.
    ForbiddenCallee,
    /// A select has no default variant.
    MissingDefaultVariant,
    /// A value is missing.
    MissingValue,
    /// A select has two default variants.
    MultipleDefaultVariants,
    /// A message is the selector of a select.
    MessageReferenceAsSelector,
    /// A term is the selector of a select.
    TermReferenceAsSelector,
    /// An attribute of a message is the selector of a select.
    MessageAttributeAsSelector,
    /// An attribute of a term is in a placeable.
    TermAttributeAsPlaceable,
    /// A string literal doesn't end on its line.
    UnterminatedStringLiteral,
    /// An argument without a name is after one with a name.
    PositionalArgumentFollowsNamed,
    /// Two arguments have one name.
    DuplicatedNamedArgument,
    /// A backslash is before a character that it can't escape.
    UnknownEscapeSequence,
    /// An escape isn't a Unicode scalar value.
    InvalidUnicodeEscapeSequence,
    /// A closing brace closes nothing.
    UnbalancedClosingBrace,
    /// An expression has to be here.
    ExpectedInlineExpression,
    /// A selector has to be here that isn't a placeable.
    ExpectedSimpleExpressionAsSelector,
    /// A literal has to be here.
    ExpectedLiteral,
    /// Memory ran out, or the source nests too deep for 1.5 MB of the machine's stack.
    OutOfMemory,
}

#[cfg(test)]
mod tests {
    use super::*;

    #[test]
    fn errors_are_read_as_they_are_shown() {
        for kind in ErrorKind::ALL {
            let error = ParserError { pos: 7..8, slice: None, kind: *kind };
            assert_eq!(ParserError::read(&error.to_string()), Some(error));
        }
    }

    #[test]
    fn junk_is_found_around_an_error() {
        let source = "a = b\ng@Rb@ge\n  more\nc = {\n*junk\n";
        let slice = |at, kind| &source[junk_around(source, at, &kind)];
        assert_eq!(slice(7, ErrorKind::ExpectedToken('=')), "g@Rb@ge\n  more\n");
        assert_eq!(slice(26, ErrorKind::ExpectedInlineExpression), "c = {\n*junk\n");
        assert_eq!(slice(27, ErrorKind::ExpectedCharRange), "*junk\n");
    }
}
