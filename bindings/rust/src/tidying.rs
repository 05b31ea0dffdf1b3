//! The tidy text of a source.

use crate::c;
use crate::text::Text;
use std::error::Error;
use std::fmt;

/// Why a source has no tidy text.
#[derive(Clone, Copy, Debug, PartialEq, Eq)]
pub enum TidyError {
    /// The source can't be read there: [`lint`](crate::lint()) says why.
    Damaged {
        /// The number of the line, from 1.
        line: usize,
        /// The number of the column, from 1. A column counts characters.
        column: usize,
    },
    /// A carriage return isn't part of CR LF.
    CarriageReturn,
    /// What would be written isn't read as the same messages.
    NotTidy,
    /// Memory was refused, or the source nests too deep for 1.5 MB of the machine's stack.
    OutOfMemory,
}

impl fmt::Display for TidyError {
    fn fmt(&self, f: &mut fmt::Formatter<'_>) -> fmt::Result {
        match self {
            TidyError::Damaged { line, column } => write!(f, "line {line}, column {column}: it can't be read there"),
            TidyError::CarriageReturn => f.write_str("a carriage return ends no line"),
            TidyError::NotTidy => f.write_str("what would be written isn't read as the same messages"),
            TidyError::OutOfMemory => f.write_str("the source nests too deep, or memory ran out"),
        }
    }
}

impl Error for TidyError {}

/// The tidy text of a source, as a formatter writes it: it has the same messages, terms and comments.
///
/// A byte order mark is left out, and lines end in LF.
///
/// ```
/// use kozhvadi::{tidy, TidyError};
///
/// assert_eq!(tidy("hi   =Hallo, {$name}!\n\n\n\nbye= Bis bald.")?, "hi = Hallo, { $name }!\n\nbye = Bis bald.\n");
/// assert_eq!(tidy("hi = Hallo\nbye\n"), Err(TidyError::Damaged { line: 2, column: 4 }));
/// # Ok::<(), TidyError>(())
/// ```
///
/// # Errors
/// [`TidyError`] says which there are.
pub fn tidy(source: &str) -> Result<String, TidyError> {
    let mut text = Text::none();
    let mut place = c::FluentPlace { line: 0, column: 0 };
    // SAFETY: the pointer is that of a slice of the length next to it.
    let answered = unsafe { c::fluent_tidy(source.as_ptr(), source.len(), text.place(), &mut place) };
    match answered {
        c::FLUENT_READ => Ok(text.as_str().to_owned()),
        c::FLUENT_DAMAGED => Err(TidyError::Damaged { line: place.line, column: place.column }),
        c::FLUENT_CARRIAGE_RETURN => Err(TidyError::CarriageReturn),
        c::FLUENT_NOT_TIDY => Err(TidyError::NotTidy),
        _ => Err(TidyError::OutOfMemory),
    }
}
