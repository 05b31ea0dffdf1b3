//! Where the symbols of a source are.

use crate::c;
use crate::report::Object;
use crate::text::Text;
use std::error::Error;
use std::fmt;
use std::ops::Range;

/// What a name stands for.
#[derive(Clone, Copy, Debug, PartialEq, Eq, Hash)]
pub enum SymbolKind {
    /// A message.
    Message,
    /// A term.
    Term,
    /// An attribute of a message or a term.
    Attribute,
    /// A variable of a message or a term.
    Variable,
    /// A function.
    Function,
}

/// What a name stands for in a source. It is shown as a source has it: `-brand`, `login.title`, `$name`.
#[derive(Clone, Debug, PartialEq, Eq, Hash)]
pub struct Symbol {
    /// What it is.
    pub kind: SymbolKind,
    /// Its name, without the `-` of a term and the `$` of a variable.
    pub name: String,
    /// The id of the message or the term that an attribute or a variable belongs to, a term's with its `-`.
    pub owner: Option<String>,
}

impl fmt::Display for Symbol {
    fn fmt(&self, f: &mut fmt::Formatter<'_>) -> fmt::Result {
        match (self.kind, &self.owner) {
            (SymbolKind::Term, _) => write!(f, "-{}", self.name),
            (SymbolKind::Variable, _) => write!(f, "${}", self.name),
            (SymbolKind::Attribute, Some(owner)) => write!(f, "{owner}.{}", self.name),
            _ => f.write_str(&self.name),
        }
    }
}

/// A place in a source that names a symbol.
#[derive(Clone, Debug, PartialEq, Eq)]
pub struct Occurrence {
    /// What is named.
    pub symbol: Symbol,
    /// The bytes of the source that are the name, without the `-` of a term and the `$` of a variable.
    pub place: Range<usize>,
    /// Whether the symbol is defined there, and not referred to.
    pub is_definition: bool,
}

/// Why there are no occurrences: memory was refused, or the source nests too deep for 1.5 MB of the machine's stack.
#[derive(Clone, Copy, Debug, PartialEq, Eq)]
pub struct OutOfMemory;

impl fmt::Display for OutOfMemory {
    fn fmt(&self, f: &mut fmt::Formatter<'_>) -> fmt::Result {
        f.write_str("the source nests too deep, or memory ran out")
    }
}

impl Error for OutOfMemory {}

/// Where the messages, terms, attributes, variables and functions of a source are defined and referred to, in the order of
/// their places. A stretch that can't be read has none.
///
/// ```
/// use kozhvadi::occurrences;
///
/// let source = "hi = Hello, { $name } of { -brand }!\n";
/// let found = occurrences(source)?;
/// let shown: Vec<String> = found.iter().map(|each| each.symbol.to_string()).collect();
/// assert_eq!(shown, ["hi", "$name", "-brand"]);
/// assert_eq!(&source[found[1].place.clone()], "name");
/// assert!(found[0].is_definition);
/// # Ok::<(), kozhvadi::OutOfMemory>(())
/// ```
///
/// # Errors
/// [`OutOfMemory`].
pub fn occurrences(source: &str) -> Result<Vec<Occurrence>, OutOfMemory> {
    let mut text = Text::none();
    // SAFETY: the pointer is that of a slice of the length next to it.
    let answered = unsafe { c::fluent_occurrences(source.as_ptr(), source.len(), text.place()) };
    match answered {
        c::FLUENT_READ => Ok(text.as_str().lines().filter_map(occurrence_of).collect()),
        _ => Err(OutOfMemory),
    }
}

/// The occurrence that a line is. The library writes no other line.
fn occurrence_of(line: &str) -> Option<Occurrence> {
    let mut object = Object::of(line)?;
    let kind = match object.text("kind")?.as_str() {
        "message" => SymbolKind::Message,
        "term" => SymbolKind::Term,
        "attribute" => SymbolKind::Attribute,
        "variable" => SymbolKind::Variable,
        _ => SymbolKind::Function,
    };
    Some(Occurrence {
        symbol: Symbol { kind, name: object.text("name")?, owner: object.text("owner") },
        place: object.number("start")?..object.number("end")?,
        is_definition: object.is_true("definition"),
    })
}
