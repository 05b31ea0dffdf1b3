//! Writes trees as sources, with the names of `fluent_syntax::serializer`.
//!
//! A tree may be that of a resource, or one that a program made or changed. The library writes it: it is given the tree as
//! JSON.
//!
//! ```
//! use kozhvadi::ast::{Entry, Identifier, Message, Pattern, PatternElement};
//! use kozhvadi::serializer::serialize;
//!
//! let value = Pattern { elements: vec![PatternElement::TextElement { value: "Hello!" }] };
//! let id = Identifier { name: "hello" };
//! let hello = Entry::Message(Message { id, value: Some(value), attributes: vec![], comment: None });
//! assert_eq!(serialize(&[hello])?, "hello = Hello!\n");
//! # Ok::<(), kozhvadi::serializer::SerializeError>(())
//! ```

use crate::ast::{
    Attribute, CallArguments, Comment, Entry, Expression, Identifier, InlineExpression, NamedArgument, Pattern,
    PatternElement, Variant, VariantKey,
};
use crate::c;
use crate::text::Text;
use std::error::Error;
use std::fmt::{self, Write};

/// What is written of a tree.
#[derive(Clone, Copy, Debug, Default, PartialEq, Eq)]
pub struct Options {
    /// Whether junk is written, as it is. Without it, it is left out.
    pub with_junk: bool,
}

/// Why a tree isn't written.
#[derive(Clone, Copy, Debug, PartialEq, Eq)]
pub enum SerializeError {
    /// Its placeables, selects and calls nest too deep: its JSON would be nested more than 127 deep.
    TooDeep,
    /// Memory was refused.
    OutOfMemory,
}

impl fmt::Display for SerializeError {
    fn fmt(&self, f: &mut fmt::Formatter<'_>) -> fmt::Result {
        f.write_str(match self {
            SerializeError::TooDeep => "the tree nests too deep",
            SerializeError::OutOfMemory => "memory ran out",
        })
    }
}

impl Error for SerializeError {}

/// The source that is written of entries, without their junk.
///
/// Names and texts are written as they are, so what is written of a tree that no source has may be read as another.
///
/// # Errors
/// [`SerializeError`] says which there are.
pub fn serialize<'t, S, T>(entries: T) -> Result<String, SerializeError>
where
    S: AsRef<str> + 't,
    T: IntoIterator<Item = &'t Entry<S>>,
{
    serialize_with_options(entries, Options::default())
}

/// The source that is written of entries, by the options.
///
/// # Errors
/// Those of [`serialize`].
pub fn serialize_with_options<'t, S, T>(entries: T, options: Options) -> Result<String, SerializeError>
where
    S: AsRef<str> + 't,
    T: IntoIterator<Item = &'t Entry<S>>,
{
    let mut json = Json::default();
    json.begin("Resource");
    json.key("syntax").text("2");
    json.key("body").array(entries, entry);
    json.end();
    let mut written = Text::none();
    // SAFETY: the pointer is that of a slice of the length next to it.
    match unsafe { c::fluent_write_tree(json.0.as_ptr(), json.0.len(), options.with_junk, written.place()) } {
        c::FLUENT_READ => Ok(written.as_str().to_owned()),
        c::FLUENT_NO_MEMORY => Err(SerializeError::OutOfMemory),
        _ => Err(SerializeError::TooDeep),
    }
}

/// A JSON text up to some place.
#[derive(Default)]
struct Json(String);

impl Json {
    /// Begins the object of a node of this kind.
    fn begin(&mut self, kind: &str) {
        self.0.push_str("{\"type\":");
        self.text(kind);
    }

    /// Begins a member of the object. Its value comes next.
    fn key(&mut self, name: &str) -> &mut Json {
        self.0.push(',');
        self.text(name);
        self.0.push(':');
        self
    }

    fn end(&mut self) {
        self.0.push('}');
    }

    fn text(&mut self, text: &str) {
        self.0.push('"');
        for letter in text.chars() {
            match letter {
                '"' | '\\' => self.0.extend(['\\', letter]),
                '\0'..='\x1f' => {
                    let _ = write!(self.0, "\\u{:04x}", u32::from(letter));
                }
                _ => self.0.push(letter),
            }
        }
        self.0.push('"');
    }

    fn array<T>(&mut self, items: impl IntoIterator<Item = T>, write: impl Fn(&mut Json, T)) {
        self.0.push('[');
        for (index, item) in items.into_iter().enumerate() {
            if index > 0 {
                self.0.push(',');
            }
            write(self, item);
        }
        self.0.push(']');
    }

    fn optional<T>(&mut self, value: Option<T>, write: impl Fn(&mut Json, T)) {
        match value {
            Some(value) => write(self, value),
            None => self.0.push_str("null"),
        }
    }

    /// A node of this kind that has one text.
    fn leaf<S: AsRef<str>>(&mut self, kind: &str, name: &str, text: &S) {
        self.begin(kind);
        self.key(name).text(text.as_ref());
        self.end();
    }
}

fn entry<S: AsRef<str>>(json: &mut Json, entry: &Entry<S>) {
    match entry {
        Entry::Message(message) => {
            json.begin("Message");
            json.key("value").optional(message.value.as_ref(), pattern);
            named_entry(json, &message.id, &message.attributes, message.comment.as_ref());
        }
        Entry::Term(term) => {
            json.begin("Term");
            pattern(json.key("value"), &term.value);
            named_entry(json, &term.id, &term.attributes, term.comment.as_ref());
        }
        Entry::Comment(lines) => comment(json, "Comment", lines),
        Entry::GroupComment(lines) => comment(json, "GroupComment", lines),
        Entry::ResourceComment(lines) => comment(json, "ResourceComment", lines),
        Entry::Junk { content } => json.leaf("Junk", "content", content),
    }
}

/// What a message and a term have besides a value, and the end.
fn named_entry<S: AsRef<str>>(
    json: &mut Json,
    id: &Identifier<S>,
    attributes: &[Attribute<S>],
    above: Option<&Comment<S>>,
) {
    identifier(json.key("id"), id);
    json.key("attributes").array(attributes, attribute);
    json.key("comment").optional(above, |json, lines| comment(json, "Comment", lines));
    json.end();
}

fn comment<S: AsRef<str>>(json: &mut Json, kind: &str, comment: &Comment<S>) {
    json.begin(kind);
    json.key("content").array(&comment.content, |json, line| json.text(line.as_ref()));
    json.end();
}

fn identifier<S: AsRef<str>>(json: &mut Json, identifier: &Identifier<S>) {
    json.leaf("Identifier", "name", &identifier.name);
}

fn attribute<S: AsRef<str>>(json: &mut Json, attribute: &Attribute<S>) {
    json.begin("Attribute");
    identifier(json.key("id"), &attribute.id);
    pattern(json.key("value"), &attribute.value);
    json.end();
}

fn pattern<S: AsRef<str>>(json: &mut Json, pattern: &Pattern<S>) {
    json.begin("Pattern");
    json.key("elements").array(&pattern.elements, |json, element| match element {
        PatternElement::TextElement { value } => json.leaf("TextElement", "value", value),
        PatternElement::Placeable { expression } => placeable(json, expression),
    });
    json.end();
}

fn placeable<S: AsRef<str>>(json: &mut Json, inside: &Expression<S>) {
    json.begin("Placeable");
    expression(json.key("expression"), inside);
    json.end();
}

fn expression<S: AsRef<str>>(json: &mut Json, expression: &Expression<S>) {
    match expression {
        Expression::Select { selector, variants } => {
            json.begin("Select");
            inline(json.key("selector"), selector);
            json.key("variants").array(variants, variant);
            json.end();
        }
        Expression::Inline(expression) => inline(json, expression),
    }
}

fn variant<S: AsRef<str>>(json: &mut Json, variant: &Variant<S>) {
    json.begin("Variant");
    match &variant.key {
        VariantKey::Identifier { name } => json.key("key").leaf("Identifier", "name", name),
        VariantKey::NumberLiteral { value } => json.key("key").leaf("NumberLiteral", "value", value),
    }
    pattern(json.key("value"), &variant.value);
    json.key("default").0.push_str(if variant.default { "true" } else { "false" });
    json.end();
}

fn inline<S: AsRef<str>>(json: &mut Json, expression: &InlineExpression<S>) {
    match expression {
        InlineExpression::StringLiteral { value } => json.leaf("StringLiteral", "value", value),
        InlineExpression::NumberLiteral { value } => json.leaf("NumberLiteral", "value", value),
        InlineExpression::Placeable { expression } => placeable(json, expression),
        InlineExpression::FunctionReference { id, arguments: given } => {
            json.begin("FunctionReference");
            arguments(json.key("arguments"), given);
            named_end(json, id);
        }
        InlineExpression::MessageReference { id, attribute } => {
            json.begin("MessageReference");
            json.key("attribute").optional(attribute.as_ref(), identifier);
            named_end(json, id);
        }
        InlineExpression::TermReference { id, attribute, arguments: given } => {
            json.begin("TermReference");
            json.key("attribute").optional(attribute.as_ref(), identifier);
            json.key("arguments").optional(given.as_ref(), arguments);
            named_end(json, id);
        }
        InlineExpression::VariableReference { id } => {
            json.begin("VariableReference");
            named_end(json, id);
        }
    }
}

/// The id of a reference, and the end.
fn named_end<S: AsRef<str>>(json: &mut Json, id: &Identifier<S>) {
    identifier(json.key("id"), id);
    json.end();
}

fn arguments<S: AsRef<str>>(json: &mut Json, arguments: &CallArguments<S>) {
    json.begin("CallArguments");
    json.key("positional").array(&arguments.positional, inline);
    json.key("named").array(&arguments.named, named_argument);
    json.end();
}

fn named_argument<S: AsRef<str>>(json: &mut Json, argument: &NamedArgument<S>) {
    json.begin("NamedArgument");
    identifier(json.key("name"), &argument.name);
    inline(json.key("value"), &argument.value);
    json.end();
}
