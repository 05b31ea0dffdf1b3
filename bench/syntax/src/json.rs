//! The JSON text of a tree of the Rust crate, as `docs/reference/json.md` has it: compact, the keys of each object in
//! the order of their bytes.

use fluent_syntax::ast::{
    Attribute, CallArguments, Comment, Entry, Expression, Identifier, InlineExpression,
    NamedArgument, Pattern, PatternElement, Resource, Variant, VariantKey,
};

/// The JSON text of a tree.
pub fn of(resource: &Resource<&str>) -> String {
    let body = list(&resource.body, entry);
    format!(r#"{{"body":{body},"syntax":"2","type":"Resource"}}"#)
}

/// The entries in the JSON text of a tree, in their order, but for junk.
pub fn kept_entries(json: &str) -> Vec<&str> {
    let mut entries = Vec::new();
    let (mut depth, mut start, mut quoted, mut escaped) = (0, 0, false, false);
    for (index, byte) in json.bytes().enumerate() {
        match byte {
            _ if escaped => escaped = false,
            b'\\' if quoted => escaped = true,
            b'"' => quoted = !quoted,
            _ if quoted => {}
            b'{' | b'[' => {
                depth += 1;
                // The tree, its body, an entry.
                if depth == 3 {
                    start = index;
                }
            }
            b'}' | b']' => {
                if depth == 3 {
                    entries.push(&json[start..=index]);
                }
                depth -= 1;
            }
            _ => {}
        }
    }
    entries.retain(|entry| !entry.ends_with(r#","type":"Junk"}"#));
    entries
}

fn string(text: &str) -> String {
    let mut quoted = String::from("\"");
    for character in text.chars() {
        match character {
            '"' => quoted.push_str("\\\""),
            '\\' => quoted.push_str("\\\\"),
            '\u{8}' => quoted.push_str("\\b"),
            '\u{c}' => quoted.push_str("\\f"),
            '\n' => quoted.push_str("\\n"),
            '\r' => quoted.push_str("\\r"),
            '\t' => quoted.push_str("\\t"),
            '\0'..='\u{1f}' => quoted.push_str(&format!("\\u{:04x}", u32::from(character))),
            _ => quoted.push(character),
        }
    }
    quoted.push('"');
    quoted
}

fn list<T>(parts: &[T], json: impl Fn(&T) -> String) -> String {
    let parts: Vec<String> = parts.iter().map(json).collect();
    format!("[{}]", parts.join(","))
}

fn or_null<T>(part: &Option<T>, json: impl Fn(&T) -> String) -> String {
    part.as_ref().map_or("null".to_owned(), json)
}

fn entry(entry: &Entry<&str>) -> String {
    match entry {
        Entry::Message(message) => format!(
            r#"{{"attributes":{},"comment":{},"id":{},"type":"Message","value":{}}}"#,
            list(&message.attributes, attribute),
            or_null(&message.comment, |lines| comment(lines, "Comment")),
            identifier(&message.id),
            or_null(&message.value, pattern)
        ),
        Entry::Term(term) => format!(
            r#"{{"attributes":{},"comment":{},"id":{},"type":"Term","value":{}}}"#,
            list(&term.attributes, attribute),
            or_null(&term.comment, |lines| comment(lines, "Comment")),
            identifier(&term.id),
            pattern(&term.value)
        ),
        Entry::Comment(lines) => comment(lines, "Comment"),
        Entry::GroupComment(lines) => comment(lines, "GroupComment"),
        Entry::ResourceComment(lines) => comment(lines, "ResourceComment"),
        Entry::Junk { content } => {
            format!(r#"{{"content":{},"type":"Junk"}}"#, string(content))
        }
    }
}

fn comment(comment: &Comment<&str>, kind: &str) -> String {
    let lines = list(&comment.content, |line| string(line));
    format!(r#"{{"content":{lines},"type":"{kind}"}}"#)
}

fn identifier(id: &Identifier<&str>) -> String {
    format!(r#"{{"name":{},"type":"Identifier"}}"#, string(id.name))
}

/// A node with a text and no other part.
fn valued(kind: &str, value: &str) -> String {
    format!(r#"{{"type":"{kind}","value":{}}}"#, string(value))
}

fn attribute(attribute: &Attribute<&str>) -> String {
    format!(
        r#"{{"id":{},"type":"Attribute","value":{}}}"#,
        identifier(&attribute.id),
        pattern(&attribute.value)
    )
}

fn pattern(pattern: &Pattern<&str>) -> String {
    let elements = list(&pattern.elements, element);
    format!(r#"{{"elements":{elements},"type":"Pattern"}}"#)
}

fn element(element: &PatternElement<&str>) -> String {
    match element {
        PatternElement::TextElement { value } => valued("TextElement", value),
        PatternElement::Placeable { expression } => placeable(expression),
    }
}

fn placeable(inner: &Expression<&str>) -> String {
    let inner = expression(inner);
    format!(r#"{{"expression":{inner},"type":"Placeable"}}"#)
}

fn expression(expression: &Expression<&str>) -> String {
    match expression {
        Expression::Select { selector, variants } => format!(
            r#"{{"selector":{},"type":"Select","variants":{}}}"#,
            inline(selector),
            list(variants, variant)
        ),
        Expression::Inline(expression) => inline(expression),
    }
}

fn variant(variant: &Variant<&str>) -> String {
    let key = match &variant.key {
        VariantKey::Identifier { name } => identifier(&Identifier { name: *name }),
        VariantKey::NumberLiteral { value } => valued("NumberLiteral", value),
    };
    format!(
        r#"{{"default":{},"key":{key},"type":"Variant","value":{}}}"#,
        variant.default,
        pattern(&variant.value)
    )
}

fn inline(inline: &InlineExpression<&str>) -> String {
    match inline {
        InlineExpression::StringLiteral { value } => valued("StringLiteral", value),
        InlineExpression::NumberLiteral { value } => valued("NumberLiteral", value),
        InlineExpression::FunctionReference { id, arguments } => format!(
            r#"{{"arguments":{},"id":{},"type":"FunctionReference"}}"#,
            call_arguments(arguments),
            identifier(id)
        ),
        InlineExpression::MessageReference { id, attribute } => format!(
            r#"{{"attribute":{},"id":{},"type":"MessageReference"}}"#,
            or_null(attribute, identifier),
            identifier(id)
        ),
        InlineExpression::TermReference {
            id,
            attribute,
            arguments,
        } => format!(
            r#"{{"arguments":{},"attribute":{},"id":{},"type":"TermReference"}}"#,
            or_null(arguments, call_arguments),
            or_null(attribute, identifier),
            identifier(id)
        ),
        InlineExpression::VariableReference { id } => {
            format!(r#"{{"id":{},"type":"VariableReference"}}"#, identifier(id))
        }
        InlineExpression::Placeable { expression } => placeable(expression),
    }
}

fn call_arguments(arguments: &CallArguments<&str>) -> String {
    format!(
        r#"{{"named":{},"positional":{},"type":"CallArguments"}}"#,
        list(&arguments.named, named_argument),
        list(&arguments.positional, inline)
    )
}

fn named_argument(argument: &NamedArgument<&str>) -> String {
    format!(
        r#"{{"name":{},"type":"NamedArgument","value":{}}}"#,
        identifier(&argument.name),
        inline(&argument.value)
    )
}
