//! Measures the Rust crate `fluent-syntax` as the benchmark measures this library.

use crate::json;
use crate::ours::Counts;
use crate::Call;
use fluent_syntax::ast::{Entry, Resource};
use fluent_syntax::parser;
use fluent_syntax::serializer::{serialize, serialize_with_options, Options};

/// The tree of a source, and how many errors it has.
fn read(call: Call, text: &[u8]) -> (Resource<&str>, usize) {
    let text = std::str::from_utf8(text).expect("a text in UTF-8");
    let read = match call {
        Call::Parse => parser::parse(text),
        Call::ParseRuntime => parser::parse_runtime(text),
    };
    match read {
        Ok(resource) => (resource, 0),
        Err((resource, errors)) => (resource, errors.len()),
    }
}

pub fn counts(call: Call, text: &[u8]) -> Counts {
    let (resource, errors) = read(call, text);
    let mut counts = Counts {
        errors,
        ..Counts::default()
    };
    for entry in &resource.body {
        match entry {
            Entry::Message(_) => counts.messages += 1,
            Entry::Term(_) => counts.terms += 1,
            Entry::Comment(_) | Entry::GroupComment(_) | Entry::ResourceComment(_) => {
                counts.comments += 1
            }
            Entry::Junk { .. } => counts.junk += 1,
        }
    }
    counts
}

/// The text that a source's tree is written as.
pub fn written(text: &[u8], with_junk: bool) -> Vec<u8> {
    let (resource, _) = read(Call::Parse, text);
    serialize_with_options(&resource, Options { with_junk }).into_bytes()
}

/// The JSON text of a source's tree.
pub fn json(text: &[u8]) -> Vec<u8> {
    let (resource, _) = read(Call::Parse, text);
    json::of(&resource).into_bytes()
}

/// Reads a source and writes its tree, without junk. Gives the length of the written text.
pub fn written_len(text: &[u8]) -> usize {
    let (resource, _) = read(Call::Parse, text);
    serialize(&resource).len()
}
