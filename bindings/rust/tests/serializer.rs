//! Trees that are written as sources.

use kozhvadi::ast::{
    Comment, Entry, Expression, Identifier, InlineExpression, Message, Pattern, PatternElement, Variant, VariantKey,
};
use kozhvadi::serializer::{serialize, serialize_with_options, Options, SerializeError};
use kozhvadi::FluentResource;

/// The resource of a source, which may have errors.
fn resource(source: &str) -> FluentResource {
    FluentResource::try_new(source.into()).unwrap_or_else(|(resource, _)| resource)
}

fn showing<S>(name: S, elements: Vec<PatternElement<S>>) -> Entry<S> {
    let value = Some(Pattern { elements });
    Entry::Message(Message { id: Identifier { name }, value, attributes: vec![], comment: None })
}

#[test]
fn trees_of_resources_are_written() {
    // Each is written as it is.
    for source in [
        "",
        "a = b\n",
        "-t = { 1.5 }\n    .gender = none\n",
        "a =\n    .b = \"c\\\n    .d =\n        e\n        f\n\n        g\n",
        "a =\n    x \u{e9}\u{1d11e}\t{ $x }\n      b\n",
        "a = { \"x\\\"\\u00e9\" } { -t(case: \"of\", n: 1) } { F($a, 2, m.b, {\"n\"}, k: 3) } { m.c } {{ $x }}\n",
        "a =\n    { $x ->\n        [one] One\n       *[1.0]\n            Other { $y ->\n               *[o] in\n            }\n    } after\n",
        "a =\n    { m.b ->\n       *[c] d\n    }\n",
        "a =\n    { -t.g ->\n       *[c] d\n    }\n",
    ] {
        assert_eq!(serialize(resource(source).entries()), Ok(source.to_owned()), "{source:?}");
    }
    assert_eq!(serialize(resource("a={$b}\n\n#c\n\n-d  =  e").entries()), Ok("a = { $b }\n-d = e\n".to_owned()));
}

#[test]
fn junk_is_written_if_it_is_asked_for() {
    let resource = resource("a = 1\n!\nb = 2\n");
    assert_eq!(serialize(resource.entries()), Ok("a = 1\nb = 2\n".to_owned()));
    let with_junk = serialize_with_options(resource.entries(), Options { with_junk: true });
    assert_eq!(with_junk, Ok("a = 1\n!\nb = 2\n".to_owned()));
}

#[test]
fn trees_are_made_by_hand() {
    let text = |value: &str| PatternElement::TextElement { value: value.to_owned() };
    let comment = |lines: &[&str]| Comment { content: lines.iter().map(|line| (*line).to_owned()).collect() };
    let mut entries = vec![Entry::ResourceComment(comment(&["All"])), Entry::GroupComment(comment(&["Some", ""]))];
    entries.push(showing("a".to_owned(), vec![text("One\n"), text("two")]));
    entries.push(Entry::Comment(comment(&["Alone"])));
    assert_eq!(serialize(&entries), Ok("### All\n\n\n## Some\n##\n\na =\n    One\n    two\n\n# Alone\n\n".to_owned()));
    let Entry::Message(message) = &mut entries[2] else { panic!("it is a message") };
    message.comment = Some(comment(&["Its own"]));
    message.value = None;
    assert_eq!(serialize(&entries[2..3]), Ok("# Its own\na =\n".to_owned()));
    // Names and texts are written as they are.
    assert_eq!(serialize(&[showing("1\u{7}".to_owned(), vec![text("{\"\\")])]), Ok("1\u{7} = {\"\\\n".to_owned()));
}

/// A placeable in this number of others.
fn nested(levels: usize) -> Entry<&'static str> {
    let mut inside = Expression::Inline(InlineExpression::StringLiteral { value: "x" });
    for _ in 0..levels {
        inside = Expression::Inline(InlineExpression::Placeable { expression: Box::new(inside) });
    }
    showing("a", vec![PatternElement::Placeable { expression: inside }])
}

#[test]
fn trees_that_nest_too_deep_are_refused() {
    // The tree, its body, the message, the pattern, its elements, the first placeable and the literal are seven levels.
    assert!(serialize(&[nested(120)]).is_ok());
    assert_eq!(serialize(&[nested(121)]), Err(SerializeError::TooDeep));
    assert_eq!(SerializeError::TooDeep.to_string(), "the tree nests too deep");
}

#[test]
fn trees_are_changed() {
    let resource = resource("n = { $n ->\n    [one] One\n   *[other] Many\n}\n");
    let mut entries: Vec<_> = resource.entries().cloned().collect();
    let Entry::Message(message) = &mut entries[0] else { panic!("it is a message") };
    let elements = &mut message.value.as_mut().expect("it has a value").elements;
    let PatternElement::Placeable { expression: Expression::Select { variants, .. } } = &mut elements[0] else {
        panic!("it is a select")
    };
    let Variant { value, .. } = variants[0].clone();
    variants.insert(1, Variant { key: VariantKey::Identifier { name: "few" }, value, default: false });
    let written = "n =\n    { $n ->\n        [one] One\n        [few] One\n       *[other] Many\n    }\n";
    assert_eq!(serialize(&entries), Ok(written.to_owned()));
}
