//! The trees of resources.

use kozhvadi::ast::{Entry, Expression, InlineExpression, PatternElement, VariantKey};
use kozhvadi::visit::{visit_inline, Visit};
use kozhvadi::FluentResource;

/// The resource of a source, which may have errors.
fn resource(source: &str) -> FluentResource {
    FluentResource::try_new(source.into()).unwrap_or_else(|(resource, _)| resource)
}

/// What an entry is, and its id or its text.
fn named<'e>(entry: &'e Entry<&str>) -> (&'static str, &'e str) {
    match entry {
        Entry::Message(message) => ("message", message.id.name),
        Entry::Term(term) => ("term", term.id.name),
        Entry::Junk { content } => ("junk", content),
        _ => ("comment", ""),
    }
}

#[test]
fn entries_are_messages_terms_and_junk() {
    let resource = resource("# c\na = 1\n-t = 2\n    .gender = x\nb\n\n#bad\nc =\n    .title = T\n");
    let found: Vec<_> = resource.entries().map(named).collect();
    assert_eq!(found, [("message", "a"), ("term", "t"), ("junk", "b\n\n"), ("message", "c")]);
    assert_eq!(resource.get_entry(1).map(named), Some(("term", "t")));
    assert!(resource.get_entry(4).is_none());
    let Some(Entry::Message(message)) = resource.get_entry(3) else { panic!("it is a message") };
    assert!(message.value.is_none() && message.comment.is_none());
    assert_eq!(message.attributes[0].id.name, "title");
}

#[test]
fn texts_are_where_the_source_has_them() {
    let resource = resource("a = One\n    two { $x }\n");
    let Some(Entry::Message(message)) = resource.entries().next() else { panic!("it is a message") };
    let elements = &message.value.as_ref().expect("it has a value").elements;
    let text = |value| PatternElement::TextElement { value };
    assert_eq!(elements[..2], [text("One\n"), text("two ")]);
    let source = resource.source();
    let PatternElement::TextElement { value } = &elements[1] else { panic!("it is a text") };
    assert_eq!(value.as_ptr(), source[source.find("two").expect("it is there")..].as_ptr());
}

#[test]
fn selects_have_variants() {
    let resource = resource("a = { $n ->\n    [1] one\n   *[other] { -t(case: \"of\") }\n}\n");
    let Some(Entry::Message(message)) = resource.get_entry(0) else { panic!("it is a message") };
    let [PatternElement::Placeable { expression: Expression::Select { selector, variants } }] =
        &message.value.as_ref().expect("it has a value").elements[..]
    else {
        panic!("it is a select")
    };
    assert!(matches!(selector, InlineExpression::VariableReference { id } if id.name == "n"));
    assert_eq!(variants[0].key, VariantKey::NumberLiteral { value: "1" });
    assert_eq!(variants[1].key, VariantKey::Identifier { name: "other" });
    assert!(variants[1].default && !variants[0].default);
    let [PatternElement::Placeable { expression: Expression::Inline(reference) }] = &variants[1].value.elements[..]
    else {
        panic!("it is a placeable")
    };
    let InlineExpression::TermReference { id, attribute: None, arguments: Some(arguments) } = reference else {
        panic!("it is a term")
    };
    assert_eq!((id.name, arguments.named[0].name.name), ("t", "case"));
    assert_eq!(arguments.named[0].value, InlineExpression::StringLiteral { value: "of" });
}

/// The texts of patterns, and the literals.
#[derive(Default)]
struct Texts<'s>(Vec<&'s str>);

impl<'s> Visit<&'s str> for Texts<'s> {
    fn visit_text(&mut self, text: &&'s str) {
        self.0.push(text);
    }

    fn visit_inline(&mut self, expression: &InlineExpression<&'s str>) {
        if let InlineExpression::StringLiteral { value } | InlineExpression::NumberLiteral { value } = expression {
            self.0.push(value);
        }
        visit_inline(self, expression);
    }
}

#[test]
fn a_walk_visits_each_node_in_order() {
    let source =
        "a = 1{ $n ->\n    [x] 2{ F(3, 4, k: 5) }\n   *[y] { -t(k: \"6\") }7\n}8\n  .b = { { \"9\" } }\n-t = 10\n";
    let resource = resource(source);
    let mut texts = Texts::default();
    resource.entries().for_each(|entry| texts.visit_entry(entry));
    assert_eq!(texts.0, ["1", "2", "3", "4", "5", "6", "7", "8", "9", "10"]);
}

#[test]
fn a_copy_has_a_tree_of_its_own() {
    let first = resource("a = b\n");
    assert_eq!(first.entries().count(), 1);
    let second = first.clone();
    drop(first);
    let moved = Box::new(second);
    assert_eq!(moved.entries().map(named).collect::<Vec<_>>(), [("message", "a")]);
    assert_eq!(*moved, resource("a = b\n"));
    let asked = std::thread::scope(|scope| {
        let threads: Vec<_> = (0..4).map(|_| scope.spawn(|| moved.entries().count())).collect();
        threads.into_iter().map(|thread| thread.join().expect("it ends well")).sum::<usize>()
    });
    assert_eq!(asked, 4);
}

#[test]
fn deep_sources_are_read_or_refused() {
    for depth in [100, 1_000, 1_400, 20_000] {
        let source = format!("a = {}1{}\n", "{".repeat(depth), "}".repeat(depth));
        let thread = std::thread::Builder::new().stack_size(2 << 20).spawn(move || resource(&source).entries().count());
        assert!(thread.expect("it begins").join().expect("it ends well") <= 1);
    }
}
