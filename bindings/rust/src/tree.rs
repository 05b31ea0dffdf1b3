//! The trees of resources.
//!
//! The library reads a source, and lists the nodes of its tree with their places. Here they are put together; each text is
//! the slice of the source at its place, so none is copied.

use crate::ast::{
    Attribute, CallArguments, Entry, Expression, Identifier, InlineExpression, Message, NamedArgument, Pattern,
    PatternElement, Term, Variant, VariantKey,
};
use crate::c;
use crate::resource::{with_empty_comments, FluentResource};
use crate::text::Text;
use std::sync::OnceLock;
use std::vec;

/// The tree of a resource, which is made when it is first asked for.
///
/// Its texts are slices of the resource's source, which never changes and is at one place in memory as long as the
/// resource lives.
#[derive(Default)]
pub(crate) struct Tree(OnceLock<Vec<Entry<&'static str>>>);

// A copy of a resource has a source of its own, so it makes its own tree.
impl Clone for Tree {
    fn clone(&self) -> Self {
        Tree::default()
    }
}

// Resources of one source have one tree.
impl PartialEq for Tree {
    fn eq(&self, _other: &Self) -> bool {
        true
    }
}

impl Eq for Tree {}

impl FluentResource {
    /// The messages and terms of the source and the stretches that can't be read, in their order. Their texts are slices of
    /// the source. The first call makes the tree, which the resource keeps.
    ///
    /// ```
    /// use kozhvadi::ast::{Entry, PatternElement};
    /// use kozhvadi::FluentResource;
    ///
    /// let resource = FluentResource::try_new("hello = Hello, { $name }!\n".into()).expect("The source has an error.");
    /// for entry in resource.entries() {
    ///     if let Entry::Message(message) = entry {
    ///         let elements = &message.value.as_ref().expect("The message has no value.").elements;
    ///         assert_eq!(message.id.name, "hello");
    ///         assert_eq!(elements[0], PatternElement::TextElement { value: "Hello, " });
    ///     }
    /// }
    /// ```
    pub fn entries(&self) -> impl Iterator<Item = &Entry<&str>> {
        self.tree_entries().iter()
    }

    /// The entry of this index, from 0, or `None` if there are fewer.
    pub fn get_entry(&self, index: usize) -> Option<&Entry<&str>> {
        self.tree_entries().get(index)
    }

    fn tree_entries(&self) -> &[Entry<&str>] {
        self.tree().0.get_or_init(|| {
            let source: &str = self.readable();
            // SAFETY: the slices are lent no longer than `self`: this call shortens their lifetime to that of the resource,
            // whose source nobody changes. What is dropped with the resource are lists, which don't look at the slices.
            let source: &'static str = unsafe { &*(source as *const str) };
            entries_of(source)
        })
    }
}

/// The entries of a source, without its comments. There are none if it nests too deep.
fn entries_of(source: &str) -> Vec<Entry<&str>> {
    // Blanks in the place of the texts of comments leave all places as they are.
    let lines = node_lines(&with_empty_comments(source));
    let mut nodes = Nodes { source, made: Vec::new() };
    let all: Option<()> = lines.as_str().lines().try_for_each(|line| nodes.add(line));
    debug_assert!(all.is_some(), "the library writes no other lines");
    let entries = nodes.made.into_iter().filter_map(|(_, node)| match node {
        Node::Entry(entry) => Some(entry),
        _ => None,
    });
    entries.collect()
}

/// The lines of the nodes of a source, which are none if it nests too deep.
fn node_lines(source: &str) -> Text {
    let mut lines = Text::none();
    // SAFETY: the pointer is that of a slice of the length next to it.
    unsafe { c::fluent_nodes(source.as_ptr(), source.len(), lines.place()) };
    lines
}

/// A node that is in no other so far.
enum Node<'s> {
    Name(&'s str),
    Element(PatternElement<&'s str>),
    Inline(InlineExpression<&'s str>),
    Select(Expression<&'s str>),
    Arguments(CallArguments<&'s str>),
    Named(NamedArgument<&'s str>),
    Variant(Variant<&'s str>),
    Pattern(Pattern<&'s str>),
    Attribute(Attribute<&'s str>),
    Comment,
    Entry(Entry<&'s str>),
}

/// The nodes of a source up to a line, each with the place where it begins.
struct Nodes<'s> {
    source: &'s str,
    made: Vec<(usize, Node<'s>)>,
}

impl Nodes<'_> {
    /// Adds the node of a line. Those in it are the last ones, from the first that begins where it does or later.
    fn add(&mut self, line: &str) -> Option<()> {
        let mut words = line.split(' ');
        let kind = words.next()?;
        let (start, end) = (words.next()?.parse().ok()?, words.next()?.parse().ok()?);
        let text = self.source.get(start..end)?;
        let node = match leaf(kind, text) {
            Some(node) => node,
            None => {
                let first = self.made.partition_point(|(at, _)| *at < start);
                let inside: Vec<_> = self.made.drain(first..).map(|(_, node)| node).collect();
                other(kind, Inside(inside.into_iter()))?
            }
        };
        self.made.push((start, node));
        Some(())
    }
}

/// The node of this kind and this text, if it has no others in it.
fn leaf<'s>(kind: &str, text: &'s str) -> Option<Node<'s>> {
    Some(match kind {
        "Identifier" => Node::Name(text),
        "TextElement" => Node::Element(PatternElement::TextElement { value: text }),
        "StringLiteral" => Node::Inline(InlineExpression::StringLiteral { value: text.get(1..text.len() - 1)? }),
        "NumberLiteral" => Node::Inline(InlineExpression::NumberLiteral { value: text }),
        "Comment" | "GroupComment" | "ResourceComment" => Node::Comment,
        "Junk" => Node::Entry(Entry::Junk { content: text }),
        _ => return None,
    })
}

/// The node of this kind that has these in it.
fn other<'s>(kind: &str, mut inside: Inside<'s>) -> Option<Node<'s>> {
    Some(match kind {
        "Placeable" => Node::Element(PatternElement::Placeable { expression: inside.expression()? }),
        "Select" => Node::Select(Expression::Select { selector: inside.inline()?, variants: inside.variants() }),
        "Variant" => Node::Variant(inside.variant(false)?),
        "DefaultVariant" => Node::Variant(inside.variant(true)?),
        "CallArguments" => Node::Arguments(inside.arguments()?),
        "NamedArgument" => Node::Named(NamedArgument { name: inside.id()?, value: inside.inline()? }),
        "Pattern" => Node::Pattern(inside.elements()),
        "Attribute" => Node::Attribute(Attribute { id: inside.id()?, value: inside.pattern()? }),
        "Message" => Node::Entry(Entry::Message(inside.message()?)),
        "Term" => Node::Entry(Entry::Term(inside.term()?)),
        _ => Node::Inline(inside.reference(kind)?),
    })
}

/// The nodes in a node, of which the next ones are taken.
struct Inside<'s>(vec::IntoIter<Node<'s>>);

impl<'s> Inside<'s> {
    fn id(&mut self) -> Option<Identifier<&'s str>> {
        match self.0.next()? {
            Node::Name(name) => Some(Identifier { name }),
            _ => None,
        }
    }

    fn expression(&mut self) -> Option<Expression<&'s str>> {
        match self.0.next()? {
            Node::Select(select) => Some(select),
            node => inline(node).map(Expression::Inline),
        }
    }

    fn inline(&mut self) -> Option<InlineExpression<&'s str>> {
        inline(self.0.next()?)
    }

    fn pattern(&mut self) -> Option<Pattern<&'s str>> {
        match self.0.next()? {
            Node::Pattern(pattern) => Some(pattern),
            _ => None,
        }
    }

    fn elements(self) -> Pattern<&'s str> {
        let elements = self.0.filter_map(|node| match node {
            Node::Element(element) => Some(element),
            _ => None,
        });
        Pattern { elements: elements.collect() }
    }

    fn variants(self) -> Vec<Variant<&'s str>> {
        let variants = self.0.filter_map(|node| match node {
            Node::Variant(variant) => Some(variant),
            _ => None,
        });
        variants.collect()
    }

    fn variant(&mut self, default: bool) -> Option<Variant<&'s str>> {
        let key = match self.0.next()? {
            Node::Name(name) => VariantKey::Identifier { name },
            Node::Inline(InlineExpression::NumberLiteral { value }) => VariantKey::NumberLiteral { value },
            _ => return None,
        };
        Some(Variant { key, value: self.pattern()?, default })
    }

    fn arguments(self) -> Option<CallArguments<&'s str>> {
        let (mut positional, mut named) = (Vec::new(), Vec::new());
        for node in self.0 {
            match node {
                Node::Named(argument) => named.push(argument),
                node => positional.push(inline(node)?),
            }
        }
        Some(CallArguments { positional, named })
    }

    /// A reference of this kind: its name, and what may come after it.
    fn reference(&mut self, kind: &str) -> Option<InlineExpression<&'s str>> {
        let id = self.id()?;
        let (mut attribute, mut arguments) = (None, None);
        for node in self.0.by_ref() {
            match node {
                Node::Name(name) => attribute = Some(Identifier { name }),
                Node::Arguments(given) => arguments = Some(given),
                _ => return None,
            }
        }
        Some(match kind {
            "VariableReference" => InlineExpression::VariableReference { id },
            "MessageReference" => InlineExpression::MessageReference { id, attribute },
            "TermReference" => InlineExpression::TermReference { id, attribute, arguments },
            "FunctionReference" => InlineExpression::FunctionReference { id, arguments: arguments? },
            _ => return None,
        })
    }

    fn message(self) -> Option<Message<&'s str>> {
        let (id, value, attributes) = self.body()?;
        Some(Message { id, value, attributes, comment: None })
    }

    fn term(self) -> Option<Term<&'s str>> {
        let (id, value, attributes) = self.body()?;
        Some(Term { id, value: value?, attributes, comment: None })
    }

    /// What a message or a term has. Its comment is left out.
    fn body(self) -> Option<Body<'s>> {
        let (mut id, mut value, mut attributes) = (None, None, Vec::new());
        for node in self.0 {
            match node {
                Node::Name(name) => id = Some(Identifier { name }),
                Node::Pattern(pattern) => value = Some(pattern),
                Node::Attribute(attribute) => attributes.push(attribute),
                _ => {}
            }
        }
        Some((id?, value, attributes))
    }
}

type Body<'s> = (Identifier<&'s str>, Option<Pattern<&'s str>>, Vec<Attribute<&'s str>>);

/// A node as an inline expression, if it is one. A placeable in another placeable is.
fn inline(node: Node<'_>) -> Option<InlineExpression<&str>> {
    match node {
        Node::Inline(inline) => Some(inline),
        Node::Element(PatternElement::Placeable { expression }) => {
            Some(InlineExpression::Placeable { expression: Box::new(expression) })
        }
        _ => None,
    }
}

#[cfg(test)]
mod tests {
    use super::*;

    /// Sources of each kind of node, and damaged ones.
    const SOURCES: &[&str] = &[
        "",
        "\n  \n",
        "a = b",
        "a = b\r\n    c\r\n\r\n    d { $x } e\r\n   f\r\n",
        "# c\n# d\n\n## g\n### r\n#\n\n# own\na = b\n# own\n-t = { 1.5 }\n    .gender = none\n#",
        "a =\n    .b = c\n      .d =\n        e\n         f\n\n      g\n  \n",
        "a =\n     { $x }\n  b\n",
        "a =\n       x\n  b { $y }   \nb = { $x }   \n  .c = { $y }\n",
        "a = { \"x\\\"\\u00e9\" } { -t(case: \"of\", n: 1) } { -t.gender } { F( $a , 2 , m.b , {{ \"n\" }} , k : 3 , ) } { m.c }\n",
        "a = { $x ->\n    [one] One\n        more\n   *[ other ]\n        Other { $y ->\n           *[1.0] in\n        }\n} after\n",
        "a = { \n $x\n -> \n\n *[o] \u{e9}\u{1d11e}\n\n }\n",
        "a = {FOO()}{\"\"}text{$b}\n",
        "junk here\n\n  }\n# foo\na = 1\nb = }\n.x\n#e\n",
        "a = 1\n .b\nc = 2\n",
        "a={1->\n*\n}\nb={F(1 2)}\nc={d .e}\nd=\t\ne={$x}\u{2003}\n .f=g\n  \u{2003}\nh=\n  i\n    \n  j\nk=\n  l\n    {1}\n  ",
        "a = b\n \u{2003}\n\n\t\nc",
        "a={{{1->\n*[b]c\n}}}\nb={1->\n*[b]{F({1->\n*[b]{{1->\n*[b]c\n d}}\n})}\n}\n",
    ];

    /// How many of the lines are of nodes that begin with one of these.
    fn count(lines: &Text, kinds: &[&str]) -> usize {
        lines.as_str().lines().filter(|line| kinds.iter().any(|kind| line.starts_with(kind))).count()
    }

    #[test]
    fn all_nodes_are_put_together() {
        for source in SOURCES {
            let lines = node_lines(&with_empty_comments(source));
            assert_eq!(entries_of(source).len(), count(&lines, &["Message ", "Term ", "Junk "]), "{source:?}");
            let mut nodes = Nodes { source, made: Vec::new() };
            assert!(lines.as_str().lines().all(|line| nodes.add(line).is_some()), "{source:?}");
            let entries = nodes.made.iter().filter(|(_, node)| matches!(node, Node::Entry(_) | Node::Comment));
            assert_eq!(entries.count(), nodes.made.len(), "{source:?}");
        }
    }
}
