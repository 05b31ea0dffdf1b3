//! The tree of a source, with the names of `fluent_syntax::ast`. `S` is the type of its texts, which are slices of the
//! source.

/// A part of a source.
#[derive(Clone, Debug, PartialEq, Eq)]
pub enum Entry<S> {
    /// `id = value`.
    Message(Message<S>),
    /// `-id = value`.
    Term(Term<S>),
    /// `# content`. A resource, which is for formatting, has none of the three kinds of comments.
    Comment(Comment<S>),
    /// `## content`.
    GroupComment(Comment<S>),
    /// `### content`.
    ResourceComment(Comment<S>),
    /// A stretch that can't be read.
    Junk {
        /// The stretch.
        content: S,
    },
}

/// A message.
#[derive(Clone, Debug, PartialEq, Eq)]
pub struct Message<S> {
    /// Its id.
    pub id: Identifier<S>,
    /// Its value, if it has one.
    pub value: Option<Pattern<S>>,
    /// Its attributes, in their order.
    pub attributes: Vec<Attribute<S>>,
    /// The comment above it, which a resource doesn't keep.
    pub comment: Option<Comment<S>>,
}

/// A term.
#[derive(Clone, Debug, PartialEq, Eq)]
pub struct Term<S> {
    /// Its id, without the `-`.
    pub id: Identifier<S>,
    /// Its value.
    pub value: Pattern<S>,
    /// Its attributes, in their order.
    pub attributes: Vec<Attribute<S>>,
    /// The comment above it, which a resource doesn't keep.
    pub comment: Option<Comment<S>>,
}

/// What is shown.
#[derive(Clone, Debug, PartialEq, Eq)]
pub struct Pattern<S> {
    /// Its texts and placeables, in their order.
    pub elements: Vec<PatternElement<S>>,
}

/// A part of a pattern.
#[derive(Clone, Debug, PartialEq, Eq)]
pub enum PatternElement<S> {
    /// A text within a line, with the line feed at its end.
    TextElement {
        /// The text, without the indent that its lines have in common.
        value: S,
    },
    /// `{ expression }`.
    Placeable {
        /// What is between the braces.
        expression: Expression<S>,
    },
}

/// `.id = value`.
#[derive(Clone, Debug, PartialEq, Eq)]
pub struct Attribute<S> {
    /// Its name.
    pub id: Identifier<S>,
    /// Its value.
    pub value: Pattern<S>,
}

/// A name.
#[derive(Clone, Debug, PartialEq, Eq)]
pub struct Identifier<S> {
    /// The name, without a sign before it.
    pub name: S,
}

/// `[key] value`, or `*[key] value`.
#[derive(Clone, Debug, PartialEq, Eq)]
pub struct Variant<S> {
    /// Its key.
    pub key: VariantKey<S>,
    /// Its value.
    pub value: Pattern<S>,
    /// Whether it is chosen if no other is.
    pub default: bool,
}

/// The key of a variant.
#[derive(Clone, Debug, PartialEq, Eq)]
pub enum VariantKey<S> {
    /// A name, such as a plural category.
    Identifier {
        /// The name.
        name: S,
    },
    /// A number.
    NumberLiteral {
        /// The number as it is written.
        value: S,
    },
}

/// A comment.
#[derive(Clone, Debug, PartialEq, Eq)]
pub struct Comment<S> {
    /// Its lines, without the signs.
    pub content: Vec<S>,
}

/// The arguments of a call.
#[derive(Clone, Debug, PartialEq, Eq)]
pub struct CallArguments<S> {
    /// Those without a name, in their order.
    pub positional: Vec<InlineExpression<S>>,
    /// Those with a name, in their order.
    pub named: Vec<NamedArgument<S>>,
}

/// `name: value`.
#[derive(Clone, Debug, PartialEq, Eq)]
pub struct NamedArgument<S> {
    /// The name.
    pub name: Identifier<S>,
    /// A literal.
    pub value: InlineExpression<S>,
}

/// What is between the braces of a placeable.
#[derive(Clone, Debug, PartialEq, Eq)]
pub enum Expression<S> {
    /// `selector -> variants`.
    Select {
        /// What chooses.
        selector: InlineExpression<S>,
        /// Among which it chooses.
        variants: Vec<Variant<S>>,
    },
    /// Any other expression.
    Inline(InlineExpression<S>),
}

/// An expression that isn't a select.
#[derive(Clone, Debug, PartialEq, Eq)]
pub enum InlineExpression<S> {
    /// `"value"`.
    StringLiteral {
        /// What is between the quotes, with its escapes.
        value: S,
    },
    /// A number.
    NumberLiteral {
        /// The number as it is written.
        value: S,
    },
    /// `ID(..)`.
    FunctionReference {
        /// The name of the function.
        id: Identifier<S>,
        /// Its arguments.
        arguments: CallArguments<S>,
    },
    /// `id` or `id.attribute`.
    MessageReference {
        /// The id of the message.
        id: Identifier<S>,
        /// The attribute.
        attribute: Option<Identifier<S>>,
    },
    /// `-id` or `-id.attribute`.
    TermReference {
        /// The id of the term, without the `-`.
        id: Identifier<S>,
        /// The attribute.
        attribute: Option<Identifier<S>>,
        /// The arguments that the term is passed.
        arguments: Option<CallArguments<S>>,
    },
    /// `$id`.
    VariableReference {
        /// The name, without the `$`.
        id: Identifier<S>,
    },
    /// A placeable within a placeable.
    Placeable {
        /// What is between the inner braces.
        expression: Box<Expression<S>>,
    },
}
