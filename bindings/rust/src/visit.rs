//! A walk over a tree.
//!
//! A visitor has a method for each kind of node that is of interest, and the method goes on below its node by the function
//! of the same name here, or else not.
//!
//! ```
//! use kozhvadi::ast::InlineExpression;
//! use kozhvadi::visit::{visit_inline, Visit};
//! use kozhvadi::FluentResource;
//!
//! struct Variables<'s>(Vec<&'s str>);
//!
//! impl<'s> Visit<&'s str> for Variables<'s> {
//!     fn visit_inline(&mut self, expression: &InlineExpression<&'s str>) {
//!         if let InlineExpression::VariableReference { id } = expression {
//!             self.0.push(id.name);
//!         }
//!         visit_inline(self, expression);
//!     }
//! }
//!
//! let source = "hello = Hello, { $name } of { -firm(case: \"of\", size: 2) }!\n    .title = { $title }\n";
//! let resource = FluentResource::try_new(source.into()).expect("The source has an error.");
//! let mut variables = Variables(vec![]);
//! for entry in resource.entries() {
//!     variables.visit_entry(entry);
//! }
//! assert_eq!(variables.0, ["name", "title"]);
//! ```

use crate::ast::{
    Attribute, CallArguments, Entry, Expression, InlineExpression, NamedArgument, Pattern, PatternElement, Variant,
};

/// A visitor of a tree. Each method visits a node and all below it, unless it is written anew.
pub trait Visit<S> {
    /// Visits an entry: the value and the attributes of a message or a term.
    fn visit_entry(&mut self, entry: &Entry<S>) {
        visit_entry(self, entry);
    }

    /// Visits an attribute: its value.
    fn visit_attribute(&mut self, attribute: &Attribute<S>) {
        visit_attribute(self, attribute);
    }

    /// Visits a pattern: its texts and placeables.
    fn visit_pattern(&mut self, pattern: &Pattern<S>) {
        visit_pattern(self, pattern);
    }

    /// Visits a text of a pattern, which has nothing below it.
    fn visit_text(&mut self, text: &S) {
        let _ = text;
    }

    /// Visits what is between the braces of a placeable.
    fn visit_expression(&mut self, expression: &Expression<S>) {
        visit_expression(self, expression);
    }

    /// Visits an expression that isn't a select: its arguments, and what is in a placeable.
    fn visit_inline(&mut self, expression: &InlineExpression<S>) {
        visit_inline(self, expression);
    }

    /// Visits a variant: its value.
    fn visit_variant(&mut self, variant: &Variant<S>) {
        visit_variant(self, variant);
    }

    /// Visits an argument with a name: its value.
    fn visit_named(&mut self, argument: &NamedArgument<S>) {
        visit_named(self, argument);
    }
}

/// Visits the value and the attributes of a message or a term. Other entries have nothing below them.
pub fn visit_entry<S, V: Visit<S> + ?Sized>(visitor: &mut V, entry: &Entry<S>) {
    let (value, attributes) = match entry {
        Entry::Message(message) => (message.value.as_ref(), &message.attributes),
        Entry::Term(term) => (Some(&term.value), &term.attributes),
        _ => return,
    };
    value.into_iter().for_each(|value| visitor.visit_pattern(value));
    attributes.iter().for_each(|attribute| visitor.visit_attribute(attribute));
}

/// Visits the value of an attribute.
pub fn visit_attribute<S, V: Visit<S> + ?Sized>(visitor: &mut V, attribute: &Attribute<S>) {
    visitor.visit_pattern(&attribute.value);
}

/// Visits the texts and the placeables of a pattern, in their order.
pub fn visit_pattern<S, V: Visit<S> + ?Sized>(visitor: &mut V, pattern: &Pattern<S>) {
    for element in &pattern.elements {
        match element {
            PatternElement::TextElement { value } => visitor.visit_text(value),
            PatternElement::Placeable { expression } => visitor.visit_expression(expression),
        }
    }
}

/// Visits the selector and the variants of a select, or the expression that is there.
pub fn visit_expression<S, V: Visit<S> + ?Sized>(visitor: &mut V, expression: &Expression<S>) {
    match expression {
        Expression::Select { selector, variants } => {
            visitor.visit_inline(selector);
            variants.iter().for_each(|variant| visitor.visit_variant(variant));
        }
        Expression::Inline(inline) => visitor.visit_inline(inline),
    }
}

/// Visits the arguments of a call or a term, or what is in a placeable. Other expressions have nothing below them.
pub fn visit_inline<S, V: Visit<S> + ?Sized>(visitor: &mut V, expression: &InlineExpression<S>) {
    match expression {
        InlineExpression::FunctionReference { arguments, .. } => visit_arguments(visitor, arguments),
        InlineExpression::TermReference { arguments: Some(arguments), .. } => visit_arguments(visitor, arguments),
        InlineExpression::Placeable { expression } => visitor.visit_expression(expression),
        _ => {}
    }
}

fn visit_arguments<S, V: Visit<S> + ?Sized>(visitor: &mut V, arguments: &CallArguments<S>) {
    arguments.positional.iter().for_each(|argument| visitor.visit_inline(argument));
    arguments.named.iter().for_each(|argument| visitor.visit_named(argument));
}

/// Visits the value of a variant.
pub fn visit_variant<S, V: Visit<S> + ?Sized>(visitor: &mut V, variant: &Variant<S>) {
    visitor.visit_pattern(&variant.value);
}

/// Visits the value of an argument with a name.
pub fn visit_named<S, V: Visit<S> + ?Sized>(visitor: &mut V, argument: &NamedArgument<S>) {
    visitor.visit_inline(&argument.value);
}
