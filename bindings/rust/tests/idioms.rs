//! What programs do with the crates `fluent-bundle`, `fluent-syntax`, `fluent-fallback` and `intl-memoizer`, of which the `use`
//! lines alone were changed. `ported.rs` has others.

use kozhvadi as fluent_bundle;
use kozhvadi as fluent_syntax;

use fluent_bundle::concurrent::FluentBundle as SharedBundle;
use fluent_bundle::resolver::errors::{ReferenceKind, ResolverError};
use fluent_bundle::{fluent_args, FluentArgs, FluentBundle, FluentError, FluentMessage, FluentResource, FluentValue};
use fluent_syntax::ast::{self, Entry, InlineExpression, PatternElement};
use std::borrow::Cow;
use std::cell::RefCell;
use std::collections::{BTreeSet, HashMap};
use std::error::Error;
use std::rc::Rc;
use std::sync::{Arc, OnceLock};

fn resource(source: &str) -> FluentResource {
    FluentResource::try_new(source.to_owned()).unwrap_or_else(|(resource, _)| resource)
}

fn bundle(source: &str) -> FluentBundle<FluentResource> {
    let mut bundle = FluentBundle::new(vec!["en-US"]);
    bundle.set_use_isolating(false);
    bundle.add_resource(resource(source)).expect("Failed to add FTL resources.");
    bundle
}

/// As in a macro that makes a constant of each message: ids, the names of attributes, and the variables of a message.
#[test]
fn a_macro_reads_the_entries() {
    let resource = resource(
        "-brand = B\nlogin-title = Log in to { -brand }\n    .label = { $user }\n# junk:\n1\nbye = Bye { $user }\n",
    );
    let mut constants = Vec::new();
    for entry in resource.entries() {
        let Entry::Message(ast::Message { id, value, attributes, .. }) = entry else { continue };
        constants.push(id.name.replace('-', "_").to_uppercase());
        constants.extend(attributes.iter().map(|attribute| format!("{}.{}", id.name, attribute.id.name)));
        for element in value.iter().flat_map(|pattern| &pattern.elements) {
            if let PatternElement::Placeable {
                expression: ast::Expression::Inline(InlineExpression::VariableReference { id }),
            } = element
            {
                constants.push(format!("${}", id.name));
            }
        }
    }
    assert_eq!(constants, ["LOGIN_TITLE", "login-title.label", "BYE", "$user"]);
}

/// As in a compiler: the kinds of errors of translators are told apart.
#[derive(Debug)]
enum TranslateError {
    Missing(String),
    Broken(Vec<fluent_syntax::ParserError>),
    Fluent(Vec<FluentError>),
}

impl std::fmt::Display for TranslateError {
    fn fmt(&self, f: &mut std::fmt::Formatter<'_>) -> std::fmt::Result {
        match self {
            TranslateError::Missing(id) => write!(f, "{id}?"),
            TranslateError::Broken(errors) => write!(f, "{}", errors[0]),
            TranslateError::Fluent(errors) => errors.iter().try_for_each(|error| write!(f, "{error}; ")),
        }
    }
}

impl Error for TranslateError {}

impl From<(FluentResource, Vec<fluent_syntax::ParserError>)> for TranslateError {
    fn from((_, errors): (FluentResource, Vec<fluent_syntax::ParserError>)) -> Self {
        TranslateError::Broken(errors)
    }
}

fn translate(source: &str, id: &str) -> Result<String, TranslateError> {
    let mut bundle = FluentBundle::new(vec!["en"]);
    bundle.add_resource(FluentResource::try_new(source.into())?).map_err(TranslateError::Fluent)?;
    let message = bundle.get_message(id).ok_or_else(|| TranslateError::Missing(id.to_owned()))?;
    let pattern = message.value().ok_or_else(|| TranslateError::Missing(id.to_owned()))?;
    let mut errors = vec![];
    let text = bundle.format_pattern(pattern, None, &mut errors).into_owned();
    if errors.is_empty() {
        return Ok(text);
    }
    Err(TranslateError::Fluent(errors))
}

#[test]
fn errors_are_those_of_the_program() {
    assert_eq!(translate("a = A", "a").unwrap(), "A");
    assert!(matches!(translate("a = A", "b"), Err(TranslateError::Missing(id)) if id == "b"));
    assert!(matches!(translate("a = {", "a"), Err(TranslateError::Broken(errors)) if errors[0].pos.start == 5));
    let told: Box<dyn Error + Send + Sync> = translate("a = { $x } { b }", "a").unwrap_err().into();
    assert_eq!(told.to_string(), "Resolver error: Unknown variable: $x; Resolver error: Unknown message: b; ");
    let Err(TranslateError::Fluent(errors)) = translate("a = { $x }", "a") else { panic!("it has an error") };
    let FluentError::ResolverError(ResolverError::Reference(ReferenceKind::Variable { id })) = &errors[0] else {
        panic!("{errors:?}")
    };
    assert_eq!(id, "x");
}

/// As in `i18n-embed`: settings of all bundles of a loader, which are changed at once.
#[test]
fn bundles_are_changed_together() {
    let mut bundles: HashMap<&str, FluentBundle<Arc<FluentResource>>> = HashMap::new();
    let shared = Arc::new(resource("hello = Hello { $name }"));
    for locale in ["en", "de"] {
        let mut bundle = FluentBundle::new(vec![locale]);
        bundle.add_resource(shared.clone()).unwrap();
        bundles.insert(locale, bundle);
    }
    let shown = |bundles: &HashMap<&str, FluentBundle<Arc<FluentResource>>>| {
        let pattern = bundles["de"].get_message("hello").and_then(|message| message.value()).unwrap();
        bundles["de"].format_pattern(pattern, Some(&fluent_args!["name" => "x"]), &mut vec![]).into_owned()
    };
    assert_eq!(shown(&bundles), "Hello \u{2068}x\u{2069}");
    for bundle in bundles.values_mut() {
        bundle.set_use_isolating(false);
        bundle.set_transform(Some(|text: &str| -> Cow<'_, str> { text.replace('l', "L").into() }));
    }
    assert_eq!(shown(&bundles), "HeLLo x");
}

/// As in programs that make their bundle once.
#[test]
fn a_bundle_is_in_a_static_or_a_thread() {
    static BUNDLE: OnceLock<SharedBundle<FluentResource>> = OnceLock::new();
    thread_local!(static OWN: RefCell<FluentBundle<Rc<FluentResource>>> = RefCell::new({
        let mut bundle = FluentBundle::new(vec!["en"]);
        bundle.add_resource(Rc::new(resource("a = Own"))).unwrap();
        bundle
    }));
    let shared = BUNDLE.get_or_init(|| {
        let mut bundle = SharedBundle::new_concurrent(vec!["en"]);
        bundle.add_resource(resource("a = Shared\n    .title = Title")).unwrap();
        bundle
    });
    let title = shared.get_message("a").and_then(|message: FluentMessage<'_>| message.get_attribute("title")).unwrap();
    assert_eq!((title.id(), shared.format_pattern(title.value(), None, &mut vec![])), ("title", "Title".into()));
    let own = OWN.with(|bundle| {
        let bundle = bundle.borrow();
        let pattern = bundle.get_message("a").unwrap().value().unwrap();
        bundle.format_pattern(pattern, None, &mut vec![]).into_owned()
    });
    assert_eq!(own, "Own");
}

/// Values come from what a program has.
#[test]
fn values_are_made_of_types() {
    let bundle = bundle("a = { $a } { $b } { $c } { $d } { $e } { $f } { $g }");
    let pattern = bundle.get_message("a").unwrap().value().unwrap();
    let owned = String::from("text");
    let mut args: FluentArgs = [("a", FluentValue::from(1_u8)), ("b", (-2_i64).into())].into_iter().collect();
    args.set("c", 3_usize);
    args.set(String::from("d"), &*owned);
    args.set("e", Cow::Borrowed("cow"));
    args.set("f", owned.clone());
    args.set("g", Some(0.5));
    assert_eq!(args.get("d"), Some(&FluentValue::String("text".into())));
    let names: BTreeSet<&str> = args.iter().map(|(name, _)| name).collect();
    assert_eq!(names.len(), 7);
    let mut errors = vec![];
    assert_eq!(bundle.format_pattern(pattern, Some(&args), &mut errors), "1 -2 3 text cow text 0.5");
    assert!(errors.is_empty());
    let gone = fluent_args!["a" => FluentValue::None, "b" => None::<i32>];
    let mut text = String::new();
    bundle.write_pattern(&mut text, pattern, Some(&gone), &mut errors).unwrap();
    assert_eq!((text.as_str(), errors.len()), ("  {$c} {$d} {$e} {$f} {$g}", 5));
}
