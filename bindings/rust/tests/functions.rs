//! Functions of the program.

use kozhvadi::{fluent_args, FluentArgs, FluentBundle, FluentError, FluentResource, FluentValue};
use std::panic::{catch_unwind, AssertUnwindSafe};
use std::sync::atomic::{AtomicUsize, Ordering};
use std::sync::Arc;

const SOURCE: &str = r#"
settings = { PLATFORM() ->
    [windows] Settings
   *[other] { PREFERENCES() }
}
twice = { SHOW($n, 1.50) }, { SHOW($n, 1.50) } and { SHOW(SHOW($n), x: "y") }
number = { NEXT(1.50) ->
    [one] one
   *[other] { NEXT(1) }
}
gone = { SHOW($gone) }
plain = Plain
"#;

fn bundle() -> FluentBundle {
    let mut bundle = FluentBundle::new(vec!["en"]);
    bundle.set_use_isolating(false);
    bundle.add_resource(FluentResource::try_new(SOURCE.to_owned()).unwrap()).unwrap();
    bundle
}

fn shown(bundle: &FluentBundle, id: &str, args: &FluentArgs<'_>) -> (String, Vec<String>) {
    let pattern = bundle.get_message(id).and_then(|message| message.value()).unwrap();
    let mut errors = vec![];
    let text = bundle.format_pattern(pattern, Some(args), &mut errors).into_owned();
    (text, errors.iter().map(ToString::to_string).collect())
}

/// What a function was given, in brackets.
fn show<'a>(positional: &[FluentValue<'a>], named: &FluentArgs<'_>) -> FluentValue<'a> {
    let shown = |value: &FluentValue<'_>| match value {
        FluentValue::String(text) => text.to_string(),
        FluentValue::Number(number) => number.as_string().into_owned(),
        FluentValue::Custom(_) | FluentValue::None | FluentValue::Error => "nothing".to_owned(),
    };
    let mut all: Vec<String> = positional.iter().map(shown).collect();
    all.extend(named.iter().map(|(name, value)| format!("{name}: {}", shown(value))));
    FluentValue::from(format!("[{}]", all.join(" ")))
}

#[test]
fn functions_are_called_once_for_each_call() {
    let (mut bundle, calls) = (bundle(), Arc::new(AtomicUsize::new(0)));
    let counted = calls.clone();
    bundle
        .add_function("SHOW", move |positional, named| {
            counted.fetch_add(1, Ordering::Relaxed);
            show(positional, named)
        })
        .unwrap();
    let args = fluent_args!["n" => 2];
    assert_eq!(shown(&bundle, "twice", &args).0, "[2 1.50], [2 1.50] and [[2] x: y]");
    assert_eq!(calls.load(Ordering::Relaxed), 3);
    let (text, errors) = shown(&bundle, "gone", &args);
    assert_eq!(text, "[nothing]");
    assert_eq!(errors.len(), 1);
}

#[test]
fn only_the_calls_of_the_answer_are_made() {
    let mut bundle = bundle();
    bundle.add_function("PLATFORM", |_, _| FluentValue::from("windows")).unwrap();
    bundle.add_function("PREFERENCES", |_, _| panic!("the variant isn't chosen")).unwrap();
    assert_eq!(shown(&bundle, "settings", &fluent_args![]).0, "Settings");
    assert_eq!(shown(&bundle, "plain", &fluent_args![]).0, "Plain");
}

#[test]
fn numbers_choose_variants() {
    let mut bundle = bundle();
    bundle
        .add_function("NEXT", |positional, _| match positional {
            [FluentValue::Number(number)] if number.as_string() == "1" => FluentValue::Error,
            _ => FluentValue::from(2.5),
        })
        .unwrap();
    assert_eq!(shown(&bundle, "number", &fluent_args![]).0, "NEXT()");
}

#[test]
fn ids_are_shared() {
    let mut bundle = bundle();
    let taken = |id: &str| format!("Attempt to override an existing function: \"{id}\".");
    bundle.add_function("SHOW", show).unwrap();
    bundle.add_function("NUMBER", show).unwrap();
    for id in ["SHOW", "NUMBER", "plain"] {
        let error = bundle.add_function(id, show).unwrap_err();
        assert!(matches!(&error, FluentError::Overriding { id: other, .. } if other == id), "{error} {}", taken(id));
        assert_eq!(error.to_string(), taken(id));
    }
    assert_eq!(shown(&bundle, "plain", &fluent_args![]).0, "Plain");
    assert!(bundle.get_message("SHOW").is_none());
}

#[test]
fn no_value_is_shown_as_nothing_or_as_the_call() {
    for (value, expected) in [(FluentValue::None, ""), (FluentValue::Error, "SHOW()")] {
        let mut bundle = bundle();
        let is_none = value == FluentValue::None;
        bundle.add_function("SHOW", move |_, _| if is_none { FluentValue::None } else { FluentValue::Error }).unwrap();
        let (text, errors) = shown(&bundle, "gone", &fluent_args!["gone" => 1]);
        assert_eq!((text.as_str(), errors.len()), (expected, 0));
    }
}

#[test]
fn a_function_reports_errors() {
    let mut bundle = bundle();
    bundle
        .add_fallible_function("SHOW", |given, _| match given {
            [FluentValue::Number(_), ..] => Err("no numbers".to_owned()),
            given => Ok(given[0].clone()),
        })
        .unwrap();
    let (text, errors) = shown(&bundle, "twice", &fluent_args!["n" => 2]);
    assert_eq!(text, "{SHOW()}, {SHOW()} and SHOW()");
    let each = "Resolver error: SHOW(): no numbers";
    assert_eq!(errors, [each, each]);
    let (text, errors) = shown(&bundle, "gone", &fluent_args![]);
    assert_eq!((text.as_str(), errors.len()), ("SHOW()", 1));
}

#[test]
fn number_of_the_program() {
    let source =
        "a = { NUMBER($n) ->\n    [one] one { NUMBER($n, minimumFractionDigits: 1) }\n   *[other] { NUMBER($n) }\n}\n";
    let mut bundle: FluentBundle = FluentBundle::new(vec!["de"]);
    bundle.set_use_isolating(false);
    bundle.add_resource(FluentResource::try_new(source.to_owned()).unwrap()).unwrap();
    let asked = Arc::new(AtomicUsize::new(0));
    let counted = asked.clone();
    let merged = move |positional: &[FluentValue<'_>], named: &FluentArgs<'_>| match positional {
        [FluentValue::Number(number)] => {
            counted.fetch_add(1, Ordering::Relaxed);
            let mut number = number.clone();
            number.options.merge(named);
            FluentValue::Number(number)
        }
        _ => FluentValue::Error,
    };
    bundle.add_function("NUMBER", move |positional, named| merged(positional, named).into_owned()).unwrap();
    assert_eq!(shown(&bundle, "a", &fluent_args!["n" => 1]).0, "one 1,0");
    assert_eq!(asked.load(Ordering::Relaxed), 2);
    assert_eq!(shown(&bundle, "a", &fluent_args!["n" => 1234.5]).0, "1.234,5");
    assert_eq!(shown(&bundle, "a", &fluent_args!["n" => "x"]).0, "NUMBER()");
}

#[test]
fn a_panic_goes_through_and_the_bundle_can_be_asked_again() {
    let mut bundle = bundle();
    bundle
        .add_function("SHOW", |positional, _| match positional {
            [FluentValue::String(_)] => panic!("SHOW takes a number"),
            _ => FluentValue::from("shown"),
        })
        .unwrap();
    let asked = catch_unwind(AssertUnwindSafe(|| shown(&bundle, "gone", &fluent_args!["gone" => "a"])));
    let panic = asked.unwrap_err();
    assert_eq!(panic.downcast_ref::<&str>(), Some(&"SHOW takes a number"));
    assert_eq!(shown(&bundle, "gone", &fluent_args!["gone" => 1]).0, "shown");
}

#[test]
fn unknown_functions_are_errors() {
    let (text, errors) = shown(&bundle(), "settings", &fluent_args![]);
    assert_eq!(text, "{PREFERENCES()}");
    assert_eq!(errors.len(), 1);
}
