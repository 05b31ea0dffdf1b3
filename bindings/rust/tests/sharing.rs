//! Bundles over the same resources.

use kozhvadi::{fluent_args, FluentBundle, FluentResource, FluentValue};
use std::sync::Arc;
use std::thread;

type Shared = Arc<FluentResource>;

fn resource(source: &str) -> Shared {
    Arc::new(FluentResource::try_new(source.to_owned()).unwrap())
}

/// A bundle over these resources, without marks.
fn bundle(locale: &str, resources: &[&Shared]) -> FluentBundle<Shared> {
    let mut bundle = FluentBundle::new(vec![locale]);
    bundle.set_use_isolating(false);
    for &resource in resources {
        let _overriding = bundle.add_resource(Arc::clone(resource));
    }
    bundle
}

fn text(bundle: &FluentBundle<Shared>, id: &str) -> String {
    let pattern = bundle.get_message(id).and_then(|message| message.value()).unwrap();
    bundle.format_pattern(pattern, Some(&fluent_args!["n" => 1234.5]), &mut vec![]).into_owned()
}

#[test]
fn what_is_the_same_for_all_is_shared() {
    let (a, b) = (resource("a = { $n }\nb = { 1234.5 }\n"), resource("a = A\nc = C\n"));
    let (first, second) = (bundle("en", &[&a, &b]), bundle("en", &[&a, &b]));
    let german = bundle("de", &[&a, &b]);
    // A pattern is equal to another one of its bundle alone, and of those that share it.
    for other in [&second, &german] {
        assert_eq!(first.get_message("a"), other.get_message("a"));
    }
    let (other_order, less) = (bundle("en", &[&b, &a]), bundle("en", &[&a]));
    for other in [&other_order, &less] {
        assert_ne!(first.get_message("a"), other.get_message("a"));
    }
    let read_again = resource(a.source());
    assert_ne!(less.get_message("a"), bundle("en", &[&read_again]).get_message("a"));
    let texts = |bundle: &FluentBundle<Shared>| [text(bundle, "a"), text(bundle, "b")];
    for _ in 0..2 {
        assert_eq!(texts(&first), ["1,234.5", "1,234.5"]);
        assert_eq!(texts(&second), ["1,234.5", "1,234.5"]);
        assert_eq!(texts(&german), ["1.234,5", "1.234,5"]);
    }
    assert_eq!(text(&other_order, "a"), "A");
}

#[test]
fn errors_are_told_to_each() {
    let (a, b) = (resource("a = A\nb = B\n"), resource("b = Other\nc = C\na = Other\n"));
    let mut bundles: Vec<_> = (0..3).map(|_| bundle("en", &[&a])).collect();
    for bundle in &mut bundles {
        let errors: Vec<String> =
            bundle.add_resource(Arc::clone(&b)).unwrap_err().iter().map(ToString::to_string).collect();
        assert_eq!(errors.len(), 2, "{errors:?}");
        assert!(errors[0].contains('b') && errors[1].contains('a'), "{errors:?}");
    }
}

#[test]
fn a_change_of_one_is_none_of_the_other() {
    let (a, b) = (resource("a = A { $n }\nb = { F() }\n"), resource("a = Other\nd = D\n"));
    let mut first = bundle("en", &[&a]);
    let mut second = bundle("en", &[&a]);
    assert_eq!(text(&first, "a"), "A 1,234.5");
    second.add_resource_overriding(Arc::clone(&b));
    assert_eq!((text(&first, "a").as_str(), text(&second, "a").as_str()), ("A 1,234.5", "Other"));
    assert!(!first.has_message("d") && second.has_message("d"));
    first.set_plain_numbers(true);
    let third = bundle("en", &[&a]);
    assert_eq!((text(&first, "a").as_str(), text(&third, "a").as_str()), ("A 1234.5", "A 1,234.5"));
    // A function is that of its bundle, also if the others have one of its name.
    first.add_function("F", |_, _| FluentValue::from("one")).unwrap();
    let mut third = third;
    third.add_function("F", |_, _| FluentValue::from("two")).unwrap();
    assert_eq!((text(&first, "b").as_str(), text(&third, "b").as_str()), ("one", "two"));
    assert_eq!(text(&second, "b"), "{F()}");
    assert!(first.add_function("F", |_, _| FluentValue::None).is_err());
}

#[test]
fn a_pattern_of_one_is_looked_up_in_the_other() {
    let (a, b) = (resource("a = A\n"), resource("a = Other\nb = B\n"));
    let (first, second, third) = (bundle("en", &[&a]), bundle("en", &[&a]), bundle("en", &[&b, &a]));
    let pattern = first.get_message("a").and_then(|message| message.value()).unwrap();
    assert_eq!(second.format_pattern(pattern, None, &mut vec![]), "A");
    assert_eq!(third.format_pattern(pattern, None, &mut vec![]), "Other");
    let pattern = third.get_message("b").and_then(|message| message.value()).unwrap();
    let mut errors = vec![];
    assert_eq!(first.format_pattern(pattern, None, &mut errors), "{b}");
    assert_eq!(errors.len(), 1);
}

#[test]
fn threads_make_and_change_them() {
    let resources: Vec<Shared> = (0..8).map(|n| resource(&format!("a{n} = {{ $n }} {n}\n"))).collect();
    thread::scope(|scope| {
        for first in 0..8 {
            let resources = &resources;
            scope.spawn(move || {
                for round in 0..50 {
                    let mut bundle = bundle(["en", "de"][round % 2], &[&resources[0], &resources[(first + round) % 8]]);
                    bundle.add_resource_overriding(Arc::clone(&resources[round % 8]));
                    let expected = ["1,234.5 0", "1.234,5 0"][round % 2];
                    assert_eq!(text(&bundle, "a0"), expected);
                }
            });
        }
    });
}
