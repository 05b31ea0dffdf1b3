//! What programs that use the crate `fluent-bundle` write.

use kozhvadi::types::{FluentNumber, FluentNumberOptions, FluentNumberStyle, ParseNumberError};
use kozhvadi::{
    concurrent, fluent_args, ErrorKind, FluentArgs, FluentBundle, FluentError, FluentMessage, FluentResource,
};
use kozhvadi::{EntryKind, FluentValue, ReferenceKind, ResolverError};
use std::fmt;
use std::sync::{Arc, OnceLock};

fn resource(source: &str) -> FluentResource {
    FluentResource::try_new(source.to_owned()).expect("The source has an error.")
}

fn bundle(sources: &[&str]) -> FluentBundle {
    let mut bundle = FluentBundle::new(vec!["en"]);
    bundle.set_use_isolating(false);
    for source in sources {
        bundle.add_resource(resource(source)).expect("A message was there before.");
    }
    bundle
}

fn shown(bundle: &FluentBundle, id: &str, args: &FluentArgs<'_>) -> (String, Vec<FluentError>) {
    let mut errors = vec![];
    let pattern = bundle.get_message(id).and_then(|message| message.value()).expect("There is no value.");
    (bundle.format_pattern(pattern, Some(args), &mut errors).into_owned(), errors)
}

fn text_of(bundle: &FluentBundle, id: &str, args: &FluentArgs<'_>) -> String {
    shown(bundle, id, args).0
}

#[test]
fn a_message_lives_as_long_as_its_bundle_is_lent() {
    fn find<'b>(bundle: &'b FluentBundle, id: &str) -> Option<FluentMessage<'b>> {
        bundle.get_message(id)
    }
    let bundle = bundle(&["a = A\n    .b = B\n"]);
    let name = |id: &str| format!("{id}{id}");
    assert!(find(&bundle, &name("a")).is_none());
    let attribute = find(&bundle, "a").and_then(|message| message.get_attribute(&String::from("b")));
    let value = attribute.map(|attribute| (attribute.id(), attribute.value())).expect("There is no attribute.");
    assert_eq!((value.0, bundle.format_pattern(value.1, None, &mut vec![]).as_ref()), ("b", "B"));
}

#[test]
fn attributes_are_listed() {
    let bundle = bundle(&["a =\n    .x = X\n    .y = { $y ->\n        [one] .z\n       *[other] Y\n    }\n"]);
    let message = bundle.get_message("a").expect("There is no message.");
    assert!(message.value().is_none());
    let texts: Vec<String> = message
        .attributes()
        .map(|attribute| format!("{}: {}", attribute.id(), bundle.format_pattern(attribute.value(), None, &mut vec![])))
        .collect();
    assert_eq!(texts, ["x: X", "y: Y"]);
}

#[test]
fn locales_are_there() {
    let bundle: FluentBundle = FluentBundle::new(vec!["plx", "pl", "en"]);
    assert_eq!(bundle.locales, ["plx", "pl", "en"]);
    assert_eq!(FluentBundle::<FluentResource>::default().locales, ["en"]);
}

#[test]
fn bundles_share_resources() {
    let shared = Arc::new(resource("-t = T\na = { -t }\n"));
    let other = Arc::new(resource("a = Other\nt = A message\nNUMBER = A number\n-t = U\n"));
    let text = |bundle: &FluentBundle<Arc<FluentResource>>, id: &str| {
        let pattern = bundle.get_message(id).and_then(|message| message.value())?;
        Some(bundle.format_pattern(pattern, None, &mut vec![]).into_owned())
    };
    let mut first = FluentBundle::new(vec!["en"]);
    first.add_resource(Arc::clone(&shared)).expect("There is nothing.");
    assert_eq!(text(&first, "a").as_deref(), Some("T"));
    let errors = first.add_resource(Arc::clone(&other)).expect_err("There are such ids.");
    let shown: Vec<String> = errors.iter().map(FluentError::to_string).collect();
    let expected = ["message: \"a\"", "message: \"t\"", "message: \"NUMBER\"", "term: \"t\""];
    assert_eq!(shown, expected.map(|entry| format!("Attempt to override an existing {entry}.")));
    assert_eq!((text(&first, "a").as_deref(), text(&first, "t")), (Some("T"), None));
    let mut last = FluentBundle::new(vec!["en"]);
    last.add_resource_overriding(other);
    last.add_resource_overriding(shared);
    assert_eq!((text(&last, "a").as_deref(), text(&last, "t")), (Some("T"), None));
}

#[test]
fn a_bundle_in_a_static_is_shared_by_threads() {
    static BUNDLE: OnceLock<concurrent::FluentBundle<FluentResource>> = OnceLock::new();
    let shared = BUNDLE.get_or_init(|| {
        let mut bundle = concurrent::FluentBundle::new_concurrent(vec!["en"]);
        bundle.add_resource(resource("a = { $n }\nb = B\n")).expect("A message was there before.");
        bundle.set_use_isolating(false);
        bundle.set_plain_numbers(true);
        bundle
    });
    std::thread::scope(|scope| {
        for thread in 0..8 {
            scope.spawn(move || {
                for n in 0..2000 {
                    assert_eq!(text_of(shared, "a", &fluent_args!["n" => thread * n]), (thread * n).to_string());
                    assert_eq!(text_of(shared, "b", &FluentArgs::new()), "B");
                }
            });
        }
    });
}

#[test]
fn a_writer_asks_the_same_bundle() {
    struct Asking<'b> {
        bundle: &'b FluentBundle,
        written: String,
    }
    impl fmt::Write for Asking<'_> {
        fn write_str(&mut self, text: &str) -> fmt::Result {
            let inner = text_of(self.bundle, "b", &fluent_args!["n" => 7]);
            self.written = format!("{text} {inner}");
            Ok(())
        }
    }
    let bundle = bundle(&["a = A { $n }\nb = B { $n }\n"]);
    let pattern = bundle.get_message("a").and_then(|message| message.value()).expect("There is no value.");
    for _ in 0..3 {
        let mut writer = Asking { bundle: &bundle, written: String::new() };
        bundle.write_pattern(&mut writer, pattern, Some(&fluent_args!["n" => 1]), &mut vec![]).expect("It takes all.");
        assert_eq!(writer.written, "A 1 B 7");
    }
}

#[test]
fn a_writer_that_panics_leaves_the_bundle() {
    struct Panicking;
    impl fmt::Write for Panicking {
        fn write_str(&mut self, _text: &str) -> fmt::Result {
            panic!("The writer panics.")
        }
    }
    let bundle = bundle(&["a = A { $n }\n"]);
    let args = fluent_args!["n" => 1];
    let write = || {
        let pattern = bundle.get_message("a").and_then(|message| message.value()).expect("There is no value.");
        bundle.write_pattern(&mut Panicking, pattern, Some(&args), &mut vec![])
    };
    assert!(std::panic::catch_unwind(std::panic::AssertUnwindSafe(write)).is_err());
    assert_eq!(text_of(&bundle, "a", &args), "A 1");
}

#[test]
fn floats_are_numbers() {
    let mut bundle = bundle(&["a = { NUMBER($n) }\nb = { $n ->\n    [one] one\n   *[other] other\n}\nc = { $n }\n"]);
    bundle.set_plain_numbers(true);
    let number =
        |n: f64| (text_of(&bundle, "a", &fluent_args!["n" => n]), text_of(&bundle, "c", &fluent_args!["n" => n]));
    assert_eq!(number(1e-5 / 3.0), ("0.000003333333333333".into(), "0.000003333333333333".into()));
    assert_eq!(number(2.0 / 3e6).1, "0.000000666666666667");
    assert_eq!(number(1.0), ("1".into(), "1".into()));
    assert_eq!(number(1e21), ("NUMBER()".into(), "1000000000000000000000".into()));
    assert_eq!(number(f64::NAN).1, "NaN");
    assert_eq!(number(f64::NEG_INFINITY).1, "-inf");
    assert_eq!(text_of(&bundle, "b", &fluent_args!["n" => 1.0]), "one");
    assert_eq!(text_of(&bundle, "b", &fluent_args!["n" => FluentValue::try_number("1.0")]), "other");
}

#[test]
fn a_float_is_shown_with_the_digits_of_the_locale() {
    let source =
        "a = { $n }\nb = { NUMBER($n, maximumFractionDigits: 5) }\nc = { NUMBER($n, minimumFractionDigits: 1) }\n";
    let bundle = bundle(&[source]);
    let of = |id: &str, n: FluentValue<'_>| text_of(&bundle, id, &fluent_args!["n" => n]);
    for (n, a, b, c) in [
        (1.0 / 3.0, "0.333", "0.33333", "0.333"),
        (0.1 + 0.2, "0.3", "0.3", "0.3"),
        (1234.5678, "1,234.568", "1,234.5678", "1,234.568"),
        (2.0, "2", "2", "2.0"),
    ] {
        assert_eq!([of("a", n.into()), of("b", n.into()), of("c", n.into())], [a, b, c], "{n}");
    }
    // A text has the digits that it is written with.
    assert_eq!(of("a", FluentValue::try_number("0.12345")), "0.12345");
    let least =
        |n| FluentNumber::new(n, FluentNumberOptions { minimum_fraction_digits: Some(2), ..Default::default() });
    assert_eq!(of("a", least(0.5).into()), "0.50");
}

#[test]
fn numbers_have_options() {
    let bundle = bundle(&["a = { $n ->\n    [one] one { $n }\n   *[other] other { $n }\n}\n"]);
    let mut options = FluentNumberOptions::default();
    options.merge(&fluent_args!["minimumFractionDigits" => 2, "useGrouping" => "false"]);
    assert!(!options.use_grouping);
    assert_eq!(text_of(&bundle, "a", &fluent_args!["n" => FluentNumber::new(1.0, options)]), "other 1.00");
    assert_eq!(text_of(&bundle, "a", &fluent_args!["n" => FluentNumber::from(1.0)]), "one 1");
    let euros = FluentNumberOptions {
        style: FluentNumberStyle::Currency,
        currency: Some("EUR".to_owned()),
        maximum_fraction_digits: Some(0),
        ..Default::default()
    };
    let number = FluentNumber { value: 1234.5, options: euros };
    assert_eq!(text_of(&bundle, "a", &fluent_args!["n" => number]), "other €1,235");
    let large = FluentNumber::from(i64::MAX);
    assert_eq!((large.value, large.as_string().as_ref()), (i64::MAX as f64, "9223372036854775807"));
    assert_eq!(FluentNumber { value: 7.0, ..large }.as_string(), "7");
    assert_eq!("1e5".parse::<FluentNumber>(), Err(ParseNumberError));
    assert_eq!(FluentValue::try_number("1e5"), FluentValue::from("1e5"));
    assert_eq!(FluentValue::from(5), FluentValue::try_number("5"));
}

#[test]
fn no_value_is_the_empty_text() {
    let bundle = bundle(&["a = [{ $n }]\nb = { $n ->\n    [one] one\n   *[other] other\n}\n"]);
    for value in [FluentValue::None, FluentValue::Error, None::<&str>.into()] {
        let args = fluent_args!["n" => value];
        assert_eq!(shown(&bundle, "a", &args), ("[]".into(), vec![]));
        assert_eq!(shown(&bundle, "b", &args), ("other".into(), vec![]));
    }
    assert_eq!(FluentValue::from(Some(3)), FluentValue::from(3));
}

#[test]
fn errors_have_kinds() {
    let source = "\
a = { b } { b.c } { -d } { -d.e ->
    [x] X
   *[y] Y
} { F() } { $v }
n =
    .x = X
m = { n } { m }
";
    let bundle = bundle(&[source]);
    let id = String::from;
    let references = [
        ReferenceKind::Message { id: id("b"), attribute: None },
        ReferenceKind::Message { id: id("b"), attribute: Some(id("c")) },
        ReferenceKind::Term { id: id("d"), attribute: None },
        ReferenceKind::Term { id: id("d"), attribute: Some(id("e")) },
        ReferenceKind::Function { id: id("F") },
        ReferenceKind::Variable { id: id("v") },
    ];
    let expected: Vec<FluentError> = references.into_iter().map(|kind| ResolverError::Reference(kind).into()).collect();
    assert_eq!(shown(&bundle, "a", &FluentArgs::new()).1, expected);
    let expected: [FluentError; 2] = [ResolverError::NoValue(id("n")).into(), ResolverError::Cyclic.into()];
    assert_eq!(shown(&bundle, "m", &FluentArgs::new()).1, expected);
}

#[test]
fn comments_have_no_errors() {
    assert!(FluentResource::try_new("#bad\na = b\n".into()).is_ok());
    let source = "#bad é\nx\n##bad\r\ny = {\n#\nb = c";
    let (_, errors) = FluentResource::try_new(source.into()).expect_err("The source has errors.");
    let found: Vec<_> = errors.into_iter().map(|error| (error.pos, error.kind)).collect();
    assert_eq!(found, [(9..10, ErrorKind::ExpectedToken('=')), (23..24, ErrorKind::ExpectedInlineExpression)]);
}

#[test]
fn errors_of_a_source_have_places() {
    let (_, errors) = FluentResource::try_new("a = b\ng@Rb@ge\nc = {\n".into()).expect_err("The source has errors.");
    assert_eq!((errors[0].pos.clone(), errors[0].kind), (7..8, ErrorKind::ExpectedToken('=')));
    assert_eq!((errors[0].slice.clone(), errors[1].slice.clone()), (Some(6..14), Some(14..20)));
    assert_eq!(errors[1].kind, ErrorKind::ExpectedInlineExpression);
    assert_eq!(FluentError::from(errors[0].clone()).to_string(), "Parser error: bytes 7..8: ExpectedToken");
}

#[test]
fn what_nests_too_deep_is_an_error() {
    let deep = format!("deep = {}\"x\"{}\n", "{".repeat(3000), "}".repeat(3000));
    let (resource, errors) = FluentResource::try_new(deep.clone()).expect_err("It nests too deep.");
    assert_eq!(errors.iter().map(|error| error.kind).collect::<Vec<_>>(), [ErrorKind::OutOfMemory]);
    assert_eq!(errors[0].pos, 0..deep.len());
    let before = "a = A\n\n# Deep\n";
    let (_, errors) = FluentResource::try_new(format!("{before}{deep}b = B\n")).expect_err("It nests too deep.");
    assert_eq!((errors.len(), errors[0].pos.clone()), (1, before.len()..before.len() + deep.len()));
    let mut bundle = bundle(&["a = A\n"]);
    bundle.add_resource(resource).expect("It has no messages.");
    assert_eq!(text_of(&bundle, "a", &FluentArgs::new()), "A");
    assert!(!bundle.has_message("deep"));

    let calling = |n: usize| format!("m{n} = {}{{ m{} }}{}\n", "{NUMBER(".repeat(200), n + 1, ")}".repeat(200));
    let source: String = (0..50).map(calling).collect();
    let bundle = self::bundle(&[&source, "m50 = x\n"]);
    assert_eq!(text_of(&bundle, "m49", &FluentArgs::new()), "NUMBER()");
    assert_eq!(shown(&bundle, "m0", &FluentArgs::new()), ("{m0}".into(), vec![ResolverError::OutOfMemory.into()]));
}

/// A small generator of numbers, so that each run tries the same.
struct Random(u64);

impl Random {
    fn below(&mut self, bound: usize) -> usize {
        self.0 = self.0.wrapping_mul(6_364_136_223_846_793_005).wrapping_add(1_442_695_040_888_963_407);
        (self.0 >> 33) as usize % bound
    }
}

#[test]
fn resources_are_added_in_both_ways() {
    let mut random = Random(1);
    for _ in 0..500 {
        let mut bundle = FluentBundle::new(vec!["en"]);
        let mut counting = [None::<String>, None, None];
        let mut has_doubles = [false; 2];
        for number in 0..random.below(6) {
            let ids: Vec<usize> = (0..random.below(5)).map(|_| random.below(3)).collect();
            let text = |place: usize| format!("{number}.{place}");
            let entry = |(place, id): (usize, &usize)| format!("# {place}\nm{id} = {}\n    .a = x\n", text(place));
            let resource = resource(&ids.iter().enumerate().map(entry).collect::<String>());
            let is_overriding = random.below(2) == 0;
            let doubles = ids.iter().enumerate().any(|(place, id)| ids[..place].contains(id));
            if doubles && has_doubles[usize::from(!is_overriding)] {
                continue;
            }
            has_doubles[usize::from(is_overriding)] |= doubles;
            let mut errors = vec![];
            for (place, id) in ids.iter().enumerate() {
                if is_overriding || counting[*id].is_none() {
                    counting[*id] = Some(text(place));
                } else {
                    errors.push(FluentError::Overriding { kind: EntryKind::Message, id: format!("m{id}") });
                }
            }
            if is_overriding {
                bundle.add_resource_overriding(resource);
            } else {
                assert_eq!(bundle.add_resource(resource).err().unwrap_or_default(), errors);
            }
            if random.below(2) == 0 {
                bundle.has_message("m0");
            }
            for (id, text) in counting.iter().enumerate() {
                let id = format!("m{id}");
                let value = bundle.get_message(&id).and_then(|message| message.value());
                let found = value.map(|value| bundle.format_pattern(value, None, &mut vec![]).into_owned());
                assert_eq!(found, *text);
            }
        }
    }
}

#[test]
fn many_resources_are_added_and_read_once() {
    let source = |number: usize| -> String { (0..50).map(|n| format!("m-{number}-{n} = {n} of {number}\n")).collect() };
    let mut bundle = FluentBundle::new(vec!["en"]);
    for number in 0..400 {
        bundle.add_resource(resource(&source(number))).expect("A message was there before.");
    }
    assert_eq!(text_of(&bundle, "m-399-49", &FluentArgs::new()), "49 of 399");
}

#[test]
fn many_arguments_are_by_their_names() {
    let names: Vec<String> = (0..3645).map(|n| format!("v{}", n * 7919 % 3645)).collect();
    let mut args = FluentArgs::new();
    for (n, name) in names.iter().enumerate() {
        args.set(name.as_str(), n);
    }
    assert_eq!(args, names.iter().map(String::as_str).zip(0_usize..).collect());
    assert_eq!(args.get("v7919"), None);
    assert_eq!(args.get(names[17].as_str()), Some(&FluentValue::from(17)));
    assert!(args.iter().map(|(name, _)| name).is_sorted());
    let copy = args.clone();
    assert!(copy.iter().eq(args.clone().into_iter().collect::<FluentArgs<'_>>().iter()));
    assert!(copy.into_iter().map(|(name, _)| name).is_sorted());
    let mut others = args.clone();
    others.set(names[17].as_str(), "other");
    assert_eq!((others.get(names[17].as_str()), others.iter().count()), (Some(&FluentValue::from("other")), 3645));
    assert_ne!(others, args);
    let bundle = bundle(&["a = { $v0 } { $v3644 }\n"]);
    let place = |name: &str| names.iter().position(|it| it == name).expect("It is there.");
    assert_eq!(text_of(&bundle, "a", &args), format!("{} {}", place("v0"), place("v3644")));
    let twice: FluentArgs<'_> = [("a", 1), ("b", 2), ("a", 3), ("a", 4)].into_iter().collect();
    assert_eq!(twice, fluent_args!["b" => 2, "a" => 4]);
    assert_eq!(
        format!("{twice:?}"),
        format!("{{\"a\": {:?}, \"b\": {:?}}}", FluentValue::from(4), FluentValue::from(2))
    );
    for count in 0..40 {
        let up: FluentArgs<'_> = (0..count).map(|n| (format!("{n:02}"), n)).collect();
        let (mut down, mut in_turn) = (FluentArgs::new(), FluentArgs::new());
        for n in 0..count {
            down.set(format!("{:02}", count - 1 - n), count - 1 - n);
            in_turn.set(format!("{n:02}"), n);
        }
        assert_eq!((&down, &in_turn), (&up, &up));
        assert!((0..count).all(|n| down.get(format!("{n:02}")) == Some(&n.into())));
    }
}
