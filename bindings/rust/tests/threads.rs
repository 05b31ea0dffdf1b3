//! Eight threads over all that threads may share, at once.

use kozhvadi::types::FluentDateTime;
use kozhvadi::{
    fluent_args, lint, negotiate_languages, occurrences, tidy, FluentArgs, FluentBundle, FluentResource, FluentValue,
    LintOptions, Localization, NegotiationStrategy,
};
use std::sync::{Arc, Barrier};
use std::thread;

const THREADS: usize = 8;
const ROUNDS: usize = 50;

type Shared = Arc<FluentResource>;

const SOURCE: &str = "\
-brand = Firefox
hello = Hello, { $name }!
    .title = { -brand }
plain = Plain
many = { $n ->
    [one] One file
   *[other] { NUMBER($n) } files
}
made = { JOIN(UP(\"a\"), UP($name)) }
day = { DATETIME($day, dateStyle: \"long\") }
broken = { $absent }
";

fn resource(source: &str) -> Shared {
    Arc::new(FluentResource::try_new(source.to_owned()).expect("The source has an error."))
}

/// A bundle with two functions, whose lists are those of others over the same resource.
fn bundle(locale: &str, resource: &Shared) -> FluentBundle<Shared> {
    let mut bundle = FluentBundle::new(vec![locale]);
    bundle.set_use_isolating(false);
    bundle.add_resource(Arc::clone(resource)).expect("An id was there before.");
    let added = bundle.add_function("UP", |given, _| match given.first() {
        Some(FluentValue::String(text)) => text.to_uppercase().into(),
        _ => FluentValue::Error,
    });
    added.expect("The name was taken.");
    let added = bundle.add_function("JOIN", |given, _| format!("{given:?}").len().into());
    added.expect("The name was taken.");
    bundle
}

fn text(bundle: &FluentBundle<Shared>, id: &str, args: &FluentArgs<'_>) -> (String, usize) {
    let pattern = bundle.get_message(id).and_then(|message| message.value()).expect("The message has no value.");
    let mut errors = vec![];
    (bundle.format_pattern(pattern, Some(args), &mut errors).into_owned(), errors.len())
}

/// Asks a bundle all that can be asked.
fn ask(bundle: &FluentBundle<Shared>, name: &str) {
    let day: FluentDateTime = "2026-11-28".parse().expect("It is a date.");
    let args = fluent_args!["name" => name, "n" => 3, "day" => day];
    let expected = format!("Hello, {name}!");
    assert_eq!(text(bundle, "hello", &args), (expected.clone(), 0));
    assert_eq!(text(bundle, "plain", &args), ("Plain".to_owned(), 0));
    assert_eq!(text(bundle, "many", &args), ("3 files".to_owned(), 0));
    assert_eq!(text(bundle, "broken", &args), ("{$absent}".to_owned(), 1));
    assert!(text(bundle, "made", &args).0.parse::<usize>().is_ok_and(|len| len > name.len()));
    assert!(text(bundle, "day", &args).0.contains("2026"));
    let message = bundle.get_message("hello").expect("It is there.");
    let title = message.get_attribute("title").expect("It has a title.").value();
    assert_eq!(bundle.format_pattern(title, None, &mut vec![]), "Firefox");
    let mut written = String::new();
    let value = message.value().expect("It has a value.");
    bundle.write_pattern(&mut written, value, Some(&args), &mut vec![]).expect("A text takes all.");
    assert_eq!(written, expected);
    assert!(bundle.has_message("made") && !bundle.has_message("brand"));
    assert_eq!(bundle.messages().count(), 6);
    assert_eq!(bundle.variables("many").expect("It is there.").collect::<Vec<_>>(), ["n"]);
}

/// Calls that need no bundle, over one source.
fn read(resource: &FluentResource) {
    assert_eq!(resource.entries().count(), 7);
    assert!(resource.get_entry(6).is_some() && resource.get_entry(7).is_none());
    let options = LintOptions { functions: &["UP", "JOIN"], locale: Some("pl"), ..LintOptions::default() };
    assert!(!lint(&[("a.ftl", resource.source())], &[], &options).expect("It is made.").findings.is_empty());
    assert_eq!(tidy("a   =  b").expect("It has one."), "a = b\n");
    assert!(occurrences(resource.source()).expect("It nests little.").len() > 6);
    let used = negotiate_languages(&["de-AT"], &["en", "de"], None, NegotiationStrategy::Filtering);
    assert_eq!(used, [&"de"]);
}

#[test]
fn threads_share_all_that_can_be_shared() {
    let resource = resource(SOURCE);
    let english = Arc::new(bundle("en", &resource));
    let texts =
        Localization::new([Arc::new(bundle("de", &self::resource("plain = Schlicht\n"))), Arc::clone(&english)]);
    let starts = Barrier::new(THREADS);
    thread::scope(|scope| {
        for number in 0..THREADS {
            let (resource, english, texts, starts) = (&resource, &english, &texts, &starts);
            scope.spawn(move || {
                let name = format!("thread {number}");
                starts.wait();
                for round in 0..ROUNDS {
                    ask(english, &name);
                    // A bundle of the thread's own over the shared resource, which another thread goes on to ask.
                    let own = bundle(["en", "de"][round % 2], resource);
                    ask(&own, &name);
                    thread::scope(|inner| inner.spawn(|| ask(&own, "other")).join().expect("It ends well."));
                    let args = fluent_args!["name" => name.as_str()];
                    let mut errors = vec![];
                    assert_eq!(texts.format_value("plain", None, &mut errors).as_deref(), Some("Schlicht"));
                    let hello = texts.format_value("hello", Some(&args), &mut errors);
                    assert_eq!(hello, Some(format!("Hello, {name}!").into()));
                    read(resource);
                }
            });
        }
    });
}
