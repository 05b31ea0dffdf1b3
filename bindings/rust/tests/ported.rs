//! Programs for the crates `fluent-bundle`, `fluent-langneg`, `intl-memoizer` and `unic-langid`, of which the `use` lines alone
//! were changed.

use kozhvadi as fluent_bundle;
use kozhvadi::{intl_memoizer, unic_langid};

use fluent_bundle::memoizer::MemoizerKind;
use fluent_bundle::resolver::Scope;
use fluent_bundle::types::{FluentNumber, FluentNumberOptions, FluentType};
use fluent_bundle::{fluent_args, FluentArgs, FluentBundle, FluentError, FluentResource, FluentValue};
use std::borrow::{Borrow, Cow};
use std::sync::Arc;
use unic_langid::{langid, langids, LanguageIdentifier};

/// A bundle of a source, in English.
fn english(source: &str) -> FluentBundle<FluentResource> {
    let resource = FluentResource::try_new(source.to_owned()).expect("Failed to parse an FTL string.");
    let langid_en: LanguageIdentifier = "en-US".parse().expect("Parsing failed.");
    let mut bundle = FluentBundle::new(vec![langid_en]);
    bundle.set_use_isolating(false);
    bundle.add_resource(resource).expect("Failed to add FTL resources to the bundle.");
    bundle
}

fn text(bundle: &FluentBundle<FluentResource>, id: &str, args: Option<&FluentArgs>) -> (String, Vec<FluentError>) {
    let mut errors = vec![];
    let pattern = bundle.get_message(id).expect("Message doesn't exist.").value().expect("Message has no value.");
    (bundle.format_pattern(pattern, args, &mut errors).into_owned(), errors)
}

/// As in the compiler of Rust: a bundle's type by the path of its module, with the memoizer of threads.
mod the_compiler {
    use super::fluent_bundle::{bundle, FluentResource};
    use super::intl_memoizer::concurrent::IntlLangMemoizer;
    use super::langid;

    pub type FluentBundle = bundle::FluentBundle<FluentResource, IntlLangMemoizer>;

    pub fn new_bundle() -> FluentBundle {
        FluentBundle::new_concurrent(vec![langid!("en-US")])
    }

    pub fn is_shared<T: Send + Sync>(_: &T) {}
}

#[test]
fn a_bundle_is_named_by_its_module() {
    let mut bundle = the_compiler::new_bundle();
    the_compiler::is_shared(&bundle);
    bundle.add_resource_overriding(FluentResource::try_new("a = A".to_owned()).unwrap());
    assert!(bundle.has_message("a"));
}

/// As in `i18n-embed`: functions over bundles of any resource and any memoizer.
fn formatted<R, M>(bundle: &fluent_bundle::bundle::FluentBundle<R, M>, id: &str) -> Option<String>
where
    R: Borrow<FluentResource>,
    M: MemoizerKind,
{
    let pattern = bundle.get_message(id)?.value()?;
    Some(bundle.format_pattern(pattern, None, &mut vec![]).into_owned())
}

#[test]
fn functions_are_generic_over_memoizers() {
    let mut bundle = fluent_bundle::concurrent::FluentBundle::new_concurrent(vec![langid!("en-US")]);
    bundle.add_resource(Arc::new(FluentResource::try_new("a = A".to_owned()).unwrap())).unwrap();
    assert_eq!(formatted(&bundle, "a").as_deref(), Some("A"));
    let shared: Arc<fluent_bundle::bundle::FluentBundle<_, _>> = Arc::new(bundle);
    assert_eq!(formatted(&*shared, "b"), None);
    let other = fluent_bundle::bundle::FluentBundle::<FluentResource, intl_memoizer::IntlLangMemoizer>::default();
    assert_eq!(formatted(&other, "a"), None);
}

#[test]
fn number_is_a_function_of_the_program() {
    let mut bundle = english(
        "price = { NUMBER($n, minimumFractionDigits: 2) }\nn = { NUMBER($n) ->\n    [one] one\n   *[other] other\n}",
    );
    bundle
        .add_function("NUMBER", |positional, named| match positional.first() {
            Some(FluentValue::Number(n)) => {
                let mut num = n.clone();
                num.options.merge(named);
                FluentValue::Number(num)
            }
            _ => FluentValue::Error,
        })
        .expect("Failed to add a function.");
    assert_eq!(text(&bundle, "price", Some(&fluent_args!["n" => 5])).0, "5.00");
    assert_eq!(text(&bundle, "n", Some(&fluent_args!["n" => 1])).0, "one");
}

#[test]
fn a_number_is_a_struct() {
    let bundle = english("a = { $n }");
    let options = FluentNumberOptions { minimum_fraction_digits: Some(3), ..Default::default() };
    let number = FluentNumber { value: 5.0, options };
    assert_eq!(number.value * 2.0, 10.0);
    assert_eq!(text(&bundle, "a", Some(&fluent_args!["n" => FluentValue::Number(number)])).0, "5.000");
}

/// As in `fluent-templates`: arguments that come as numbers of JSON.
#[test]
fn arguments_are_made_of_numbers() {
    fn value_of(n: f64) -> FluentValue<'static> {
        FluentValue::Number(FluentNumber::new(n, FluentNumberOptions::default()))
    }
    let mut bundle = english("a = { ADD($n, 2) } { TIME_ELAPSED($n) }");
    bundle
        .add_function("ADD", |args, _named| {
            let sum = args.iter().map(|arg| if let FluentValue::Number(n) = arg { n.value } else { f64::NAN }).sum();
            value_of(sum)
        })
        .unwrap();
    bundle
        .add_function("TIME_ELAPSED", |args, _| match args.first() {
            Some(FluentValue::Number(FluentNumber { value, .. })) => format!("{value}s").into(),
            _ => FluentValue::None,
        })
        .unwrap();
    assert_eq!(text(&bundle, "a", Some(&fluent_args!["n" => value_of(1.5)])).0, "3.5 1.5s");
    assert_eq!(text(&bundle, "a", Some(&fluent_args!["n" => "x"])).0, "NaN ");
}

#[test]
fn errors_of_a_source_are_reported() {
    let source = "good = Good\nbad\n  more\nother = {\n";
    let (_, errors) = FluentResource::try_new(source.to_owned()).unwrap_err();
    let told: Vec<String> = errors
        .iter()
        .map(|fluent_bundle::ParserError { pos, slice, kind }| {
            let junk = slice.clone().map(|range| &source[range]).unwrap_or_default();
            let expected = match kind {
                fluent_bundle::ErrorKind::ExpectedToken(token) => format!("expected {token:?}"),
                other => other.to_string(),
            };
            format!("{}: {expected} in {junk:?}", pos.start)
        })
        .collect();
    assert_eq!(told, ["15: expected '=' in \"bad\\n  more\\n\"", "33: ExpectedInlineExpression in \"other = {\\n\""]);
}

#[test]
fn locales_are_tags() {
    let bundle = english("");
    assert_eq!(bundle.locales, vec![langid!("en-US")]);
    assert_eq!(bundle.locales[0].to_string(), "en-US");
    let requested = [langid!("de-AT"), langid!("fr")];
    let available = ["en-US", "de", "fr-CA"].map(|tag| tag.parse::<LanguageIdentifier>().unwrap());
    let default = langid!("en-US");
    let strategy = fluent_bundle::NegotiationStrategy::Filtering;
    let used = fluent_bundle::negotiate_languages(&requested, &available, Some(&default), strategy);
    assert_eq!(used, [&langid!("de"), &langid!("fr-CA"), &langid!("en-US")]);
}

/// As in the tests of `fluent-bundle`: a date with options.
#[derive(Clone, Debug, Default, PartialEq)]
struct DateTime {
    epoch: usize,
    is_full: bool,
}

impl FluentType for DateTime {
    fn duplicate(&self) -> Box<dyn FluentType + Send> {
        Box::new(self.clone())
    }

    fn as_string(&self, _: &intl_memoizer::IntlLangMemoizer) -> Cow<'static, str> {
        format!("2020-01-20 {}:00{}", self.epoch, if self.is_full { " UTC" } else { "" }).into()
    }

    fn as_string_threadsafe(&self, _: &intl_memoizer::concurrent::IntlLangMemoizer) -> Cow<'static, str> {
        self.as_string(&Default::default())
    }
}

#[test]
fn values_have_types_of_the_program() {
    let date = |epoch| FluentValue::Custom(Box::new(DateTime { epoch, is_full: false }));
    assert!(date(10) == date(10) && date(10) != date(15) && date(10) != FluentValue::from("foo"));

    let source = "implicit = Hello { $date } World\nexplicit = { DATETIME($date, dateStyle: \"full\") }\nchosen = { $date ->\n    [a] a\n   *[other] { DATETIME(12) }\n}";
    let mut bundle = english(source);
    bundle
        .add_function("DATETIME", |positional, named| match positional.first() {
            Some(FluentValue::Custom(custom)) => match custom.as_ref().as_any().downcast_ref::<DateTime>() {
                Some(that) => {
                    let is_full = named.get("dateStyle") == Some(&FluentValue::from("full"));
                    FluentValue::Custom(Box::new(DateTime { is_full, ..that.clone() }))
                }
                None => FluentValue::Error,
            },
            Some(FluentValue::Number(num)) => {
                FluentValue::Custom(Box::new(DateTime { epoch: num.value as usize, is_full: false }))
            }
            _ => FluentValue::Error,
        })
        .unwrap();
    let args = fluent_args!["date" => date(10)];
    let shown = |id: &str| text(&bundle, id, Some(&args));
    assert_eq!(shown("implicit"), ("Hello 2020-01-20 10:00 World".to_owned(), vec![]));
    assert_eq!(shown("explicit").0, "2020-01-20 10:00 UTC");
    assert_eq!(shown("chosen").0, "2020-01-20 12:00");
    let mut written = String::new();
    let pattern = bundle.get_message("implicit").and_then(|message| message.value()).unwrap();
    bundle.write_pattern(&mut written, pattern, Some(&args), &mut vec![]).unwrap();
    assert_eq!(written, "Hello 2020-01-20 10:00 World");
}

#[test]
fn numbers_are_formatted_by_the_program() {
    fn custom_formatter<M: MemoizerKind>(num: &FluentValue, _intls: &M) -> Option<String> {
        match num {
            FluentValue::Number(n) => Some(format!("CUSTOM({})", n.value)),
            _ => None,
        }
    }
    let source = "implicit = Hello { 5.000 } World\nexplicit = Hello { NUMBER(5, minimumFractionDigits: 2) } World\nvalue = { $n ->\n    [one] one { $n } { $name }\n   *[other] other { $gone }\n}";
    let mut bundle = english(source);
    let args = fluent_args!["n" => 1, "name" => "x"];
    let shown = |bundle: &FluentBundle<FluentResource>, id: &str| text(bundle, id, Some(&args)).0;
    assert_eq!(shown(&bundle, "implicit"), "Hello 5.000 World");
    assert_eq!(shown(&bundle, "explicit"), "Hello 5.00 World");
    bundle.set_formatter(Some(custom_formatter));
    assert_eq!(shown(&bundle, "implicit"), "Hello CUSTOM(5) World");
    assert_eq!(shown(&bundle, "explicit"), "Hello CUSTOM(5) World");
    assert_eq!(shown(&bundle, "value"), "one CUSTOM(1) x");
    let (text, errors) = text(&bundle, "value", Some(&fluent_args!["n" => 2]));
    assert_eq!((text.as_str(), errors.len()), ("other {$gone}", 1));
    bundle.set_formatter(None);
    assert_eq!(shown(&bundle, "implicit"), "Hello 5.000 World");
}

/// As in `i18n-embed`: texts that show which ones are translated.
#[test]
fn texts_are_transformed() {
    fn transform(text: &str) -> Cow<'_, str> {
        text.replace('e', "é").into()
    }
    let source = "\
plain = Hello there
    on two lines
value = { $n ->
    [one] see { $name } { SHOW($name) } { $n }
   *[other] { plain } { -term } { NUMBER(2.50) } { $gone }
}
-term = the term
";
    let mut bundle = english(source);
    bundle.add_function("SHOW", |given, _| given[0].clone()).unwrap();
    bundle.set_transform(Some(transform));
    let shown = |bundle: &FluentBundle<FluentResource>, n: i32| {
        text(bundle, "value", Some(&fluent_args!["n" => n, "name" => "Jane"])).0
    };
    assert_eq!(text(&bundle, "plain", None).0, "Héllo théré\non two linés");
    assert_eq!(shown(&bundle, 1), "séé Jane Jane 1");
    assert_eq!(shown(&bundle, 1234), "Héllo théré\non two linés thé térm 2.50 {$gone}");
    let nan = fluent_args!["n" => 1, "name" => f64::NAN];
    assert_eq!(text(&bundle, "value", Some(&nan)).0, "séé NaN NaN 1");
    bundle.set_transform(None);
    assert_eq!(shown(&bundle, 1), "see Jane Jane 1");
}

#[test]
fn a_small_stack_is_enough_for_a_small_budget() {
    let thread = std::thread::Builder::new().stack_size(1 << 20);
    let asked = thread.spawn(|| {
        let deep = format!("deep = {}\"x\"{}\na = A {{ $n }}\n", "{".repeat(1400), "}".repeat(1400));
        let (resource, errors) = FluentResource::try_new_within(deep, 400_000).expect_err("It nests too deep.");
        let resource = match errors[..] {
            [] => resource,
            _ => FluentResource::try_new_within("a = A { $n }\n".to_owned(), 400_000).expect("It is read."),
        };
        let mut bundle = FluentBundle::new(vec![langid!("en")]);
        bundle.set_stack(400_000);
        bundle.set_use_isolating(false);
        bundle.add_resource(resource).expect("There is nothing.");
        text(&bundle, "a", Some(&fluent_args!["n" => 1])).0
    });
    assert_eq!(asked.expect("The thread is made.").join().expect("It doesn't end."), "A 1");
}

/// As in the tests of `fluent-bundle`: Najdi Arabic has each plural category.
#[test]
fn values_are_matched() {
    let bundle: FluentBundle<FluentResource> = FluentBundle::new(vec![langid!("ars")]);
    let scope = Scope::new(&bundle, None, None);
    let matches = |key: &FluentValue, value: &FluentValue| key.matches(value, &scope);
    let (text, other) = (FluentValue::from("string1"), FluentValue::from("string2"));
    let (number, minus) = (FluentValue::from(23.5), FluentValue::from(-23));
    assert!(matches(&text, &text.clone()) && !matches(&text, &other));
    assert!(matches(&number, &number.clone()) && !matches(&number, &minus));
    assert!(!matches(&number, &text) && !matches(&text, &number) && !matches(&FluentValue::None, &FluentValue::None));
    for (name, n) in [("zero", 0), ("one", 1), ("two", 2), ("few", 3), ("many", 11), ("other", 101)] {
        assert!(matches(&FluentValue::from(name), &FluentValue::from(n)), "{name} {n}");
        assert!(!matches(&FluentValue::from(name), &FluentValue::from(f64::NAN)), "{name}");
    }
    let written =
        FluentNumber::new(1.0, FluentNumberOptions { minimum_fraction_digits: Some(1), ..Default::default() });
    let english = FluentBundle::<FluentResource>::new(vec![langid!("en")]);
    let scope = Scope::new(&english, None, None);
    assert!(FluentValue::from("one").matches(&FluentValue::from(1), &scope));
    assert!(FluentValue::from("other").matches(&FluentValue::Number(written), &scope));
}

/// As in the compiler of Rust: a list as the formatter of a language joins it, which another crate has.
#[derive(Clone, Debug, PartialEq)]
struct List(Vec<String>);

struct ListFormatter(&'static str);

impl intl_memoizer::Memoizable for ListFormatter {
    type Args = ();
    type Error = ();

    fn construct(lang: LanguageIdentifier, _args: Self::Args) -> Result<Self, Self::Error>
    where
        Self: Sized,
    {
        Ok(ListFormatter(if lang == langid!("de") { " und " } else { " and " }))
    }
}

impl FluentType for List {
    fn duplicate(&self) -> Box<dyn FluentType + Send> {
        Box::new(self.clone())
    }

    fn as_string(&self, intls: &intl_memoizer::IntlLangMemoizer) -> Cow<'static, str> {
        let result = intls.with_try_get::<ListFormatter, _, _>((), |formatter| self.0.join(formatter.0)).unwrap();
        Cow::Owned(result)
    }

    fn as_string_threadsafe(&self, intls: &intl_memoizer::concurrent::IntlLangMemoizer) -> Cow<'static, str> {
        let result = intls.with_try_get::<ListFormatter, _, _>((), |formatter| self.0.join(formatter.0)).unwrap();
        Cow::Owned(result)
    }
}

#[test]
fn formatters_are_those_of_the_language() {
    for (tag, expected) in [("de", "a und b"), ("en-US", "a and b")] {
        let mut bundle = FluentBundle::new(vec![tag.parse::<LanguageIdentifier>().unwrap()]);
        bundle.set_use_isolating(false);
        bundle.add_resource(FluentResource::try_new("list = { $list }".to_owned()).unwrap()).unwrap();
        let list = FluentValue::Custom(Box::new(List(vec!["a".to_owned(), "b".to_owned()])));
        assert_eq!(text(&bundle, "list", Some(&fluent_args!["list" => list])), (expected.to_owned(), vec![]));
        bundle.set_formatter(Some(|value, intls| match value {
            FluentValue::Custom(value) => Some(format!("<{}>", intls.stringify_value(&**value))),
            _ => None,
        }));
        let list = FluentValue::Custom(Box::new(List(vec!["a".to_owned(), "b".to_owned()])));
        assert_eq!(text(&bundle, "list", Some(&fluent_args!["list" => list])).0, format!("<{expected}>"));
    }
}

/// As in the page of `fluent-langneg`.
#[test]
fn tags_are_made_of_texts() {
    let requested = fluent_bundle::convert_vec_str_to_langids_lossy(["de-DE", "not a tag", "en-US"]);
    let available = fluent_bundle::convert_vec_str_to_langids_lossy(["it", "fr", "de-AT", "fr-CA", "en-US"]);
    let default: LanguageIdentifier = "en-US".parse().expect("Parsing langid failed.");
    let strategy = fluent_bundle::NegotiationStrategy::Filtering;
    let supported = fluent_bundle::negotiate_languages(&requested, &available, Some(&default), strategy);
    assert_eq!(supported.into_iter().cloned().collect::<Vec<_>>(), langids!["de-AT", "en-US"]);
    assert!(fluent_bundle::convert_vec_str_to_langids(["de", "-"]).is_err());
    assert_eq!(fluent_bundle::parse_accepted_languages("de-AT;0.9,de-DE;0.8,*"), langids!["de-AT", "de-DE"]);
}
