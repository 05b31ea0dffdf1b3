//! Languages: which are used, and texts that fall back.

use kozhvadi::{
    negotiate_languages, FluentArgs, FluentBundle, FluentResource, L10nAttribute, L10nMessage, Localization,
    LocalizationError, NegotiationStrategy,
};
use std::fs;
use std::path::Path;

fn used(requested: &str, available: &str) -> String {
    let requested: Vec<&str> = requested.split(' ').collect();
    let available: Vec<&str> = available.split(' ').collect();
    let found = negotiate_languages(&requested, &available, None, NegotiationStrategy::Filtering);
    found.into_iter().copied().collect::<Vec<_>>().join(" ")
}

#[test]
fn negotiates() {
    for (requested, available, expected) in [
        ("de-AT fr", "en-US de fr", "de fr"),
        ("zh-TW", "en zh-CN zh-Hant", "zh-Hant"),
        ("no", "nb nn", "nb"),
        ("es-MX", "es es-419", "es-419 es"),
        ("en-AU", "en-US en-GB", "en-GB en-US"),
        ("sr-Latn", "sr", "sr"),
        ("C x *", "en", ""),
    ] {
        assert_eq!(used(requested, available), expected, "{requested} of {available}");
    }
}

#[test]
fn last_resort() {
    let available = [String::from("en-US"), String::from("de")];
    let of = |requested: &[&str], strategy| negotiate_languages(requested, &available, available.first(), strategy);
    assert_eq!(of(&["de"], NegotiationStrategy::Filtering), ["de", "en-US"]);
    assert_eq!(of(&["de"], NegotiationStrategy::Lookup), ["de"]);
    assert_eq!(of(&["pl"], NegotiationStrategy::Lookup), ["en-US"]);
    assert_eq!(of(&[], NegotiationStrategy::Matching), ["en-US"]);
}

fn bundle(locale: &str, source: &str) -> FluentBundle {
    let mut bundle = FluentBundle::new(vec![locale]);
    bundle.set_use_isolating(false);
    bundle.add_resource(FluentResource::try_new(source.to_owned()).expect("no error")).expect("no id twice");
    bundle
}

#[test]
fn falls_back() {
    let texts = Localization::new([
        bundle("de", "hello = Hallo, { $name }\nlogin =\n    .label = Anmelden\n"),
        bundle("en-US", "hello = Hello\nlogin = Log in\n    .title = Title\n"),
    ]);
    let mut args = FluentArgs::new();
    args.set("name", "Jane");
    let mut errors = vec![];
    assert_eq!(texts.format_value("hello", Some(&args), &mut errors).as_deref(), Some("Hallo, Jane"));
    assert!(errors.is_empty());
    assert_eq!(texts.format_value("login", None, &mut errors).as_deref(), Some("Log in"));
    assert_eq!(errors, [LocalizationError::MissingValue { id: "login".into(), locale: Some("de".into()) }]);
    assert_eq!(texts.format_attribute("login", "title", None, &mut errors).as_deref(), Some("Title"));
    errors.clear();
    assert_eq!(texts.format_value("hello", None, &mut errors).as_deref(), Some("Hallo, {$name}"));
    assert!(matches!(&errors[..], [LocalizationError::Resolver { locale, .. }] if locale == "de"));
    errors.clear();
    assert_eq!(texts.format_value("bye", None, &mut errors), None);
    assert_eq!(errors.len(), 3);
    assert_eq!(errors[2], LocalizationError::MissingMessage { id: "bye".into(), locale: None });
    let keys = [("hello", Some(args)), ("bye", None)];
    let all = texts.format_values(&keys, &mut errors);
    assert_eq!(all[0].as_deref(), Some("Hallo, Jane"));
    assert_eq!(all[1], None);
}

#[test]
fn messages_have_values_and_attributes() {
    let texts = Localization::new([
        bundle("de", "login =\n    .label = Anmelden\n    .title = { $absent }\n"),
        bundle("en-US", "login = Log in\nbye = Bye\n"),
    ]);
    let mut errors = vec![];
    let messages = texts.format_messages(&[("login", None), ("bye", None), ("nothing", None)], &mut errors);
    let attribute = |name: &'static str, value: &'static str| L10nAttribute { name: name.into(), value: value.into() };
    let login =
        L10nMessage { value: None, attributes: vec![attribute("label", "Anmelden"), attribute("title", "{$absent}")] };
    let bye = L10nMessage { value: Some("Bye".into()), attributes: vec![] };
    assert_eq!(messages, [Some(login), Some(bye), None]);
    assert!(matches!(&errors[0], LocalizationError::Resolver { id, locale, .. } if id == "login" && locale == "de"));
    let missing = |id: &str, locale: Option<&str>| LocalizationError::MissingMessage {
        id: id.into(),
        locale: locale.map(Into::into),
    };
    let rest = [
        missing("bye", Some("de")),
        missing("nothing", Some("de")),
        missing("nothing", Some("en-US")),
        missing("nothing", None),
    ];
    assert_eq!(errors[1..], rest);
}

#[test]
fn texts_come_from_three_folders() {
    let folder = Path::new(env!("CARGO_MANIFEST_DIR")).join("../../examples/l10n");
    let used =
        negotiate_languages(&["de-AT", "fr"], &["en-US", "de", "fr"], Some(&"en-US"), NegotiationStrategy::Filtering);
    assert_eq!(used, [&"de", &"fr", &"en-US"]);
    let texts = Localization::new(
        used.iter()
            .map(|locale| bundle(locale, &fs::read_to_string(folder.join(locale).join("main.ftl")).expect("a file"))),
    );
    let mut args = FluentArgs::new();
    args.set("name", "Jane");
    let mut errors = vec![];
    let mut told = String::new();
    for id in ["welcome", "thanks", "bye", "nothing"] {
        match texts.format_value(id, Some(&args), &mut errors) {
            Some(text) => told.push_str(&text),
            None => told.push_str(&format!("{id} is missing")),
        }
        told.push('\n');
    }
    assert_eq!(told, fs::read_to_string(folder.join("expected")).expect("a file"));
}
