//! Dates in messages. Texts are those of `Intl` in node 20, which has CLDR 48.

use kozhvadi::types::{DateError, DateStyle, FluentDateTime, FluentDateTimeOptions, MonthWidth};
use kozhvadi::{fluent_args, FluentArgs, FluentBundle, FluentResource, FluentValue};
use std::time::{Duration, UNIX_EPOCH};

const SOURCE: &str = r#"
plain = { $date }
long = { DATETIME($date, dateStyle: "long") }
full = { DATETIME($date, dateStyle: "full", timeStyle: "full") }
slip = { DATETIME($date, month: "big", year: "numeric") }
digits = { DATETIME($date, second: "numeric", fractionalSecondDigits: 2) }
hours = { DATETIME($date, hour: "numeric", hour12: "false") }
two = { DATETIME($date, timeStyle: "short") } – { DATETIME($end, timeStyle: "short") }
nested = { NAME(DATETIME($date, month: "long")) }
wrong = { DATETIME("2026-11-28") } { DATETIME(3) }
missing = { DATETIME($none) }
"#;

fn bundle(locale: &str) -> FluentBundle {
    let mut bundle = FluentBundle::new(vec![locale]);
    bundle.set_use_isolating(false);
    bundle.add_resource(FluentResource::try_new(SOURCE.to_string()).expect("It is read.")).expect("No id is there.");
    bundle
}

fn evening() -> FluentDateTime {
    "2026-11-28T20:26:05.123+01:00".parse().expect("It is a date.")
}

/// The text of a message, and its errors.
fn format(bundle: &FluentBundle, id: &str, args: &FluentArgs<'_>) -> (String, Vec<String>) {
    let pattern = bundle.get_message(id).and_then(|message| message.value()).expect("It is there.");
    let mut errors = vec![];
    let text = bundle.format_pattern(pattern, Some(args), &mut errors).into_owned();
    (text, errors.iter().map(ToString::to_string).collect())
}

#[test]
fn locales_write_dates() {
    let rows = [
        ("en", "plain", "11/28/2026"),
        ("en", "long", "November 28, 2026"),
        ("en", "full", "Saturday, November 28, 2026 at 8:26:05 PM GMT+01:00"),
        ("en", "slip", "2026"),
        ("en", "digits", "5.12"),
        ("en", "hours", "20"),
        ("de", "plain", "28.11.2026"),
        ("de", "long", "28. November 2026"),
        ("de", "full", "Samstag, 28. November 2026 um 20:26:05 GMT+01:00"),
        ("ja", "long", "2026年11月28日"),
        ("ar-EG", "plain", "٢٨\u{200f}/١١\u{200f}/٢٠٢٦"),
        ("tlh", "plain", "2026-11-28T20:26:05.123000000+01:00"),
        ("tlh", "long", "2026-11-28T20:26:05.123000000+01:00"),
    ];
    for (locale, id, text) in rows {
        let args = fluent_args!["date" => evening()];
        assert_eq!(format(&bundle(locale), id, &args), (text.to_string(), vec![]), "{locale} {id}");
    }
}

#[test]
fn two_dates_are_told_apart() {
    let mut end = "2026-11-28T08:00".parse::<FluentDateTime>().unwrap();
    end.options.date_style = Some(DateStyle::Short);
    let args = fluent_args!["date" => evening(), "end" => end];
    assert_eq!(format(&bundle("en"), "two", &args).0, "8:26 PM – 11/28/26, 8:00 AM");
}

#[test]
fn the_program_sets_options() {
    let options = FluentDateTimeOptions { month: Some(MonthWidth::Long), ..FluentDateTimeOptions::default() };
    let args = fluent_args!["date" => evening().with_options(options)];
    assert_eq!(format(&bundle("de"), "plain", &args).0, "November");
    assert_eq!(format(&bundle("en"), "slip", &args).0, "November 2026");
}

#[test]
fn what_is_no_date_is_an_error() {
    let (text, errors) = format(&bundle("en"), "wrong", &FluentArgs::new());
    assert_eq!(text, "{DATETIME()} {DATETIME()}");
    assert_eq!(errors, ["Resolver error: DATETIME(): the argument is no date"; 2]);
    let (text, errors) = format(&bundle("en"), "missing", &FluentArgs::new());
    assert_eq!((text.as_str(), errors.len()), ("DATETIME()", 1));
}

/// Calls of variables alone are answered by the library if these are dates, and otherwise by the package, as in a bundle
/// that has functions of the program.
#[test]
fn the_library_and_the_package_answer_alike() {
    let variables_alone = r#"
plain = { $date } { $end }
long = { DATETIME($date, dateStyle: "long") } { DATETIME($end) }
number = { NUMBER($date) }
missing = { DATETIME($none) } { $end }
chosen = { DATETIME($date) ->
    [x] X
   *[other] { $date }
}
"#;
    let bundle = |locale: &str, has_functions| {
        let mut bundle = FluentBundle::new(vec![locale]);
        bundle.add_resource(FluentResource::try_new(variables_alone.to_string()).unwrap()).unwrap();
        if has_functions {
            bundle.add_function("NAME", |_, _| "name".into()).unwrap();
        }
        bundle
    };
    let short = FluentDateTimeOptions { date_style: Some(DateStyle::Short), ..FluentDateTimeOptions::default() };
    let before = FluentDateTime::new(-44, 3, 15).unwrap();
    let values = || -> Vec<FluentValue<'static>> {
        let dates = [evening(), before.clone(), evening().with_options(short.clone())];
        let others = ["a text".into(), 3.into(), FluentValue::None];
        dates.into_iter().map(FluentValue::from).chain(others).collect()
    };
    for locale in ["de", "ar-EG", "tlh"] {
        let (by_library, by_package) = (bundle(locale, false), bundle(locale, true));
        for (date, end) in
            values().into_iter().flat_map(|date| values().into_iter().map(move |end| (date.clone(), end)))
        {
            let args = fluent_args!["date" => date, "end" => end];
            for id in ["plain", "long", "number", "missing", "chosen"] {
                let answer = format(&by_library, id, &args);
                assert_eq!(answer, format(&by_package, id, &args), "{locale} {id} {args:?}");
            }
        }
    }
}

#[test]
fn functions_of_the_program_get_dates() {
    let mut bundle = bundle("en");
    bundle
        .add_function("NAME", |given, _| match given {
            [FluentValue::Custom(value)] => format!("{:?}", value.as_any().is::<FluentDateTime>()).into(),
            _ => FluentValue::Error,
        })
        .unwrap();
    assert_eq!(format(&bundle, "nested", &fluent_args!["date" => evening()]).0, "true");
    bundle.add_function("DATETIME", |_, _| "a day".into()).unwrap();
    assert_eq!(format(&bundle, "long", &fluent_args!["date" => evening()]).0, "a day");
}

#[test]
fn plain_numbers_are_beside_plain_dates() {
    let mut bundle = bundle("de");
    bundle.set_plain_numbers(true);
    let args = fluent_args!["date" => FluentDateTime::new(2026, 11, 28).unwrap()];
    assert_eq!(format(&bundle, "plain", &args).0, "2026-11-28");
    assert_eq!(format(&bundle, "long", &args).0, "2026-11-28");
}

#[test]
fn times_of_the_system() {
    let rows = [
        (1_795_893_965, 3600, "2026-11-28T20:26:05+01:00"),
        (0, 0, "1970-01-01T00:00:00Z"),
        (951_782_400, -12_600, "2000-02-28T20:30:00-03:30"),
        (253_402_300_799, 0, "9999-12-31T23:59:59Z"),
    ];
    for (seconds, offset, text) in rows {
        let time = UNIX_EPOCH + Duration::from_secs(seconds);
        assert_eq!(FluentDateTime::from_system_time(time, offset).unwrap().to_string(), text);
    }
    let before = UNIX_EPOCH - Duration::new(62_167_219_200, 500_000_000);
    assert_eq!(FluentDateTime::from_system_time(before, 0).unwrap().to_string(), "-0001-12-31T23:59:59.500000000Z");
    let late = UNIX_EPOCH + Duration::from_secs(253_402_300_800);
    assert_eq!(FluentDateTime::from_system_time(late, 0), Err(DateError::Year));
    assert_eq!(FluentDateTime::from_system_time(late, 86_400), Err(DateError::Year));
}

#[test]
fn what_is_no_date() {
    assert_eq!(FluentDateTime::new(10_000, 1, 1), Err(DateError::Year));
    assert_eq!(FluentDateTime::new(2026, 13, 1), Err(DateError::Month));
    assert_eq!(FluentDateTime::new(2026, 2, 30), Err(DateError::Day));
    assert_eq!(FluentDateTime::new(2026, 2, 1).unwrap().with_time(24, 0, 0, 0), Err(DateError::Hour));
    assert_eq!(FluentDateTime::new(2026, 2, 1).unwrap().with_offset(i32::MIN), Err(DateError::Offset));
    for text in ["", "2026-1-01", "2026-11-28T", "2026-11-28T20", "2026-11-28T20:26:05.1234567890", "2026-11-28é"] {
        assert_eq!(text.parse::<FluentDateTime>(), Err(DateError::Text), "{text:?}");
    }
    assert_eq!("2026-11-28T20:26+01:60".parse::<FluentDateTime>(), Err(DateError::Offset));
    assert_eq!("2026-11-31".parse::<FluentDateTime>(), Err(DateError::Day));
}
