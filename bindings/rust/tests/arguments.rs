//! Arguments in any number and order, set once and again: each message shows those that were set last.

use kozhvadi::types::{FluentNumber, FluentNumberOptions, FluentNumberStyle};
use kozhvadi::{FluentArgs, FluentBundle, FluentResource, FluentValue};
use std::borrow::Cow;
use std::collections::BTreeMap;

const NAMES: [&str; 20] = [
    "count", "name", "a", "z", "b", "sender", "", "é", "name2", "n", "k", "nam", "c", "y", "na", "x", "d", "m", "w",
    "e",
];

/// A bundle whose message shows all names but the empty one, which no message has.
fn bundle() -> FluentBundle {
    let mut shown: Vec<&str> = NAMES.into_iter().filter(|name| name.is_ascii() && !name.is_empty()).collect();
    shown.sort();
    let source = format!("m = {}\n", shown.iter().map(|name| format!("{{ ${name} }}|")).collect::<String>());
    let mut bundle = FluentBundle::new(vec!["en"]);
    bundle.set_use_isolating(false);
    bundle.add_resource(FluentResource::try_new(source).expect("It has no errors.")).expect("Its id is new.");
    bundle
}

/// The value of a number and what it is shown as.
fn value(number: usize) -> (FluentValue<'static>, &'static str) {
    let percent = FluentNumberOptions { minimum_fraction_digits: Some(2), ..FluentNumberOptions::default() };
    match number % 9 {
        0 => ("Jane".into(), "Jane"),
        1 => ("Someone ".repeat(3).into(), "Someone Someone Someone "),
        2 => (5.into(), "5"),
        3 => ((-1_234_567).into(), "-1,234,567"),
        4 => (u64::MAX.into(), "18,446,744,073,709,551,615"),
        5 => (1.5.into(), "1.5"),
        6 => (FluentValue::None, ""),
        7 => (FluentNumber::new(2.5, percent).into(), "2.50"),
        _ => ("".into(), ""),
    }
}

/// The text of the message, by both calls, and the number of its errors.
fn text(bundle: &FluentBundle, args: &FluentArgs<'_>) -> (String, usize) {
    let pattern = bundle.get_message("m").and_then(|message| message.value()).expect("There is a value.");
    let (mut errors, mut others, mut written) = (vec![], vec![], String::new());
    let text = bundle.format_pattern(pattern, Some(args), &mut errors).into_owned();
    bundle.write_pattern(&mut written, pattern, Some(args), &mut others).expect("A text takes all.");
    assert_eq!((&text, &errors), (&written, &others));
    (text, errors.len())
}

/// What the message has to show for these arguments, and how many errors there are.
fn expected(set: &BTreeMap<&str, &str>) -> (String, usize) {
    let mut names: Vec<&str> = NAMES.into_iter().filter(|name| name.is_ascii() && !name.is_empty()).collect();
    names.sort();
    let shown = |name: &&str| set.get(name).map_or(format!("{{${name}}}|"), |text| format!("{text}|"));
    (names.iter().map(shown).collect(), names.iter().filter(|name| !set.contains_key(*name)).count())
}

/// A number that seems to be drawn by chance.
struct Chance(u64);

impl Chance {
    fn below(&mut self, bound: usize) -> usize {
        self.0 = self.0.wrapping_mul(6_364_136_223_846_793_005).wrapping_add(1_442_695_040_888_963_407);
        (self.0 >> 33) as usize % bound
    }
}

#[test]
fn arguments_in_any_order() {
    let (bundle, mut chance) = (bundle(), Chance(7));
    for round in 0..2000 {
        let (mut args, mut set) = (FluentArgs::new(), BTreeMap::new());
        for _ in 0..chance.below(24) {
            let (name, (value, shown)) = (NAMES[chance.below(NAMES.len())], value(chance.below(9)));
            match round % 2 {
                0 => args.set(name, value),
                // The arguments own the name.
                _ => args.set(name.to_owned(), value),
            }
            set.insert(name, shown);
            assert_eq!(text(&bundle, &args), expected(&set));
        }
        let moved = Box::new(args);
        let copy = (*moved).clone();
        assert_eq!(*moved, copy);
        drop(moved);
        assert_eq!(text(&bundle, &copy), expected(&set));
        let again: FluentArgs<'_> = copy.into_iter().collect();
        assert_eq!(text(&bundle, &again), expected(&set));
    }
}

#[test]
fn a_value_takes_the_place_of_another() {
    let bundle = bundle();
    for before in 0..9 {
        for after in 0..9 {
            let mut args = FluentArgs::with_capacity(1);
            args.set("a", "A");
            args.set(Cow::Owned("n".to_owned()), value(before).0);
            args.set("z", 7);
            // The name that was set first stays, and the one that is dropped here isn't read.
            args.set("n".to_owned(), value(after).0);
            let set = BTreeMap::from([("a", "A"), ("n", value(after).1), ("z", "7")]);
            assert_eq!(text(&bundle, &args), expected(&set));
        }
    }
}

#[test]
fn threads_share_arguments_that_are_sent() {
    let bundle = bundle();
    let mut args = FluentArgs::new();
    args.set("name".to_owned(), "Jane".to_owned());
    args.set("count", 5);
    let set = BTreeMap::from([("name", "Jane"), ("count", "5")]);
    let (bundle, set) = (&bundle, &set);
    std::thread::scope(|scope| {
        for _ in 0..4 {
            let args = args.clone();
            scope.spawn(move || assert_eq!(text(bundle, &args), expected(set)));
        }
    });
}

#[test]
fn arguments_change_after_they_were_asked_for() {
    let bundle = bundle();
    let percent = FluentNumberOptions { style: FluentNumberStyle::Percent, ..FluentNumberOptions::default() };
    let mut args = FluentArgs::new();
    args.set("z".to_owned(), "Z".to_owned());
    args.set("a".to_owned(), 1.5);
    let large = 1e300.to_string();
    for (value, shown) in [
        (FluentValue::from(5), "5"),
        (FluentNumber::new(0.5, percent).into(), "50%"),
        ("Jane".into(), "Jane"),
        (FluentValue::Error, ""),
        (1e300.into(), &large),
    ] {
        args.set("n", value);
        let set = BTreeMap::from([("a", "1.5"), ("n", shown), ("z", "Z")]);
        for _ in 0..3 {
            assert_eq!(text(&bundle, &args), expected(&set));
        }
        // What is kept goes along.
        args = std::thread::spawn(move || args).join().expect("It ends.");
    }
    let names: Vec<&str> = args.iter().map(|(name, _)| name).collect();
    assert_eq!(names, ["a", "n", "z"]);
}
