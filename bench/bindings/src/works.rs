//! The works: the same statements by both crates.

use crate::{ids, Needs, Work, THREADS};
use std::hint::black_box;

const ALONE: &str = "m = Hello, this is a message of text alone.\n";
const TWO: &str = "m = Hello, { $name }, you have { $count } new messages.\n";
const TEXTS: &str = "m = Hello, { $name }, you are in { $place } now.\n";
const SELECT: &str = "-brand = Kozhvadi\nm = { $count ->\n    [one] One page is open in { -brand }.\n   *[other] { $count } pages are open in { -brand }.\n}\n";
const TEN: &str = "m = { $a } { $b } { $c } { $d } { $e } { $f } { $g } { $h } { $i } { $j }\n";
const CALL: &str = "m = Hello, { UPPER($name) }.\n";

/// A module whose functions do the same by the crate that it names: so many times, and the last text is returned.
macro_rules! works_of {
    ($of:ident, $locale:expr) => {
        pub mod $of {
            use super::*;
            use ::$of::{concurrent, FluentArgs, FluentBundle, FluentError, FluentResource, FluentValue};
            use std::thread;

            fn bundle(source: &str) -> FluentBundle<FluentResource> {
                let resource = FluentResource::try_new(source.to_owned()).expect("read in full");
                let mut bundle = FluentBundle::new(vec![$locale]);
                bundle.add_resource(resource).expect("other ids");
                bundle
            }

            /// A bundle with a function of the program.
            fn calling(source: &str) -> FluentBundle<FluentResource> {
                let mut bundle = bundle(source);
                let added = bundle.add_function("UPPER", |given, _| match given {
                    [FluentValue::String(text)] => FluentValue::from(text.to_uppercase()),
                    _ => FluentValue::Error,
                });
                added.expect("another name");
                bundle
            }

            pub fn two() -> FluentArgs<'static> {
                let mut args = FluentArgs::new();
                args.set("name", black_box("Jane"));
                args.set("count", black_box(5_u32));
                args
            }

            pub fn seven_digits() -> FluentArgs<'static> {
                let mut args = FluentArgs::new();
                args.set("name", black_box("Jane"));
                args.set("count", black_box(1_234_567_u32));
                args
            }

            pub fn texts() -> FluentArgs<'static> {
                let mut args = FluentArgs::new();
                args.set("name", black_box("Jane"));
                args.set("place", black_box("Zurich"));
                args
            }

            pub fn ten() -> FluentArgs<'static> {
                let mut args = FluentArgs::new();
                for name in ["a", "b", "c", "d", "e", "f", "g", "h", "i", "j"] {
                    args.set(name, black_box("value"));
                }
                args
            }

            /// Formats the message `m`, its arguments made anew.
            #[inline(always)]
            fn format(bundle: &FluentBundle<FluentResource>, arguments: fn() -> FluentArgs<'static>, times: usize) -> String {
                let mut last = String::new();
                for _ in 0..times {
                    let mut errors = Vec::new();
                    let args = arguments();
                    let message = bundle.get_message(black_box("m")).expect("the message m");
                    let pattern = message.value().expect("a value");
                    last = bundle.format_pattern(pattern, Some(&args), &mut errors).into_owned();
                }
                last
            }

            /// Writes it for the same arguments into one text, which is kept.
            #[inline(always)]
            fn write(bundle: &FluentBundle<FluentResource>, arguments: fn() -> FluentArgs<'static>, times: usize) -> String {
                let args = arguments();
                let mut written = String::new();
                for _ in 0..times {
                    let mut errors = Vec::new();
                    let message = bundle.get_message(black_box("m")).expect("the message m");
                    let pattern = message.value().expect("a value");
                    written.clear();
                    bundle.write_pattern(&mut written, pattern, Some(&args), &mut errors).expect("a String");
                }
                written
            }

            /// Formats the message without the arguments that it asks for, and returns the number of its errors too.
            #[inline(always)]
            fn failing(source: &str, times: usize) -> String {
                let bundle = bundle(source);
                let (mut last, mut count) = (String::new(), 0);
                for _ in 0..times {
                    let mut errors: Vec<FluentError> = Vec::new();
                    let message = bundle.get_message(black_box("m")).expect("the message m");
                    let pattern = message.value().expect("a value");
                    last = bundle.format_pattern(pattern, None, &mut errors).into_owned();
                    count = errors.len();
                }
                format!("{last} {count}")
            }

            pub fn format_alone(_: &[String], times: usize) -> String {
                format(&bundle(ALONE), two, times)
            }

            pub fn write_alone(_: &[String], times: usize) -> String {
                write(&bundle(ALONE), two, times)
            }

            pub fn format_two(_: &[String], times: usize) -> String {
                format(&bundle(TWO), two, times)
            }

            pub fn write_two(_: &[String], times: usize) -> String {
                write(&bundle(TWO), two, times)
            }

            pub fn format_texts(_: &[String], times: usize) -> String {
                format(&bundle(TEXTS), texts, times)
            }

            pub fn write_texts(_: &[String], times: usize) -> String {
                write(&bundle(TEXTS), texts, times)
            }

            pub fn format_seven(_: &[String], times: usize) -> String {
                format(&bundle(TWO), seven_digits, times).replace(',', "")
            }

            pub fn write_seven(_: &[String], times: usize) -> String {
                write(&bundle(TWO), seven_digits, times).replace(',', "")
            }

            pub fn format_select(_: &[String], times: usize) -> String {
                format(&bundle(SELECT), two, times)
            }

            pub fn write_select(_: &[String], times: usize) -> String {
                write(&bundle(SELECT), two, times)
            }

            pub fn format_ten(_: &[String], times: usize) -> String {
                format(&bundle(TEN), ten, times)
            }

            pub fn write_ten(_: &[String], times: usize) -> String {
                write(&bundle(TEN), ten, times)
            }

            pub fn two_errors(_: &[String], times: usize) -> String {
                failing(TWO, times)
            }

            pub fn ten_errors(_: &[String], times: usize) -> String {
                failing(TEN, times)
            }

            pub fn format_call(_: &[String], times: usize) -> String {
                format(&calling(CALL), two, times)
            }

            pub fn write_call(_: &[String], times: usize) -> String {
                write(&calling(CALL), two, times)
            }

            pub fn format_beside(_: &[String], times: usize) -> String {
                format(&calling(TWO), two, times)
            }

            /// Looks up each id of some hundred that are there.
            pub fn look_up(_: &[String], times: usize) -> String {
                let ids = ids();
                let bundle = bundle(&ids.iter().map(|id| format!("{id} = {id}\n")).collect::<String>());
                let found = ids.iter().cycle().take(times).filter(|id| bundle.has_message(id)).count();
                found.to_string()
            }

            /// Looks up as many ids that aren't there.
            pub fn miss(_: &[String], times: usize) -> String {
                let (ids, bundle) = (ids(), bundle(ALONE));
                let missed = ids.iter().cycle().take(times).filter(|id| !bundle.has_message(id)).count();
                missed.to_string()
            }

            /// Reads all sources, adds them, and formats the first message.
            pub fn add(sources: &[String], times: usize) -> String {
                let mut last = String::new();
                let lines = sources.iter().flat_map(|source| source.lines());
                let mut messages = lines.filter(|line| line.starts_with(|first: char| first.is_ascii_alphabetic()));
                let first = messages.find_map(|line| Some(line.split_once(" = ")?.0)).expect("a message with a value");
                for _ in 0..times {
                    let mut bundle = FluentBundle::new(vec![$locale]);
                    for source in sources {
                        let read = FluentResource::try_new(source.clone());
                        let _were_there = bundle.add_resource(read.unwrap_or_else(|(resource, _errors)| resource));
                    }
                    let message = bundle.get_message(first).expect("the first message");
                    let pattern = message.value().expect("a value");
                    last = bundle.format_pattern(pattern, Some(&two()), &mut Vec::new()).into_owned();
                }
                last
            }

            /// Formats a message in several threads, that share one bundle.
            pub fn share(_: &[String], times: usize) -> String {
                let resource = FluentResource::try_new(TWO.to_owned()).expect("read in full");
                let mut bundle = concurrent::FluentBundle::new_concurrent(vec![$locale]);
                bundle.add_resource(resource).expect("other ids");
                let ask = || {
                    let mut last = String::new();
                    for _ in 0..times {
                        let args = two();
                        let message = bundle.get_message(black_box("m")).expect("the message m");
                        let pattern = message.value().expect("a value");
                        last = bundle.format_pattern(pattern, Some(&args), &mut Vec::new()).into_owned();
                    }
                    last
                };
                thread::scope(|scope| {
                    let asking: Vec<_> = (0..THREADS).map(|_| scope.spawn(ask)).collect();
                    asking.into_iter().filter_map(|thread| thread.join().ok()).last().unwrap_or_default()
                })
            }
        }
    };
}

works_of!(kozhvadi, "en-US");
works_of!(fluent_bundle, "en-US".parse::<unic_langid::LanguageIdentifier>().expect("a locale"));

/// The works with the function of each crate that does them, and what they are done with.
macro_rules! list {
    ($($name:literal $does:ident $needs:ident),* $(,)?) => {
        vec![$(Work { name: $name, ours: kozhvadi::$does, theirs: fluent_bundle::$does, needs: Needs::$needs },)*]
    };
}

pub fn all() -> Vec<Work> {
    list![
        "a text alone" format_alone Nothing,
        "two variables" format_two Nothing,
        "two texts" format_texts Nothing,
        "a number of seven digits" format_seven Nothing,
        "a select and a term" format_select Nothing,
        "ten variables" format_ten Nothing,
        "a text alone, written" write_alone Nothing,
        "two variables, written" write_two Nothing,
        "two texts, written" write_texts Nothing,
        "a number of seven digits, written" write_seven Nothing,
        "a select and a term, written" write_select Nothing,
        "ten variables, written" write_ten Nothing,
        "two errors" two_errors Nothing,
        "ten errors" ten_errors Nothing,
        "a call of a function" format_call Nothing,
        "a call of a function, written" write_call Nothing,
        "two variables next to functions" format_beside Nothing,
        "an id that is there" look_up Nothing,
        "an id that isn't" miss Nothing,
        "files" add Folder,
        "short resources" add ShortSources,
        "threads" share Threads,
    ]
}
