//! Times dates from Rust: dates COUNT
//!
//! Prints nanoseconds of one answer of a German bundle with a date, in long style and in digits, and with a text in its place. Only the
//! fastest of five rounds of COUNT answers counts.

use kozhvadi::types::FluentDateTime;
use kozhvadi::{fluent_args, FluentBundle, FluentResource, FluentValue};
use std::time::Instant;

const SOURCE: &str = "long = { DATETIME($d, dateStyle: \"long\") }\nshown = { $d }\n";

/// The text of a message of this id with a value.
fn answer(bundle: &FluentBundle<FluentResource>, id: &str, value: &FluentValue<'_>) -> String {
    let args = fluent_args!["d" => value.clone()];
    let pattern = bundle.get_message(id).and_then(|message| message.value()).expect("It is there.");
    bundle.format_pattern(pattern, Some(&args), &mut vec![]).into_owned()
}

fn main() {
    let count: u32 = std::env::args().nth(1).and_then(|count| count.parse().ok()).unwrap_or(1_000_000);
    let mut bundle = FluentBundle::new(vec!["de"]);
    bundle.set_use_isolating(false);
    bundle.add_resource(FluentResource::try_new(SOURCE.to_string()).expect("It is read.")).expect("No id is there.");
    let date = FluentValue::from(FluentDateTime::new(2026, 11, 28).expect("It is a date."));
    let text = FluentValue::from("28. November 2026");
    let cases = [
        ("a message, long", "long", &date, "28. November 2026"),
        ("a message, in digits", "shown", &date, "28.11.2026"),
        ("a message with a text", "shown", &text, "28. November 2026"),
    ];
    for (name, id, value, shown) in cases {
        let mut best = f64::INFINITY;
        for _ in 0..5 {
            let begin = Instant::now();
            for _ in 0..count {
                assert_eq!(answer(&bundle, id, value), shown);
            }
            best = best.min(begin.elapsed().as_nanos() as f64 / f64::from(count));
        }
        println!("{name:<25} {best:6.0} ns");
    }
}
