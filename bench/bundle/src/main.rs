//! Does with bundles of the Rust crate fluent-bundle what the program `bench_bundle` does with ours, on the same words, and
//! prints the same: the least nanoseconds of processor time of some rounds, and the bytes of the texts.

// It lies beside this file when run.sh builds it, and in bench/syntax/src else.
mod clock;

use clock::timed;
use fluent_bundle::{FluentArgs, FluentBundle, FluentResource};
use fluent_syntax::ast::{Entry, Pattern};
use std::time::Duration;

const ROUNDS: usize = 5;

/// How often a message is formatted in a round.
const TIMES: usize = 10_000;

type Bundle<'r> = FluentBundle<&'r FluentResource>;

fn main() -> std::io::Result<()> {
    let mut words = std::env::args().skip(1);
    let mode = words.next().expect("adding, asking or formatting");
    for file in words {
        let source = std::fs::read_to_string(file)?;
        let resource = FluentResource::try_new(source).expect("read whole");
        time(&mode, &resource);
    }
    Ok(())
}

fn time(mode: &str, resource: &FluentResource) {
    let mut arguments = FluentArgs::new();
    arguments.set("name", "Jane");
    arguments.set("count", 5_u32);
    match mode {
        "adding" => println!("{}", least(|| drop(added(resource))).as_nanos()),
        "asking" => tell(|| ask(resource, &arguments)),
        "formatting" => tell_formatting(resource, &arguments),
        _ => panic!("adding, asking or formatting"),
    }
}

/// The least time in some rounds.
fn least(mut round: impl FnMut()) -> Duration {
    let rounds = (0..ROUNDS).map(|_| timed(&mut round));
    rounds.min().unwrap_or_default()
}

/// Prints the least time of some rounds, and the bytes of each.
fn tell(mut round: impl FnMut() -> usize) {
    let mut bytes = 0;
    let least = least(|| bytes = round());
    println!("{} {bytes}", least.as_nanos());
}

fn new_bundle<'r>() -> Bundle<'r> {
    Bundle::new(vec!["en-US".parse().expect("a locale")])
}

/// A new bundle with these messages.
fn added(resource: &FluentResource) -> Bundle<'_> {
    let mut bundle = new_bundle();
    bundle.add_resource(resource).expect("other ids");
    bundle
}

/// Adds the messages of a resource, asks for each by its id, and gives the bytes of their texts.
fn ask(resource: &FluentResource, arguments: &FluentArgs) -> usize {
    let mut bundle = new_bundle();
    bundle.add_resource_overriding(resource);
    let mut bytes = 0;
    for entry in resource.entries() {
        if let Entry::Message(message) = entry {
            let asked = bundle.get_message(message.id.name);
            if let Some(pattern) = asked.and_then(|message| message.value()) {
                bytes += formatted(&bundle, pattern, arguments);
            }
        }
    }
    bytes
}

/// The bytes of a pattern's text.
fn formatted(bundle: &Bundle, pattern: &Pattern<&str>, arguments: &FluentArgs) -> usize {
    let mut errors = Vec::new();
    bundle.format_pattern(pattern, Some(arguments), &mut errors).len()
}

/// Formats the value of the message `m` again and again.
fn tell_formatting(resource: &FluentResource, arguments: &FluentArgs) {
    let bundle = added(resource);
    let message = bundle.get_message("m").expect("the message m");
    let pattern = message.value().expect("a value");
    tell(|| (0..TIMES).map(|_| formatted(&bundle, pattern, arguments)).sum());
}
