//! Answers request lines as `ftl run` does, by the Rust crate fluent-bundle: `answers FILE.. < REQUESTS`.

use fluent_bundle::{FluentArgs, FluentBundle, FluentError, FluentResource, FluentValue};
use std::io::{self, BufRead, BufWriter, Write};

type Bundle = FluentBundle<FluentResource>;

fn main() -> io::Result<()> {
    let mut bundle = Bundle::new(vec!["en-US".parse().expect("a locale")]);
    bundle.add_function("NUMBER", number).expect("no function yet");
    for file in std::env::args().skip(1) {
        let source = std::fs::read_to_string(file)?;
        let resource = FluentResource::try_new(source).unwrap_or_else(|(resource, _)| resource);
        let _ = bundle.add_resource(resource);
    }
    let mut output = BufWriter::with_capacity(1 << 16, io::stdout().lock());
    for line in io::stdin().lock().split(b'\n') {
        answer(&bundle, &line?, &mut output)?;
    }
    output.flush()
}

/// The crate's own `NUMBER` is not there in every version: the first value with the named options.
fn number<'a>(positional: &[FluentValue<'a>], named: &FluentArgs) -> FluentValue<'a> {
    let Some(FluentValue::Number(number)) = positional.first() else {
        return FluentValue::Error;
    };
    let mut number = number.clone();
    number.options.merge(named);
    FluentValue::Number(number)
}

/// Writes the answer to a line.
fn answer(bundle: &Bundle, line: &[u8], output: &mut impl Write) -> io::Result<()> {
    let Some((name, arguments)) = std::str::from_utf8(line).ok().and_then(request) else {
        return output.write_all(b"bad\n");
    };
    let (id, attribute) = match name.split_once('.') {
        Some((id, attribute)) => (id, Some(attribute)),
        None => (name, None),
    };
    let message = bundle.get_message(id);
    let pattern = message.as_ref().and_then(|message| match attribute {
        Some(name) => message.get_attribute(name).map(|found| found.value()),
        None => message.value(),
    });
    let Some(pattern) = pattern else {
        return output.write_all(b"none\n");
    };
    let mut errors = Vec::new();
    let text = bundle.format_pattern(pattern, Some(&arguments), &mut errors);
    writeln!(output, "ok {} {}\n{text}", text.len(), errors.len())?;
    for error in errors {
        match error {
            FluentError::ResolverError(error) => writeln!(output, "{error}")?,
            other => writeln!(output, "{other}")?,
        }
    }
    Ok(())
}

/// The id that a line asks for, and its arguments.
fn request(line: &str) -> Option<(&str, FluentArgs<'_>)> {
    let (name, rest) = line.split_once('\t').map_or((line, None), |(name, rest)| (name, Some(rest)));
    let mut arguments = FluentArgs::new();
    for argument in rest.into_iter().flat_map(|rest| rest.split('\t')) {
        let (name, value) = argument.split_once('=')?;
        arguments.set(name, FluentValue::try_number(value));
    }
    Some((name, arguments))
}
