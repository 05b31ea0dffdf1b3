//! Reads the same texts by `fluent_syntax` (through `fluent_c`) and by the Rust crate `fluent-syntax`, and writes their
//! trees; checks that both found and made the same, and prints how long each took and how much memory it needed.

mod clock;
mod compare;
mod json;
mod memory;
mod ours;
mod report;
mod rust;
mod texts;

use ours::Counts;
use std::env;
use std::hint::black_box;
use std::process::ExitCode;
use texts::Text;

/// Who reads and writes.
#[derive(Clone, Copy)]
enum Maker {
    Ours,
    Rust,
}

/// The two ways to read.
#[derive(Clone, Copy)]
enum Call {
    Parse,
    ParseRuntime,
}

impl Call {
    const ALL: [Call; 2] = [Call::Parse, Call::ParseRuntime];

    fn name(self) -> &'static str {
        match self {
            Call::Parse => "parse",
            Call::ParseRuntime => "parse_runtime",
        }
    }
}

fn counts(maker: Maker, call: Call, text: &[u8]) -> Counts {
    match maker {
        Maker::Ours => ours::counts(call, text),
        Maker::Rust => rust::counts(call, text),
    }
}

/// Reads a text and writes its tree. Gives the length of the written text.
fn written_len(maker: Maker, text: &[u8]) -> usize {
    match maker {
        Maker::Ours => ours::written_len(text),
        Maker::Rust => rust::written_len(text),
    }
}

/// Prints the peak of one maker that reads a text, or reads it and writes its tree.
fn peak(maker: &str, task: &str, argument: &str) -> Option<ExitCode> {
    let text = Text::of_argument(argument)?.whole();
    let maker = match maker {
        "ours" => Maker::Ours,
        "rust" => Maker::Rust,
        _ => return None,
    };
    let kilobytes = match task {
        "parse" => memory::peak_of(|| {
            black_box(counts(maker, Call::Parse, black_box(&text)));
        }),
        "write" => memory::peak_of(|| {
            black_box(written_len(maker, black_box(&text)));
        }),
        _ => None,
    }?;
    println!("{kilobytes}");
    Some(ExitCode::SUCCESS)
}

/// Reports on each text: a path, or the name of a shape; `all` stands for all shapes.
fn reports(arguments: &[String]) -> ExitCode {
    let arguments = arguments.iter().flat_map(|argument| match &**argument {
        "all" => texts::SHAPES.map(str::to_owned).to_vec(),
        _ => vec![argument.clone()],
    });
    for argument in arguments {
        let Some(text) = Text::of_argument(&argument) else {
            eprintln!("{argument}: neither a file nor a shape");
            return ExitCode::FAILURE;
        };
        report::report(&text);
    }
    ExitCode::SUCCESS
}

const USAGE: &str =
    "usage: syntax compare FILE.. | time FILE|SHAPE|all.. | peak ours|rust parse|write FILE|SHAPE";

fn main() -> ExitCode {
    let arguments: Vec<String> = env::args().skip(1).collect();
    match &*arguments {
        [command, files @ ..] if command == "compare" => compare::compare(files),
        [command, texts @ ..] if command == "time" => reports(texts),
        [command, maker, task, text] if command == "peak" => {
            peak(maker, task, text).unwrap_or(ExitCode::FAILURE)
        }
        _ => {
            eprintln!("{USAGE}");
            ExitCode::FAILURE
        }
    }
}
