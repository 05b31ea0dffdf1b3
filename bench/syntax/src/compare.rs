//! Whether both found the same in a source, and made the same texts of it.

use crate::{json, ours, rust, Call};
use std::fs;
use std::process::ExitCode;

/// How the written text of a source's tree compares.
enum Written {
    Alike,
    /// The Rust crate indents blank lines, and nothing else differs.
    IndentedBlankLines,
    Differs,
    /// The source has errors, whose junk may end elsewhere.
    NotCompared,
}

/// How much of what was compared agrees, over many files.
#[derive(Default)]
struct Tally {
    files: usize,
    read: usize,
    json: usize,
    written: usize,
    indented: usize,
    broken: usize,
}

/// Whether both readers found as many entries; what they found otherwise is printed.
///
/// Where a source has errors only the messages and the terms are compared, since its junk may end elsewhere.
fn counts_alike(name: &str, text: &[u8]) -> bool {
    Call::ALL.into_iter().all(|call| {
        let ours = ours::counts(call, text);
        let rust = rust::counts(call, text);
        let same = if ours.errors == 0 && rust.errors == 0 {
            ours == rust
        } else {
            (ours.messages, ours.terms) == (rust.messages, rust.terms)
        };
        if !same {
            println!(
                "{name}: {} differs: {ours:?} by fluent_c, {rust:?} by Rust",
                call.name()
            );
        }
        same
    })
}

fn has_errors(text: &[u8]) -> bool {
    let errors = |counts: ours::Counts| counts.errors > 0;
    errors(ours::counts(Call::Parse, text)) || errors(rust::counts(Call::Parse, text))
}

/// Prints where two texts part.
fn tell_difference(name: &str, what: &str, ours: &str, rust: &str) {
    let same = |lines: &(&str, &str)| lines.0 == lines.1;
    let line = ours.lines().zip(rust.lines()).take_while(same).count();
    println!(
        "{name}: the {what} differs at line {}: {:?} by fluent_c, {:?} by Rust",
        line + 1,
        ours.lines().nth(line),
        rust.lines().nth(line)
    );
}

/// Whether both trees are the same as JSON; of a source with errors, their entries that are no junk.
fn json_alike(name: &str, text: &[u8], broken: bool) -> bool {
    let ours = String::from_utf8(ours::json(text)).expect("JSON in UTF-8");
    let rust = String::from_utf8(rust::json(text)).expect("JSON in UTF-8");
    let same = if broken {
        json::kept_entries(&ours) == json::kept_entries(&rust)
    } else {
        ours == rust
    };
    if !same {
        let lines = |json: &str| json::kept_entries(json).join("\n");
        tell_difference(name, "JSON tree", &lines(&ours), &lines(&rust));
    }
    same
}

/// A text whose lines of spaces alone are empty.
fn without_indented_blank_lines(text: &str) -> String {
    let line = |line: &str| match line.trim_matches(' ') {
        "\n" => "\n".to_owned(),
        _ => line.to_owned(),
    };
    text.split_inclusive('\n').map(line).collect()
}

/// How both written texts of a source compare, with junk and without; what differs is printed.
fn written_alike(name: &str, text: &[u8], broken: bool) -> Written {
    if broken {
        return Written::NotCompared;
    }
    let mut found = Written::Alike;
    for with_junk in [false, true] {
        let ours = String::from_utf8(ours::written(text, with_junk)).expect("UTF-8");
        let rust = String::from_utf8(rust::written(text, with_junk)).expect("UTF-8");
        if ours == rust {
            continue;
        }
        if ours != without_indented_blank_lines(&rust) {
            tell_difference(name, "written text", &ours, &rust);
            return Written::Differs;
        }
        found = Written::IndentedBlankLines;
    }
    found
}

/// Prints how the counts and the written texts of a large source differ. Its JSON tree would take much more memory.
pub fn tell_differences(name: &str, text: &[u8]) {
    counts_alike(name, text);
    written_alike(name, text, has_errors(text));
}

impl Tally {
    fn add(&mut self, name: &str, text: &[u8]) {
        let broken = has_errors(text);
        self.files += 1;
        self.read += usize::from(counts_alike(name, text));
        self.json += usize::from(json_alike(name, text, broken));
        match written_alike(name, text, broken) {
            Written::Alike => self.written += 1,
            Written::IndentedBlankLines => self.indented += 1,
            Written::Differs => {}
            Written::NotCompared => self.broken += 1,
        }
    }

    fn agrees(&self) -> bool {
        let written = self.written + self.indented + self.broken;
        [self.read, self.json, written] == [self.files; 3]
    }

    fn print(&self) {
        println!("{} of {} files with the same counts", self.read, self.files);
        println!("{} JSON trees alike", self.json);
        println!(
            "{} written texts alike, {} but for the spaces in blank lines, {} of sources with errors not compared",
            self.written, self.indented, self.broken
        );
    }
}

/// Compares what both find in each file and make of it, and says how much agrees.
pub fn compare(files: &[String]) -> ExitCode {
    let mut tally = Tally::default();
    for file in files {
        match fs::read(file) {
            Ok(text) => tally.add(file, &text),
            Err(error) => println!("{file}: {error}"),
        }
    }
    tally.print();
    if tally.agrees() && tally.files == files.len() {
        ExitCode::SUCCESS
    } else {
        ExitCode::FAILURE
    }
}
