//! Answers lines by fluent-langneg. A line is `parse TAG`, `max TAG`, or a strategy (`f`, `m`, `l`), requested tags, available tags
//! and the last resort, with tabs between the fields and commas between tags. What is no tag is answered by `!`.
use fluent_langneg::{negotiate_languages, NegotiationStrategy};
use std::io::{BufRead, Result, Write};
use unic_langid::LanguageIdentifier;

/// A tag, and its text as it was given.
struct Given<'a>(LanguageIdentifier, &'a str);

impl AsRef<LanguageIdentifier> for Given<'_> {
    fn as_ref(&self) -> &LanguageIdentifier {
        &self.0
    }
}

impl PartialEq for Given<'_> {
    fn eq(&self, other: &Self) -> bool {
        self.0 == other.0
    }
}

fn given(texts: &str) -> Vec<Given<'_>> {
    texts.split(',').filter_map(|text| Some(Given(text.parse().ok()?, text))).collect()
}

fn one(text: &str, is_maximized: bool) -> String {
    let Ok(mut tag) = text.parse::<LanguageIdentifier>() else {
        return "!".into();
    };
    if is_maximized {
        tag.maximize();
    }
    tag.to_string()
}

fn negotiated(strategy: &str, requested: &str, available: &str, last: &str) -> String {
    let strategy = match strategy {
        "f" => NegotiationStrategy::Filtering,
        "m" => NegotiationStrategy::Matching,
        _ => NegotiationStrategy::Lookup,
    };
    let (requested, available, last) = (given(requested), given(available), given(last));
    let used = negotiate_languages(&requested, &available, last.first(), strategy);
    used.iter().map(|tag| tag.1).collect::<Vec<_>>().join(",")
}

fn main() -> Result<()> {
    let mut out = std::io::BufWriter::new(std::io::stdout());
    for line in std::io::stdin().lock().lines() {
        let line = line?;
        let answer = match line.split('\t').collect::<Vec<_>>()[..] {
            ["parse", text] => one(text, false),
            ["max", text] => one(text, true),
            [strategy, requested, available, last] => negotiated(strategy, requested, available, last),
            _ => "?".into(),
        };
        writeln!(out, "{answer}")?;
    }
    Ok(())
}
