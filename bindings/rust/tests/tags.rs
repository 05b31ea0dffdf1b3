//! Which tags a bundle takes, and the linter: the rows of tests/tags, as the program, C and Python have them, too.

use kozhvadi::{fluent_args, has_plural_rules, lint, FluentBundle, FluentResource, LintError, LintOptions};
use std::fs;

const SOURCE: &str = "count = { $n ->\n    [one] one\n   *[other] other\n}\n";

/// A language with the category `one` needs a variant for it.
const LACKS_ONE: &str = "count = { $n ->\n    [zero] none\n   *[other] other\n}\n";

/// The tags, what 1 chooses in each, and whether its rules are those of the root.
fn rows() -> Vec<(String, String, bool)> {
    let text = fs::read_to_string(concat!(env!("CARGO_MANIFEST_DIR"), "/../../tests/tags/rows.txt")).unwrap();
    let row = |line: &str| {
        let (tag, end) = line[1..].rsplit_once("\" ").unwrap();
        let (chosen, root) = end.split_once(' ').unwrap_or((end, ""));
        (tag.replace("\\u0000", "\0"), chosen.to_owned(), root == "root")
    };
    text.lines().map(row).collect()
}

/// What 1 chooses in a bundle for a tag.
fn chosen(tag: &str) -> String {
    let Ok(mut bundle) = FluentBundle::try_new(vec![tag]) else { return "refused".to_owned() };
    bundle.add_resource(FluentResource::try_new(SOURCE.to_owned()).unwrap()).unwrap();
    let pattern = bundle.get_message("count").and_then(|message| message.value()).unwrap();
    bundle.format_pattern(pattern, Some(&fluent_args!["n" => 1]), &mut vec![]).into_owned()
}

/// The category that a message lacks in a language, by the linter.
fn lacking(tag: &str) -> &'static str {
    match lint(&[("a.ftl", LACKS_ONE)], &[], &LintOptions { locale: Some(tag), ..LintOptions::default() }) {
        Ok(report) if report.findings.iter().any(|finding| finding.text.contains("`one`")) => "one",
        Ok(_) => "other",
        Err(LintError::UnknownLocale) => "refused",
        Err(error) => panic!("{error}"),
    }
}

#[test]
fn tags() {
    let rows = rows();
    assert!(rows.len() > 25);
    for (tag, expected, is_root) in rows {
        assert_eq!(chosen(&tag), expected, "a bundle for {tag:?}");
        assert_eq!(lacking(&tag), expected, "lint for {tag:?}");
        assert_eq!(has_plural_rules(&tag), expected != "refused" && !is_root, "{tag:?}");
    }
}
