//! Which values messages pass to `DATETIME`, so that the library can answer the calls of it.

/// The variables of requests that the calls of `DATETIME` in these sources are of, or `None` if a call may be of anything
/// else: of another expression, or of an argument of a term.
///
/// More variables than these do no harm, and neither does `None`: then the package answers the calls.
pub(crate) fn dated<'s>(sources: impl Iterator<Item = &'s str> + Clone) -> Option<Vec<Box<str>>> {
    let mut names = Vec::new();
    for source in sources.clone() {
        add_dated(source, &mut names)?;
    }
    let are_all = names.is_empty() || !sources.clone().any(have_terms_arguments);
    are_all.then_some(names)
}

/// Adds the variables that calls of `DATETIME` in a source are of, or gives `None` if one is of another expression.
fn add_dated(source: &str, names: &mut Vec<Box<str>>) -> Option<()> {
    const NAME: &str = "DATETIME";
    for (at, _) in source.match_indices(NAME) {
        let (before, after) = (&source[..at], &source[at + NAME.len()..]);
        if before.ends_with(is_of_identifier) || is_comment(before) {
            continue;
        }
        // It is a text, or another identifier.
        let Some(argument) = blanks_cut(after).strip_prefix('(') else { continue };
        let variable = blanks_cut(argument).strip_prefix('$')?;
        let name = &variable[..identifier_end(variable)];
        if !names.iter().any(|known| **known == *name) {
            names.push(name.into());
        }
    }
    Some(())
}

/// Whether a term may be called with arguments: there is `-brand(` or `-brand.attribute(` after a brace or in arguments.
fn have_terms_arguments(source: &str) -> bool {
    source.match_indices('(').any(|(at, _)| {
        let called = blanks_cut_at_end(&source[..at]);
        let before = called.trim_end_matches(|each| is_of_identifier(each) || each == '.');
        called[before.len()..].starts_with('-') && blanks_cut_at_end(before).ends_with(['{', '(', ','])
    })
}

/// Whether a text ends in a line of a comment.
fn is_comment(before: &str) -> bool {
    before[before.rfind('\n').map_or(0, |end| end + 1)..].starts_with('#')
}

fn is_of_identifier(each: char) -> bool {
    each.is_ascii_alphanumeric() || matches!(each, '_' | '-')
}

fn identifier_end(text: &str) -> usize {
    text.find(|each| !is_of_identifier(each)).unwrap_or(text.len())
}

const BLANKS: [char; 3] = [' ', '\n', '\r'];

fn blanks_cut(text: &str) -> &str {
    text.trim_start_matches(BLANKS)
}

fn blanks_cut_at_end(text: &str) -> &str {
    text.trim_end_matches(BLANKS)
}

#[cfg(test)]
mod tests {
    use super::*;

    #[test]
    fn variables_of_messages_are_found() {
        let rows = [
            ("a = A\n", Some(vec![])),
            (
                "a = { DATETIME($day) }, { DATETIME ( $end, month: \"long\") } { DATETIME($day) }",
                Some(vec!["day", "end"]),
            ),
            ("# DATETIME(3)\na = DATETIME, { MYDATETIME(3) } { DATETIMES(3) } e-mail (1)", Some(vec![])),
            ("a = { DATETIME(\"2026-11-28\") }", None),
            ("a = { DATETIME(3) }", None),
            ("a = { DATETIME(NAME($day)) }", None),
            ("-t = { DATETIME($day) }\na = { -t(day: 3) }", None),
            ("-t = { DATETIME($day) }\na = {\n    -t\n    (day: 3) }", None),
            ("-t = { DATETIME($day) }\na = { -t.b(day: 3) ->\n   *[c] D\n}", None),
            ("-t = { DATETIME($day) }\na = { -t } e-mail (1)", Some(vec!["day"])),
        ];
        for (source, names) in rows {
            let found = dated([source].into_iter());
            let found = found.as_ref().map(|found| found.iter().map(|name| &**name).collect::<Vec<_>>());
            assert_eq!(found, names, "{source}");
        }
    }
}
