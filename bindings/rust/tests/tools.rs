//! What is wrong with files, their tidy texts, and where their names are.

use kozhvadi::{
    lint, occurrences, tidy, FileCounts, LintError, LintOptions, OutOfMemory, Severity, SymbolKind, TidyError,
};

#[test]
fn reports() {
    let files = [("a.ftl", "é = x\na = é{ -b }\n"), ("b.ftl", "a = \u{7}\nd \u{202e}\n")];
    let report = lint(&files, &[], &LintOptions::default()).expect("It is made.");
    let shown: Vec<String> = report.findings.iter().map(ToString::to_string).collect();
    assert_eq!(
        shown,
        [
            "a.ftl:1:1: error: expected a message, a term or a comment, found `é` [syntax]",
            "a.ftl:2:8: error: a: there is no term `-b` [unknown-term]",
            "b.ftl:1:1: error: a: the entry at a.ftl:2:1 has the same id, so this one is never shown [duplicate-id]",
            "b.ftl:1:5: warning: a: U+0007 is a control character [control-character]",
            "b.ftl:2:3: error: d: expected `=` after `d`, found `\u{202e}` [syntax]",
        ]
    );
    assert!(report.has_errors);
    assert_eq!(report.findings[1].offset, 15);
    assert_eq!(report.findings[1].severity, Severity::Error);
    assert_eq!(report.findings[1].hint, None);
    assert_eq!(report.findings[4].hint.as_deref(), Some("a line that continues a text begins with at least one space"));
}

#[test]
fn reports_as_asked() {
    let (files, reference) = ([("de.ftl", "a = b\nc = { F() }\n")], [("en.ftl", "a = b\nd = e\n")]);
    let codes = |reference: &[(&str, &str)], options: LintOptions<'_>| {
        let report = lint(&files, reference, &options).expect("It is made.");
        let codes: Vec<String> = report.findings.into_iter().map(|finding| finding.code).collect();
        (codes.join(" "), report.has_errors, report.counts)
    };
    let options = LintOptions::default();
    assert_eq!(codes(&[], options), ("unknown-function".into(), false, vec![]));
    assert_eq!(codes(&[], LintOptions { strict: true, ..options }).1, true);
    assert_eq!(
        codes(&[], LintOptions { strict: true, functions: &["G", "F"], ..options }),
        (String::new(), false, vec![])
    );
    let (found, _, counts) = codes(&reference, LintOptions { notes: true, ..options });
    assert_eq!(found, "untranslated obsolete-message unknown-function missing-message");
    let file = String::from;
    assert_eq!(
        counts,
        [
            FileCounts { file: file("de.ftl"), messages: 2, missing: None, obsolete: Some(1), untranslated: Some(1) },
            FileCounts { file: file("en.ftl"), messages: 2, missing: Some(1), obsolete: None, untranslated: None },
        ]
    );
}

#[test]
fn no_report() {
    let of = |text: &str, locale| lint(&[("a", text)], &[], &LintOptions { locale, ..LintOptions::default() });
    assert_eq!(of("", Some("no tag")), Err(LintError::UnknownLocale));
    assert_eq!(of("", Some("C")).expect("It is made.").findings, []);
    let deep = format!("a = {}1{}\n", "{".repeat(1430), "}".repeat(1430));
    assert_eq!(of(&deep, None), Err(LintError::OutOfMemory));
    assert_eq!(tidy(&deep), Err(TidyError::OutOfMemory));
}

#[test]
fn tidies() {
    assert_eq!(tidy(""), Ok(String::new()));
    assert_eq!(tidy("\u{feff}a=b\r\n\r\n\r\nc  = d").as_deref(), Ok("a = b\n\nc = d\n"));
    assert_eq!(tidy("a = \r b\n"), Err(TidyError::CarriageReturn));
    assert_eq!(tidy("a = é }\nb\n"), Err(TidyError::Damaged { line: 1, column: 7 }));
    assert_eq!(tidy("a b").unwrap_err().to_string(), "line 1, column 3: it can't be read there");
}

#[test]
fn finds_occurrences() {
    let source = "hi = { -b(n: 1) } é { $n } { F($n) }\n  .t = { other.t }\njunk { $x\n-b = { $n }\n";
    let found = occurrences(source).expect("It is read.");
    let shown: Vec<String> = found
        .iter()
        .map(|each| {
            assert_eq!(&source[each.place.clone()], each.symbol.name);
            let owner = each.symbol.owner.as_deref().unwrap_or("");
            format!("{}{} {} {owner}", if each.is_definition { "=" } else { "" }, each.symbol, each.place.start)
        })
        .collect();
    assert_eq!(
        shown,
        [
            "=hi 0 ",
            "-b 8 ",
            "$n 10 -b",
            "$n 24 hi",
            "F 30 ",
            "$n 33 hi",
            "=hi.t 41 hi",
            "other 47 ",
            "other.t 53 other",
            "=-b 68 ",
            "$n 75 -b",
        ]
    );
    assert_eq!(found[4].symbol.kind, SymbolKind::Function);
    assert_eq!(occurrences(""), Ok(vec![]));
    let deep = format!("a = {}1{}\n", "{".repeat(1430), "}".repeat(1430));
    assert_eq!(occurrences(&deep), Err(OutOfMemory));
}
