//! What is wrong with the files of a catalog.

use crate::c;
use crate::report::Object;
use crate::text::Text;
use std::error::Error;
use std::fmt;

/// How bad a finding is.
#[derive(Clone, Copy, Debug, PartialEq, Eq)]
pub enum Severity {
    /// Something is missing, or shown as its fallback.
    Error,
    /// Most likely not what was meant.
    Warning,
    /// Worth a look.
    Note,
}

impl fmt::Display for Severity {
    fn fmt(&self, f: &mut fmt::Formatter<'_>) -> fmt::Result {
        f.write_str(match self {
            Severity::Error => "error",
            Severity::Warning => "warning",
            Severity::Note => "note",
        })
    }
}

/// Something that is wrong at a place of a file. It is shown as `FILE:LINE:COLUMN: SEVERITY: ENTRY: TEXT [CODE]`.
#[derive(Clone, Debug, PartialEq, Eq)]
pub struct Finding {
    /// The name of the file.
    pub file: String,
    /// The number of the line, from 1.
    pub line: usize,
    /// The number of the column, from 1. A column counts characters.
    pub column: usize,
    /// How many bytes of the file are before the place.
    pub offset: usize,
    /// How bad it is.
    pub severity: Severity,
    /// The name of its kind, as `unknown-term`.
    pub code: String,
    /// The id of the message or the term, with a dot and the name of the attribute if it is in one.
    pub entry: Option<String>,
    /// What is wrong.
    pub text: String,
    /// What may be the cause, or what to write instead.
    pub hint: Option<String>,
}

impl fmt::Display for Finding {
    fn fmt(&self, f: &mut fmt::Formatter<'_>) -> fmt::Result {
        write!(f, "{}:{}:{}: {}: ", self.file, self.line, self.column, self.severity)?;
        if let Some(entry) = &self.entry {
            write!(f, "{entry}: ")?;
        }
        write!(f, "{} [{}]", self.text, self.code)
    }
}

/// How many messages a file has. What isn't counted for the file is `None`.
#[derive(Clone, Debug, PartialEq, Eq)]
pub struct FileCounts {
    /// The name of the file.
    pub file: String,
    /// How many messages it has.
    pub messages: usize,
    /// How many of them the catalog lacks, if it is a file of the reference.
    pub missing: Option<usize>,
    /// How many of them the reference lacks, if it is a file of the catalog.
    pub obsolete: Option<usize>,
    /// How many of them are as in the reference, if it is a file of the catalog.
    pub untranslated: Option<usize>,
}

/// What is found in a catalog.
#[derive(Clone, Debug, PartialEq, Eq)]
pub struct Report {
    /// What is wrong, file by file.
    pub findings: Vec<Finding>,
    /// The counts of each file, if there is a reference.
    pub counts: Vec<FileCounts>,
    /// Whether there is an error, or a warning if warnings count.
    pub has_errors: bool,
}

/// What is looked for, and what of it is reported.
#[derive(Clone, Copy, Debug, Default)]
pub struct LintOptions<'a> {
    /// The language whose plural categories are looked for.
    pub locale: Option<&'a str>,
    /// The names of the functions that the program adds, but for `NUMBER` and `DATETIME`.
    pub functions: &'a [&'a str],
    /// Whether notes are reported, too, but for those of the group `texts`.
    pub notes: bool,
    /// Whether warnings count for [`Report::has_errors`].
    pub strict: bool,
}

/// Why there is no report.
#[derive(Clone, Copy, Debug, PartialEq, Eq)]
pub enum LintError {
    /// The locale is no tag of a language.
    UnknownLocale,
    /// Memory was refused, or a text nests too deep for 1.5 MB of the machine's stack.
    OutOfMemory,
}

impl fmt::Display for LintError {
    fn fmt(&self, f: &mut fmt::Formatter<'_>) -> fmt::Result {
        f.write_str(match self {
            LintError::UnknownLocale => "the locale is no tag of a language",
            LintError::OutOfMemory => "a text nests too deep, or memory ran out",
        })
    }
}

impl Error for LintError {}

/// What is wrong with the files of a catalog, as `ftl lint` reports it. Each file is its name and its text. With a
/// reference, the files that the catalog is translated from, the two are compared.
///
/// ```
/// use kozhvadi::{lint, LintOptions};
///
/// let report = lint(&[("de.ftl", "hi = Hallo, { -brand }!\n")], &[], &LintOptions::default())?;
/// let shown = report.findings[0].to_string();
/// assert_eq!(shown, "de.ftl:1:15: error: hi: there is no term `-brand` [unknown-term]");
/// assert!(report.has_errors);
/// # Ok::<(), kozhvadi::LintError>(())
/// ```
///
/// # Errors
/// [`LintError::UnknownLocale`] and [`LintError::OutOfMemory`].
pub fn lint(
    files: &[(&str, &str)],
    reference: &[(&str, &str)],
    options: &LintOptions<'_>,
) -> Result<Report, LintError> {
    let (files, reference) = (given(files), given(reference));
    let of_name = |name: &&str| c::FluentSource { text: name.as_ptr(), len: name.len() };
    let functions: Vec<c::FluentSource> = options.functions.iter().chain(&["DATETIME"]).map(of_name).collect();
    let locale = options.locale.unwrap_or_default();
    let asked = c::FluentLintOptions {
        functions: functions.as_ptr(),
        function_count: functions.len(),
        locale: locale.as_ptr(),
        locale_len: locale.len(),
        notes: options.notes,
        strict: options.strict,
    };
    let mut text = Text::none();
    // SAFETY: each pointer is that of a slice of the length next to it.
    let answered = unsafe {
        c::fluent_lint(files.as_ptr(), files.len(), reference.as_ptr(), reference.len(), &asked, text.place())
    };
    match answered {
        c::FLUENT_READ | c::FLUENT_HAS_ERRORS => Ok(report_of(text.as_str(), answered == c::FLUENT_HAS_ERRORS)),
        c::FLUENT_UNKNOWN_LOCALE => Err(LintError::UnknownLocale),
        _ => Err(LintError::OutOfMemory),
    }
}

fn given(files: &[(&str, &str)]) -> Vec<c::FluentFile> {
    let file = |(name, text): &(&str, &str)| c::FluentFile {
        name: name.as_ptr(),
        name_len: name.len(),
        text: text.as_ptr(),
        text_len: text.len(),
    };
    files.iter().map(file).collect()
}

/// The report that these lines are.
fn report_of(lines: &str, has_errors: bool) -> Report {
    let mut report = Report { findings: vec![], counts: vec![], has_errors };
    for object in lines.lines().filter_map(Object::of) {
        match object.number("messages") {
            Some(messages) => report.counts.extend(counts_of(object, messages)),
            None => report.findings.extend(finding_of(object)),
        }
    }
    report
}

fn finding_of(mut object: Object) -> Option<Finding> {
    let severity = match object.text("severity")?.as_str() {
        "error" => Severity::Error,
        "warning" => Severity::Warning,
        _ => Severity::Note,
    };
    Some(Finding {
        file: object.text("file")?,
        line: object.number("line")?,
        column: object.number("column")?,
        offset: object.number("offset")?,
        severity,
        code: object.text("code")?,
        entry: object.text("entry"),
        text: object.text("text")?,
        hint: object.text("hint"),
    })
}

fn counts_of(mut object: Object, messages: usize) -> Option<FileCounts> {
    Some(FileCounts {
        file: object.text("file")?,
        messages,
        missing: object.number("missing"),
        obsolete: object.number("obsolete"),
        untranslated: object.number("untranslated"),
    })
}
