//! Sources whose calls the program answers where the library would.
//!
//! A call that is all of a placeable gets another name than one that chooses a variant: then the answer is only shown.

use std::fmt::Write;

/// Which names stand for what in a source that is rewritten.
pub(crate) struct Names<'n> {
    /// Whether a name is that of a function of the program.
    pub is_own: &'n dyn Fn(&str) -> bool,
    /// Whether each value that is shown is asked for by a call of [`SHOWN`].
    pub shows: bool,
    /// Whether `NUMBER` is that of the library.
    pub has_number: bool,
}

/// What follows the name of a function whose value is shown.
pub(crate) const IS_SHOWN: &str = "-SHOWN";

/// What follows the name of the program's own `NUMBER`, since the library has another.
pub(crate) const IS_OWN: &str = "-OWN";

/// The function that shows a value, and the name of the variable that it is of.
pub(crate) const SHOWN: &str = "VALUE-SHOWN";

/// A source in which functions have the names of [`Names`]. It has the same errors, at other places.
pub(crate) fn rewritten(source: &str, names: &Names<'_>) -> String {
    // There is room for some longer names.
    let made = String::with_capacity(source.len() + source.len() / 8 + 64);
    let mut scan = Scan { source, names, at: 0, made, open: Vec::new() };
    while scan.at < source.len() {
        scan.step();
    }
    scan.made
}

/// What an open brace holds.
#[derive(Clone, Copy, PartialEq)]
enum Inside {
    /// An expression.
    Expression,
    /// The variants of a select, which are texts.
    Variants,
}

/// A source that is read from its start, and what was made of it.
struct Scan<'s> {
    source: &'s str,
    names: &'s Names<'s>,
    at: usize,
    made: String,
    open: Vec<Inside>,
}

impl Scan<'_> {
    fn bytes(&self) -> &[u8] {
        self.source.as_bytes()
    }

    /// Goes on by a character at least.
    fn step(&mut self) {
        let byte = self.bytes()[self.at];
        if self.at == 0 || self.bytes()[self.at - 1] == b'\n' {
            match byte {
                b'#' if self.open.is_empty() => return self.copy_to(self.line_end(self.at)),
                // An entry begins, even if junk before it left a brace open.
                b'-' | b'a'..=b'z' | b'A'..=b'Z' => self.open.clear(),
                _ => {}
            }
        }
        match byte {
            b'{' => {
                self.copy_to(self.at + 1);
                self.open.push(Inside::Expression);
                self.begin_placeable();
            }
            b'}' => {
                self.open.pop();
                self.copy_to(self.at + 1);
            }
            _ if self.open.last() == Some(&Inside::Expression) => self.step_in_expression(byte),
            b'\n' => self.copy_to(self.at + 1),
            _ => self.copy_to(self.text_end(self.at)),
        }
    }

    fn step_in_expression(&mut self, byte: u8) {
        match byte {
            b'"' => self.copy_to(self.literal_end(self.at)),
            b'-' if self.bytes().get(self.at + 1) == Some(&b'>') => {
                if let Some(inside) = self.open.last_mut() {
                    *inside = Inside::Variants;
                }
                self.copy_to(self.at + 2);
            }
            b'$' | b'-' | b'.' => self.copy_to(self.word_end(self.at + 1)),
            byte if byte.is_ascii_alphanumeric() => {
                let end = self.word_end(self.at);
                let is_call = self.bytes().get(self.blank_end(end)) == Some(&b'(');
                let is_number = &self.source[self.at..end] == "NUMBER" && (self.names.is_own)("NUMBER");
                self.copy_to(end);
                if is_call && is_number {
                    self.made.push_str(IS_OWN);
                }
            }
            _ => self.copy_to(self.next_char(self.at)),
        }
    }

    /// Rewrites what follows an open brace, if it is all of a placeable.
    fn begin_placeable(&mut self) {
        let start = self.blank_end(self.at);
        let Some(&first) = self.bytes().get(start) else { return };
        if first.is_ascii_uppercase() {
            return self.begin_call(start);
        }
        let end = match first {
            b'$' => self.word_end(start + 1),
            b'-' | b'0'..=b'9' => self.number_end(start),
            _ => return,
        };
        if !self.names.shows || self.bytes().get(self.blank_end(end)) != Some(&b'}') {
            return;
        }
        let value = &self.source[start..end];
        // Nothing is refused by a String.
        let _ = match value.strip_prefix('$') {
            Some("") => return,
            Some(name) => write!(self.made, " {SHOWN}({value}, \"{name}\")"),
            None if value.ends_with(|end: char| end.is_ascii_digit()) => write!(self.made, " {SHOWN}({value})"),
            None => return,
        };
        self.at = end;
    }

    /// Gives the name of a call another one, if the call is all of a placeable.
    fn begin_call(&mut self, start: usize) {
        let end = self.word_end(start);
        let (name, open) = (&self.source[start..end], self.blank_end(end));
        let is_own = (self.names.is_own)(name) || (self.names.shows && self.names.has_number && name == "NUMBER");
        if !is_own || self.bytes().get(open) != Some(&b'(') || !self.ends_after_call(open) {
            return;
        }
        self.copy_to(end);
        self.made.push_str(IS_SHOWN);
    }

    /// Whether a placeable ends after the arguments that begin at a place.
    fn ends_after_call(&self, mut at: usize) -> bool {
        let mut depth = 0_usize;
        while let Some(byte) = self.bytes().get(at) {
            match byte {
                b'"' => {
                    at = self.literal_end(at);
                    continue;
                }
                b'(' | b'{' => depth += 1,
                b')' | b'}' if depth == 1 => return self.bytes().get(self.blank_end(at + 1)) == Some(&b'}'),
                b')' | b'}' => depth -= 1,
                _ => {}
            }
            at += 1;
        }
        false
    }

    fn copy_to(&mut self, end: usize) {
        self.made.push_str(&self.source[self.at..end]);
        self.at = end;
    }

    fn end_of(&self, from: usize, goes_on: impl Fn(u8) -> bool) -> usize {
        let from = from.min(self.source.len());
        let found = self.bytes()[from..].iter().position(|&byte| !goes_on(byte));
        found.map_or(self.source.len(), |count| from + count)
    }

    fn blank_end(&self, from: usize) -> usize {
        self.end_of(from, |byte| matches!(byte, b' ' | b'\n' | b'\r'))
    }

    fn word_end(&self, from: usize) -> usize {
        self.end_of(from, |byte| byte.is_ascii_alphanumeric() || matches!(byte, b'_' | b'-'))
    }

    fn number_end(&self, from: usize) -> usize {
        self.end_of(from + 1, |byte| byte.is_ascii_digit() || byte == b'.')
    }

    fn line_end(&self, from: usize) -> usize {
        self.end_of(from, |byte| byte != b'\n')
    }

    /// Where a text ends in its line.
    fn text_end(&self, from: usize) -> usize {
        self.end_of(from, |byte| !matches!(byte, b'{' | b'}' | b'\n'))
    }

    fn next_char(&self, from: usize) -> usize {
        self.end_of(from + 1, |byte| byte & 0xc0 == 0x80)
    }

    /// Where a literal ends that begins at a place: after its quote, or at the end of its line.
    fn literal_end(&self, from: usize) -> usize {
        let mut at = from + 1;
        while let Some(byte) = self.bytes().get(at) {
            match byte {
                b'"' => return at + 1,
                b'\n' => return at,
                b'\\' => at = self.next_char(at + 1),
                _ => at += 1,
            }
        }
        self.source.len()
    }
}

#[cfg(test)]
mod tests {
    use super::*;

    fn of(source: &str, shows: bool) -> String {
        rewritten(source, &Names { is_own: &|name| name == "F" || name == "NUMBER", shows, has_number: false })
    }

    #[test]
    fn calls_have_other_names() {
        let same =
            ["# { NUMBER(1) }\n", "a = NUMBER(1)\n", "a = { \"NUMBER(\" }\n", "a = { NUMBER }\n", "a = { $NUMBER }"];
        for source in same {
            assert_eq!(of(source, false), source);
        }
        for (source, expected) in [
            ("a = { NUMBER($n, a: \"}\") }", "a = { NUMBER-SHOWN($n, a: \"}\") }"),
            (
                "a = {F( NUMBER (1) ) ->\n[x] NUMBER(1) \"\n*[y] { F() }\n}",
                "a = {F( NUMBER-OWN (1) ) ->\n[x] NUMBER(1) \"\n*[y] { F-SHOWN() }\n}",
            ),
            ("a = { G(F(1)) }{F(\"\\\"\")}\nb = ä{ F(1)", "a = { G(F(1)) }{F-SHOWN(\"\\\"\")}\nb = ä{ F(1)"),
            ("j = { \"\nb = NUMBER(1) { NUMBER(1) }", "j = { \"\nb = NUMBER(1) { NUMBER-SHOWN(1) }"),
        ] {
            assert_eq!(of(source, false), expected, "{source}");
        }
    }

    #[test]
    fn values_are_shown_by_calls() {
        for (source, expected) in [
            ("a = { $n } {-5.00}", "a = { VALUE-SHOWN($n, \"n\") } { VALUE-SHOWN(-5.00)}"),
            ("a = { $n ->\n *[x] {$n}\n}", "a = { $n ->\n *[x] { VALUE-SHOWN($n, \"n\")}\n}"),
            ("a = { -term } { -5x } { $ } { \"$n\" } { m }", "a = { -term } { -5x } { $ } { \"$n\" } { m }"),
        ] {
            assert_eq!(of(source, true), expected, "{source}");
        }
    }
}
