//! The messages and terms of a source, as the library lists them.

use crate::c;
use crate::errors::EntryKind;
use crate::ids::Name;
use crate::text::Text;
use std::iter;
use std::ops::Range;
use std::sync::Arc;

/// What the library lists of a source.
#[derive(Clone, Default, PartialEq, Eq)]
pub(crate) struct Listing {
    /// A line for each message and each term, and after it one for each of its attributes.
    lines: Arc<str>,
    /// How many messages and terms there are.
    count: usize,
}

impl Listing {
    /// The listing of a source and the number of its errors, or `None` if the library was refused memory for it.
    pub(crate) fn of(source: &str) -> Option<(Listing, usize)> {
        let (mut lines, mut counts) = (Text::none(), c::FluentCounts::default());
        // SAFETY: the pointer is that of a slice of the length next to it.
        let answered = unsafe { c::fluent_outline(source.as_ptr(), source.len(), lines.place(), &mut counts) };
        if answered != c::FLUENT_READ {
            return None;
        }
        let listing = Listing { lines: lines.as_str().into(), count: counts.messages + counts.terms };
        Some((listing, counts.errors))
    }

    /// How many messages and terms there are.
    pub(crate) fn len(&self) -> usize {
        self.count
    }

    /// The lines.
    pub(crate) fn lines(&self) -> Lines {
        Lines(Arc::clone(&self.lines))
    }

    /// The messages and terms, in their order.
    pub(crate) fn entries(&self) -> Entries<'_> {
        Entries { lines: &self.lines, at: 0 }
    }
}

/// The lines of a listing, which only it and its copies have.
#[derive(Clone)]
pub(crate) struct Lines(Arc<str>);

impl Lines {
    /// Where they are: nothing else is there as long as these lines are held.
    pub(crate) fn address(&self) -> usize {
        self.0.as_ptr() as usize
    }
}

impl PartialEq for Lines {
    fn eq(&self, other: &Lines) -> bool {
        Arc::ptr_eq(&self.0, &other.0)
    }
}

/// The messages and terms from a place of lines on, in their order.
pub(crate) struct Entries<'l> {
    lines: &'l Arc<str>,
    at: usize,
}

impl<'l> Entries<'l> {
    /// Those from a message on, of which this is the id.
    pub(crate) fn from_id(id: &'l Name) -> Entries<'l> {
        Entries { lines: id.lines(), at: id.start() }
    }
}

impl<'l> Iterator for Entries<'l> {
    type Item = Entry<'l>;

    fn next(&mut self) -> Option<Entry<'l>> {
        let (lines, start) = (self.lines, self.at);
        let end = line_end(lines, start)?;
        self.at = end + 1;
        let mut attribute_count = 0;
        while lines.as_bytes().get(self.at) == Some(&b'.') {
            self.at = line_end(lines, self.at)? + 1;
            attribute_count += 1;
        }
        let line = &lines[start..end];
        let (is_term, has_value) = (line.starts_with('-'), line.ends_with(" ="));
        Some(Entry {
            lines,
            kind: if is_term { EntryKind::Term } else { EntryKind::Message },
            id: start + usize::from(is_term)..end - if has_value { " =".len() } else { 0 },
            has_value,
            attributes: end + 1..self.at,
            attribute_count,
        })
    }
}

/// A message or a term of a source.
pub(crate) struct Entry<'l> {
    lines: &'l Arc<str>,
    pub(crate) kind: EntryKind,
    /// The place of the id, without the `-` of a term.
    id: Range<usize>,
    pub(crate) has_value: bool,
    /// The place of the lines of the attributes, each of them a dot and a name.
    attributes: Range<usize>,
    pub(crate) attribute_count: usize,
}

impl<'l> Entry<'l> {
    /// The id.
    pub(crate) fn id(&self) -> &'l str {
        &self.lines[self.id.clone()]
    }

    /// The id, as a key.
    pub(crate) fn name(&self) -> Name {
        Name::at(self.lines, self.id.clone())
    }

    /// The names of the attributes, in their order.
    pub(crate) fn attributes(&self) -> impl Iterator<Item = Name> + 'l {
        let (lines, mut left) = (self.lines, self.attributes.clone());
        iter::from_fn(move || {
            let place = left.start + ".".len()..line_end(&lines[..left.end], left.start)?;
            left.start = place.end + 1;
            Some(Name::at(lines, place))
        })
    }
}

/// Where the line ends that begins at a place.
pub(crate) fn line_end(lines: &str, start: usize) -> Option<usize> {
    /// A byte eight times.
    const fn each(byte: u8) -> u64 {
        u64::from_le_bytes([byte; 8])
    }
    let mut words = lines.as_bytes()[start..].chunks_exact(8);
    let mut passed = start;
    for word in &mut words {
        // The byte of a line feed is 0, and the lowest high bit that is set is that of the first byte 0.
        let word = u64::from_le_bytes(word.try_into().ok()?) ^ each(b'\n');
        let feeds = word.wrapping_sub(each(1)) & !word & each(1 << 7);
        if feeds != 0 {
            return Some(passed + feeds.trailing_zeros() as usize / 8);
        }
        passed += 8;
    }
    Some(passed + words.remainder().iter().position(|&byte| byte == b'\n')?)
}

#[cfg(test)]
mod tests {
    use super::*;

    /// What a source has: of each entry its kind, its id, whether it has a value, and the names of its attributes.
    fn listed(source: &str) -> Vec<(EntryKind, String, bool, Vec<String>)> {
        let (listing, _errors) = Listing::of(source).expect("It can be read.");
        let entries: Vec<_> = listing
            .entries()
            .map(|entry| {
                let attributes = entry.attributes().map(|name| name.to_string()).collect();
                (entry.kind, entry.id().to_owned(), entry.has_value, attributes)
            })
            .collect();
        assert_eq!(listing.len(), entries.len());
        entries
    }

    #[test]
    fn entries_are_listed() {
        let source = "\
# a = A comment
a = A
### Another
junk
b =
    .x = X
    .y = { $y ->
        [one] One
       *[other] Other
    }
-t = { $n ->
   *[a] A

        B
}
    .x = X
c =
    .dot { \"
\" }
d = {
e }
f =
    First

      .second = Third
   .x = X
   .x = Y
g = .dot
";
        let (message, term) = (EntryKind::Message, EntryKind::Term);
        let entry = |kind, id: &str, has_value, attributes: &[&str]| {
            (kind, id.to_owned(), has_value, attributes.iter().copied().map(String::from).collect::<Vec<_>>())
        };
        let expected = [
            entry(message, "a", true, &[]),
            entry(message, "b", false, &["x", "y"]),
            entry(term, "t", true, &["x"]),
            entry(message, "d", true, &[]),
            entry(message, "f", true, &["second", "x", "x"]),
            entry(message, "g", true, &[]),
        ];
        assert_eq!(listed(source), expected);
        assert_eq!(listed(""), []);
        assert_eq!(listed("# Alone\n"), []);
        let returns = "a = {\"\"}\r\n  b\r\n\r\n  c\r\nd =\r\n  .e = \r\n   F\r\n";
        assert_eq!(listed(returns), [entry(message, "a", true, &[]), entry(message, "d", false, &["e"])]);
    }
}
