//! Lines of JSON: an object each, whose values are texts, numbers, truth values and nulls.

use std::collections::HashMap;
use std::str::Chars;

/// A value of an object.
pub(crate) enum Value {
    Null,
    Bool(bool),
    Number(usize),
    Text(String),
}

/// An object by its keys.
pub(crate) struct Object(HashMap<String, Value>);

impl Object {
    /// The object that a line is. The library writes no other line.
    pub(crate) fn of(line: &str) -> Option<Object> {
        let mut reader = Reader::of(line);
        let mut members = HashMap::new();
        reader.expect('{')?;
        loop {
            let key = reader.text()?;
            reader.expect(':')?;
            members.insert(key, reader.value()?);
            match reader.0.next()? {
                ',' => {}
                '}' => return Some(Object(members)),
                _ => return None,
            }
        }
    }

    /// The text of a key, if it has one.
    pub(crate) fn text(&mut self, key: &str) -> Option<String> {
        match self.0.remove(key)? {
            Value::Text(text) => Some(text),
            Value::Null | Value::Bool(_) | Value::Number(_) => None,
        }
    }

    /// The number of a key, if it has one.
    pub(crate) fn number(&self, key: &str) -> Option<usize> {
        match self.0.get(key)? {
            Value::Number(number) => Some(*number),
            Value::Null | Value::Bool(_) | Value::Text(_) => None,
        }
    }

    /// Whether the value of a key is true.
    pub(crate) fn is_true(&self, key: &str) -> bool {
        matches!(self.0.get(key), Some(Value::Bool(true)))
    }
}

/// What is left of a line.
pub(crate) struct Reader<'l>(Chars<'l>);

impl<'l> Reader<'l> {
    pub(crate) fn of(line: &'l str) -> Self {
        Reader(line.chars())
    }

    /// The next character, which stays.
    pub(crate) fn peek(&self) -> Option<char> {
        self.0.clone().next()
    }

    pub(crate) fn expect(&mut self, wanted: char) -> Option<()> {
        (self.0.next()? == wanted).then_some(())
    }

    fn value(&mut self) -> Option<Value> {
        if self.0.as_str().starts_with('"') {
            return Some(Value::Text(self.text()?));
        }
        let line = self.0.as_str();
        let end = line.find([',', '}'])?;
        self.0 = line[end..].chars();
        match &line[..end] {
            "null" => Some(Value::Null),
            "true" => Some(Value::Bool(true)),
            "false" => Some(Value::Bool(false)),
            digits => Some(Value::Number(digits.parse().ok()?)),
        }
    }

    pub(crate) fn text(&mut self) -> Option<String> {
        self.expect('"')?;
        let mut text = String::new();
        loop {
            let left = self.0.as_str();
            let end = left.bytes().position(|byte| matches!(byte, b'"' | b'\\'))?;
            text.push_str(&left[..end]);
            self.0 = left[end..].chars();
            match self.0.next()? {
                '"' => return Some(text),
                _ => text.push(self.escaped()?),
            }
        }
    }

    /// The character after a backslash. The library writes the escapes of control characters alone by their numbers.
    fn escaped(&mut self) -> Option<char> {
        Some(match self.0.next()? {
            'b' => '\u{8}',
            'f' => '\u{c}',
            'n' => '\n',
            'r' => '\r',
            't' => '\t',
            'u' => {
                let digits = self.0.as_str().get(..4)?;
                self.0 = self.0.as_str()[4..].chars();
                char::from_u32(u32::from_str_radix(digits, 16).ok()?)?
            }
            other => other,
        })
    }
}
