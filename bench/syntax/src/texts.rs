//! The texts that are read: files, and shapes that are hard on a reader.

use std::fs;

/// The names of the shapes.
pub const SHAPES: [&str; 5] = ["messages", "pattern", "line", "junk", "comment"];

/// A text: a file's, or a shape.
pub enum Text {
    File { path: String, bytes: Vec<u8> },
    Shape(Shape),
}

/// A head, and a part that is repeated after it.
pub struct Shape {
    name: String,
    head: &'static str,
    part: &'static str,
    times: usize,
}

impl Shape {
    fn of_name(name: &str) -> Option<Shape> {
        let (head, part, len) = match name {
            "messages" => ("", "key = Hello, { $name }, you have mail\n", 100_000_000),
            "pattern" => ("key =\n", "    some words of a long text\n", 10_000_000),
            "line" => ("key =", " some words of a long line", 10_000_000),
            "junk" => ("", "a b {\n", 600_000),
            "comment" => ("", "# some words of a long comment\n", 10_000_000),
            _ => return None,
        };
        Some(Shape {
            name: name.to_owned(),
            head,
            part,
            times: len / part.len(),
        })
    }

    fn bytes(&self, times: usize) -> Vec<u8> {
        let mut text = self.head.to_owned();
        text.push_str(&self.part.repeat(times));
        text.into_bytes()
    }
}

impl Text {
    /// The shape of a name, else the file of a path.
    pub fn of_argument(argument: &str) -> Option<Text> {
        Shape::of_name(argument).map(Text::Shape).or_else(|| {
            let bytes = fs::read(argument).ok()?;
            let path = argument.to_owned();
            Some(Text::File { path, bytes })
        })
    }

    pub fn argument(&self) -> &str {
        match self {
            Text::File { path, .. } => path,
            Text::Shape(shape) => &shape.name,
        }
    }

    pub fn name(&self) -> &str {
        self.argument().rsplit('/').next().unwrap_or_default()
    }

    pub fn whole(&self) -> Vec<u8> {
        match self {
            Text::File { bytes, .. } => bytes.clone(),
            Text::Shape(shape) => shape.bytes(shape.times),
        }
    }

    /// A shape with half as many parts. A file has no half.
    pub fn half(&self) -> Option<Vec<u8>> {
        match self {
            Text::File { .. } => None,
            Text::Shape(shape) => Some(shape.bytes(shape.times / 2)),
        }
    }
}
