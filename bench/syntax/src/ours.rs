//! The calls of `fluent_c`.

use crate::Call;

/// How many entries of each kind a source has, and how many errors.
#[repr(C)]
#[derive(Clone, Copy, Debug, Default, PartialEq, Eq)]
pub struct Counts {
    pub messages: usize,
    pub terms: usize,
    pub comments: usize,
    pub junk: usize,
    pub errors: usize,
}

/// A text that the library made, or none.
#[repr(C)]
struct Made {
    held: bool,
    bytes: *const u8,
    len: usize,
    owner: *mut u8,
}

extern "C" {
    fn fluent_parse(text: *const u8, len: usize, counts: *mut Counts) -> u32;
    fn fluent_parse_runtime(text: *const u8, len: usize, counts: *mut Counts) -> u32;
    fn fluent_write(text: *const u8, len: usize, with_junk: bool, made: *mut Made) -> u32;
    fn fluent_write_json(text: *const u8, len: usize, made: *mut Made) -> u32;
    fn fluent_free_text(made: *mut Made);
}

pub fn counts(call: Call, text: &[u8]) -> Counts {
    let mut counts = Counts::default();
    let read = match call {
        Call::Parse => fluent_parse,
        Call::ParseRuntime => fluent_parse_runtime,
    };
    // The text and `counts` live through the call.
    let answer = unsafe { read(text.as_ptr(), text.len(), &mut counts) };
    assert_eq!(answer, 0, "a text in UTF-8, and memory");
    counts
}

impl Made {
    const NONE: Made = Made {
        held: false,
        bytes: std::ptr::null(),
        len: 0,
        owner: std::ptr::null_mut(),
    };

    /// A copy of the text.
    fn text(&self) -> Vec<u8> {
        assert!(self.held, "a text was made");
        // The text lives until the library frees it, and `bytes` isn't null where it has a byte.
        match self.len {
            0 => Vec::new(),
            len => unsafe { std::slice::from_raw_parts(self.bytes, len) }.to_vec(),
        }
    }
}

impl Drop for Made {
    fn drop(&mut self) {
        // The text is freed once: it isn't held after this call.
        unsafe { fluent_free_text(self) };
    }
}

fn write(text: &[u8], with_junk: bool) -> Made {
    let mut made = Made::NONE;
    // The text and `made` live through the call.
    let answer = unsafe { fluent_write(text.as_ptr(), text.len(), with_junk, &mut made) };
    assert_eq!(answer, 0, "a text in UTF-8, and memory");
    made
}

/// The text that a source's tree is written as.
pub fn written(text: &[u8], with_junk: bool) -> Vec<u8> {
    write(text, with_junk).text()
}

/// Reads a source and writes its tree, without junk. Gives the length of the written text, which isn't copied.
pub fn written_len(text: &[u8]) -> usize {
    write(text, false).len
}

/// The JSON text of a source's tree.
pub fn json(text: &[u8]) -> Vec<u8> {
    let mut made = Made::NONE;
    // The text and `made` live through the call.
    let answer = unsafe { fluent_write_json(text.as_ptr(), text.len(), &mut made) };
    assert_eq!(answer, 0, "a text in UTF-8, and memory");
    made.text()
}
