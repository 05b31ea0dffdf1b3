//! What `fluent_c.h` declares.

pub const FLUENT_READ: u32 = 0;
pub const FLUENT_NO_MEMORY: u32 = 2;
pub const FLUENT_UNKNOWN_LOCALE: u32 = 3;
pub const FLUENT_HAS_ERRORS: u32 = 8;
pub const FLUENT_DAMAGED: u32 = 9;
pub const FLUENT_CARRIAGE_RETURN: u32 = 10;
pub const FLUENT_NOT_TIDY: u32 = 11;
pub const FLUENT_CALL: u32 = 12;
pub const FLUENT_NO_ROOM: u32 = 15;

pub const FLUENT_TEXT: u32 = 0;
pub const FLUENT_DECIMAL: u32 = 1;
pub const FLUENT_INTEGER: u32 = 2;
pub const FLUENT_UNSIGNED: u32 = 3;
pub const FLUENT_NO_VALUE: u32 = 4;
pub const FLUENT_FLOAT: u32 = 5;
pub const FLUENT_DATETIME: u32 = 6;

pub const FLUENT_FILTERING: u32 = 0;
pub const FLUENT_MATCHING: u32 = 1;
pub const FLUENT_LOOKUP: u32 = 2;

#[repr(C)]
pub struct FluentSource {
    pub text: *const u8,
    pub len: usize,
}

#[repr(C)]
pub struct FluentFile {
    pub name: *const u8,
    pub name_len: usize,
    pub text: *const u8,
    pub text_len: usize,
}

#[repr(C)]
pub struct FluentLintOptions {
    pub functions: *const FluentSource,
    pub function_count: usize,
    pub locale: *const u8,
    pub locale_len: usize,
    pub notes: bool,
    pub strict: bool,
}

#[repr(C)]
pub struct FluentPlace {
    pub line: usize,
    pub column: usize,
}

#[repr(C)]
#[derive(Default)]
pub struct FluentCounts {
    pub messages: usize,
    pub terms: usize,
    pub comments: usize,
    pub junk: usize,
    pub errors: usize,
}

#[repr(C)]
pub struct FluentText {
    pub held: bool,
    pub bytes: *const u8,
    pub len: usize,
    pub owner: *mut u8,
}

#[repr(C)]
pub struct FluentBundle {
    pub held: bool,
    pub sources: *mut u8,
    pub read: *mut u8,
    pub desk: *mut u8,
}

/// How a bundle is made. Of the budget of the machine's stack 0 is what suits a thread with 2 MB.
#[repr(C)]
pub struct FluentBundleOptions {
    pub size: usize,
    pub locale: *const u8,
    pub locale_len: usize,
    pub stack: usize,
    pub isolating: bool,
    pub overriding: bool,
    pub plain_numbers: bool,
}

#[repr(C)]
pub struct FluentArgument {
    pub name: *const u8,
    pub name_len: usize,
    pub text: *const u8,
    pub text_len: usize,
    pub integer: i64,
    pub unsigned_integer: u64,
    pub kind: u32,
}

/// A message's value, or an attribute of it if the name isn't empty.
#[repr(C)]
pub struct FluentPattern {
    pub id: *const u8,
    pub id_len: usize,
    pub attribute: *const u8,
    pub attribute_len: usize,
    pub number: usize,
}

/// A date, its time if it has one, and the offset of its clock if that is known.
#[repr(C)]
pub struct FluentDate {
    pub offset: i32,
    pub nanosecond: u32,
    pub year: i16,
    pub month: u8,
    pub day: u8,
    pub hour: u8,
    pub minute: u8,
    pub second: u8,
    pub has_time: bool,
    pub has_offset: bool,
}

extern "C" {
    pub fn fluent_outline(text: *const u8, len: usize, made: *mut FluentText, counts: *mut FluentCounts) -> u32;
    pub fn fluent_tidy(text: *const u8, len: usize, made: *mut FluentText, place: *mut FluentPlace) -> u32;
    pub fn fluent_write_tree(json: *const u8, len: usize, with_junk: bool, made: *mut FluentText) -> u32;
    pub fn fluent_nodes(text: *const u8, len: usize, made: *mut FluentText) -> u32;
    pub fn fluent_occurrences(text: *const u8, len: usize, made: *mut FluentText) -> u32;
    pub fn fluent_lint(
        files: *const FluentFile,
        count: usize,
        references: *const FluentFile,
        reference_count: usize,
        options: *const FluentLintOptions,
        report: *mut FluentText,
    ) -> u32;
    pub fn fluent_bundle_new_with(
        sources: *const FluentSource,
        count: usize,
        options: *const FluentBundleOptions,
        made: *mut FluentBundle,
    ) -> u32;
    pub fn fluent_bundle_new_calling(
        sources: *const FluentSource,
        count: usize,
        options: *const FluentBundleOptions,
        functions: *const FluentSource,
        function_count: usize,
        made: *mut FluentBundle,
    ) -> u32;
    pub fn fluent_bundle_call(
        bundle: *mut FluentBundle,
        id: *const u8,
        id_len: usize,
        attribute: *const u8,
        attribute_len: usize,
        arguments: *const FluentArgument,
        argument_count: usize,
        answers: *const FluentArgument,
        answer_count: usize,
        text: *mut FluentText,
        errors: *mut FluentText,
        call: *mut FluentText,
    ) -> u32;
    pub fn fluent_bundle_calls(
        bundle: *mut FluentBundle,
        id: *const u8,
        id_len: usize,
        attribute: *const u8,
        attribute_len: usize,
        arguments: *const FluentArgument,
        argument_count: usize,
        answers: *const FluentArgument,
        answer_count: usize,
        calls: *mut FluentText,
    ) -> u32;
    pub fn fluent_bundle_format(
        bundle: *mut FluentBundle,
        id: *const u8,
        id_len: usize,
        attribute: *const u8,
        attribute_len: usize,
        arguments: *const FluentArgument,
        argument_count: usize,
        text: *mut FluentText,
        errors: *mut FluentText,
    ) -> u32;
    pub fn fluent_bundle_find(
        bundle: *mut FluentBundle,
        id: *const u8,
        id_len: usize,
        attribute: *const u8,
        attribute_len: usize,
        number: *mut usize,
    ) -> u32;
    pub fn fluent_bundle_write(
        bundle: *mut FluentBundle,
        pattern: *const FluentPattern,
        arguments: *const FluentArgument,
        argument_count: usize,
        room: *mut u8,
        room_len: usize,
        len: *mut usize,
        errors: *mut FluentText,
    ) -> u32;
    pub fn fluent_has_plural_rules(locale: *const u8, locale_len: usize) -> bool;
    pub fn fluent_negotiate(
        requested: *const FluentSource,
        requested_count: usize,
        available: *const FluentSource,
        available_count: usize,
        strategy: u32,
        positions: *mut usize,
        room: usize,
        count: *mut usize,
    ) -> u32;
    #[cfg(test)]
    pub fn fluent_bundle_messages(bundle: *mut FluentBundle, text: *mut FluentText) -> u32;
    #[cfg(test)]
    pub fn fluent_bundle_attributes(
        bundle: *mut FluentBundle,
        id: *const u8,
        id_len: usize,
        text: *mut FluentText,
    ) -> u32;
    pub fn fluent_bundle_variables(
        bundle: *mut FluentBundle,
        id: *const u8,
        id_len: usize,
        text: *mut FluentText,
    ) -> u32;
    pub fn fluent_bundle_errors(bundle: *mut FluentBundle, report: *mut FluentText) -> u32;
    pub fn fluent_bundle_free(bundle: *mut FluentBundle);
    pub fn fluent_write_date(
        locale: *const u8,
        locale_len: usize,
        date: *const FluentDate,
        options: *const FluentArgument,
        option_count: usize,
        made: *mut FluentText,
    ) -> u32;
    pub fn fluent_free_text(made: *mut FluentText);
}

#[cfg(test)]
mod tests {
    use super::*;
    use std::mem::{offset_of, size_of};

    /// The lines of the test for C that assert the sizes of these structs, and where their fields are.
    macro_rules! layout {
        ($($name:ident { $($field:ident)* })*) => {
            vec![$(
                format!("SIZE({}, {});", stringify!($name), size_of::<$name>()),
                $(format!("AT({}, {}, {});", stringify!($name), stringify!($field), offset_of!($name, $field)),)*
            )*]
        };
    }

    #[test]
    fn sizes_and_places() {
        let path = concat!(env!("CARGO_MANIFEST_DIR"), "/../c/tests/layout.c");
        let text = std::fs::read_to_string(path).expect("the test for C is there");
        let asserted: Vec<&str> =
            text.lines().filter(|line| line.starts_with("SIZE(") || line.starts_with("AT(")).collect();
        let ours = layout! {
            FluentCounts { messages terms comments junk errors }
            FluentText { held bytes len owner }
            FluentSource { text len }
            FluentPlace { line column }
            FluentFile { name name_len text text_len }
            FluentLintOptions { functions function_count locale locale_len notes strict }
            FluentBundle { held sources read desk }
            FluentBundleOptions { size locale locale_len stack isolating overriding plain_numbers }
            FluentArgument { name name_len text text_len integer unsigned_integer kind }
            FluentPattern { id id_len attribute attribute_len number }
            FluentDate { offset nanosecond year month day hour minute second has_time has_offset }
        };
        assert_eq!(ours, asserted);
    }
}
