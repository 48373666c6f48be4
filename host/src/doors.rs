//! The doors of the proved archive as safe functions. Only the modules of doors and `identity` are
//! `unsafe`: each call hands over slices with their own lengths, and a door is proved to stay inside
//! them.
#![allow(unsafe_code)]

use std::ops::Range;

/// The archive's functions as they are exported: a slice is a pointer and a length, a lent number
/// is a pointer, and a `bool` is one byte.
mod archive {
    unsafe extern "C" {
        pub fn test_same(a: *const u8, a_len: usize, b: *const u8, b_len: usize) -> u8;
        pub fn test_two_at(text: *const u8, len: usize, at: usize) -> usize;
        pub fn test_four_at(text: *const u8, len: usize, at: usize) -> u32;
        pub fn test_put_two(store: *mut u8, len: usize, at: usize, value: u16);
        pub fn test_put_four(store: *mut u8, len: usize, at: usize, value: u32);
        pub fn test_is_utf8(text: *const u8, len: usize) -> u8;
        pub fn test_char_at(text: *const u8, len: usize, at: usize, size: *mut usize) -> u32;
        pub fn test_is_white_space(code: u32) -> u8;
        pub fn test_name_start(code: u32) -> u8;
        pub fn test_name_char(code: u32) -> u8;
        pub fn test_is_ncname(text: *const u8, len: usize) -> u8;
        pub fn test_parse_selector(
            path: *const u8,
            path_len: usize,
            area: *mut u8,
            area_len: usize,
            size: *mut usize,
        ) -> u8;
        pub fn test_parse_field(
            path: *const u8,
            path_len: usize,
            area: *mut u8,
            area_len: usize,
            size: *mut usize,
        ) -> u8;
        pub fn test_find(
            own: *const u8,
            own_len: usize,
            schema: *const u8,
            schema_len: usize,
            target: u8,
            prefix: *const u8,
            prefix_len: usize,
            start: *mut usize,
            size: *mut usize,
        ) -> u8;
        pub fn test_prefix_fits(
            own: *const u8,
            own_len: usize,
            schema: *const u8,
            schema_len: usize,
            target: u8,
            prefix: *const u8,
            prefix_len: usize,
            space: *const u8,
            space_len: usize,
        ) -> u8;
        pub fn test_selects(
            area: *const u8,
            area_len: usize,
            names: *const u8,
            names_len: usize,
            base: u32,
            depth: u32,
            own: *const u8,
            own_len: usize,
            schema: *const u8,
            schema_len: usize,
            target: u8,
        ) -> u8;
        pub fn test_reaches_element(
            area: *const u8,
            area_len: usize,
            names: *const u8,
            names_len: usize,
            base: u32,
            depth: u32,
            own: *const u8,
            own_len: usize,
            schema: *const u8,
            schema_len: usize,
            target: u8,
        ) -> usize;
        pub fn test_reaches_attribute(
            area: *const u8,
            area_len: usize,
            names: *const u8,
            names_len: usize,
            base: u32,
            depth: u32,
            own: *const u8,
            own_len: usize,
            schema: *const u8,
            schema_len: usize,
            target: u8,
            name: *const u8,
            name_len: usize,
        ) -> usize;
    }
}

/// A door's yes or no. A byte other than 0 and 1 is no `bool`, so it comes as a number.
fn answer(byte: u8) -> bool {
    assert!(byte < 2, "a door answered {byte} where 0 or 1 was due");
    byte == 1
}

/// Whether two texts are the same bytes.
pub fn same(a: &[u8], b: &[u8]) -> bool {
    answer(unsafe { archive::test_same(a.as_ptr(), a.len(), b.as_ptr(), b.len()) })
}

/// The two-byte number at a place. A byte past the end counts as 0.
pub fn two_at(text: &[u8], at: usize) -> usize {
    unsafe { archive::test_two_at(text.as_ptr(), text.len(), at) }
}

/// The four-byte number at a place. A byte past the end counts as 0.
pub fn four_at(text: &[u8], at: usize) -> u32 {
    unsafe { archive::test_four_at(text.as_ptr(), text.len(), at) }
}

/// Writes a two-byte number at a place. Where it does not fit, nothing changes.
pub fn put_two(store: &mut [u8], at: usize, value: u16) {
    unsafe { archive::test_put_two(store.as_mut_ptr(), store.len(), at, value) }
}

/// Writes a four-byte number at a place. Where it does not fit, nothing changes.
pub fn put_four(store: &mut [u8], at: usize, value: u32) {
    unsafe { archive::test_put_four(store.as_mut_ptr(), store.len(), at, value) }
}

/// Whether a text is UTF-8 by RFC 3629.
pub fn is_utf8(text: &[u8]) -> bool {
    answer(unsafe { archive::test_is_utf8(text.as_ptr(), text.len()) })
}

/// The code point whose bytes begin at a place of a valid text, and how many they are. Past the
/// end: 0 and 1.
pub fn char_at(text: &[u8], at: usize) -> (u32, usize) {
    let mut size = 0;
    let code = unsafe { archive::test_char_at(text.as_ptr(), text.len(), at, &mut size) };
    (code, size)
}

/// Whether paths treat a code point as white space.
pub fn is_white_space(code: u32) -> bool {
    answer(unsafe { archive::test_is_white_space(code) })
}

/// Whether a name of XML may start with a code point; the colon is not counted.
pub fn name_start(code: u32) -> bool {
    answer(unsafe { archive::test_name_start(code) })
}

/// Whether a name of XML may hold a code point; the colon is not counted.
pub fn name_char(code: u32) -> bool {
    answer(unsafe { archive::test_name_char(code) })
}

/// Whether a text is UTF-8 and an NCName.
pub fn is_ncname(text: &[u8]) -> bool {
    answer(unsafe { archive::test_is_ncname(text.as_ptr(), text.len()) })
}

/// What the path reader answers.
#[derive(Debug, Clone, Copy, PartialEq, Eq)]
pub enum Parsed {
    Unread,
    /// The path has over 255 bytes, or the area under 1,024.
    NoRoom,
    /// So many bytes of entries stand at the front of the area.
    Read(usize),
}

/// Reads a selector or a field into the parsed-path area.
pub fn parse(field: bool, path: &[u8], area: &mut [u8]) -> Parsed {
    let door = if field {
        archive::test_parse_field
    } else {
        archive::test_parse_selector
    };
    let mut size = 0;
    let kind = unsafe {
        door(
            path.as_ptr(),
            path.len(),
            area.as_mut_ptr(),
            area.len(),
            &mut size,
        )
    };
    match (kind, size) {
        (0, 0) => Parsed::Unread,
        (1, 0) => Parsed::NoRoom,
        (2, size) => Parsed::Read(size),
        other => panic!("the reader's door answers {other:?}"),
    }
}

/// Where the URI of a prefix stands.
#[derive(Debug, Clone, PartialEq, Eq)]
pub enum Found {
    Nowhere,
    Xml,
    Own(Range<usize>),
    Schema(Range<usize>),
}

/// Looks a prefix up: `xml`, then the own bindings with this target, then the schema-wide ones.
pub fn find(own: &[u8], schema: &[u8], target: u8, prefix: &[u8]) -> Found {
    let (mut start, mut size) = (0, 0);
    let kind = unsafe {
        archive::test_find(
            own.as_ptr(),
            own.len(),
            schema.as_ptr(),
            schema.len(),
            target,
            prefix.as_ptr(),
            prefix.len(),
            &mut start,
            &mut size,
        )
    };
    match (kind, start, size) {
        (0, 0, 0) => Found::Nowhere,
        (1, 0, 0) => Found::Xml,
        (2, start, size) => Found::Own(start..start + size),
        (3, start, size) => Found::Schema(start..start + size),
        other => panic!("the door to the bindings answers {other:?}"),
    }
}

/// Whether a prefix is bound to this namespace. One that is not found is, whatever the namespace.
pub fn prefix_fits(own: &[u8], schema: &[u8], target: u8, prefix: &[u8], space: &[u8]) -> bool {
    answer(unsafe {
        archive::test_prefix_fits(
            own.as_ptr(),
            own.len(),
            schema.as_ptr(),
            schema.len(),
            target,
            prefix.as_ptr(),
            prefix.len(),
            space.as_ptr(),
            space.len(),
        )
    })
}

/// What matching is lent: the entries of a path, the names of the open elements, the depths of base
/// element and element, the bindings, and which path of the constraint it is.
#[derive(Clone, Copy)]
pub struct Lent<'a> {
    pub area: &'a [u8],
    pub names: &'a [u8],
    pub base: u32,
    pub depth: u32,
    pub own: &'a [u8],
    pub schema: &'a [u8],
    pub target: u8,
}

/// Whether some alternative of a selector matches.
pub fn selects(lent: Lent) -> bool {
    answer(unsafe {
        archive::test_selects(
            lent.area.as_ptr(),
            lent.area.len(),
            lent.names.as_ptr(),
            lent.names.len(),
            lent.base,
            lent.depth,
            lent.own.as_ptr(),
            lent.own.len(),
            lent.schema.as_ptr(),
            lent.schema.len(),
            lent.target,
        )
    })
}

/// How many hits of a field the element is.
pub fn reaches_element(lent: Lent) -> usize {
    unsafe {
        archive::test_reaches_element(
            lent.area.as_ptr(),
            lent.area.len(),
            lent.names.as_ptr(),
            lent.names.len(),
            lent.base,
            lent.depth,
            lent.own.as_ptr(),
            lent.own.len(),
            lent.schema.as_ptr(),
            lent.schema.len(),
            lent.target,
        )
    }
}

/// How many an attribute of it with this qualified name is.
pub fn reaches_attribute(lent: Lent, name: &[u8]) -> usize {
    unsafe {
        archive::test_reaches_attribute(
            lent.area.as_ptr(),
            lent.area.len(),
            lent.names.as_ptr(),
            lent.names.len(),
            lent.base,
            lent.depth,
            lent.own.as_ptr(),
            lent.own.len(),
            lent.schema.as_ptr(),
            lent.schema.len(),
            lent.target,
            name.as_ptr(),
            name.len(),
        )
    }
}
