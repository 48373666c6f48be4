//! NCName written out from XML 1.0, fifth edition, productions [4] and [4a], both without the colon
//! (Namespaces in XML, production [4]). The doors are held against this, and the original is handed
//! it in place of its own NCName test.

/// NameStartChar without ':'.
pub fn name_start(code: u32) -> bool {
    matches!(
        code,
        0x41..=0x5A // A to Z
        | 0x5F // _
        | 0x61..=0x7A // a to z
        | 0xC0..=0xD6
        | 0xD8..=0xF6
        | 0xF8..=0x2FF
        | 0x370..=0x37D
        | 0x37F..=0x1FFF
        | 0x200C..=0x200D
        | 0x2070..=0x218F
        | 0x2C00..=0x2FEF
        | 0x3001..=0xD7FF
        | 0xF900..=0xFDCF
        | 0xFDF0..=0xFFFD
        | 0x10000..=0xEFFFF
    )
}

/// NameChar without ':'.
pub fn name_char(code: u32) -> bool {
    name_start(code)
        || matches!(
            code,
            0x2D // -
            | 0x2E // .
            | 0x30..=0x39 // 0 to 9
            | 0xB7
            | 0x0300..=0x036F
            | 0x203F..=0x2040
        )
}

/// A start character and then name characters.
pub fn is_ncname(text: &str) -> bool {
    let mut codes = text.chars().map(u32::from);
    codes.next().is_some_and(name_start) && codes.all(name_char)
}

/// The same of any bytes: those that are not UTF-8 are no name.
pub fn is_ncname_bytes(text: &[u8]) -> bool {
    std::str::from_utf8(text).is_ok_and(is_ncname)
}

/// The code points on both sides of each place where one of the two tests changes its answer.
pub fn edges() -> Vec<u32> {
    let class = |code: u32| (name_start(code), name_char(code));
    (1..=0x10FFFF)
        .filter(|&code| class(code - 1) != class(code))
        .flat_map(|code| [code - 1, code])
        .collect()
}
