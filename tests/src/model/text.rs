//! The text rule, as request E4 of document 02 has it.

/// "well-formed UTF-8 as RFC 3629 defines it, without 00 to 1F and 7F". Empty bytes are text; where text may not be empty,
/// the rule of the element says so.
pub fn is_text(bytes: &[u8]) -> bool {
    std::str::from_utf8(bytes).is_ok() && bytes.iter().all(|byte| *byte >= 0x20 && *byte != 0x7F)
}
