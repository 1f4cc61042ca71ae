//! The ISIL: "1 to 4 capitals, a hyphen, 1 to 11 of A-Z a-z 0-9 / - :".

/// Prefix and unit, or nothing where the form is broken. The first hyphen ends the prefix; the unit may hold hyphens.
pub fn parts(isil: &[u8]) -> Option<(&[u8], &[u8])> {
    let hyphen = isil.iter().position(|byte| *byte == b'-')?;
    let (prefix, unit) = (&isil[..hyphen], &isil[hyphen + 1..]);
    let good_prefix = (1..=4).contains(&prefix.len()) && prefix.iter().all(u8::is_ascii_uppercase);
    (good_prefix && is_unit(unit)).then_some((prefix, unit))
}

/// "1 to 11 unit characters"
pub fn is_unit(bytes: &[u8]) -> bool {
    (1..=11).contains(&bytes.len()) && bytes.iter().all(|byte| is_unit_character(*byte))
}

fn is_unit_character(byte: u8) -> bool {
    byte.is_ascii_alphanumeric() || matches!(byte, b'/' | b'-' | b':')
}
