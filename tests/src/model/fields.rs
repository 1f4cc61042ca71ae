//! The item field and the owner field of the basic block.

use super::element::{self, OTHER_OWNER, PRIMARY};
use super::isil;

/// What a field of the basic block says of its element.
pub enum Field {
    Absent,
    /// The marker 01: the element is in the library extension block.
    InBlockOne,
    /// The number, and the value in the form that a sheet has.
    Here(u8, Vec<u8>),
}

/// "Unused bytes of a field are 00": the bytes before them, or nothing where another byte stands behind a 00.
fn used(field: &[u8]) -> Option<&[u8]> {
    let end = field.iter().position(|byte| *byte == 0).unwrap_or(field.len());
    field[end..].iter().all(|byte| *byte == 0).then_some(&field[..end])
}

/// "primary item identifier, or 01 and fifteen 00"; nothing where the form is broken.
pub fn read_item(field: &[u8]) -> Option<Field> {
    match used(field)? {
        [] => Some(Field::Absent),
        [1] => Some(Field::InBlockOne),
        text => element::is_good(PRIMARY, text).then(|| Field::Here(PRIMARY, text.to_vec())),
    }
}

/// The four forms of the owner field; nothing where none fits. The third byte chooses, after "all 00".
pub fn read_owner(field: &[u8]) -> Option<Field> {
    if field.iter().all(|byte| *byte == 0) {
        return Some(Field::Absent);
    }
    match used(&field[2..])? {
        [1] => Some(Field::InBlockOne),
        other if element::is_good(OTHER_OWNER, other) => Some(Field::Here(OTHER_OWNER, other.to_vec())),
        unit => {
            let prefix = read_prefix(field[0], field[1])?;
            let value = [&prefix, &b"-"[..], unit].concat();
            isil::is_unit(unit).then_some(Field::Here(element::ISIL, value))
        }
    }
}

/// "two capitals, or one capital and a blank"
fn read_prefix(first: u8, second: u8) -> Option<Vec<u8>> {
    match (first.is_ascii_uppercase(), second) {
        (true, b' ') => Some(vec![first]),
        (true, _) if second.is_ascii_uppercase() => Some(vec![first, second]),
        _ => None,
    }
}

/// The used bytes of an owner field that holds this ISIL without its hyphen, whatever their number; nothing for a
/// prefix of more than two capitals.
pub fn isil_here(isil: &[u8]) -> Option<Vec<u8>> {
    let (prefix, unit) = isil::parts(isil)?;
    let mut field = prefix.to_vec();
    field.resize(2, b' ');
    field.extend(unit);
    (prefix.len() <= 2).then_some(field)
}

/// The used bytes of an owner field with an alternative owner or the marker: "the first two bytes are written 00".
pub fn behind_two_zeros(bytes: &[u8]) -> Vec<u8> {
    [&[0, 0], bytes].concat()
}
