//! The table of elements: their numbers, and the form of each in a sheet.

use super::{chain, isil, text::is_text};

pub const PRIMARY: u8 = 1;
pub const ISIL: u8 = 3;
pub const SET: u8 = 4;
pub const USAGE: u8 = 5;
pub const MEDIA: u8 = 19;
pub const OTHER_ITEM: u8 = 22;
pub const OTHER_OWNER: u8 = 23;
pub const CARRIED: u8 = 255;

/// The elements that stand at most once in a sheet. These, and no others, can be edited.
pub const SINGLE: [u8; 7] = [PRIMARY, ISIL, SET, USAGE, MEDIA, OTHER_ITEM, OTHER_OWNER];

/// "4 and 5 are always present."
pub const ALWAYS: [u8; 2] = [SET, USAGE];

/// A known number and a value in its form.
pub fn is_good(number: u8, value: &[u8]) -> bool {
    match number {
        PRIMARY | OTHER_ITEM => !value.is_empty() && is_text(value),
        ISIL => isil::parts(value).is_some(),
        SET => is_set_information(value),
        USAGE => value.len() == 1,
        MEDIA => value.len() == 1 && value[0] != 0,
        OTHER_OWNER => matches!(value, [2 | 3, text @ ..] if !text.is_empty() && is_text(text)),
        CARRIED => chain::is_carried(value),
        _ => false,
    }
}

/// "parts, then ordinal, each two bytes low first; both at most 255, ordinal at most parts"
fn is_set_information(value: &[u8]) -> bool {
    matches!(value, [parts, 0, ordinal, 0] if ordinal <= parts)
}

/// "The owner there is judged as 3, or as 23 where it begins 02 or 03."
pub fn owner_number(owner: &[u8]) -> u8 {
    if matches!(owner.first(), Some(2 | 3)) {
        OTHER_OWNER
    } else {
        ISIL
    }
}
