//! What `taglist` prints for the bytes on its standard input.

use super::reading::content_of;
use super::refusal::Refusal;
use super::sheet;

/// "elements N", then for each entry its number, a blank and its bytes in capital hex; or "refused K", with the place
/// of damage "after the number and a blank, in decimal".
pub fn listing(input: &[u8]) -> String {
    let sheet = content_of(input).and_then(|content| Ok(sheet::of_content(&content)?));
    match sheet {
        Ok(sheet) => entries(&sheet),
        Err(Refusal { number, place: None }) => format!("refused {number}\n"),
        Err(Refusal { number, place: Some(place) }) => format!("refused {number} {place}\n"),
    }
}

fn entries(sheet: &[u8]) -> String {
    let entries = sheet::decode(sheet).expect("reading gives a good sheet");
    let mut lines = format!("elements {}\n", entries.len());
    for (number, value) in entries {
        lines += &format!("{number} {}\n", capital_hex(value));
    }
    lines
}

/// "Hex is in capitals."
pub fn capital_hex(bytes: &[u8]) -> String {
    bytes.iter().map(|byte| format!("{byte:02X}")).collect()
}
