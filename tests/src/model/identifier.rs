//! Request E5 of document 02, the UHF identifier: taken apart into elements 1, 3 and 4, and put together from them.

use super::element::{is_good, ISIL, PRIMARY, SET};
use super::refusal::{self, need};
use super::words::fill;
use std::ops::RangeInclusive;

/// "Parts are split at dots."
const DOT: u8 = b'.';

/// "A final S in the set's place points to another bank."
const ELSEWHERE: &[u8] = b"S";

/// "two digits for a total of 1 to 9, four for 10 to 99, six for 100 to 255"
const TOTALS: [(usize, RangeInclusive<u32>); 3] = [(2, 1..=9), (4, 10..=99), (6, 100..=255)];

/// Taking apart: elements 1, 3 and 4, each in its own buffer. Gives their lengths, and fills just that much of each. "The
/// caller says if an ISIL leads": 0 says no, any other number yes.
pub fn take_apart(text: &[u8], isil_leads: u32, buffers: [&mut [u8]; 3]) -> Result<[usize; 3], u32> {
    let elements = elements_of(text, isil_leads != 0)?;
    need(buffers.iter().zip(&elements).all(|(buffer, element)| buffer.len() >= element.len()), refusal::ROOM)?;
    for (buffer, element) in buffers.into_iter().zip(&elements) {
        fill(buffer, element)?;
    }
    Ok(elements.map(|element| element.len()))
}

/// Putting together: gives the count of characters, and fills just that much.
pub fn put_together(item: &[u8], isil: &[u8], set: &[u8], text: &mut [u8]) -> Result<usize, u32> {
    fill(text, &text_of(item, isil, set)?)
}

/// "22 number of parts, 6 a bad part, 23 S": elements 1, 3 and 4 in their sheet form. No ISIL is no bytes.
fn elements_of(text: &[u8], isil_leads: bool) -> Result<[Vec<u8>; 3], u32> {
    let parts: Vec<&[u8]> = text.split(|byte| *byte == DOT).collect();
    // "then it is ISIL and identifier, with or without set information after; otherwise identifier, with or without it"
    let (isil, item, set) = match (isil_leads, &parts[..]) {
        (true, [isil, item]) => (Some(*isil), *item, None),
        (true, [isil, item, set]) => (Some(*isil), *item, Some(*set)),
        (false, [item]) => (None, *item, None),
        (false, [item, set]) => (None, *item, Some(*set)),
        _ => return Err(refusal::PARTS),
    };
    need(isil.is_none_or(|isil| is_good(ISIL, isil)) && is_identifier(item), refusal::FIELD)?;
    let set = match set {
        Some(part) if part == ELSEWHERE => return Err(refusal::BANK),
        Some(part) => from_digits(part).ok_or(refusal::FIELD)?,
        // "None means 0 and 0."
        None => set_information(0, 0),
    };
    Ok([item.to_vec(), isil.unwrap_or_default().to_vec(), set])
}

/// "building gives 9 for a bad element or a dot". An ISIL has no dot in its alphabet.
fn text_of(item: &[u8], isil: &[u8], set: &[u8]) -> Result<Vec<u8>, u32> {
    need(is_identifier(item) && !item.contains(&DOT), refusal::VALUE)?;
    need(isil.is_empty() || is_good(ISIL, isil), refusal::VALUE)?;
    need(is_good(SET, set), refusal::VALUE)?;
    let digits = in_digits(set[0], set[2]);
    let parts: Vec<&[u8]> = [isil, item, &digits].into_iter().filter(|part| !part.is_empty()).collect();
    Ok(parts.join(&DOT))
}

/// "Identifiers hold .. at most 255 bytes."
fn is_identifier(item: &[u8]) -> bool {
    is_good(PRIMARY, item) && item.len() <= 255
}

/// Element 4: total and ordinal, "each two bytes low first" (document 01).
fn set_information(total: u32, ordinal: u32) -> Vec<u8> {
    [total, ordinal].iter().flat_map(|number| (*number as u16).to_le_bytes()).collect()
}

/// "Set information is total then ordinal, .. leading zeros kept; ordinal at most total."
fn from_digits(digits: &[u8]) -> Option<Vec<u8>> {
    let (count, totals) = TOTALS.iter().find(|(count, _)| *count == digits.len())?;
    let (total, ordinal) = digits.split_at(count / 2);
    let (total, ordinal) = (number(total)?, number(ordinal)?);
    (totals.contains(&total) && ordinal <= total).then(|| set_information(total, ordinal))
}

/// The number that decimal digits, and nothing else, stand for.
fn number(digits: &[u8]) -> Option<u32> {
    digits.iter().try_fold(0, |number, digit| Some(10 * number + char::from(*digit).to_digit(10)?))
}

/// The way back; nothing for 0 and 0.
fn in_digits(total: u8, ordinal: u8) -> Vec<u8> {
    let row = TOTALS.iter().find(|(_, totals)| totals.contains(&u32::from(total)));
    let Some((count, _)) = row else { return Vec::new() };
    let width = count / 2;
    format!("{total:0width$}{ordinal:0width$}").into_bytes()
}
