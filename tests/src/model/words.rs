//! Request E2 of document 02, UHF words: the sixteen-bit words of URN Code 40 into text, and text into words.

use super::refusal::{self, need};

/// "A to Z 1 to 26, hyphen 27, dot 28, colon 29, digits 30 to 39": the 39 characters in the order of their values.
const CHARACTERS: &[u8; 39] = b"ABCDEFGHIJKLMNOPQRSTUVWXYZ-.:0123456789";

/// "pad is 0"
const PAD: u16 = 0;

/// "A word whose high byte is FC holds one ISO/IEC 646 character (00 to 7F) in its low byte."
const OUTSIDE: u8 = 0xFC;

/// Reading words: gives the count of characters, and fills just that much.
pub fn words_to_text(words: &[u16], text: &mut [u8]) -> Result<usize, u32> {
    fill(text, &text_of(words)?)
}

/// Writing words: gives the count of words, and fills just that much.
pub fn text_to_words(text: &[u8], words: &mut [u16]) -> Result<usize, u32> {
    fill(words, &words_of(text)?)
}

/// "gives 2 exactly when a buffer is too short for its output" (document 01)
pub fn fill<T: Copy>(buffer: &mut [T], output: &[T]) -> Result<usize, u32> {
    need(buffer.len() >= output.len(), refusal::ROOM)?;
    buffer[..output.len()].copy_from_slice(output);
    Ok(output.len())
}

/// "20 a word with no meaning"
fn text_of(words: &[u16]) -> Result<Vec<u8>, u32> {
    let meanings: Option<Vec<Vec<u8>>> = words.iter().map(|word| meaning(*word)).collect();
    Ok(meanings.ok_or(refusal::WORD)?.concat())
}

/// The characters of one word. "Reading accepts pads only at the right of a word, never three, and FC for any 646
/// character." Words above FA00 would have a first value of 40, which is no character's.
fn meaning(word: u16) -> Option<Vec<u8>> {
    let [high, low] = word.to_be_bytes();
    if high == OUTSIDE {
        return low.is_ascii().then_some(vec![low]);
    }
    let sum = word.checked_sub(1)?;
    let values = [sum / 1600, sum / 40 % 40, sum % 40];
    let pads = values.iter().rev().take_while(|value| **value == PAD).count();
    let held = &values[..values.len() - pads];
    let characters: Option<Vec<u8>> = held.iter().map(|value| character(*value)).collect();
    characters.filter(|characters| !characters.is_empty())
}

/// "21 a character above 7F". A run of the 39 is cut in threes from its start; a character outside them stands alone.
fn words_of(text: &[u8]) -> Result<Vec<u16>, u32> {
    need(text.is_ascii(), refusal::HIGH)?;
    let runs = text.chunk_by(|one, next| value(*one).is_some() && value(*next).is_some());
    let words = runs.flat_map(|run| match value(run[0]) {
        Some(_) => run.chunks(3).map(packed).collect(),
        None => vec![u16::from_be_bytes([OUTSIDE, run[0]])],
    });
    Ok(words.collect())
}

/// "Three characters with values a, b, c make the word 1600a + 40b + c + 1"; "one or two characters left .. are padded on
/// the right".
fn packed(characters: &[u8]) -> u16 {
    let value_at = |place: usize| characters.get(place).and_then(|character| value(*character)).unwrap_or(PAD);
    1600 * value_at(0) + 40 * value_at(1) + value_at(2) + 1
}

/// The value of one of the 39; a character outside them has none.
fn value(character: u8) -> Option<u16> {
    let place = CHARACTERS.iter().position(|known| *known == character)?;
    Some(place as u16 + 1)
}

/// The character with this value; pad has none.
fn character(value: u16) -> Option<u8> {
    let place = usize::from(value).checked_sub(1)?;
    CHARACTERS.get(place).copied()
}
