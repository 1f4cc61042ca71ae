//! "The sheet": a header of counts and offsets, then the bytes.

use super::element::{self, ALWAYS, CARRIED};
use super::refusal::{self, need};
use super::Content;

/// One entry: its number and its bytes.
pub type Entry<'a> = (u8, &'a [u8]);

/// The bytes of a sheet with these entries, whatever they say. An offset has two bytes, so beyond 65,535 it is wrong.
pub fn assemble(entries: &[Entry]) -> Vec<u8> {
    let mut sheet = (entries.len() as u16).to_le_bytes().to_vec();
    let mut place = header_length(entries.len());
    for (number, value) in entries {
        let [low, high] = (place as u16).to_le_bytes();
        let length = u8::try_from(value.len()).expect("an entry has at most 255 bytes");
        sheet.extend([*number, low, high, length]);
        place += value.len();
    }
    entries.iter().for_each(|(_, value)| sheet.extend(*value));
    sheet
}

/// "the count of entries (two bytes, low first), then for each entry its number, its offset [...], its length"
fn header_length(count: usize) -> usize {
    2 + 4 * count
}

/// The sheet of a content; refused where "an offset would pass 65,535".
pub fn of_content(content: &Content) -> Result<Vec<u8>, u32> {
    let entries = entries_of(content);
    let all: usize = entries.iter().map(|(_, value)| value.len()).sum();
    let last = entries.last().map_or(0, |(_, value)| value.len());
    need(header_length(entries.len()) + all - last <= 65_535, refusal::OFFSET)?;
    Ok(assemble(&entries))
}

/// The elements by number, then the carried blocks "in tag order".
pub fn entries_of(content: &Content) -> Vec<Entry<'_>> {
    let carried = content.carried.iter().map(|block| (CARRIED, &block[..]));
    content.elements().chain(carried).collect()
}

/// The entries of a sheet; refused where "header, order, offsets or end [are] wrong".
pub fn decode(sheet: &[u8]) -> Result<Vec<Entry<'_>>, u32> {
    need(sheet.len() >= 2, refusal::SHEET)?;
    let count = usize::from(u16::from_le_bytes([sheet[0], sheet[1]]));
    let mut place = header_length(count);
    need(place <= sheet.len(), refusal::SHEET)?;
    let mut entries: Vec<Entry> = Vec::with_capacity(count);
    for head in sheet[2..place].chunks_exact(4) {
        let (number, length) = (head[0], usize::from(head[3]));
        need(entries.last().is_none_or(|(before, _)| may_follow(*before, number)), refusal::SHEET)?;
        need(usize::from(u16::from_le_bytes([head[1], head[2]])) == place, refusal::SHEET)?;
        let value = sheet.get(place..place + length).ok_or(refusal::SHEET)?;
        entries.push((number, value));
        place += length;
    }
    need(place == sheet.len(), refusal::SHEET)?;
    Ok(entries)
}

/// "Numbers rise strictly; 255 comes last and may repeat."
fn may_follow(before: u8, number: u8) -> bool {
    before < number || (before, number) == (CARRIED, CARRIED)
}

/// What the entries say; refused at an "unknown number, bad value, 4 or 5 missing".
pub fn content_of(entries: &[Entry]) -> Result<Content, u32> {
    let mut content = Content::default();
    for (number, value) in entries {
        need(element::is_good(*number, value), refusal::VALUE)?;
        match *number {
            CARRIED => content.carried.push(value.to_vec()),
            number => content.put(number, value),
        }
    }
    need(ALWAYS.iter().all(|number| !content.get(*number).is_empty()), refusal::VALUE)?;
    Ok(content)
}
