//! Contents and sheets: whole, just fitting, just not fitting, flawed in a value, damaged in the form.

use super::values;
use crate::model::element::{CARRIED, ISIL, MEDIA, OTHER_ITEM, OTHER_OWNER, PRIMARY, SET, USAGE};
use crate::model::pages::{is_tag_length, PAGE};
use crate::model::{chain, layout::layout, sheet, Content};
use crate::random::Random;

/// The entries of a sheet in the making.
type Entries = Vec<(u8, Vec<u8>)>;

/// A content without a clash, whose elements mostly suit a tag of this length. It need not fit.
pub fn content(random: &mut Random, tag_length: usize) -> Content {
    if tag_length >= 288 && random.one_in(6) {
        return brimming(random);
    }
    let modest = !random.one_in(10);
    let extras = !modest || tag_length > 40;
    let longest = if modest { tag_length.saturating_sub(chain::START).max(16) } else { 255 };
    let mut content = plain(random, extras);
    if !random.one_in(5) {
        content.put(PRIMARY, &values::good(random, PRIMARY, if extras { longest } else { 16 }));
    }
    if extras && random.one_in(4) {
        content.put(MEDIA, &values::good(random, MEDIA, 1));
    }
    if extras && random.one_in(4) && content.get(PRIMARY).len() <= 16 {
        content.put(OTHER_ITEM, &values::good(random, OTHER_ITEM, longest));
    }
    if let Some(owner) = random.pick(&[None, Some(ISIL), Some(OTHER_OWNER)]) {
        content.put(owner, &values::good(random, owner, if extras { longest } else { 8 }));
    }
    if extras {
        carry(random, &mut content, tag_length);
    }
    content
}

/// Elements 4 and 5 alone, with or without a sub qualifier.
fn plain(random: &mut Random, sub_qualifier: bool) -> Content {
    let usage = values::good(random, USAGE, 1)[0];
    let mut content = Content::default();
    content.put(SET, &values::good(random, SET, 4));
    content.put(USAGE, &[if sub_qualifier { usage } else { usage & 0xF0 }]);
    content
}

/// Adds carried blocks: none, a few, as many as fill the tag, one byte more, or the shortest throughout.
fn carry(random: &mut Random, content: &mut Content, tag_length: usize) {
    let Some(room) = room_left(content, tag_length) else { return };
    content.carried = match random.below(16) {
        0..=6 => Vec::new(),
        7..=10 => {
            let count = random.between(1, 3);
            (0..count).map(|_| values::good(random, CARRIED, 12)).collect()
        }
        11 => values::carried_filling(random, room, 255),
        12 => values::carried_filling(random, room, 20),
        13 => values::carried_filling(random, room + 1, 255),
        14 => values::carried_filling(random, room.saturating_sub(1), 255),
        _ => (0..room / 3).map(|_| values::carried(random, 3)).collect(),
    };
}

/// The bytes behind block 1 on a tag of this length; nothing where the content fits no tag of it.
fn room_left(content: &Content, tag_length: usize) -> Option<usize> {
    let image = if is_tag_length(tag_length, PAGE) { layout(content, tag_length)? } else { return None };
    let block_one = image.get(chain::START).map_or(0, |length| usize::from(*length));
    tag_length.checked_sub(chain::START + block_one)
}

/// A content whose block 1 takes 253 to 257 bytes: the longest there is, and a little to both sides.
fn brimming(random: &mut Random) -> Content {
    let mut content = plain(random, false);
    let main_qualifier = content.get(USAGE)[0];
    let owner = if random.one_in(2) { values::isil_of(random, 3, 5) } else { Vec::new() };
    let sub_qualifier = if random.one_in(2) { random.between(1, 15) as u8 } else { 0 };
    let behind_item = match (owner.len(), sub_qualifier) {
        (0, 0) => 0,
        (length, 0) => 1 + length,
        (length, _) => 1 + length + 2,
    };
    let item_length = random.between(253, 257) - 5 - behind_item;
    content.put(random.pick(&[PRIMARY, OTHER_ITEM]), &values::text(random, item_length));
    content.put(ISIL, &owner);
    content.put(USAGE, &[main_qualifier | sub_qualifier]);
    content
}

/// A content that a tag of this length holds.
pub fn fitting(random: &mut Random, tag_length: usize) -> Content {
    for _ in 0..20 {
        let content = content(random, tag_length);
        if layout(&content, tag_length).is_some() {
            return content;
        }
    }
    plain(random, false)
}

fn entries_of(content: &Content) -> Entries {
    sheet::entries_of(content).into_iter().map(|(number, value)| (number, value.to_vec())).collect()
}

fn encoded(entries: &Entries) -> Vec<u8> {
    let entries: Vec<sheet::Entry> = entries.iter().map(|(number, value)| (*number, &value[..])).collect();
    sheet::assemble(&entries)
}

/// A sheet for a tag of this length: mostly whole, else flawed or damaged.
pub fn any(random: &mut Random, tag_length: usize) -> Vec<u8> {
    match random.below(10) {
        0..=2 => damaged(random, tag_length),
        3..=4 => flawed(random, tag_length),
        5 => clashing(random, tag_length),
        _ => whole(random, tag_length),
    }
}

/// A well-formed sheet without a clash.
pub fn whole(random: &mut Random, tag_length: usize) -> Vec<u8> {
    let content = content(random, tag_length);
    encoded(&entries_of(&content))
}

/// A sheet of the right form in which a number is unknown, a value is bad, or 4 or 5 is missing.
pub fn flawed(random: &mut Random, tag_length: usize) -> Vec<u8> {
    let mut entries = entries_of(&content(random, tag_length));
    let place = random.below(entries.len());
    match random.below(4) {
        0 => {
            let missing = random.pick(&[SET, USAGE]);
            entries.retain(|(number, _)| *number != missing);
        }
        1 => {
            let (number, length) = (random.byte(), random.below(6));
            entries.retain(|(other, _)| *other != number);
            entries.push((number, values::text(random, length)));
            entries.sort_by_key(|(number, _)| *number);
        }
        _ => entries[place].1 = values::bad(random, entries[place].0),
    }
    encoded(&entries)
}

/// A sheet with two elements that clash, one of which may be bad besides.
pub fn clashing(random: &mut Random, tag_length: usize) -> Vec<u8> {
    let mut content = content(random, tag_length);
    if random.one_in(2) {
        content.put(ISIL, &values::good(random, ISIL, 9));
        content.put(OTHER_OWNER, &values::good(random, OTHER_OWNER, 12));
    } else {
        let length = random.pick(&[16, 17, 18, 251]);
        content.put(PRIMARY, &values::text(random, length));
        content.put(OTHER_ITEM, &values::good(random, OTHER_ITEM, 20));
    }
    let mut entries = entries_of(&content);
    if random.one_in(4) {
        let place = random.below(entries.len());
        entries[place].1 = values::bad(random, entries[place].0);
    }
    encoded(&entries)
}

/// A sheet wrong in its header, order, offsets or end, and now and then in a value besides.
pub fn damaged(random: &mut Random, tag_length: usize) -> Vec<u8> {
    let mut entries = entries_of(&content(random, tag_length));
    let (one, other) = (random.below(entries.len()), random.below(entries.len()));
    match random.below(12) {
        0 => entries.swap(one, other),
        1 => entries.insert(one, entries[other].clone()),
        2 => entries[one].0 = random.byte(),
        3 if random.one_in(20) => return past_the_last_offset(random),
        _ => {}
    }
    let mut sheet = encoded(&entries);
    let header = 2 + 4 * entries.len();
    match random.below(8) {
        0..=3 => change_byte(random, &mut sheet, header),
        4 => sheet.truncate(random.below(header + 1)),
        5 => drop(sheet.pop()),
        6 => sheet.push(random.byte()),
        _ => {
            let length = random.below(4);
            sheet = random.bytes(length);
        }
    }
    sheet
}

/// Changes one byte among the first so many: by one, or to anything.
fn change_byte(random: &mut Random, sheet: &mut [u8], among: usize) {
    let place = random.below(among);
    sheet[place] = match random.below(3) {
        0 => sheet[place].wrapping_add(1),
        1 => sheet[place].wrapping_sub(1),
        _ => random.byte(),
    };
}

/// Random bytes; one in twenty is long.
pub fn noise(random: &mut Random) -> Vec<u8> {
    let longest = if random.one_in(20) { 5000 } else { 120 };
    let length = random.below(longest);
    random.bytes(length)
}

/// Random numbers in order with random bytes, under a right header.
pub fn random_entries(random: &mut Random) -> Vec<u8> {
    let count = random.below(10);
    let mut entries: Entries = (0..count)
        .map(|_| {
            let number = if random.one_in(4) { random.byte() } else { values::single(random) };
            let length = random.pick(&[0, 1, 1, 2, 4, 8, 40]);
            let value = if random.one_in(3) { random.bytes(length) } else { values::good(random, number, 40) };
            (number, value)
        })
        .collect();
    entries.sort_by_key(|(number, _)| *number);
    entries.dedup_by_key(|(number, _)| *number);
    encoded(&entries)
}

/// A whole sheet with one to four bytes changed, taken out or put in anywhere.
pub fn mutated(random: &mut Random, tag_length: usize) -> Vec<u8> {
    let mut sheet = whole(random, tag_length);
    for _ in 0..random.between(1, 4) {
        let place = random.below(sheet.len());
        match random.below(8) {
            0 => drop(sheet.remove(place)),
            1 => sheet.insert(place, random.byte()),
            _ => {
                let among = sheet.len();
                change_byte(random, &mut sheet, among);
            }
        }
    }
    sheet
}

/// A sheet of blocks of 255 bytes whose end lies about, and whose last offset perhaps lies, beyond 65,535.
pub fn past_the_last_offset(random: &mut Random) -> Vec<u8> {
    let block = values::carried(random, 255);
    let count = random.between(252, 255);
    let mut entries: Vec<sheet::Entry> = vec![(SET, &[1, 0, 1, 0]), (USAGE, &[0x10])];
    entries.resize(entries.len() + count, (CARRIED, &block));
    sheet::assemble(&entries)
}
