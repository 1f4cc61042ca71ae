//! Values of elements, good and bad, with a liking for the lengths at which something changes.

use crate::build;
use crate::model::element::{CARRIED, ISIL, MEDIA, OTHER_ITEM, OTHER_OWNER, PRIMARY, SET, SINGLE};
use crate::random::Random;

/// Identifier lengths around the basic field's end and around what block 1 holds.
const IDENTIFIER_EDGES: [usize; 10] = [1, 2, 15, 16, 17, 247, 249, 250, 251, 255];

/// Text lengths of an alternative owner around both fields' ends and around what block 1 holds.
const OWNER_EDGES: [usize; 9] = [1, 7, 8, 9, 10, 11, 12, 248, 249];

/// IDs on both sides of every line that is drawn through them.
const ID_EDGES: [u16; 9] = [2, 99, 100, 101, 255, 256, 257, 0x0164, 0xFFFF];

/// The first and the last text character of 1, 2, 3 and 4 bytes. Surrogates, which lie between, are none.
const CHARACTERS: [(char, char); 4] =
    [(' ', '~'), ('\u{80}', '\u{7FF}'), ('\u{800}', '\u{FFFF}'), ('\u{10000}', '\u{10FFFF}')];

/// Characters of 1, 2, 3 and 4 bytes on both sides of every line that is drawn through them.
const CHARACTER_EDGES: [&[char]; 4] = [
    &[' ', '~'],
    &['\u{80}', '\u{9F}', '\u{A0}', '\u{BF}', '\u{C0}', '\u{7FF}'],
    &['\u{800}', '\u{FFF}', '\u{1000}', '\u{CFFF}', '\u{D7FF}', '\u{E000}', '\u{FEFF}', '\u{FFFE}', '\u{FFFF}'],
    &['\u{10000}', '\u{3FFFF}', '\u{40000}', '\u{FFFFF}', '\u{100000}', '\u{10FFFF}'],
];

/// Bytes that make no text wherever they are put into one.
pub const NO_TEXT: [&[u8]; 24] = [
    // Too long a form: of the solidus, of the last character that takes a byte less, of 00.
    b"\xC0\xAF",
    b"\xC1\xBF",
    b"\xE0\x80\xAF",
    b"\xE0\x9F\xBF",
    b"\xF0\x80\x80\xAF",
    b"\xF0\x8F\xBF\xBF",
    b"\xC0\x80",
    // Surrogates: the first, the last, a pair.
    b"\xED\xA0\x80",
    b"\xED\xBF\xBF",
    b"\xED\xA0\x80\xED\xB0\x80",
    // Above 10FFFF, and bytes that never stand.
    b"\xF4\x90\x80\x80",
    b"\xF5\x80\x80\x80",
    b"\xF8\x88\x80\x80\x80",
    b"\xFE",
    b"\xFF",
    // Cut, and the rest alone.
    b"\xC3",
    b"\xE2\x82",
    b"\xF0\x9F\x98",
    b"\xF4",
    b"\x80",
    b"\xBF",
    // What is taken out.
    b"\x01",
    b"\x1F",
    b"\x7F",
];

/// Text of exactly so many bytes: half of the time ASCII, else with characters of up to 2 or 4 bytes.
pub fn text(random: &mut Random, length: usize) -> Vec<u8> {
    let longest = random.pick(&[1, 1, 2, 4]);
    let mut text = Vec::new();
    while text.len() < length {
        let bytes = random.between(1, longest.min(length - text.len()));
        text.extend(character(random, bytes).to_string().bytes());
    }
    text
}

/// A text character of so many bytes, often one on an edge.
fn character(random: &mut Random, bytes: usize) -> char {
    let (first, last) = CHARACTERS[bytes - 1];
    let edge = random.pick(CHARACTER_EDGES[bytes - 1]);
    let any = char::from_u32(random.between(first as usize, last as usize) as u32);
    any.filter(|_| !random.one_in(4)).unwrap_or(edge)
}

/// Puts bytes into a text that make it none, often at its end.
pub fn spoil_text(random: &mut Random, text: &mut Vec<u8>) {
    let place = if random.one_in(3) { text.len() } else { random.between(0, text.len()) };
    text.splice(place..place, random.pick(&NO_TEXT).iter().copied());
}

/// Text of 1 to 255 bytes, at most so many, often as long as an edge.
fn edgy_text(random: &mut Random, edges: &[usize], longest: usize) -> Vec<u8> {
    let length = if random.one_in(2) { random.pick(edges) } else { random.between(1, 40) };
    text(random, length.min(longest.max(1)))
}

/// A number of capitals, a hyphen and a number of unit characters, whatever the numbers.
pub fn isil_of(random: &mut Random, prefix: usize, unit: usize) -> Vec<u8> {
    const UNIT: &[u8] = b"ABYZabyz0189/-:";
    let mut isil: Vec<u8> = (0..prefix).map(|_| random.pick(b"ADKXZ")).collect();
    isil.push(b'-');
    isil.extend((0..unit).map(|_| random.pick(UNIT)));
    isil
}

fn isil(random: &mut Random) -> Vec<u8> {
    let prefix = random.pick(&[1, 2, 2, 2, 3, 4]);
    let unit = if random.one_in(2) { random.between(8, 11) } else { random.between(1, 11) };
    isil_of(random, prefix, unit)
}

fn other_owner(random: &mut Random, longest: usize) -> Vec<u8> {
    let mut owner = vec![random.pick(&[2, 3])];
    owner.extend(edgy_text(random, &OWNER_EDGES, longest.min(254)));
    owner
}

fn set_information(random: &mut Random) -> Vec<u8> {
    let parts = if random.one_in(3) { random.pick(&[0, 1, 255]) } else { random.byte() };
    let ordinal = if random.one_in(3) { parts } else { random.below(usize::from(parts) + 1) as u8 };
    vec![parts, 0, ordinal, 0]
}

/// A well-formed block of this length, at least 3, that a sheet can carry.
pub fn carried(random: &mut Random, length: usize) -> Vec<u8> {
    let id = if random.one_in(2) { random.pick(&ID_EDGES) } else { random.between(2, 65535) as u16 };
    let id = if length < 4 && id <= 100 { id + 100 } else { id };
    let head = if id <= 100 { 4 } else { 3 };
    let body = random.bytes(length - head);
    build::block(id, &body)
}

/// Carried blocks that take up exactly this many bytes; none where 1 or 2 are asked for.
pub fn carried_filling(random: &mut Random, mut room: usize, longest: usize) -> Vec<Vec<u8>> {
    let mut blocks = Vec::new();
    while room >= 3 {
        let length = random.between(3, longest.min(room));
        let left = room - length;
        if left == 0 || left >= 3 {
            blocks.push(carried(random, length));
            room = left;
        } else if room <= 255 {
            blocks.push(carried(random, room));
            room = 0;
        }
    }
    blocks
}

/// A good value of this element, its text at most so long.
pub fn good(random: &mut Random, number: u8, longest: usize) -> Vec<u8> {
    match number {
        PRIMARY | OTHER_ITEM => edgy_text(random, &IDENTIFIER_EDGES, longest),
        ISIL => isil(random),
        SET => set_information(random),
        MEDIA => vec![random.between(1, 255) as u8],
        OTHER_OWNER => other_owner(random, longest),
        CARRIED => {
            let length = random.between(3, longest.clamp(3, 255));
            carried(random, length)
        }
        _ => vec![if random.one_in(2) { random.byte() & 0xF0 } else { random.byte() }],
    }
}

/// A value of at most 255 bytes that the element does not take, or seldom does.
pub fn bad(random: &mut Random, number: u8) -> Vec<u8> {
    match (number, random.below(4)) {
        (_, 0) => Vec::new(),
        (_, 1) => {
            let length = random.below(8);
            random.bytes(length)
        }
        (ISIL, _) => bad_isil(random),
        (SET, _) => bad_set_information(random),
        (MEDIA, _) => vec![0],
        (OTHER_OWNER, _) => bad_other_owner(random),
        (CARRIED, _) => bad_carried(random),
        (PRIMARY | OTHER_ITEM, 2) => {
            let mut value = good(random, number, 60);
            spoil_text(random, &mut value);
            value
        }
        (number, _) => spoiled(random, number),
    }
}

/// A good value with one byte changed, cut off or added.
fn spoiled(random: &mut Random, number: u8) -> Vec<u8> {
    let mut value = good(random, number, 60);
    let place = random.below(value.len());
    match random.below(3) {
        0 => value[place] = random.pick(&[0, 1, 2, 3, 0x1F, 0x7F, 0x80, 0xFF]),
        1 => value.truncate(place),
        _ => value.insert(place, random.pick(&[0, 0x1F, 0x7F, b' ', b'_'])),
    }
    value
}

fn bad_isil(random: &mut Random) -> Vec<u8> {
    match random.below(5) {
        0 => isil_of(random, 0, 8),
        1 => isil_of(random, 5, 8),
        2 => isil_of(random, 2, 12),
        3 => isil_of(random, 2, 0),
        _ => spoiled(random, ISIL),
    }
}

fn bad_set_information(random: &mut Random) -> Vec<u8> {
    match random.below(4) {
        0 => vec![0, 1, 0, 1],
        1 => vec![4, 1, 1, 0],
        2 => vec![1, 0, 2, 0],
        _ => vec![1, 0, 1, 1],
    }
}

fn bad_other_owner(random: &mut Random) -> Vec<u8> {
    let mut owner = other_owner(random, 20);
    match random.below(5) {
        0 => owner[0] = random.pick(&[0, 1, 4, b'D']),
        1 => owner.truncate(1),
        2 => *owner.last_mut().expect("an owner has text") = random.pick(&[0, 0x1F, 0x7F]),
        _ => {
            let mut text = owner.split_off(1);
            spoil_text(random, &mut text);
            owner.extend(text);
        }
    }
    owner
}

fn bad_carried(random: &mut Random) -> Vec<u8> {
    match random.below(7) {
        0 => build::block(1, &[1]),
        1 => vec![1],
        2 => build::block(0, &[5]),
        3 => vec![3, random.between(1, 100) as u8, 0],
        4 => [carried(random, 4), carried(random, 5)].concat(),
        5 => vec![4, 2, 0, 7],
        _ => spoiled(random, CARRIED),
    }
}

/// The number of an element that stands once.
pub fn single(random: &mut Random) -> u8 {
    random.pick(&SINGLE)
}
