//! UHF words and texts, good and bad. What a good word holds, and that a bad one has no meaning, follows from how it is
//! made; the model is not asked.

use crate::random::Random;

/// The 39 characters that have a value, 1 to 39 in this order.
pub const BASIC: &[u8; 39] = b"ABCDEFGHIJKLMNOPQRSTUVWXYZ-.:0123456789";

/// Characters outside the 39: beside them, and at both ends of 00 to 7F.
pub const BESIDE: [u8; 16] = [0, 1, b' ', b'+', b',', b'/', b';', b'@', b'[', b'_', b'`', b'a', b'k', b'z', 0x7E, 0x7F];

/// Words without a meaning on the edges of each kind: nothing but pads, a pad before a character, above FA00, FC above 7F.
pub const BAD_EDGES: [u16; 24] = [
    0x0000, 0x0001, 0x0002, 0x0028, 0x0029, 0x002A, 0x0619, 0x0640, 0x0642, 0x0668, 0xF3C2, 0xF3E8, 0xFA01, 0xFA28,
    0xFAFF, 0xFB00, 0xFBFF, 0xFC80, 0xFCC1, 0xFCFF, 0xFD00, 0xFDFF, 0xFE41, 0xFFFF,
];

/// The word of three values.
pub fn of_values(a: u16, b: u16, c: u16) -> u16 {
    1600 * a + 40 * b + c + 1
}

/// The word of up to three of the 39, padded on the right.
pub fn of_basic(characters: &[u8]) -> u16 {
    let value = |place: usize| match characters.get(place) {
        Some(b'-') => 27,
        Some(b'.') => 28,
        Some(b':') => 29,
        Some(digit @ b'0'..=b'9') => u16::from(digit - b'0') + 30,
        Some(letter) => u16::from(letter - b'A') + 1,
        None => 0,
    };
    of_values(value(0), value(1), value(2))
}

/// The word of one character behind FC.
pub fn of_one(character: u8) -> u16 {
    0xFC00 + u16::from(character)
}

/// A word with a meaning, and its characters.
pub fn good(random: &mut Random) -> (u16, Vec<u8>) {
    if random.one_in(4) {
        let character = random.below(128) as u8;
        return (of_one(character), vec![character]);
    }
    let count = random.pick(&[1, 2, 3, 3]);
    let characters: Vec<u8> = (0..count).map(|_| random.pick(BASIC)).collect();
    (of_basic(&characters), characters)
}

/// A word without a meaning, of each kind.
pub fn bad(random: &mut Random) -> u16 {
    let mut value = || random.between(1, 39) as u16;
    let (a, b, c) = (value(), value(), value());
    match random.below(10) {
        0 => random.pick(&BAD_EDGES),
        1 => random.pick(&[0, 1]),
        2 => of_values(0, 0, c),
        3 => of_values(0, b, 0),
        4 => of_values(0, b, c),
        5 => of_values(a, 0, c),
        6 => random.between(0xFA01, 0xFAFF) as u16,
        7 => random.pick(&[0xFB00, 0xFD00, 0xFE00, 0xFF00]) + u16::from(random.byte()),
        _ => random.between(0xFC80, 0xFCFF) as u16,
    }
}

/// Words with a meaning, and the text that they stand for.
pub fn bank(random: &mut Random) -> (Vec<u16>, Vec<u8>) {
    let count = length(random);
    let (words, texts): (Vec<u16>, Vec<Vec<u8>>) = (0..count).map(|_| good(random)).unzip();
    (words, texts.concat())
}

/// Words of which just one, anywhere, has no meaning.
pub fn spoiled_bank(random: &mut Random) -> Vec<u16> {
    let (mut words, _) = bank(random);
    words.insert(random.below(words.len() + 1), bad(random));
    words
}

/// A text of 00 to 7F: runs of the 39, short ones and long ones, with characters outside them.
pub fn text(random: &mut Random) -> Vec<u8> {
    let length = length(random);
    let seldom = random.pick(&[1, 2, 3, 5, 12, 1000]);
    (0..length).map(|_| if random.one_in(seldom) { outside(random) } else { random.pick(BASIC) }).collect()
}

/// A text in which just one byte, anywhere, is above 7F.
pub fn spoiled_text(random: &mut Random) -> Vec<u8> {
    let mut text = text(random);
    let byte = random.between(0x80, 0xFF) as u8;
    text.insert(random.below(text.len() + 1), random.pick(&[0x80, 0xFF, b'A' | 0x80, b'a' | 0x80, byte]));
    text
}

fn outside(random: &mut Random) -> u8 {
    let any = random.below(128) as u8;
    if BASIC.contains(&any) {
        random.pick(&BESIDE)
    } else {
        any
    }
}

/// Few, mostly.
fn length(random: &mut Random) -> usize {
    if random.one_in(30) {
        random.below(400)
    } else {
        random.below(16)
    }
}

/// The room for an output of this length: exact, one short, more, or anything.
pub fn room(random: &mut Random, exact: usize) -> usize {
    match random.below(8) {
        0 => exact.saturating_sub(1),
        1 => exact + 1,
        2 => exact + random.between(2, 40),
        3 => random.below(exact + 1),
        4 => 0,
        _ => exact,
    }
}
