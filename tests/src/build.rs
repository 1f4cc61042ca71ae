//! Bytes put together by hand, good or bad: for the tests and the generators.

use crate::model::{chain, crc};

pub use crate::model::sheet::assemble as sheet;

/// The bytes that a text of hex digits stands for; blanks and line ends are passed over.
pub fn hex(digits: &str) -> Vec<u8> {
    let digits: Vec<u8> = digits.bytes().filter(|byte| !byte.is_ascii_whitespace()).collect();
    assert!(digits.len().is_multiple_of(2), "half a byte");
    let value = |digit: u8| char::from(digit).to_digit(16).expect("a hex digit") as u8;
    digits.chunks(2).map(|pair| value(pair[0]) << 4 | value(pair[1])).collect()
}

/// Blocks to carry besides 4 and 5, the last of which, of 3 bytes, begins at this place of the sheet.
pub fn blocks_up_to(place: usize) -> Vec<Vec<u8>> {
    let mut blocks = Vec::new();
    // A block before the last puts it off by its bytes and by four in the header.
    let mut off = place - (2 + 4 * 3 + 5);
    while off > 0 {
        let longest = off.min(4 + 255);
        let step = if (1..7).contains(&(off - longest)) { longest - 7 } else { longest };
        blocks.push(block(300, &vec![b'x'; step - 4 - 3]));
        off -= step;
    }
    blocks.push(block(300, b""));
    blocks
}

/// A block with this ID and these bytes after it, or after the checksum where the ID is structured.
pub fn block(id: u16, body: &[u8]) -> Vec<u8> {
    let [low, high] = id.to_le_bytes();
    let head: &[u8] = if (1..=100).contains(&id) { &[0, low, high, 0] } else { &[0, low, high] };
    let mut block = [head, body].concat();
    block[0] = u8::try_from(block.len()).expect("a block of at most 255 bytes");
    if head.len() == 4 {
        block[3] = chain::exclusive_or(&block);
    }
    block
}

/// A tag in the making: raw fields, each filled up with 00, and raw chain bytes.
#[derive(Clone)]
pub struct Draft {
    pub first: u8,
    pub parts: u8,
    pub ordinal: u8,
    pub item: Vec<u8>,
    pub owner: Vec<u8>,
    pub chain: Vec<u8>,
}

impl Default for Draft {
    fn default() -> Draft {
        Draft { first: 0x11, parts: 1, ordinal: 1, item: Vec::new(), owner: Vec::new(), chain: Vec::new() }
    }
}

impl Draft {
    pub fn item(mut self, item: &[u8]) -> Draft {
        self.item = item.to_vec();
        self
    }

    pub fn owner(mut self, owner: &[u8]) -> Draft {
        self.owner = owner.to_vec();
        self
    }

    pub fn chain(mut self, blocks: &[&[u8]]) -> Draft {
        self.chain = blocks.concat();
        self
    }

    /// The tag, its CRC right. What does not fit is a mistake of the caller.
    pub fn tag(&self, length: usize) -> Vec<u8> {
        assert!(self.item.len() <= 16 && self.owner.len() <= 13, "a field too long");
        let mut tag = vec![self.first, self.parts, self.ordinal];
        tag.extend(&self.item);
        tag.resize(21, 0);
        tag.extend(&self.owner);
        tag.resize(chain::START, 0);
        tag.extend(&self.chain);
        let over = tag.get(length..).unwrap_or(&[]);
        assert!(over.iter().all(|byte| *byte == 0), "a tag of {length} bytes is too short");
        tag.resize(length, 0);
        crc::store(&mut tag);
        tag
    }
}

/// Puts the CRC right, where the tag has one.
pub fn repair_crc(tag: &mut [u8]) {
    if tag.len() > 20 {
        crc::store(tag);
    }
}

/// Puts the checksum of every structured block right, as far as the lengths lead.
pub fn repair_blocks(tag: &mut [u8]) {
    let mut place = chain::START;
    while place < tag.len() {
        let length = usize::from(tag[place]);
        let end = place + length;
        if length == 0 || length == 2 || end > tag.len() {
            return;
        }
        if length >= 4 && chain::is_structured(&tag[place..end]) {
            tag[place + 3] ^= chain::exclusive_or(&tag[place..end]);
        }
        place = end;
    }
}
