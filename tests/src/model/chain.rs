//! "The chain of blocks (001, clause 7)".

use super::refusal::{self, need, Refusal};

/// "Blocks start at byte 34."
pub const START: usize = 34;

/// The library extension block.
pub const BLOCK_ONE: u16 = 1;

/// What stands at the place where a block would begin.
enum Next<'a> {
    End,
    Filler,
    Block(&'a [u8]),
}

/// All blocks in tag order, block 1 among them and fillers not; refused at the first damaged one, which gives its place.
pub fn blocks(tag: &[u8]) -> Result<Vec<&[u8]>, Refusal> {
    let mut found: Vec<&[u8]> = Vec::new();
    let mut place = START;
    loop {
        let rest = tag.get(place..).unwrap_or(&[]);
        match next(rest, &found).map_err(|number| Refusal { number, place: Some(place) })? {
            Next::End => return Ok(found),
            Next::Filler => place += 1,
            Next::Block(block) => {
                found.push(block);
                place += block.len();
            }
        }
    }
}

/// Judges the beginning of what is left of a tag, behind these blocks: 15 to 19, "tested in that order at each block".
fn next<'a>(rest: &'a [u8], found: &[&[u8]]) -> Result<Next<'a>, u32> {
    let length = match rest.first() {
        None | Some(0) => return Ok(Next::End),
        Some(1) => return Ok(Next::Filler),
        Some(length) => usize::from(*length),
    };
    need(length != 2, refusal::LENGTH)?;
    need(length <= rest.len(), refusal::END)?;
    let block = &rest[..length];
    need(id(block) != 0 && (length >= 4 || !is_structured(block)), refusal::ID)?;
    need(!is_structured(block) || exclusive_or(block) == 0, refusal::CHECKSUM)?;
    need(id(block) != BLOCK_ONE || found.iter().all(|other| id(other) != BLOCK_ONE), refusal::SECOND)?;
    Ok(Next::Block(block))
}

/// "a two-byte ID, low byte first"
pub fn id(block: &[u8]) -> u16 {
    u16::from_le_bytes([block[1], block[2]])
}

/// "IDs 1 to 100 are structured."
pub fn is_structured(block: &[u8]) -> bool {
    (1..=100).contains(&id(block))
}

/// "the XOR of the whole block"
pub fn exclusive_or(block: &[u8]) -> u8 {
    block.iter().fold(0, |sum, byte| sum ^ byte)
}

/// "a carried block, whole and well formed, no filler, ID not 1"
pub fn is_carried(value: &[u8]) -> bool {
    matches!(next(value, &[]), Ok(Next::Block(block)) if block.len() == value.len() && id(block) != BLOCK_ONE)
}
