//! "The writer's own layout", and where each element stands in it.

use super::block_one::BlockOne;
use super::element::{ISIL, MEDIA, OTHER_ITEM, OTHER_OWNER, PRIMARY, SET, USAGE};
use super::{chain, crc, fields, Content};

/// The tag of this length that holds the content; nothing where there is "no layout in this tag or in block 1".
pub fn layout(content: &Content, length: usize) -> Option<Vec<u8>> {
    let owner_width = length.min(chain::START) - 21;
    let (owner_field, owner_beyond) = place_owner(content, owner_width);
    let mut tag = basic_block(content, &padded(&owner_field, owner_width));
    tag.extend(block_one(content, owner_beyond).write()?);
    tag.extend(content.carried.concat());
    (tag.len() <= length).then(|| padded(&tag, length))
}

/// The bytes and then 00: "Unused bytes of a field are 00", and "00 to the end" of a tag.
fn padded(bytes: &[u8], width: usize) -> Vec<u8> {
    let mut all = bytes.to_vec();
    all.resize(width, 0);
    all
}

/// The first 34 bytes, or 32 with the narrower owner field.
fn basic_block(content: &Content, owner_field: &[u8]) -> Vec<u8> {
    let set = content.get(SET);
    let mut block = vec![content.get(USAGE)[0] & 0xF0 | 1, set[0], set[2]];
    match content.get(PRIMARY) {
        long if stands_in_block_one(long) => block.extend(padded(&[1], 16)),
        short => block.extend(padded(short, 16)),
    }
    block.extend([0, 0]);
    block.extend(owner_field);
    crc::store(&mut block);
    block
}

/// "Element 1 stands in the basic block up to 16 bytes, else in block 1."
fn stands_in_block_one(primary: &[u8]) -> bool {
    primary.len() > 16
}

/// The owner field's used bytes and the owner of block 1: "An owner that the basic forms hold stands there; another
/// goes to block 1 as the sheet has it."
fn place_owner(content: &Content, width: usize) -> (Vec<u8>, &[u8]) {
    let (here, value) = match (content.get(ISIL), content.get(OTHER_OWNER)) {
        ([], []) => (Some(Vec::new()), &[][..]),
        ([], other) => (Some(fields::behind_two_zeros(other)), other),
        (isil, _) => (fields::isil_here(isil), isil),
    };
    match here.filter(|field| field.len() <= width) {
        Some(field) => (field, &[]),
        None => (fields::behind_two_zeros(&[1]), value),
    }
}

/// What block 1 has to hold. Its usage byte "is written only where the sub qualifier is not 0".
fn block_one(content: &Content, owner: &[u8]) -> BlockOne {
    let (primary, usage) = (content.get(PRIMARY), content.get(USAGE)[0]);
    let item = if stands_in_block_one(primary) { primary } else { content.get(OTHER_ITEM) };
    BlockOne {
        media: content.get(MEDIA).first().copied().unwrap_or(0),
        item: item.to_vec(),
        owner: owner.to_vec(),
        usage: if usage & 0x0F == 0 { 0 } else { usage },
    }
}
