//! Reading: a tag into a sheet.

use super::block_one::BlockOne;
use super::chain::{self, BLOCK_ONE};
use super::element::{self, MEDIA, OTHER_ITEM, PRIMARY, SET, USAGE};
use super::fields::{read_item, read_owner, Field};
use super::refusal::{self, need, Refusal};
use super::{crc, pages, sheet, Content};

/// "Reading gives the sheet's length, fills just that much and changes nothing else."
pub fn reading(tag: &[u8], buffer: &mut [u8]) -> Result<usize, Refusal> {
    let sheet = sheet::of_content(&content_of(tag)?)?;
    need(buffer.len() >= sheet.len(), refusal::ROOM)?;
    buffer[..sheet.len()].copy_from_slice(&sheet);
    Ok(sheet.len())
}

/// What a tag says, or its refusal among 1, 3, 4, 15 to 19, 6 and 7.
pub fn content_of(tag: &[u8]) -> Result<Content, Refusal> {
    need(pages::is_tag_length(tag.len(), pages::PAGE), refusal::SIZE)?;
    need(tag[0] & 0x0F == 1, refusal::CONTENT)?;
    need(crc::stored(tag) == crc::of_tag(tag), refusal::CHECK)?;
    let blocks = chain::blocks(tag)?;
    let found = Found::judge(tag, &blocks).ok_or(refusal::FIELD)?;
    need(found.agrees(), refusal::MISMATCH)?;
    let mut content = found.content();
    content.carried = blocks.iter().filter(|block| chain::id(block) != BLOCK_ONE).map(|block| block.to_vec()).collect();
    Ok(content)
}

/// The fields of a tag, each good by itself.
struct Found {
    main_qualifier: u8,
    set: [u8; 2],
    item: Field,
    owner: Field,
    block_one: BlockOne,
}

impl Found {
    /// Nothing where "a field breaks its form, or bytes 1 and 2 hold an ordinal above the parts".
    fn judge(tag: &[u8], blocks: &[&[u8]]) -> Option<Found> {
        let block_one = match blocks.iter().find(|block| chain::id(block) == BLOCK_ONE) {
            Some(block) => BlockOne::read(block)?,
            None => BlockOne::default(),
        };
        let found = Found {
            main_qualifier: tag[0] & 0xF0,
            set: [tag[1], tag[2]],
            item: read_item(&tag[3..19])?,
            owner: read_owner(&tag[21..tag.len().min(chain::START)])?,
            block_one,
        };
        (tag[2] <= tag[1]).then_some(found)
    }

    /// "a nonzero usage byte agrees with byte 0's main qualifier"; "an owner in block 1 stands exactly with the
    /// marker; a marked item is present".
    fn agrees(&self) -> bool {
        let usage = self.block_one.usage;
        let usage_agrees = usage == 0 || usage & 0xF0 == self.main_qualifier;
        let owner_agrees = matches!(self.owner, Field::InBlockOne) != self.block_one.owner.is_empty();
        let item_agrees = !matches!(self.item, Field::InBlockOne) || !self.block_one.item.is_empty();
        usage_agrees && owner_agrees && item_agrees
    }

    /// The elements: "the item field is element 1 under marker 01, else 22".
    fn content(&self) -> Content {
        let beyond = &self.block_one;
        let mut content = Content::default();
        let item_number = if matches!(self.item, Field::InBlockOne) { PRIMARY } else { OTHER_ITEM };
        content.put(item_number, &beyond.item);
        content.put(element::owner_number(&beyond.owner), &beyond.owner);
        for field in [&self.item, &self.owner] {
            if let Field::Here(number, value) = field {
                content.put(*number, value);
            }
        }
        content.put(SET, &[self.set[0], 0, self.set[1], 0]);
        content.put(USAGE, &[if beyond.usage == 0 { self.main_qualifier } else { beyond.usage }]);
        if beyond.media != 0 {
            content.put(MEDIA, &[beyond.media]);
        }
        content
    }
}
