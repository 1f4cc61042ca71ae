//! The library extension block: "media format (1 byte), item field, 00, owner field, 00, usage byte".

use super::chain;
use super::element::{self, OTHER_ITEM};

/// What block 1 holds. "Missing fields are empty, a missing media or usage byte is 00."
#[derive(Default)]
pub struct BlockOne {
    pub media: u8,
    pub item: Vec<u8>,
    pub owner: Vec<u8>,
    pub usage: u8,
}

impl BlockOne {
    /// Takes a block 1 of the chain apart; nothing where a field breaks its form, whether or not a marker stands.
    pub fn read(block: &[u8]) -> Option<BlockOne> {
        let Some((media, fields)) = stripped(&block[4..]).split_first() else {
            return Some(BlockOne::default());
        };
        let mut fields = fields.splitn(3, |byte| *byte == 0);
        let item = fields.next().unwrap_or_default();
        let owner = fields.next().unwrap_or_default();
        let usage = match fields.next().unwrap_or_default() {
            [] => 0,
            [usage] => *usage,
            _ => return None,
        };
        let good_item = item.is_empty() || element::is_good(OTHER_ITEM, item);
        let good_owner = owner.is_empty() || element::is_good(element::owner_number(owner), owner);
        (good_item && good_owner).then(|| BlockOne { media: *media, item: item.to_vec(), owner: owner.to_vec(), usage })
    }

    /// The block as the writer lays it down, empty "if it has [not] anything"; nothing above 255 bytes.
    pub fn write(&self) -> Option<Vec<u8>> {
        let body = [&[self.media], &self.item[..], &[0], &self.owner, &[0], &[self.usage]].concat();
        let body = stripped(&body);
        if body.is_empty() {
            return Some(Vec::new());
        }
        let length = u8::try_from(4 + body.len()).ok()?;
        let mut block = vec![length, 1, 0, 0];
        block.extend(body);
        block[3] = chain::exclusive_or(&block);
        Some(block)
    }
}

/// "Trailing 00 bytes are dropped by the writer and stripped by the reader."
fn stripped(body: &[u8]) -> &[u8] {
    let end = body.iter().rposition(|byte| *byte != 0).map_or(0, |last| last + 1);
    &body[..end]
}
