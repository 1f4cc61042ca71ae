//! Writing: a sheet onto a tag.

use super::refusal::{self, need};
use super::{layout, pages, sheet, Content};

/// "Writing gives the count of pages changed." The old tag is not judged.
pub fn writing(sheet: &[u8], tag: &mut [u8], locks: &[u8]) -> Result<usize, u32> {
    judge_sizes(tag, locks)?;
    let content = sheet::content_of(&sheet::decode(sheet)?)?;
    lay_down(&content, tag, locks)
}

/// "tag length; where a lock map is taken, not one byte for each page, or a byte above 1"
pub fn judge_sizes(tag: &[u8], locks: &[u8]) -> Result<(), u32> {
    let good = pages::is_tag_length(tag.len(), pages::PAGE) && pages::is_lock_map(locks, tag.len(), pages::PAGE);
    need(good, refusal::SIZE)
}

/// The last three refusals, 10, 11 and 12, and the storing: the writer's and the editor's common end.
pub fn lay_down(content: &Content, tag: &mut [u8], locks: &[u8]) -> Result<usize, u32> {
    need(!content.clashes(), refusal::CLASH)?;
    let image = layout::layout(content, tag.len()).ok_or(refusal::LARGE)?;
    let changed = pages::differing(tag, &image, pages::PAGE);
    need(changed.iter().all(|page| locks[*page] == 0), refusal::LOCKED)?;
    tag.copy_from_slice(&image);
    Ok(changed.len())
}
