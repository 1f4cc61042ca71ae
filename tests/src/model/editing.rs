//! Editing: one element on a tag.

use super::element::{self, ALWAYS, SINGLE};
use super::layout::layout;
use super::reading::content_of;
use super::refusal::{self, need, Refusal};
use super::writing::{judge_sizes, lay_down};

/// "an old-element buffer under 255 bytes" is too short.
const OLD_ROOM: usize = 255;

/// "It gives the page count and the old element's length, 0 for none."
#[derive(Clone, Copy, Debug, PartialEq, Eq)]
pub struct Edited {
    pub pages: usize,
    pub old_length: usize,
}

/// "Editing takes a number other than 255 and new bytes; no bytes means remove."
pub fn editing(tag: &mut [u8], locks: &[u8], number: u32, value: &[u8], old: &mut [u8]) -> Result<Edited, Refusal> {
    judge_sizes(tag, locks)?;
    let mut content = content_of(tag)?;
    need(layout(&content, tag.len()).as_deref() == Some(&*tag), refusal::LOOSE)?;
    need(old.len() >= OLD_ROOM, refusal::ROOM)?;
    let number = editable(number, value).ok_or(refusal::VALUE)?;
    let before = content.get(number).to_vec();
    content.put(number, value);
    let pages = lay_down(&content, tag, locks)?;
    old[..before.len()].copy_from_slice(&before);
    Ok(Edited { pages, old_length: before.len() })
}

/// The element to edit. "Removing 4 or 5 is Value, and so are 255, any other number not in the table, and more than
/// 255 new bytes."
fn editable(number: u32, value: &[u8]) -> Option<u8> {
    let number = u8::try_from(number).ok().filter(|number| SINGLE.contains(number))?;
    let good = if value.is_empty() { !ALWAYS.contains(&number) } else { element::is_good(number, value) };
    (good && value.len() <= 255).then_some(number)
}
