//! The calls as the tests make them: by the model, and, where the environment variable `URP_DRIVER` names a driver (with
//! the words that start it), by the library too, whose outcome must be the same to the byte.
//!
//! Each call checks on the way that a refusal leaves every lent buffer as it was and gives a place at 15 to 19 alone, and
//! that a buffer which is filled keeps the bytes behind the filled part. Most give a refusal by its number; [`damage`]
//! has the place too.

use crate::build;
use crate::compare::case::{in_words, Call, Case, Outcome};
use crate::compare::engine::Link;
use crate::generate::locks;
use crate::model::{listing, refusal, sheet, Content, Refusal};
use std::cell::RefCell;

/// Elements by number, as a test lists them.
pub type Elements = Vec<(u8, Vec<u8>)>;

thread_local! {
    /// One driver for each thread of tests.
    static DRIVER: RefCell<Option<Link>> = RefCell::new(named_driver());
}

fn named_driver() -> Option<Link> {
    let words = std::env::var("URP_DRIVER").ok()?;
    let command: Vec<String> = words.split_whitespace().map(str::to_string).collect();
    assert!(!command.is_empty(), "URP_DRIVER names no driver");
    Some(Link::start(&command).expect("the driver that URP_DRIVER names"))
}

/// What the call leaves behind, by the model and, where there is a driver, by the library too.
pub fn confirmed(call: Call) -> Outcome {
    let case = Case::new("a call of a test", call);
    DRIVER.with_borrow_mut(|driver| {
        if let Some(Err(line)) = driver.as_mut().map(|driver| driver.confirm(&case)) {
            panic!("{line}");
        }
    });
    case.expected
}

/// What the call leaves behind, or its refusal.
fn outcome(call: Call) -> Result<Outcome, Refusal> {
    let before = call.buffers.clone();
    let outcome = confirmed(call);
    match outcome.refusal() {
        None => Ok(outcome),
        Some(refusal) => {
            assert!(outcome.buffers == before, "a refusal has changed a buffer");
            let is_damage = refusal::DAMAGE.contains(&refusal.number);
            assert_eq!(refusal.place.is_some(), is_damage, "damage has a place, and nothing else has: {refusal:?}");
            Err(refusal)
        }
    }
}

/// What the call leaves behind, or its refusal's number.
fn numbered(call: Call) -> Result<Outcome, u32> {
    outcome(call).map_err(|refusal| refusal.number)
}

/// The call's answer alone.
pub fn answer(call: Call) -> u32 {
    numbered(call).err().unwrap_or(0)
}

/// What stands in a buffer before it is filled: no byte like its neighbour.
fn unlike_anything(room: usize) -> Vec<u8> {
    (0..room).map(|place| (place * 7) as u8 ^ 0x5A).collect()
}

/// The filled part of a buffer; the rest is as it was.
fn filled_part(buffer: &[u8], used: u64) -> Vec<u8> {
    let (filled, rest) = buffer.split_at(used as usize);
    assert_eq!(rest, &unlike_anything(buffer.len())[filled.len()..], "bytes behind the filled part have changed");
    filled.to_vec()
}

/// The tag's sheet, read into a buffer of this length.
pub fn read_into(tag: &[u8], room: usize) -> Result<Vec<u8>, u32> {
    let done = numbered(Call::read(tag.to_vec(), unlike_anything(room)))?;
    assert_eq!(done.buffers[0], tag, "a tag that was read has changed");
    Ok(filled_part(&done.buffers[1], done.results[0]))
}

/// The tag's sheet.
pub fn read(tag: &[u8]) -> Result<Vec<u8>, u32> {
    read_into(tag, 5000)
}

/// The tag's elements.
pub fn elements(tag: &[u8]) -> Result<Elements, u32> {
    let sheet = read(tag)?;
    let entries = sheet::decode(&sheet).expect("reading gives a good sheet");
    Ok(entries.into_iter().map(|(number, value)| (number, value.to_vec())).collect())
}

/// The tag's elements but for 4 and 5.
pub fn besides(tag: &[u8]) -> Result<Elements, u32> {
    let all = elements(tag)?;
    Ok(all.into_iter().filter(|(number, _)| ![4, 5].contains(number)).collect())
}

/// One element by its number, as [`besides`] lists it.
pub fn only(number: u8, value: &[u8]) -> Result<Elements, u32> {
    Ok(vec![(number, value.to_vec())])
}

/// Writes the sheet onto the tag.
pub fn write(sheet: &[u8], tag: &mut Vec<u8>, locks: &[u8]) -> Result<usize, u32> {
    let mut done = numbered(Call::write(sheet.to_vec(), tag.clone(), locks.to_vec()))?;
    *tag = done.buffers.swap_remove(1);
    Ok(done.results[0] as usize)
}

/// The tag of this length that writing makes of nothing but 00.
pub fn written(sheet: &[u8], length: usize) -> Result<Vec<u8>, u32> {
    let mut tag = vec![0; length];
    write(sheet, &mut tag, &locks::open(length)).map(|_| tag)
}

/// Edits the tag: the page count and the old element.
pub fn edit_under(
    tag: &mut Vec<u8>,
    locks: &[u8],
    number: u32,
    value: &[u8],
    room: usize,
) -> Result<(usize, Vec<u8>), u32> {
    let call = Call::edit(tag.clone(), locks.to_vec(), number, value.to_vec(), unlike_anything(room));
    let mut done = numbered(call)?;
    *tag = done.buffers.swap_remove(0);
    // The last buffer has taken the first one's place.
    Ok((done.results[0] as usize, filled_part(&done.buffers[0], done.results[1])))
}

/// Edits the tag with all pages open and room enough.
pub fn edit(tag: &mut Vec<u8>, number: u32, value: &[u8]) -> Result<(usize, Vec<u8>), u32> {
    let open = locks::open(tag.len());
    edit_under(tag, &open, number, value, 255)
}

/// Edits a copy of the tag and gives the copy.
pub fn edited(tag: &[u8], number: u32, value: &[u8]) -> Result<Vec<u8>, u32> {
    let mut copy = tag.to_vec();
    edit(&mut copy, number, value).map(|_| copy)
}

/// The number and the place of the tag's damage; none where it has none, or is refused for another reason. Reading,
/// editing and the listing say the same of it.
pub fn damage(tag: &[u8]) -> Option<(u32, usize)> {
    let found = |call: Call| outcome(call).err().and_then(|Refusal { number, place }| Some((number, place?)));
    let read = found(Call::read(tag.to_vec(), unlike_anything(5000)));
    let edited = found(Call::edit(tag.to_vec(), locks::open(tag.len()), 3, vec![], unlike_anything(255)));
    assert_eq!(read, edited, "reading and editing find other damage");
    if let Some((number, place)) = read {
        assert_eq!(listing(tag), format!("refused {number} {place}\n"));
    }
    read
}

/// The text of the words, into a buffer of this length.
pub fn to_text_into(words: &[u16], room: usize) -> Result<Vec<u8>, u32> {
    let call = Call::to_text(words, unlike_anything(room));
    let before = call.buffers[0].clone();
    let done = numbered(call)?;
    assert_eq!(done.buffers[0], before, "words that were read have changed");
    Ok(filled_part(&done.buffers[1], done.results[0]))
}

/// The text of the words.
pub fn to_text(words: &[u16]) -> Result<Vec<u8>, u32> {
    to_text_into(words, 3 * words.len() + 1)
}

/// The words of the text, into a buffer for so many.
pub fn to_words_into(text: &[u8], room: usize) -> Result<Vec<u16>, u32> {
    let done = numbered(Call::to_words(text.to_vec(), &in_words(&unlike_anything(2 * room))))?;
    assert_eq!(done.buffers[0], text, "a text that was read has changed");
    Ok(in_words(&filled_part(&done.buffers[1], 2 * done.results[0])))
}

/// The words of the text.
pub fn to_words(text: &[u8]) -> Result<Vec<u16>, u32> {
    to_words_into(text, text.len() + 1)
}

/// Elements 1, 3 and 4 of the text, into buffers of these lengths.
pub fn apart_into(text: &[u8], isil_leads: u32, rooms: [usize; 3]) -> Result<[Vec<u8>; 3], u32> {
    let done = numbered(Call::apart(text.to_vec(), isil_leads, rooms.map(unlike_anything)))?;
    assert_eq!(done.buffers[0], text, "a text that was taken apart has changed");
    Ok(std::array::from_fn(|place| filled_part(&done.buffers[place + 1], done.results[place])))
}

/// Elements 1, 3 and 4 of the text.
pub fn apart(text: &[u8], isil_leads: bool) -> Result<[Vec<u8>; 3], u32> {
    apart_into(text, u32::from(isil_leads), [256, 17, 5])
}

/// The text of elements 1, 3 and 4, into a buffer of this length.
pub fn together_into(elements: [&[u8]; 3], room: usize) -> Result<Vec<u8>, u32> {
    let done = numbered(Call::together(elements.map(<[u8]>::to_vec), unlike_anything(room)))?;
    assert_eq!(done.buffers[..3], elements, "elements that were put together have changed");
    Ok(filled_part(&done.buffers[3], done.results[0]))
}

/// The text of elements 1, 3 and 4.
pub fn together(item: &[u8], isil: &[u8], set: &[u8]) -> Result<Vec<u8>, u32> {
    together_into([item, isil, set], 280)
}

/// A sheet of these entries besides 4 (1 of 1) and 5 (main qualifier 1), each at its place.
pub fn sheet_with(entries: &[(u8, &[u8])]) -> Vec<u8> {
    let mut all = [&[(4, &[1, 0, 1, 0][..]), (5, &[0x10])], entries].concat();
    all.sort_by_key(|(number, _)| *number);
    build::sheet(&all)
}

/// The sheet of 4, 5 and carried blocks whose last entry, of 3 bytes, begins at this place.
pub fn sheet_up_to(place: usize) -> Vec<u8> {
    let blocks = build::blocks_up_to(place);
    sheet_with(&blocks.iter().map(|block| (255, &block[..])).collect::<Vec<_>>())
}

/// The tag of this length in the writer's own layout with these elements besides 4 and 5.
pub fn tag_with(entries: &[(u8, &[u8])], length: usize) -> Vec<u8> {
    written(&sheet_with(entries), length).expect("elements that fit")
}

/// Whether editing finds the tag loose: a removal that changes nothing is refused 13.
pub fn is_loose(tag: &[u8]) -> bool {
    let mut copy = tag.to_vec();
    let absent = if besides(tag).is_ok_and(|found| found.iter().any(|(number, _)| *number == 3)) { 23 } else { 3 };
    match edit(&mut copy, absent, b"") {
        Err(number) => number == 13,
        Ok((pages, old)) => {
            assert!(copy == tag && pages == 0 && old.is_empty(), "removing nothing has changed something");
            false
        }
    }
}

/// A content with nothing but 4 (1 of 1), 5 (main qualifier 1) and these carried blocks.
pub fn carrying(blocks: Vec<Vec<u8>>) -> Content {
    let mut content = Content::default();
    content.put(4, &[1, 0, 1, 0]);
    content.put(5, &[0x10]);
    content.carried = blocks;
    content
}
