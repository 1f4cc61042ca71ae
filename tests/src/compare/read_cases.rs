//! Cases of reading.

use super::case::{Call, Case};
use super::taglist;
use crate::alphabets::{self, Place};
use crate::build::{self, Draft};
use crate::examples;
use crate::generate::{damaged, tags};
use crate::model::{element, reading, sheet, Content};
use crate::random::Random;

/// The fixed cases and so many random ones.
pub fn all(seed: u64, count: usize) -> impl Iterator<Item = Case> + Send {
    let fixed = published().chain(refused()).chain(damaged()).chain(lengths()).chain(alphabets::cases(Place::read));
    fixed.chain(random(seed, count))
}

/// Random bytes, random bytes that pass 4, and tags of any kind.
pub fn random(seed: u64, count: usize) -> impl Iterator<Item = Case> + Send {
    let mut random = Random::new(seed);
    (0..count).map(move |_| {
        let (group, tag) = match random.below(4) {
            0 => ("random bytes as tags", tags::noise(&mut random)),
            1 => ("random bytes as tags, past the CRC", tags::checked(&mut random)),
            _ => ("generated tags", tags::any(&mut random)),
        };
        in_any_room(&mut random, group, tag)
    })
}

/// At least as long as any sheet that a tag of this length gives: blocks of 3 bytes take 7 in a sheet.
pub fn room_for(tag: &[u8]) -> usize {
    3 * tag.len()
}

/// The length of the tag's sheet, where it reads.
fn sheet_length(tag: &[u8]) -> Option<usize> {
    let content = reading::content_of(tag).ok()?;
    sheet::of_content(&content).ok().map(|sheet| sheet.len())
}

/// The papers' tags in every room up to one more than is needed.
fn published() -> impl Iterator<Item = Case> + Send {
    examples::all().into_iter().flat_map(|example| {
        let rooms = 0..=example.sheet.len() + 1;
        rooms.map(move |room| {
            Case::new("the papers' examples, all rooms", Call::read(example.tag.clone(), vec![0xEE; room]))
        })
    })
}

/// Tags among which each refusal of a tag is met.
fn refused() -> impl Iterator<Item = Case> + Send {
    taglist::fixed().into_iter().map(|tag| {
        let room = room_for(&tag);
        Case::new("tags of each refusal", Call::read(tag, vec![0xEE; room]))
    })
}

/// Every damage of a chain.
fn damaged() -> impl Iterator<Item = Case> + Send {
    damaged::every().into_iter().map(|damaged| {
        let call = Call::read(damaged.tag, vec![0xEE; 64]);
        Case::new("every damage at every block", call)
    })
}

/// Every length up to 2,100 of several patterns, the last of which read wherever the length is permitted.
fn lengths() -> impl Iterator<Item = Case> + Send {
    let bare = Draft::default().tag(2100);
    let filled = Draft { chain: vec![1; 2066], ..Draft::default() }.tag(2100);
    let counting: Vec<u8> = (0..2100).map(|place| place as u8).collect();
    let patterns = [vec![0; 2100], vec![0xFF; 2100], vec![1; 2100], vec![0x11; 2100], counting, bare, filled];
    patterns.into_iter().flat_map(|pattern| {
        (0..=2100).map(move |length| {
            let call = Call::read(pattern[..length].to_vec(), vec![0xEE; 64]);
            Case::new("all lengths 0 to 2,100 of 7 patterns", call)
        })
    })
}

/// All elements that can stand together, with an identifier of this length.
pub fn everything(isil: &[u8], identifier: usize) -> Content {
    let mut content = Content::default();
    content.put(element::PRIMARY, &vec![b'7'; identifier]);
    content.put(element::ISIL, isil);
    content.put(element::SET, &[3, 0, 2, 0]);
    content.put(element::USAGE, &[0x25]);
    content.put(element::MEDIA, &[2]);
    if identifier <= 16 {
        content.put(element::OTHER_ITEM, b"other");
    }
    content.carried = vec![build::block(2, b"ac"), build::block(257, b"x")];
    content
}

/// A room that is exact, one short, larger, or anything.
fn in_any_room(random: &mut Random, group: &'static str, tag: Vec<u8>) -> Case {
    let room = match (sheet_length(&tag), random.below(6)) {
        (Some(length), 0) => length - 1,
        (Some(length), 1) => length + random.between(1, 40),
        (Some(length), 2) => random.below(length),
        (Some(length), _) => length,
        (None, 0) => 0,
        (None, 1) => room_for(&tag),
        (None, _) => random.below(200),
    };
    let buffer = random.bytes(room);
    Case::new(group, Call::read(tag, buffer))
}
