//! Cases of editing.

use super::case::{Call, Case};
use super::read_cases::everything;
use super::taglist;
use crate::alphabets::{self, Place};
use crate::build::Draft;
use crate::examples;
use crate::generate::{damaged, edits, locks, tags};
use crate::model::element::SINGLE;
use crate::model::layout::layout;
use crate::model::pages;
use crate::model::reading::content_of;
use crate::random::Random;

/// The fixed cases and so many random ones.
pub fn all(seed: u64, count: usize) -> impl Iterator<Item = Case> + Send {
    let edits = numbers().chain(value_lengths()).chain(old_rooms()).chain(alphabets::cases(Place::edit));
    let tags = lengths().chain(refused()).chain(damaged()).chain(locked());
    edits.chain(tags).chain(random(seed, count))
}

/// Random bytes, random bytes that pass 4, tags in the writer's own layout, and tags of any kind.
pub fn random(seed: u64, count: usize) -> impl Iterator<Item = Case> + Send {
    let mut random = Random::new(seed);
    (0..count).map(move |_| {
        let (group, tag) = match random.below(8) {
            0 => ("random bytes as tags", tags::noise(&mut random)),
            1 => ("random bytes as tags, past the CRC", tags::checked(&mut random)),
            2 | 3 => ("generated tags", tags::any(&mut random)),
            _ => ("tags in the writer's own layout", tags::own(&mut random)),
        };
        any_edit(&mut random, group, tag)
    })
}

/// A tag with nearly every element, in the writer's own layout.
fn full_tag() -> Vec<u8> {
    layout(&everything(b"AB-1234567", 9), 112).expect("it fits")
}

fn on_open(group: &'static str, tag: Vec<u8>, number: u32, value: &[u8], old_room: usize) -> Case {
    let open = locks::open(tag.len());
    Case::new(group, Call::edit(tag, open, number, value.to_vec(), vec![0xEE; old_room]))
}

/// Every number up to 300 and some far above, removing and setting.
fn numbers() -> impl Iterator<Item = Case> + Send {
    let far = [513, 65_537, 65_541, 0x0100_0001, u32::MAX - 250, u32::MAX];
    let values: [&[u8]; 6] = [b"", b"7", b"DK-7", b"\x02x", b"\x01\0\x01\0", b"\x03\xFF\0"];
    (0..=300).chain(far).flat_map(move |number| {
        values
            .into_iter()
            .map(move |value| on_open("all numbers 0 to 300 and far above", full_tag(), number, value, 255))
    })
}

/// Every element with text and with 01 of each length up to 300.
fn value_lengths() -> impl Iterator<Item = Case> + Send {
    SINGLE.into_iter().flat_map(|number| {
        (0..=300usize).flat_map(move |length| {
            let mut owner = vec![b'x'; length];
            owner.iter_mut().take(1).for_each(|kind| *kind = 2);
            [vec![b'x'; length], vec![1; length], owner]
                .map(|value| on_open("all value lengths 0 to 300", examples::b2().tag, u32::from(number), &value, 256))
        })
    })
}

fn old_rooms() -> impl Iterator<Item = Case> + Send {
    let edits: [(u32, &[u8]); 3] = [(1, b"new"), (22, b""), (255, b"")];
    (0..=300).flat_map(move |room| {
        edits
            .into_iter()
            .map(move |(number, value)| on_open("old-element buffers of 0 to 300", full_tag(), number, value, room))
    })
}

/// A bare tag of every length up to 2,100, in the writer's own layout where the length is permitted.
fn lengths() -> impl Iterator<Item = Case> + Send {
    let bare = Draft::default().tag(2100);
    (0..=2100).map(move |length| on_open("all lengths 0 to 2,100", bare[..length].to_vec(), 1, b"B1", 255))
}

/// Tags among which each refusal of a tag is met, and two loose ones.
fn refused() -> impl Iterator<Item = Case> + Send {
    let loose = [Draft::default().chain(&[&[1]]).tag(36), Draft::default().chain(&[&[0, 7]]).tag(40)];
    let tags = taglist::fixed().into_iter().chain(loose);
    tags.map(|tag| on_open("tags of each refusal", tag, 1, b"B1", 255))
}

/// Every damage of a chain.
fn damaged() -> impl Iterator<Item = Case> + Send {
    let tags = damaged::every().into_iter().map(|damaged| damaged.tag);
    tags.map(|tag| on_open("every damage at every block", tag, 1, b"B1", 255))
}

/// Each page locked by itself, under an edit that changes most of them and one that changes few.
fn locked() -> impl Iterator<Item = Case> + Send {
    let edits: [(u32, &[u8]); 2] = [(1, b"new"), (22, b"")];
    (0..full_tag().len() / pages::PAGE).flat_map(move |page| {
        edits.into_iter().map(move |(number, value)| {
            let tag = full_tag();
            let mut map = locks::open(tag.len());
            map[page] = 1;
            Case::new("each page locked", Call::edit(tag, map, number, value.to_vec(), vec![0xEE; 255]))
        })
    })
}

/// An edit, random bytes among them, under any lock map.
fn any_edit(random: &mut Random, group: &'static str, tag: Vec<u8>) -> Case {
    let content = content_of(&tag).unwrap_or_default();
    let edit = match random.below(16) {
        0 => edits::noise(random),
        1..=7 => edits::any(random, &content),
        _ => edits::modest(random, &content),
    };
    let map = locks::any(random, tag.len(), 40);
    let old_room = edits::old_room(random, 25);
    let old = random.bytes(old_room);
    Case::new(group, Call::edit(tag, map, edit.number, edit.value, old))
}
