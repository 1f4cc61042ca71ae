//! Cases of a dozen tags in which one byte, or two neighbouring bytes, are changed.

use super::case::{Call, Case};
use super::engine::{boxed, Cases};
use super::read_cases::{everything, room_for};
use crate::build::{block, Draft};
use crate::examples;
use crate::generate::{edits, locks, tags, values};
use crate::model::element::{PRIMARY, USAGE};
use crate::model::layout::layout;
use crate::model::reading::content_of;
use crate::model::{chain, pages, Content};
use crate::random::Random;

/// A byte takes every other value in the first 34 bytes, and on a tag of up to so many bytes.
const SMALL: usize = 112;

/// Two shares for each tag: every byte changed, and every two neighbours to so many pairs of values.
pub fn shares(seed: u64, pairs: usize) -> Vec<Cases> {
    let mut random = Random::new(seed);
    let tags = dozen(&mut random);
    let shares = tags.into_iter().flat_map(|tag| {
        let (one, two) = (Random::new(random.number()), Random::new(random.number()));
        [boxed(single(tag.clone(), one)), boxed(neighbours(tag, two, pairs))]
    });
    shares.collect()
}

/// Tags that read: seven in the writer's own layout and five loose ones, from 32 bytes to 2,048.
pub fn dozen(random: &mut Random) -> Vec<Vec<u8>> {
    let laid = |content: &Content, length| layout(content, length).expect("it fits");
    let plain = Draft::default();
    let carried = [block(2, b"ac"), block(300, b"x"), block(99, b"99")];
    let mut long = everything(b"ABCD-1:/-z", 190);
    long.carried.truncate(1);
    vec![
        examples::b1().tag,
        examples::whole_case().tag,
        examples::b2().tag,
        laid(&everything(b"AB-1234567", 9), 112),
        laid(&everything(b"ABC-1234", 30), 112),
        laid(&long, 256),
        laid(&filling(random, 2048), 2048),
        // An alternative owner behind two bytes that are not 00.
        plain.clone().item(b"0123456789ABCDEF").owner(b"zz\x02owner").tag(32),
        // Two fillers up to the tag's end.
        plain.clone().item(b"7").owner(b"X ABCDEFGHIJK").chain(&[&[1, 1]]).tag(36),
        // A short marked item, a usage byte with sub qualifier 0, block 1 not first and with 00 at its end.
        plain.clone().item(&[1]).chain(&[&[1], &carried[0], &block(1, b"\x05item\0\0\x10\0\0")]).tag(64),
        // An owner in block 1 that the basic block would hold, a filler, bytes behind the end mark.
        plain
            .clone()
            .owner(&[9, 9, 1])
            .chain(&[&block(1, b"\0other\0DK-1\0\x17"), &[1], &carried[1], &[0, 2, 7]])
            .tag(112),
        // Blocks to the tag's end but for fillers between them.
        plain.chain(&[&[1; 30], &carried.concat(), &values::carried(random, 174)[..], &[1; 2]]).tag(256),
    ]
}

/// A content whose blocks fill a tag to its end, the most of them short.
fn filling(random: &mut Random, length: usize) -> Content {
    let mut content = everything(b"AB-1", 5);
    content.carried.clear();
    let image = layout(&content, length).expect("it fits");
    let room = length - chain::START - usize::from(image[chain::START]);
    content.carried = values::carried_filling(random, room, 20);
    content
}

/// Every byte changed by itself.
fn single(tag: Vec<u8>, mut random: Random) -> impl Iterator<Item = Case> + Send {
    let changes = (0..tag.len()).flat_map({
        let tag = tag.clone();
        move |place| others(&tag, place).into_iter().map(move |value| (place, vec![value]))
    });
    changes
        .flat_map(move |(place, bytes)| tried(&mut random, "every byte changed, on a dozen tags", &tag, place, &bytes))
}

/// The values that a byte is changed to: all others, or those on the edges, one more, one less, and each bit changed.
fn others(tag: &[u8], place: usize) -> Vec<u8> {
    let old = tag[place];
    if tag.len() <= SMALL || place < chain::START {
        return (1..=255).map(|change| old ^ change).collect();
    }
    let mut values: Vec<u8> = (0..8).map(|bit| old ^ 1 << bit).collect();
    values.extend([0, 1, 2, 3, 4, 255, old.wrapping_add(1), old.wrapping_sub(1)]);
    values.sort_unstable();
    values.dedup();
    values.retain(|value| *value != old);
    values
}

/// Every two neighbouring bytes changed, both of them.
fn neighbours(tag: Vec<u8>, mut random: Random, pairs: usize) -> impl Iterator<Item = Case> + Send {
    let places = (0..tag.len() - 1).flat_map(move |place| (0..pairs).map(move |_| place));
    places.flat_map(move |place| {
        let bytes = [place, place + 1].map(|place| {
            let values = others(&tag, place);
            random.pick(&values)
        });
        tried(&mut random, "every two neighbouring bytes changed, on a dozen tags", &tag, place, &bytes)
    })
}

/// The changed tag as it is, and with its checks repaired: read, edited with all pages open, and edited under locks.
fn tried(random: &mut Random, group: &'static str, tag: &[u8], place: usize, bytes: &[u8]) -> Vec<Case> {
    let mut changed = tag.to_vec();
    changed[place..place + bytes.len()].copy_from_slice(bytes);
    let mut repaired = changed.clone();
    tags::repair(&mut repaired);
    let mut variants = vec![changed];
    variants.extend(Some(repaired).filter(|repaired| *repaired != variants[0]));
    variants.into_iter().flat_map(|tag| calls(random, tag, place).map(|call| Case::new(group, call))).collect()
}

fn calls(random: &mut Random, tag: Vec<u8>, place: usize) -> [Call; 3] {
    let open = locks::open(tag.len());
    let mut map = if random.one_in(3) { locks::all_locked(tag.len()) } else { open.clone() };
    map[place / pages::PAGE] = 1;
    let content = content_of(&tag).unwrap_or_default();
    let other = edits::modest(random, &content);
    let (number, value) = random.pick(&[(PRIMARY, &b"0123456789ABCDEF"[..]), (USAGE, b"\x21"), (PRIMARY, b"")]);
    let old = vec![0xEE; edits::old_room(random, 8)];
    [
        Call::read(tag.clone(), vec![0xEE; room_for(&tag)]),
        Call::edit(tag.clone(), open, u32::from(number), value.to_vec(), vec![0xEE; 255]),
        Call::edit(tag, map, other.number, other.value, old),
    ]
}
