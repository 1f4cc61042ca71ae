//! Tags: in the writer's own layout, loose, of freely mixed fields, with a freely mixed chain, and damaged.

use super::{damaged, sheets, values};
use crate::build::{self, Draft};
use crate::model::element::{ISIL, OTHER_OWNER};
use crate::model::layout::layout;
use crate::model::{chain, fields};
use crate::random::Random;

/// Lengths that a tag can have, small ones more often.
pub fn length(random: &mut Random) -> usize {
    match random.below(40) {
        0..=5 => 32,
        6..=8 => 36,
        9..=30 => 4 * random.between(10, 32),
        31..=36 => 4 * random.between(33, 100),
        37 => random.pick(&[288, 292, 512, 1024]),
        38 => 4 * random.between(9, 512),
        _ => random.pick(&[2044, 2048]),
    }
}

/// Lengths that a tag cannot have.
pub fn bad_length(random: &mut Random) -> usize {
    match random.below(3) {
        0 => random.pick(&[0, 1, 3, 4, 28, 31, 33, 34, 35, 37, 38, 39, 2046, 2049, 2050, 2052, 4096]),
        1 => random.below(32),
        _ => 4 * random.between(9, 511) + random.between(1, 3),
    }
}

/// A tag in the writer's own layout.
pub fn own(random: &mut Random) -> Vec<u8> {
    let length = length(random);
    let content = sheets::fitting(random, length);
    layout(&content, length).expect("a content that fits")
}

/// The inside of block 1 before it is one: trailing 00 is kept, and so are more bytes than there should be.
#[derive(Default)]
struct Inside {
    media: u8,
    item: Vec<u8>,
    owner: Vec<u8>,
    usage: u8,
    rest: Vec<u8>,
}

impl Inside {
    fn block(&self, drop_zeros: bool) -> Vec<u8> {
        let mut body = [&[self.media], &self.item[..], &[0], &self.owner, &[0], &[self.usage], &self.rest].concat();
        while drop_zeros && body.last() == Some(&0) {
            body.pop();
        }
        body.truncate(251);
        build::block(1, &body)
    }
}

/// A tag that reads, but that the writer would have laid down otherwise; now and then it is the writer's own.
pub fn loose(random: &mut Random) -> Vec<u8> {
    let mut draft = draft(random);
    let mut inside = Inside { media: random.pick(&[0, 1, 6, 255]), ..Inside::default() };
    if random.one_in(2) {
        draft.item = vec![1];
        inside.item = loose_text(random, 30);
    } else {
        draft.item = loose_text(random, 16);
        inside.item = if random.one_in(2) { loose_text(random, 20) } else { Vec::new() };
    }
    loosen_owner(random, &mut draft, &mut inside);
    inside.usage = match random.below(3) {
        0 => 0,
        1 => draft.first & 0xF0,
        _ => draft.first & 0xF0 | random.below(16) as u8,
    };
    let used = !inside.owner.is_empty() || draft.item == [1];
    let block_one = if used || random.one_in(2) { inside.block(random.one_in(2)) } else { Vec::new() };
    let (before, behind) = (loose_blocks(random), loose_blocks(random));
    draft.chain = [before, block_one, behind].concat();
    finished(random, draft)
}

/// Set information and usage by chance.
pub(super) fn draft(random: &mut Random) -> Draft {
    let parts = random.byte();
    let ordinal = random.below(usize::from(parts) + 1) as u8;
    Draft { first: random.byte() & 0xF0 | 1, parts, ordinal, ..Draft::default() }
}

fn loose_text(random: &mut Random, longest: usize) -> Vec<u8> {
    let length = random.between(1, longest);
    values::text(random, length)
}

/// Any good owner, in the field or behind the marker, with any two bytes before 01, 02 and 03.
fn loosen_owner(random: &mut Random, draft: &mut Draft, inside: &mut Inside) {
    let number = random.pick(&[ISIL, OTHER_OWNER]);
    let owner = values::good(random, number, 20);
    let here = if number == ISIL { fields::isil_here(&owner) } else { Some(fields::behind_two_zeros(&owner)) };
    draft.owner = match here.filter(|field| field.len() <= 13) {
        Some(field) if random.one_in(2) => field,
        _ if random.one_in(3) => Vec::new(),
        _ => {
            inside.owner = owner;
            vec![0, 0, 1]
        }
    };
    if matches!(draft.owner.get(2), Some(1..=3)) && random.one_in(3) {
        draft.owner[0] = random.byte();
        draft.owner[1] = random.byte();
    }
}

/// Up to three carried blocks with fillers between them.
fn loose_blocks(random: &mut Random) -> Vec<u8> {
    let mut chain = Vec::new();
    for _ in 0..random.below(3) {
        chain.extend(vec![1; random.pick(&[0, 0, 1, 3])]);
        let length = random.between(3, 14);
        chain.extend(values::carried(random, length));
    }
    chain
}

/// The tag of a draft on a length that is enough, with bytes behind the end mark by chance. Now and then a basic
/// block alone is cut to 32 bytes, where its owner leaves room.
fn finished(random: &mut Random, mut draft: Draft) -> Vec<u8> {
    if random.one_in(12) && draft.owner.len() <= 11 {
        draft.chain.clear();
        return draft.tag(32);
    }
    let least = (chain::START + draft.chain.len()).next_multiple_of(4);
    let length = least + 4 * random.pick(&[0, 0, 1, 2, 5]);
    let left = length - chain::START - draft.chain.len();
    if left > 1 && random.one_in(3) {
        draft.chain.push(0);
        draft.chain.extend(random.bytes(left - 1));
    }
    draft.tag(length)
}

/// The basic block's fields, each drawn by itself, good or bad.
pub(super) fn mixed_draft(random: &mut Random) -> Draft {
    let mut draft = draft(random);
    if random.one_in(12) {
        draft.ordinal = random.byte();
    }
    draft.item = mixed_item(random);
    draft.owner = mixed_owner(random);
    draft
}

/// A tag whose fields are drawn each by itself, good or bad: most are refused for a field or a mismatch.
pub fn mixed(random: &mut Random) -> Vec<u8> {
    let mut draft = mixed_draft(random);
    let mut inside = Inside::default();
    if random.one_in(2) {
        inside.media = random.byte();
    }
    inside.item = match random.below(8) {
        0..=2 => Vec::new(),
        3 => values::bad(random, 22),
        _ => loose_text(random, 20),
    };
    inside.owner = match random.below(8) {
        0..=2 => Vec::new(),
        3 => values::bad(random, 23),
        4 => values::bad(random, 3),
        5 => values::good(random, 23, 12),
        _ => values::good(random, 3, 12),
    };
    inside.usage = random.pick(&[0, 0, draft.first & 0xF0, draft.first & 0xF0 | 5, draft.first ^ 0x10]);
    inside.rest = random.pick(&[&[][..], &[], &[], &[0], &[0, 0], &[7], &[0, 7]]).to_vec();
    if !random.one_in(4) {
        draft.chain = [loose_blocks(random), inside.block(random.one_in(2))].concat();
    }
    finished(random, draft)
}

/// The item field's bytes: absent, text, marker, or one of them spoiled.
fn mixed_item(random: &mut Random) -> Vec<u8> {
    let mut item = match random.below(4) {
        0 => Vec::new(),
        1 => vec![1],
        _ => loose_text(random, 16),
    };
    match random.below(16) {
        0 | 1 => {
            item.resize(16, 0);
            item[random.below(16)] = random.pick(&[0, 1, 0x1F, 0x20, 0x7E, 0x7F, b'A', 0xC3]);
        }
        2 => spoil_field(random, &mut item, 0, 16),
        _ => {}
    }
    item
}

/// The owner field's bytes: absent, an owner, marker, or one of them spoiled.
fn mixed_owner(random: &mut Random) -> Vec<u8> {
    let mut owner = match random.below(5) {
        0 => Vec::new(),
        1 => vec![0, 0, 1],
        2 => fields::behind_two_zeros(&values::good(random, OTHER_OWNER, 10)),
        _ => {
            let isil = values::isil_of(random, 2, 9);
            fields::isil_here(&isil).expect("a prefix of two capitals")
        }
    };
    match random.below(12) {
        0 | 1 => {
            owner.resize(13, 0);
            owner[random.below(13)] = random.pick(&[0, 1, 2, 3, b' ', b'-', b'_', b'D', b'd', 0x7F, 0xC3]);
        }
        2 => spoil_field(random, &mut owner, 3, 13),
        _ => {}
    }
    owner
}

/// Puts bytes that make no text behind the first so many of a field, which may cut them.
fn spoil_field(random: &mut Random, field: &mut Vec<u8>, first: usize, width: usize) {
    let mut text = field.split_off(first.min(field.len()));
    values::spoil_text(random, &mut text);
    field.extend(text);
    field.truncate(width);
}

/// A good basic block before a chain of good, bad and cut blocks, fillers and end marks.
pub fn mixed_chain(random: &mut Random) -> Vec<u8> {
    let mut draft = draft(random);
    for _ in 0..random.below(5) {
        let length = random.between(3, 9);
        match random.below(12) {
            0 => draft.chain.push(0),
            1 => draft.chain.extend([2, random.byte()]),
            2 => draft.chain.extend([random.between(3, 12) as u8, random.pick(&[0, 1, 2]), 0]),
            3 | 4 => draft.chain.extend(build::block(1, &[random.pick(&[0, 5])])),
            5 => draft.chain.extend(build::block(0, &[4])),
            6 => draft.chain.extend(random.bytes(length)),
            7 | 8 => draft.chain.push(1),
            _ => draft.chain.extend(values::carried(random, length)),
        }
    }
    let over = random.below(3).min(draft.chain.len());
    draft.chain.truncate(draft.chain.len() - over);
    if random.one_in(3) {
        // Ends at the tag's last byte, without an end mark.
        let end = chain::START + draft.chain.len();
        draft.chain.splice(0..0, vec![1; end.next_multiple_of(4) - end]);
    }
    finished(random, draft)
}

/// Changes one to three bytes anywhere, then leaves the checks, repairs the CRC, or repairs all checks, so that later
/// refusals are reached.
pub fn damage(random: &mut Random, tag: &mut [u8]) {
    for _ in 0..random.pick(&[1, 1, 1, 2, 3]) {
        if tag.is_empty() {
            return;
        }
        let place = match random.below(6) {
            0 => random.below(3),
            1 => random.between(3, 18),
            2 => random.between(19, 33),
            _ => random.below(tag.len()),
        };
        let place = place.min(tag.len() - 1);
        tag[place] = match random.below(4) {
            0 => random.pick(&[0, 1, 2, 3, 4, 255]),
            1 => tag[place] ^ 1 << random.below(8),
            2 => tag[place].wrapping_add(1),
            _ => random.byte(),
        };
    }
    match random.below(5) {
        0 => {}
        1 => build::repair_crc(tag),
        _ => repair(tag),
    }
}

/// Puts all checks right.
pub fn repair(tag: &mut [u8]) {
    build::repair_blocks(tag);
    build::repair_crc(tag);
}

/// Random bytes, mostly as many as a tag can have.
pub fn noise(random: &mut Random) -> Vec<u8> {
    let length = if random.one_in(4) { random.below(2100) } else { length(random) };
    random.bytes(length)
}

/// Random bytes that pass 1, 3 and 4, with the checksums of their blocks; half of them have no block.
pub fn checked(random: &mut Random) -> Vec<u8> {
    let length = length(random);
    let mut tag = random.bytes(length);
    tag[0] = tag[0] & 0xF0 | 1;
    if random.one_in(2) {
        tag.iter_mut().skip(chain::START).take(1).for_each(|end_mark| *end_mark = 0);
    }
    repair(&mut tag);
    tag
}

/// A tag of any kind.
pub fn any(random: &mut Random) -> Vec<u8> {
    let mut tag = match random.below(20) {
        0..=6 => own(random),
        7..=10 => loose(random),
        11..=14 => mixed(random),
        15 | 16 => mixed_chain(random),
        17 => damaged::any(random).tag,
        18 => checked(random),
        _ => {
            let length = bad_length(random);
            let mut tag = own(random);
            tag.resize(length, 0);
            build::repair_crc(&mut tag);
            tag
        }
    };
    if random.one_in(4) {
        damage(random, &mut tag);
    }
    tag
}
