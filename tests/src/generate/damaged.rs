//! Tags with damage in the chain. What damage it is and where follows from how they are made; the model is not asked.

use super::{tags, values};
use crate::build::{block, hex, Draft};
use crate::model::chain::START;
use crate::model::refusal::{CHECKSUM, DAMAGE, END, ID, LENGTH, SECOND};
use crate::random::Random;

/// A tag that is refused for its chain, with the number and the place.
#[derive(Debug)]
pub struct Damaged {
    pub tag: Vec<u8>,
    pub number: u32,
    pub place: usize,
}

/// Damaged blocks and the number of each. Those of 16 run past the tag's end where they stand last, and the one of 255
/// bytes wherever it stands; those of 19 need a block 1 before them.
fn kinds() -> Vec<(u32, Vec<u8>)> {
    let wrong_sum = |id: u16| {
        let mut block = block(id, b"x");
        block[3] ^= 0x80;
        block
    };
    vec![
        (LENGTH, hex("02")),
        (LENGTH, hex("02 00")),
        (END, hex("03")),
        (END, hex("FF 00 00")),
        (END, hex("05 01 00 04")),
        (ID, hex("03 00 00")),
        (ID, hex("04 00 00 04")),
        (ID, hex("04 00 00 00")),
        (ID, hex("03 01 00")),
        (ID, hex("03 64 00")),
        (CHECKSUM, wrong_sum(1)),
        (CHECKSUM, wrong_sum(2)),
        (CHECKSUM, wrong_sum(100)),
        (SECOND, block(1, b"")),
        (SECOND, block(1, &[5])),
    ]
}

/// Each kind as the first block, a middle one and the last, behind fillers, at the tag's end, and before each other kind.
pub fn every() -> Vec<Damaged> {
    let (one, other) = (&block(1, &[5])[..], &block(300, b"x")[..]);
    let with_block_one = [[one, other].concat(), [other, &[1], one, &[1]].concat()];
    let without = [vec![], vec![1, 1, 1], other.to_vec()];
    let mut all = Vec::new();
    for (number, damaged) in kinds() {
        let without = without.iter().filter(|_| number != SECOND);
        for before in without.chain(&with_block_one) {
            all.extend([36, 64, 2048].map(|least| ending(number, before, &damaged, least)));
            if number != END || damaged[0] == 255 {
                all.extend([b"", other].map(|behind| followed(number, before, &damaged, behind)));
                all.extend(kinds().iter().map(|(_, behind)| followed(number, before, &damaged, behind)));
            }
        }
    }
    all
}

/// The damaged block at the end of a tag of at least so many bytes, fillers before all.
fn ending(number: u32, before: &[u8], damaged: &[u8], least: usize) -> Damaged {
    let end = START + before.len() + damaged.len();
    let length = end.next_multiple_of(4).max(least);
    let fillers = vec![1; length - end];
    let tag = Draft::default().chain(&[&fillers, before, damaged]).tag(length);
    Damaged { tag, number, place: length - damaged.len() }
}

/// The damaged block with these bytes behind it, on 64 bytes.
fn followed(number: u32, before: &[u8], damaged: &[u8], behind: &[u8]) -> Damaged {
    let tag = Draft::default().chain(&[before, damaged, behind]).tag(64);
    Damaged { tag, number, place: START + before.len() }
}

/// A tag with damage of any number at any place, and any fields; other damage may stand behind it.
pub fn any(random: &mut Random) -> Damaged {
    let number = random.pick(&DAMAGE);
    let before = sound(random, number == SECOND);
    let damaged = damaged_block(random, number);
    let at_end = number == END || random.one_in(3);
    let behind = if at_end { Vec::new() } else { anything(random) };
    let end = START + before.len() + damaged.len() + behind.len();
    let length = if random.one_in(20) { 2048 } else { end.next_multiple_of(4) };
    let fillers = vec![1; if at_end { length - end } else { 0 }];
    let mut draft = if random.one_in(2) { tags::draft(random) } else { tags::mixed_draft(random) };
    draft.chain = [&fillers[..], &before, &damaged, &behind].concat();
    Damaged { tag: draft.tag(length), number, place: START + fillers.len() + before.len() }
}

/// A sound piece of a chain: up to three blocks or runs of fillers, and a block 1 by chance or where it is asked for.
fn sound(random: &mut Random, with_block_one: bool) -> Vec<u8> {
    let mut parts: Vec<Vec<u8>> = Vec::new();
    for _ in 0..random.below(4) {
        let length = random.between(3, 14);
        parts.push(if random.one_in(3) { vec![1; length / 3] } else { values::carried(random, length) });
    }
    if with_block_one || random.one_in(3) {
        parts.insert(random.below(parts.len() + 1), block(1, &[random.pick(&[0, 5])]));
    }
    parts.concat()
}

/// A block with this damage, and with none that is tested before it.
fn damaged_block(random: &mut Random, number: u32) -> Vec<u8> {
    let more = random.below(9);
    let body = random.bytes(more);
    match number {
        LENGTH => [&[2], &body[..]].concat(),
        END => cut_off(random, &body),
        ID if random.one_in(2) => vec![3, random.between(1, 100) as u8, 0],
        ID => [&[3 + body.len() as u8, 0, 0], &body[..]].concat(),
        CHECKSUM => {
            let mut block = block(random.pick(&[1, 2, 99, 100]), &body);
            let place = random.between(3, block.len() - 1);
            block[place] ^= random.between(1, 255) as u8;
            block
        }
        _ => block(1, &body),
    }
}

/// The first bytes of a block that is longer, none or some of its ID among them.
fn cut_off(random: &mut Random, body: &[u8]) -> Vec<u8> {
    let mut block = [&random.pick(&[[0, 0], [1, 0], [2, 0], [44, 1]])[..], body].concat();
    block.truncate(random.between(0, block.len()));
    // Its length is one more than what is there, or anything more; not 2.
    let least = (2 + block.len()).max(3);
    let length = if random.one_in(2) { least } else { random.between(least, 255) };
    block.insert(0, length as u8);
    block
}

/// What may stand behind a damaged block: the end, sound blocks, other damage, or no blocks at all.
fn anything(random: &mut Random) -> Vec<u8> {
    match random.below(4) {
        0 => vec![0],
        1 => sound(random, false),
        2 => {
            let number = random.pick(&DAMAGE);
            damaged_block(random, number)
        }
        _ => random.bytes(12),
    }
}
