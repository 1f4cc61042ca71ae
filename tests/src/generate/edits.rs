//! Edits: a number and new bytes, and the room for the old element.

use super::values;
use crate::model::element::{ALWAYS, PRIMARY};
use crate::model::Content;
use crate::random::Random;

/// Numbers that a host may pass by mistake.
const FAR: [u32; 9] = [0, 2, 255, 256, 257, 259, 65_537, 0x0100_0001, u32::MAX];

#[derive(Clone, Debug)]
pub struct Edit {
    pub number: u32,
    pub value: Vec<u8>,
}

/// An edit of any kind: setting, removing, setting the same, a bad value, a number that is not in the table.
pub fn any(random: &mut Random, content: &Content) -> Edit {
    let number = values::single(random);
    let value = match random.below(16) {
        0..=7 => values::good(random, number, 255),
        8..=9 => values::good(random, number, 16),
        10 => content.get(number).to_vec(),
        11..=12 => Vec::new(),
        13 => values::bad(random, number),
        14 => return strange_number(random),
        _ => {
            let length = random.pick(&[0, 1, 254, 255, 256, 257, 299, 300]);
            return Edit { number: u32::from(number), value: values::text(random, length) };
        }
    };
    Edit { number: u32::from(number), value }
}

/// Random bytes under a random number, one of the table's as often as not.
pub fn noise(random: &mut Random) -> Edit {
    let number = if random.one_in(2) { u32::from(values::single(random)) } else { random.number() as u32 };
    let length = random.below(301);
    Edit { number, value: random.bytes(length) }
}

fn strange_number(random: &mut Random) -> Edit {
    let number = match random.below(3) {
        0 => random.pick(&FAR),
        1 => random.below(301) as u32,
        _ => u32::from(values::single(random)) + 256 * random.between(1, 1000) as u32,
    };
    let length = random.below(301);
    let value = if random.one_in(3) { values::good(random, PRIMARY, 20) } else { values::text(random, length) };
    Edit { number, value }
}

/// An edit that is more often accepted: good values of a modest length, and removals.
pub fn modest(random: &mut Random, content: &Content) -> Edit {
    let number = values::single(random);
    if random.one_in(8) {
        return any(random, content);
    }
    let longest = random.pick(&[8, 16, 40]);
    let remove = !ALWAYS.contains(&number) && random.one_in(4);
    let value = if remove { Vec::new() } else { values::good(random, number, longest) };
    Edit { number: u32::from(number), value }
}

/// The length of a buffer for the old element: mostly enough.
pub fn old_room(random: &mut Random, short_in: usize) -> usize {
    if random.one_in(short_in) {
        random.pick(&[0, 1, 254])
    } else {
        random.pick(&[255, 255, 256, 300])
    }
}
