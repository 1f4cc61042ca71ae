//! Lock maps.

use crate::model::pages::PAGE;
use crate::random::Random;

pub fn open(tag_length: usize) -> Vec<u8> {
    vec![0; tag_length / PAGE]
}

pub fn all_locked(tag_length: usize) -> Vec<u8> {
    vec![1; tag_length / PAGE]
}

/// A map of the right form: mostly open, else a few locks, half of the pages, or all.
pub fn good(random: &mut Random, tag_length: usize) -> Vec<u8> {
    let mut locks = open(tag_length);
    match random.below(8) {
        0 => return all_locked(tag_length),
        1 => locks.iter_mut().for_each(|lock| *lock = random.byte() & 1),
        2 | 3 if !locks.is_empty() => {
            let page = random.below(locks.len());
            locks[page] = 1;
        }
        _ => {}
    }
    locks
}

/// A map of a wrong length, or one with a byte above 1. The last kind keeps the length, where there is a page.
pub fn bad(random: &mut Random, tag_length: usize) -> Vec<u8> {
    let mut locks = good(random, tag_length);
    match random.below(5) {
        0 => locks.push(0),
        1 if !locks.is_empty() => drop(locks.pop()),
        2 => locks = Vec::new(),
        3 => locks.resize(tag_length, 0),
        _ if locks.is_empty() => locks.push(2),
        _ => {
            let page = random.below(locks.len());
            locks[page] = random.pick(&[2, 3, 0x80, 0xFF]);
        }
    }
    locks
}

/// One in so many maps is bad.
pub fn any(random: &mut Random, tag_length: usize, bad_in: usize) -> Vec<u8> {
    if random.one_in(bad_in) {
        bad(random, tag_length)
    } else {
        good(random, tag_length)
    }
}
