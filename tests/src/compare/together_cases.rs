//! Cases of putting an identifier together.

use super::apart_cases::{about_the_limit, isils};
use super::case::{Call, Case, Outcome};
use super::to_words_cases::texts;
use crate::generate::identifiers::{self, Elements, Text};
use crate::generate::words;
use crate::model::take_apart;
use crate::random::Random;

/// The fixed cases and so many random ones.
pub fn all(seed: u64, count: usize) -> impl Iterator<Item = Case> + Send {
    let elements = nothing().chain(published()).chain(every_pair()).chain(every_byte()).chain(dots());
    elements.chain(lengths()).chain(combined()).chain(random(seed, count))
}

/// Random bytes, elements that were taken from a text, and elements good and bad.
pub fn random(seed: u64, count: usize) -> impl Iterator<Item = Case> + Send {
    let mut random = Random::new(seed);
    (0..count).map(move |_| match random.below(8) {
        0 => {
            let lengths = [random.below(4), random.below(4), random.pick(&[3, 4, 4, 5])];
            let elements = lengths.map(|length| random.bytes(length));
            in_any_room(&mut random, "random bytes as elements", elements, 8)
        }
        1 | 2 => taken(&mut random),
        _ => {
            let Elements { elements, right } = identifiers::elements(&mut random);
            let group = if right.is_ok() { "good elements" } else { "elements of which one or more are bad" };
            in_any_room(&mut random, group, elements, right.map_or(20, |text| text.len()))
        }
    })
}

fn in_any_room(random: &mut Random, group: &'static str, elements: [Vec<u8>; 3], exact: usize) -> Case {
    let room = words::room(random, exact);
    let text = random.bytes(room);
    Case::new(group, Call::together(elements, text))
}

/// Elements that were taken from a text: not what the model makes of them, but the law itself. What was taken apart builds the
/// same characters.
fn taken(random: &mut Random) -> Case {
    let (text, isil_leads) = loop {
        if let Text { text, isil_leads, right: Ok(_) } = identifiers::text(random) {
            break (text, isil_leads);
        }
    };
    let (mut item, mut isil, mut set) = ([0; 255], [0; 16], [0; 4]);
    let lengths =
        take_apart(&text, isil_leads, [&mut item, &mut isil, &mut set]).expect("good parts, and room for all");
    let elements = [item[..lengths[0]].to_vec(), isil[..lengths[1]].to_vec(), set[..lengths[2]].to_vec()];
    let more = random.below(3);
    let behind = random.bytes(more);
    let call = Call::together(elements.clone(), [&vec![0xEE; text.len()], &behind[..]].concat());
    let used = vec![text.len() as u64];
    let buffers = elements.into_iter().chain([[text, behind].concat()]).collect();
    Case { group: "elements of a text, put together", call, expected: Outcome { answer: 0, results: used, buffers } }
}

fn case(group: &'static str, elements: [&[u8]; 3], room: usize) -> Case {
    Case::new(group, Call::together(elements.map(<[u8]>::to_vec), vec![0xEE; room]))
}

/// No elements, and few, often enough that the buffers are passed in every way.
fn nothing() -> impl Iterator<Item = Case> + Send {
    let few: [[&[u8]; 3]; 4] = [[b"", b"", b""], [b"", b"", &[0; 4]], [b"a", b"", b""], [b"a", b"", &[0; 4]]];
    (0..64).map(move |time| case("few elements or none", few[time / 16], time / 8 % 2))
}

/// The elements of the papers' text in every room up to one more than is needed.
fn published() -> impl Iterator<Item = Case> + Send {
    let isils: [&[u8]; 2] = [b"CH-000134-1", b""];
    let sets: [&[u8]; 5] = [&[3, 0, 1, 0], &[0; 4], &[10, 0, 0, 0], &[255, 0, 7, 0], &[1, 0, 2, 0]];
    isils.into_iter().flat_map(move |isil| {
        sets.into_iter().flat_map(move |set| {
            (0..=28).map(move |room| case("the papers' elements, all rooms", [b"12345678", isil, set], room))
        })
    })
}

/// Every total with every ordinal, and each of these numbers with a high byte.
fn every_pair() -> impl Iterator<Item = Case> + Send {
    let pairs = (0..=u16::MAX).map(|pair| pair.to_be_bytes());
    let high = (1..=255).flat_map(|high| [[0, high, 0, 0], [255, 0, 0, high], [4, high, 4, 0], [255, high, 255, high]]);
    pairs
        .map(|[total, ordinal]| [total, 0, ordinal, 0])
        .chain(high)
        .map(|set| case("every total with every ordinal, and high bytes", [b"X", b"", &set], 8))
}

/// Every byte in each place of each element.
fn every_byte() -> impl Iterator<Item = Case> + Send {
    (0..=255).flat_map(|byte| {
        let items = [vec![byte], vec![b'a', byte, b'b']].map(|item| (item, vec![], vec![3, 0, 1, 0]));
        let isils = [vec![byte], vec![byte, b'-', b'1'], vec![b'D', byte, b'-', b'1'], vec![b'D', b'K', b'-', byte]];
        let isils = isils.map(|isil| (b"X".to_vec(), isil, vec![0; 4]));
        let sets = (0..=5).map(|length| (b"X".to_vec(), vec![], vec![byte; length]));
        let all = items.into_iter().chain(isils).chain(sets);
        all.map(|(item, isil, set)| case("every byte in each element", [&item, &isil, &set], 12)).collect::<Vec<_>>()
    })
}

/// Every identifier of up to four characters, dots among them, and a dot in each place of an ISIL.
fn dots() -> impl Iterator<Item = Case> + Send {
    let items = texts(b".S3a", 4).map(|item| case("dots in identifier and ISIL", [&item, b"", &[3, 0, 1, 0]], 8));
    let isils = (0..=4).map(|place| {
        let mut isil = b"DK-1".to_vec();
        isil.insert(place, b'.');
        case("dots in identifier and ISIL", [b"X", &isil, &[0; 4]], 12)
    });
    items.chain(isils)
}

/// Identifiers about as long as the limit beside the shortest and the longest others, in rooms that are exact and one short;
/// and ISILs of every length.
fn lengths() -> impl Iterator<Item = Case> + Send {
    let identifiers = about_the_limit().flat_map(|length| {
        let others: [(&[u8], [u8; 4], usize); 4] =
            [(b"", [0; 4], 0), (b"D-1", [0; 4], 4), (b"", [9, 0, 9, 0], 3), (b"OCLC-12345678901", [100, 0, 0, 0], 24)];
        others.into_iter().flat_map(move |(isil, set, more)| {
            [length + more, (length + more).saturating_sub(1), 0]
                .map(|room| case("identifiers about as long as the limit", [&vec![b'x'; length], isil, &set], room))
        })
    });
    identifiers.chain(isils().map(|isil| case("ISILs of every length", [b"X", isil.as_bytes(), &[0; 4]], 24)))
}

/// Good and bad elements in all ways together, with room and without: the order.
fn combined() -> impl Iterator<Item = Case> + Send {
    let items = [&b"AB"[..], b"", b"A.B", b"\xC3", b"\xC3\xA9", &[b'x'; 256]];
    let isils = [&b""[..], b"DK-1", b"dk-1", b"DK-1."];
    let sets = [&b""[..], &[0; 4], &[3, 0, 1, 0], &[1, 0, 2, 0], &[0, 1, 0, 0], &[0, 0, 1, 0], b"31", &[3, 1]];
    items.into_iter().flat_map(move |item| {
        isils.into_iter().flat_map(move |isil| {
            sets.into_iter().flat_map(move |set| {
                [0, 9, 300].map(|room| case("good and bad elements in all ways together", [item, isil, set], room))
            })
        })
    })
}
