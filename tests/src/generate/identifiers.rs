//! UHF identifiers, and the elements that they are made of, good and bad. What becomes of them follows from how they are
//! made; the model is not asked.

use super::{values, words};
use crate::model::element::{ISIL, PRIMARY};
use crate::random::Random;

/// What a caller says of an ISIL: no, and yes in numbers of which a byte, a half or a sign alone would say another thing.
pub const LEADS: [u32; 6] = [0, 1, 2, 256, 0x8000_0000, 0xFFFF_FFFF];

/// What is neither S nor set information, in the set's place, with bars between: what is like S or like digits; odd counts,
/// and more than six digits; a total of 0, below its count's range, above 255; an ordinal above its total.
const BAD_SETS: [&str; 4] = [
    "|s|SS|3S|S3|S1S|S | S|+1|-1|1 | 1|1/|1:|/1|:1",
    "1|111|99099|1001000|10001000",
    "00|01|0000|0901|0909|000000|099099|009009|256000|256255|260004|999255",
    "12|1011|100101",
];

pub fn bad_sets() -> Vec<&'static [u8]> {
    BAD_SETS.iter().flat_map(|row| row.split('|').map(str::as_bytes)).collect()
}

/// A text, what its caller says of an ISIL, and what must become of it where there is room: elements 1, 3 and 4, or 22, 6 or
/// 23.
pub struct Text {
    pub text: Vec<u8>,
    pub isil_leads: u32,
    pub right: Result<[Vec<u8>; 3], u32>,
}

impl Text {
    /// The lengths of its elements; of a text that is refused, some.
    pub fn lengths(&self) -> [usize; 3] {
        self.right.as_ref().map_or([8, 8, 4], |elements| elements.each_ref().map(Vec::len))
    }
}

/// Elements 1, 3 and 4, and what must become of them where there is room: a text, or 9.
pub struct Elements {
    pub elements: [Vec<u8>; 3],
    pub right: Result<Vec<u8>, u32>,
}

/// No about half of the time.
pub fn leads(random: &mut Random) -> u32 {
    if random.one_in(2) {
        0
    } else {
        random.pick(&LEADS)
    }
}

/// A text of parts that are all good, or of which some are bad; seldom in a number that the caller's word does not allow.
pub fn text(random: &mut Random) -> Text {
    let (isil_leads, seldom) = (leads(random), random.pick(&[1000, 3, 2]));
    let mut flawed = || random.one_in(seldom);
    let [bad_isil_part, bad_item_part, bad_set] = [flawed(), flawed(), flawed()];
    let isil_part = match isil_leads {
        0 => Vec::new(),
        _ if bad_isil_part => bad_isil(random),
        _ => isil(random),
    };
    let item_part = if bad_item_part { bad_item(random) } else { item(random) };
    let (set_part, set) = set_part(random, bad_set);
    let leading = (isil_leads != 0).then_some(isil_part.clone());
    let mut parts: Vec<Vec<u8>> = leading.into_iter().chain([item_part.clone()]).chain(set_part).collect();
    let right = if random.one_in(8) {
        misnumber(random, &mut parts, isil_leads != 0);
        Err(22)
    } else if bad_item_part || (bad_isil_part && isil_leads != 0) {
        Err(6)
    } else {
        set.map(|set| [item_part, isil_part, set])
    };
    Text { text: parts.join(&b'.'), isil_leads, right }
}

/// The set's part of a text, if there is one, and its element or refusal.
fn set_part(random: &mut Random, is_bad: bool) -> (Option<Vec<u8>>, Result<Vec<u8>, u32>) {
    if is_bad {
        return (Some(bad_set_part(random)), Err(6));
    }
    match random.below(6) {
        0 | 1 => (None, Ok(vec![0; 4])),
        2 => (Some(b"S".to_vec()), Err(23)),
        _ => {
            let (total, ordinal) = set(random);
            (Some(digits(total, ordinal)), Ok(vec![total, 0, ordinal, 0]))
        }
    }
}

/// One part alone where an ISIL should lead, or too many parts.
fn misnumber(random: &mut Random, parts: &mut Vec<Vec<u8>>, isil_leads: bool) {
    if isil_leads && random.one_in(2) {
        parts.truncate(1);
        return;
    }
    let count = if isil_leads { random.between(4, 6) } else { random.between(3, 5) };
    while parts.len() < count {
        let more = random.pick(&[&b""[..], b"S", b"31", b"A", b"DK-1", b"\xFF"]);
        parts.insert(random.below(parts.len() + 1), more.to_vec());
    }
}

/// Elements that are all good, or of which some are bad.
pub fn elements(random: &mut Random) -> Elements {
    let seldom = random.pick(&[1000, 3, 2]);
    let mut flawed = || random.one_in(seldom);
    let flaws = [flawed(), flawed(), flawed()];
    let is_led = random.one_in(2);
    let (total, ordinal) = if random.one_in(3) { (0, 0) } else { set(random) };
    let item = if flaws[0] { bad_item_element(random) } else { item(random) };
    let isil = match is_led {
        _ if flaws[1] => bad_isil_element(random),
        true => isil(random),
        false => Vec::new(),
    };
    let set = if flaws[2] { bad_set_element(random) } else { vec![total, 0, ordinal, 0] };
    let digits = if total == 0 { Vec::new() } else { digits(total, ordinal) };
    let parts = [(is_led, &isil), (true, &item), (total != 0, &digits)];
    let parts: Vec<&[u8]> = parts.into_iter().filter(|(there, _)| *there).map(|(_, part)| &part[..]).collect();
    let right = if flaws.contains(&true) { Err(9) } else { Ok(parts.join(&b'.')) };
    Elements { elements: [item, isil, set], right }
}

/// A good identifier without a dot; now and then one that looks like another part, or one as long as it may be.
pub fn item(random: &mut Random) -> Vec<u8> {
    let item = match random.below(16) {
        0 => random.pick(&[&b"S"[..], b"31", b"00", b"1099", b"255255", b"260004", b"DK-1", b"s", b"0"]).to_vec(),
        1 => values::good(random, PRIMARY, 255),
        2 => {
            let length = random.between(253, 255);
            values::text(random, length)
        }
        _ => {
            let length = random.between(1, 12);
            values::text(random, length)
        }
    };
    without_dots(item)
}

fn without_dots(mut text: Vec<u8>) -> Vec<u8> {
    text.iter_mut().filter(|byte| **byte == b'.').for_each(|dot| *dot = b',');
    text
}

/// No identifier, and without a dot: empty, above 255 bytes, or no text.
pub fn bad_item(random: &mut Random) -> Vec<u8> {
    match random.below(4) {
        0 => Vec::new(),
        1 => {
            let length = random.pick(&[256, 257, 300, 511, 512]);
            without_dots(values::text(random, length))
        }
        _ => {
            let mut item = item(random);
            values::spoil_text(random, &mut item);
            item
        }
    }
}

/// What cannot be built: no identifier, or a dot in it.
fn bad_item_element(random: &mut Random) -> Vec<u8> {
    if random.one_in(2) {
        return bad_item(random);
    }
    let mut item = item(random);
    item.insert(random.pick(&[0, item.len()]), b'.');
    item
}

pub fn isil(random: &mut Random) -> Vec<u8> {
    values::good(random, ISIL, 16)
}

/// No ISIL, and without a dot: a length wrong, no hyphen, or a byte that has no place in one.
pub fn bad_isil(random: &mut Random) -> Vec<u8> {
    let mut isil = isil(random);
    match random.below(8) {
        0 => return values::isil_of(random, 0, 8),
        1 => return values::isil_of(random, 5, 8),
        2 => return values::isil_of(random, 2, 12),
        3 => return values::isil_of(random, 2, 0),
        4 => return random.pick(&[&b""[..], b"-", b"DK", b"DK1", b"D1-1", b"dk-1"]).to_vec(),
        5 => isil[0].make_ascii_lowercase(),
        _ => isil.insert(random.below(isil.len() + 1), random.pick(b"\0\x1F _,;+@[`{\x7F\x80\xC3\xFF")),
    }
    isil
}

/// What cannot be built; where there are no bytes, there is no ISIL, which is good.
fn bad_isil_element(random: &mut Random) -> Vec<u8> {
    let mut isil = bad_isil(random);
    if isil.is_empty() || random.one_in(8) {
        isil.push(b'.');
    }
    isil
}

/// A total of 1 to 255 and an ordinal up to it, often on an edge.
pub fn set(random: &mut Random) -> (u8, u8) {
    let total = if random.one_in(2) { random.pick(&[1, 9, 10, 99, 100, 255]) } else { random.between(1, 255) as u8 };
    let ordinal = match random.below(4) {
        0 => total,
        1 => random.pick(&[0, 9, 10, 99, 100]).min(total),
        _ => random.below(usize::from(total) + 1) as u8,
    };
    (total, ordinal)
}

/// The digits of set information: each number in as many as its total takes.
pub fn digits(total: u8, ordinal: u8) -> Vec<u8> {
    match total {
        0..=9 => format!("{total}{ordinal}"),
        10..=99 => format!("{total}{ordinal:02}"),
        100..=255 => format!("{total}{ordinal:03}"),
    }
    .into_bytes()
}

/// Neither S nor set information, and without a dot.
pub fn bad_set_part(random: &mut Random) -> Vec<u8> {
    let (total, ordinal) = set(random);
    let mut part = digits(total, ordinal);
    match random.below(7) {
        0 => part.insert(random.below(part.len() + 1), random.pick(b"0123456789")),
        1 => part.extend(b"000000"),
        2 => part[0] = random.pick(b"/:S-+ \0\xB1"),
        3 => *part.last_mut().expect("a set has digits") = random.pick(b"/:S-+ \0\xB1"),
        4 => return format!("{:03}{:03}", random.between(256, 999), random.below(256)).into_bytes(),
        5 => return of_wrong_numbers(random, total),
        _ => return random.pick(&bad_sets()).to_vec(),
    }
    part
}

/// More digits than the total takes, or an ordinal above it.
fn of_wrong_numbers(random: &mut Random, total: u8) -> Vec<u8> {
    let width = digits(total, 0).len() / 2;
    let more = random.between(width + 1, 4);
    let above = usize::from(total) + random.between(1, 5);
    let part = if random.one_in(2) { format!("{total:0more$}{:0more$}", 0) } else { format!("{total}{above:0width$}") };
    part.into_bytes()
}

/// Not element 4's form: a length other than four, a number above 255, or an ordinal above the total.
fn bad_set_element(random: &mut Random) -> Vec<u8> {
    let (total, ordinal) = set(random);
    let high = random.between(1, 255) as u8;
    match random.below(7) {
        0 => vec![total, 0, ordinal],
        1 => vec![total, 0, ordinal, 0, 0],
        2 => vec![total, high, ordinal, 0],
        3 => vec![total, 0, ordinal, high],
        4 => vec![total - 1, 0, total, 0],
        5 => digits(total, ordinal).into_iter().chain(*b"0").collect(),
        _ => Vec::new(),
    }
}

/// Rooms for three outputs of these lengths: exact, one short or none in just one of them, more, or anything.
pub fn rooms(random: &mut Random, exact: [usize; 3]) -> [usize; 3] {
    let (mut rooms, one) = (exact, random.below(3));
    match random.below(8) {
        0 | 1 => rooms[one] = exact[one].saturating_sub(1),
        2 => rooms[one] = 0,
        3 => rooms = [0; 3],
        4 => rooms = exact.map(|exact| exact + random.between(1, 20)),
        5 => rooms = exact.map(|exact| words::room(random, exact)),
        _ => {}
    }
    rooms
}
