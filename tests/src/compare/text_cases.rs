//! Strings wherever text stands: all of one and of two bytes, those of three and four at the bounds of RFC 3629, and names
//! whose bytes, or characters, are about as many as a limit.

use super::arguments::Subject;
use super::case::{Call, Case};
use super::engine::{self, boxed, Cases};
use super::sweep;
use crate::build::{block, Draft};
use crate::generate::locks;
use crate::model::sheet::Entry;
use crate::trial::{sheet_with, tag_with};

/// The call that has this string where text stands.
pub type WithString = fn(&[u8]) -> Call;

/// Every such place. On a tag the string ends with its field, so that bytes of another meaning follow, or the end of the tag or
/// of block 1. In an identifier a dot follows, or the end.
const PLACES: [WithString; 15] = [
    item_field,
    |string| read(Draft::default().owner(&other_owner(2, &filling(10, string))), 36),
    |string| read(Draft::default().owner(&other_owner(3, &filling(8, string))), 32),
    block_one_item,
    |string| with_block_one(&[1], b"", &[&[0], string].concat()),
    |string| with_block_one(b"", &[0, 0, 1], &[&[0, 0, 3, b'a'], string].concat()),
    sheet_item,
    |string| write(22, string),
    |string| write(23, &[&[2], string].concat()),
    edit_item,
    |string| edit(22, string),
    |string| edit(23, &[&[3], string].concat()),
    |string| apart(&[b"a", string].concat()),
    |string| apart(&[string, b".31"].concat()),
    |string| Call::together([string.to_vec(), vec![], vec![3, 0, 1, 0]], vec![0xEE; 8]),
];

/// Every bound of the first byte, of the second and of the others in RFC 3629's table, with its neighbour beyond; 00, 1F, 20,
/// 7E and 7F besides.
const FIRST: [u8; 25] = [
    0x00, 0x1F, 0x20, 0x7E, 0x7F, 0x80, 0xBF, 0xC0, 0xC1, 0xC2, 0xDF, 0xE0, 0xE1, 0xEC, 0xED, 0xEE, 0xEF, 0xF0, 0xF1,
    0xF3, 0xF4, 0xF5, 0xF7, 0xF8, 0xFF,
];
const SECOND: [u8; 10] = [0x00, 0x20, 0x7F, 0x80, 0x8F, 0x90, 0x9F, 0xA0, 0xBF, 0xC0];
const OTHERS: [u8; 5] = [0x20, 0x7F, 0x80, 0xBF, 0xC0];

/// The sweep with so many first bytes, and then the cases. There is no chance in them.
pub fn compare(program: &[String], seed: u64, count: usize) -> Result<String, String> {
    let mut report = sweep::compare(program, count)?;
    if !report.differs() {
        report.add(engine::compare(program, shares())?);
    }
    report.judged(Subject::Texts.name(), seed, Subject::Texts.to_be_met())
}

/// The names, and two shares for each place, those with fewer cases first.
fn shares() -> Vec<Cases> {
    let bounds = PLACES.map(|call| cases("strings of 3 and 4 bytes at every bound, in 15 places", call, at_bounds()));
    let short = PLACES.map(|call| cases("all strings of 1 and 2 bytes, in 15 places", call, one_and_two()));
    [boxed(limits())].into_iter().chain(bounds).chain(short).collect()
}

fn cases(group: &'static str, call: WithString, strings: impl Iterator<Item = Vec<u8>> + Send + 'static) -> Cases {
    boxed(strings.map(move |string| Case::new(group, call(&string))))
}

fn one_and_two() -> impl Iterator<Item = Vec<u8>> + Send {
    let two = (0..=u16::MAX).map(|number| number.to_be_bytes().to_vec());
    (0..=255).map(|byte| vec![byte]).chain(two)
}

fn at_bounds() -> impl Iterator<Item = Vec<u8>> + Send {
    let three = FIRST
        .into_iter()
        .flat_map(|first| SECOND.into_iter().flat_map(move |second| OTHERS.map(|third| vec![first, second, third])));
    three.flat_map(|string| {
        let four = OTHERS.map(|fourth| [&string[..], &[fourth]].concat());
        [string].into_iter().chain(four)
    })
}

/// Names of 7 to 18 and of 246 to 257 bytes, of characters of 2, 3 and 4 bytes, written and set on five tags.
fn limits() -> impl Iterator<Item = Case> + Send {
    let names = (7..=18).chain(246..=257).flat_map(|length| ["é", "€", "😀"].map(|character| name(character, length)));
    names.flat_map(|name| {
        let owner = [&[2], &name[..]].concat();
        [(1, name.clone()), (22, name), (23, owner)].into_iter().flat_map(|(number, value)| {
            let others: [(usize, &[Entry]); 5] =
                [(32, &[]), (36, &[]), (64, &[(22, b"x")]), (2048, &[]), (2048, &[(22, b"x")])];
            others.into_iter().flat_map(move |(length, others)| beside(number, &value, others, length))
        })
    })
}

/// A text of exactly so many bytes: this character, and letters of one byte where it does not go in.
pub fn name(character: &str, length: usize) -> Vec<u8> {
    let mut name = character.repeat(length / character.len()).into_bytes();
    name.resize(length, b'x');
    name
}

/// The element beside these others, written where a sheet can hold it, and set.
fn beside(number: u8, value: &[u8], others: &[Entry], length: usize) -> Vec<Case> {
    let mut entries: Vec<Entry> = others.iter().copied().filter(|(other, _)| *other != number).collect();
    let open = locks::open(length);
    let edit = Call::edit(tag_with(others, length), open.clone(), u32::from(number), value.to_vec(), vec![0xEE; 255]);
    entries.push((number, value));
    let write = (value.len() <= 255).then(|| Call::write(sheet_with(&entries), vec![0xEE; length], open));
    let calls = [edit].into_iter().chain(write);
    calls.map(|call| Case::new("names about as long as a limit", call)).collect()
}

/// The item field, to its end.
pub fn item_field(string: &[u8]) -> Call {
    read(Draft::default().item(&filling(16, string)), 32)
}

/// Block 1's item field, between the media format and a separator.
pub fn block_one_item(string: &[u8]) -> Call {
    with_block_one(b"", b"", &[&[5], string, &[0, 0, 0x15]].concat())
}

pub fn sheet_item(string: &[u8]) -> Call {
    write(1, string)
}

pub fn edit_item(string: &[u8]) -> Call {
    edit(1, string)
}

/// The string behind letters that fill the field with it.
fn filling(width: usize, string: &[u8]) -> Vec<u8> {
    [&vec![b'a'; width - string.len()], string].concat()
}

/// The owner field of an alternative owner.
fn other_owner(kind: u8, text: &[u8]) -> Vec<u8> {
    [&[0, 0, kind], text].concat()
}

/// A tag with these fields and a block 1 of this inside.
fn with_block_one(item: &[u8], owner: &[u8], inside: &[u8]) -> Call {
    read(Draft::default().item(item).owner(owner).chain(&[&block(1, inside)]), 48)
}

fn read(draft: Draft, length: usize) -> Call {
    Call::read(draft.tag(length), vec![0xEE; 40])
}

fn write(number: u8, value: &[u8]) -> Call {
    Call::write(sheet_with(&[(number, value)]), vec![0xEE; 48], locks::open(48))
}

fn apart(text: &[u8]) -> Call {
    Call::apart(text.to_vec(), 0, [5, 0, 4].map(|room| vec![0xEE; room]))
}

fn edit(number: u8, value: &[u8]) -> Call {
    Call::edit(tag_with(&[], 48), locks::open(48), u32::from(number), value.to_vec(), vec![0xEE; 255])
}
