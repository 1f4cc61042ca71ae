//! Every place of a tag or of a value that has an alphabet, and the bytes that the papers permit there. Each is tried with
//! all 256 bytes, by the tests and by the comparison.

use crate::build::{block, sheet, Draft};
use crate::compare::case::{Call, Case};
use crate::generate::locks;
use crate::trial::tag_with;
use std::collections::BTreeMap;

pub struct Place {
    pub name: &'static str,
    pub permits: fn(u8) -> bool,
    pub made: Made,
}

/// What stands around the byte.
pub enum Made {
    Tag(fn(u8) -> Draft),
    Value(u8, fn(u8) -> Vec<u8>),
}

/// A byte that is text alone, or between ASCII letters, is one of these, as a keyboard has them. One from 80 up is part of a
/// character and never text by itself.
const TEXT: &[u8; 95] =
    b" !\"#$%&'()*+,-./0123456789:;<=>?@ABCDEFGHIJKLMNOPQRSTUVWXYZ[\\]^_`abcdefghijklmnopqrstuvwxyz{|}~";
const CAPITALS: &[u8; 26] = b"ABCDEFGHIJKLMNOPQRSTUVWXYZ";
/// "A-Z a-z 0-9 / - :"
const UNIT: &[u8; 65] = b"ABCDEFGHIJKLMNOPQRSTUVWXYZabcdefghijklmnopqrstuvwxyz0123456789/-:";

fn text(byte: u8) -> bool {
    TEXT.contains(&byte)
}

fn capital(byte: u8) -> bool {
    CAPITALS.contains(&byte)
}

fn unit(byte: u8) -> bool {
    UNIT.contains(&byte)
}

/// Within a prefix a hyphen ends it, and the rest is a good unit.
fn capital_or_hyphen(byte: u8) -> bool {
    capital(byte) || byte == b'-'
}

fn kind_of_owner(byte: u8) -> bool {
    byte == 2 || byte == 3
}

fn any(_: u8) -> bool {
    true
}

fn zero(byte: u8) -> bool {
    byte == 0
}

/// A tag with these fields and a block 1 of this inside.
fn with_block_one(item: &[u8], owner: &[u8], inside: &[u8]) -> Draft {
    Draft::default().item(item).owner(owner).chain(&[&block(1, inside)])
}

const MARKER: &[u8] = &[0, 0, 1];

/// The places in a tag. A 00 behind which another byte stands breaks a field's form wherever it is tried.
fn in_tags() -> Vec<Place> {
    let place = |name, permits, draft| Place { name, permits, made: Made::Tag(draft) };
    vec![
        place("item field, first byte", text, |x| Draft::default().item(&[x, b'b'])),
        place("item field", text, |x| Draft::default().item(&[b'a', x, b'b'])),
        place("item field, alone", |x| text(x) || x <= 1, |x| with_block_one(&[x], b"", b"\0item")),
        place("owner field, first byte of an ISIL", capital, |x| Draft::default().owner(&[x, b'K', b'1', b'1'])),
        place(
            "owner field, second byte of an ISIL",
            |x| capital(x) || x == b' ',
            |x| Draft::default().owner(&[b'D', x, b'1', b'1']),
        ),
        place("owner field, unit", unit, |x| Draft::default().owner(&[b'D', b'K', b'1', x, b'1'])),
        place("owner field, before the marker", any, |x| with_block_one(b"", &[x, x, 1], b"\0\0ABC-1")),
        place("owner field, before an alternative owner", any, |x| Draft::default().owner(&[x, x, 3, b'a'])),
        place("owner field, alternative owner", text, |x| Draft::default().owner(&[0, 0, 2, b'a', x, b'b'])),
        place("block 1, media format", any, |x| with_block_one(b"", b"", &[x, b'a'])),
        place("block 1, alternative item", text, |x| with_block_one(b"", b"", &[0, b'a', x, b'b', b'c'])),
        place("block 1, marked item", text, |x| with_block_one(&[1], b"", &[0, b'a', x, b'b', b'c'])),
        place(
            "block 1, owner's first byte",
            |x| capital(x) || kind_of_owner(x),
            |x| with_block_one(b"", MARKER, &[&[0, 0, x], &b"BC-1"[..]].concat()),
        ),
        place("block 1, prefix", capital_or_hyphen, |x| {
            with_block_one(b"", MARKER, &[&[0, 0, b'A', x], &b"C-1"[..]].concat())
        }),
        place("block 1, unit", unit, |x| with_block_one(b"", MARKER, &[&b"\0\0ABC-1"[..], &[x], b"11"].concat())),
        place("block 1, alternative owner", text, |x| with_block_one(b"", MARKER, &[0, 0, 3, b'a', x, b'b', b'c'])),
    ]
}

/// The places in a value, of a sheet and of an edit.
fn in_values() -> Vec<Place> {
    let place = |number, name, permits, value| Place { name, permits, made: Made::Value(number, value) };
    vec![
        place(1, "identifier, alone", text, |x| vec![x]),
        place(1, "identifier", text, |x| vec![b'a', x, b'b']),
        place(1, "identifier that goes to block 1", text, |x| [&b"0123456789ABCDEF"[..], &[x], b"b"].concat()),
        place(3, "prefix, alone", capital, |x| vec![x, b'-', b'1']),
        place(3, "prefix, second", capital_or_hyphen, |x| vec![b'A', x, b'-', b'1']),
        place(3, "prefix, third", capital_or_hyphen, |x| vec![b'A', b'B', x, b'-', b'1']),
        place(3, "prefix, fourth", capital_or_hyphen, |x| vec![b'A', b'B', b'C', x, b'-', b'1']),
        place(3, "hyphen", |x| x == b'-', |x| vec![b'D', b'K', x, b'1']),
        place(3, "unit, alone", unit, |x| vec![b'D', b'K', b'-', x]),
        place(3, "unit", unit, |x| vec![b'D', b'K', b'-', b'1', x, b'1']),
        place(3, "unit, last of eleven", unit, |x| [&b"OCLC-1234567890"[..], &[x]].concat()),
        place(4, "parts, low byte", any, |x| vec![x, 0, 0, 0]),
        place(4, "parts, high byte", zero, |x| vec![255, x, 0, 0]),
        place(4, "ordinal, low byte", any, |x| vec![255, 0, x, 0]),
        place(4, "ordinal, high byte", zero, |x| vec![255, 0, 0, x]),
        place(5, "usage", any, |x| vec![x]),
        place(19, "media format", |x| !zero(x), |x| vec![x]),
        place(22, "alternative item, alone", text, |x| vec![x]),
        place(22, "alternative item", text, |x| vec![b'a', x, b'b']),
        place(23, "kind of owner", kind_of_owner, |x| vec![x, b'a']),
        place(23, "alternative owner, alone", text, |x| vec![2, x]),
        place(23, "alternative owner", text, |x| vec![3, b'a', x, b'b']),
    ]
}

pub fn all() -> Vec<Place> {
    in_tags().into_iter().chain(in_values()).collect()
}

/// The calls of one kind that try every byte in every place, as cases of the comparison.
pub fn cases(call: fn(&Place, u8) -> Option<Call>) -> impl Iterator<Item = Case> + Send {
    let calls = all().into_iter().flat_map(move |place| (0..=255).filter_map(move |byte| call(&place, byte)));
    calls.map(|call| Case::new("every byte in every field", call))
}

impl Place {
    /// The call that reads the byte's tag.
    pub fn read(&self, byte: u8) -> Option<Call> {
        match self.made {
            Made::Tag(draft) => Some(Call::read(draft(byte).tag(64), vec![0xEE; 200])),
            Made::Value(..) => None,
        }
    }

    /// The call that writes the byte's value.
    pub fn write(&self, byte: u8) -> Option<Call> {
        let Made::Value(number, value) = self.made else { return None };
        let mut elements = BTreeMap::from([(4, vec![1, 0, 1, 0]), (5, vec![0x10])]);
        elements.insert(number, value(byte));
        let entries: Vec<_> = elements.iter().map(|(number, value)| (*number, &value[..])).collect();
        Some(Call::write(sheet(&entries), vec![0xEE; 64], locks::open(64)))
    }

    /// The call that edits the byte's tag, or sets the byte's value.
    pub fn edit(&self, byte: u8) -> Option<Call> {
        let (tag, number, value) = match self.made {
            Made::Tag(draft) => (draft(byte).tag(64), 19, vec![7]),
            Made::Value(number, value) => (tag_with(&[], 64), number, value(byte)),
        };
        Some(Call::edit(tag, locks::open(64), u32::from(number), value, vec![0xEE; 255]))
    }
}
