//! Request E4, names with accents: points 24 to 32 of its readings, each with the cases that tell it from the other way to read
//! the words; and demand 3 on such names.

use independent::build::{self, block, Draft};
use independent::compare::case::Call;
use independent::generate::edits::{self, Edit};
use independent::generate::{locks, sheets, tags, values};
use independent::model::refusal::{EDITING, READING, WRITING};
use independent::model::{listing, reading, sheet::decode, text::is_text};
use independent::random::Random;
use independent::trial::{besides, confirmed, edit, edited, only, read, sheet_with, tag_with, written, Elements};
use std::collections::BTreeMap;
use std::ops::RangeInclusive;

const TAIL: RangeInclusive<u8> = 0x80..=0xBF;

/// RFC 3629, section 4, a row for each line of its grammar; the first without what E4 takes out.
const GRAMMAR: [&[RangeInclusive<u8>]; 9] = [
    &[0x20..=0x7E],
    &[0xC2..=0xDF, TAIL],
    &[0xE0..=0xE0, 0xA0..=0xBF, TAIL],
    &[0xE1..=0xEC, TAIL, TAIL],
    &[0xED..=0xED, 0x80..=0x9F, TAIL],
    &[0xEE..=0xEF, TAIL, TAIL],
    &[0xF0..=0xF0, 0x90..=0xBF, TAIL, TAIL],
    &[0xF1..=0xF3, TAIL, TAIL, TAIL],
    &[0xF4..=0xF4, 0x80..=0x8F, TAIL, TAIL],
];

/// "UTF8-octets = *( UTF8-char )"
fn is_text_by_grammar(bytes: &[u8]) -> bool {
    let begins = |row: &[RangeInclusive<u8>]| {
        row.len() <= bytes.len() && row.iter().zip(bytes).all(|(range, byte)| range.contains(byte))
    };
    bytes.is_empty() || GRAMMAR.iter().any(|row| begins(row) && is_text_by_grammar(&bytes[row.len()..]))
}

/// What a tag with this item field says besides 4 and 5.
fn item(field: &[u8]) -> Result<Elements, u32> {
    besides(&Draft::default().item(field).tag(36))
}

/// What a tag of this length with this owner field says besides 4 and 5.
fn owner_on(length: usize, field: &[u8]) -> Result<Elements, u32> {
    besides(&Draft::default().owner(field).tag(length))
}

/// What a tag with these fields, a block 1 of this inside and these blocks behind it says besides 4 and 5.
fn with_block_one(item: &[u8], owner: &[u8], inside: &[u8], behind: &[u8]) -> Result<Elements, u32> {
    besides(&Draft::default().item(item).owner(owner).chain(&[&block(1, inside), behind]).tag(1024))
}

const MARKER: &[u8] = &[0, 0, 1];

/// What a sheet with this element besides 4 and 5 leads to, written and read.
fn in_sheet(number: u8, value: &[u8]) -> Result<Elements, u32> {
    besides(&written(&sheet_with(&[(number, value)]), 1024)?)
}

/// What an edit that sets this element leads to, read.
fn in_edit(number: u8, value: &[u8]) -> Result<Elements, u32> {
    besides(&edited(&tag_with(&[], 1024), u32::from(number), value)?)
}

/// Tries a string of 1 to 250 bytes, none of them 00, wherever text stands. What is text comes out as it went in.
fn try_everywhere(string: &[u8], good: bool) {
    let kind_and_text = [&[2], string].concat();
    let on_tag = |number: u8, value: &[u8]| if good { only(number, value) } else { Err(6) };
    let as_value = |number: u8, value: &[u8]| if good { only(number, value) } else { Err(9) };
    if string.len() <= 16 {
        assert_eq!(item(string), on_tag(1, string), "{string:02X?} in the item field");
    }
    for (longest, length) in [(10, 36), (8, 32)] {
        if string.len() <= longest {
            let field = [&[0, 0], &kind_and_text[..]].concat();
            assert_eq!(owner_on(length, &field), on_tag(23, &kind_and_text), "{string:02X?} in the owner field");
        }
    }
    let inside = [&[0], string].concat();
    assert_eq!(with_block_one(b"", b"", &inside, b""), on_tag(22, string), "{string:02X?} in block 1");
    assert_eq!(with_block_one(&[1], b"", &inside, b""), on_tag(1, string), "{string:02X?} in block 1, marked");
    let inside = [&[0, 0], &kind_and_text[..]].concat();
    assert_eq!(with_block_one(b"", MARKER, &inside, b""), on_tag(23, &kind_and_text), "{string:02X?} as its owner");
    for (number, value) in [(1, string), (22, string), (23, &kind_and_text)] {
        assert_eq!(in_sheet(number, value), as_value(number, value), "{string:02X?} in a sheet");
        assert_eq!(in_edit(number, value), as_value(number, value), "{string:02X?} in an edit");
    }
}

#[test]
fn point_24_the_rule_is_the_grammar_of_rfc_3629() {
    // By the model alone; the comparison has all of them by the library.
    let judged = |string: &[u8]| assert_eq!(is_text(string), is_text_by_grammar(string), "{string:02X?}");
    judged(b"");
    (0..=255).for_each(|byte| judged(&[byte]));
    (0..=u16::MAX).for_each(|number| judged(&number.to_be_bytes()));
    (0..1 << 24).for_each(|number: u32| judged(&number.to_be_bytes()[1..]));
    for (first, second) in (0xE0..=0xFF).flat_map(|first| (0x7F..=0xC0).map(move |second| (first, second))) {
        for third in [0x20, 0x7F, 0x80, 0x9F, 0xA0, 0xBF, 0xC0, 0xFF] {
            (0..=255).for_each(|fourth| judged(&[first, second, third, fourth]));
        }
    }
}

#[test]
fn point_24_what_is_ill_formed_is_refused_wherever_text_stands() {
    let never = [0xC0, 0xC1].into_iter().chain(0xF5..=0xFF).flat_map(|byte| [vec![byte], vec![byte, 0x80, 0x80, 0x80]]);
    let named: [&[u8]; 12] = [
        b"\xC0\xAF",
        b"\xC1\xBF",
        b"\xE0\x80\x80",
        b"\xE0\x9F\xBF",
        b"\xED\xA0\x80",
        b"\xED\xBF\xBF",
        b"\xED\xA0\x80\xED\xB0\x80",
        b"\xF0\x80\x80\x80",
        b"\xF0\x8F\xBF\xBF",
        b"\xF4\x90\x80\x80",
        b"\xF5\x80\x80\x80",
        b"\xA9",
    ];
    for bad in never.chain(named.map(<[u8]>::to_vec)) {
        try_everywhere(&bad, false);
        try_everywhere(&[b"a", &bad[..]].concat(), false);
        try_everywhere(&[&bad[..], b"a"].concat(), false);
    }
    // The last character before each bound and the first behind it.
    for good in ["\u{80}", "\u{7FF}", "\u{800}", "\u{D7FF}", "\u{E000}", "\u{FFFF}", "\u{10000}", "\u{10FFFF}"] {
        try_everywhere(good.as_bytes(), true);
    }
    // Every sequence is whole.
    for whole in ["é", "€", "😀"] {
        (1..whole.len()).for_each(|cut| try_everywhere(&whole.as_bytes()[..cut], false));
        (1..whole.len()).for_each(|cut| try_everywhere(&whole.as_bytes()[cut..], false));
        (1..whole.len()).for_each(|cut| try_everywhere(&[&whole.as_bytes()[..cut], b"a"].concat(), false));
    }
}

#[test]
fn point_25_nothing_but_00_to_1f_and_7f_is_taken_out() {
    for second in TAIL {
        try_everywhere(&[0xC2, second], true);
    }
    for good in
        ["\u{A0}", "\u{FEFF}", "\u{FFFE}", "\u{FFFF}", "\u{10FFFF}", "\u{1FFFE}", "\u{FDD0}", "\u{202E}", "\u{AD}"]
    {
        try_everywhere(good.as_bytes(), true);
        try_everywhere(format!("a{good}b").as_bytes(), true);
    }
    for taken_out in (1..=0x1F).chain([0x7F]) {
        try_everywhere(&[b'a', taken_out], false);
        try_everywhere(&[0xC3, 0xA9, taken_out, b'a'], false);
    }
    for (number, value) in [(1, &b"a\0b"[..]), (22, b"\0"), (23, b"\x02a\0"), (23, b"\x02\0")] {
        assert_eq!((in_sheet(number, value), in_edit(number, value)), (Err(9), Err(9)), "a 00 is no text either");
    }
    let refused: Vec<char> =
        ('\0'..=char::MAX).filter(|character| !is_text(character.to_string().as_bytes())).collect();
    assert!(refused.into_iter().eq(('\0'..='\x1F').chain(['\x7F'])), "of all characters just these");
}

/// A tag whose item field has these bytes at its end, before a CRC that makes text of them.
fn completed_by_crc(cut: &[u8]) -> Vec<u8> {
    let mut tags = (0..1_000_000).map(|number| {
        let letters = format!("{number:016}");
        Draft::default().item(&[&letters.as_bytes()[cut.len()..], cut].concat()).tag(36)
    });
    let completed = |tag: &Vec<u8>| [20, 21].into_iter().any(|end| is_text(&tag[3..end]));
    tags.find(completed).expect("a CRC that goes on with the character")
}

#[test]
fn point_26_the_crc_does_not_go_on_with_a_cut_item() {
    for cut in [&b"\xC3"[..], b"\xE2\x82", b"\xE2", b"\xF0\x9F\x98", b"\xF0\x9F"] {
        assert_eq!(read(&completed_by_crc(cut)), Err(6), "{cut:02X?}");
        assert_eq!(edited(&completed_by_crc(cut), 19, &[7]), Err(6), "{cut:02X?}");
    }
    assert_eq!(item("0123456789abc€".as_bytes()), only(1, "0123456789abc€".as_bytes()), "whole at the field's end");
}

#[test]
fn point_26_the_chain_does_not_go_on_with_a_cut_owner() {
    for cut in [&b"\xC3"[..], b"\xE2\x82", b"\xF0\x9F\x98"] {
        let letters = |count: usize| vec![b'a'; count - cut.len()];
        let field = [&[0, 0, 2], &letters(10)[..], cut].concat();
        for length in 0x80..=0xBF {
            // The byte behind the field is the first block's length.
            let tag = Draft::default().owner(&field).chain(&[&block(300, &vec![b'x'; length - 3])]).tag(256);
            assert!(is_text(&tag[24..35]));
            assert_eq!(read(&tag), Err(6));
        }
        assert_eq!(owner_on(32, &[&[0, 0, 2], &letters(8)[..], cut].concat()), Err(6), "at the tag's own end");
    }
    assert_eq!(owner_on(32, "\0\0\x02aaaaaaé".as_bytes()), only(23, "\x02aaaaaaé".as_bytes()), "whole at that end");
    assert_eq!(owner_on(36, "\0\0\x02aaaaaaa€".as_bytes()), only(23, "\x02aaaaaaa€".as_bytes()));
}

#[test]
fn point_26_what_a_00_a_separator_or_the_end_of_block_1_cuts_is_ill_formed() {
    assert_eq!(item(b"a\xC3"), Err(6), "the field's unused bytes");
    assert_eq!(item(b"a\xC3\0\xA9"), Err(6));
    assert_eq!(owner_on(36, b"\0\0\x02\xC3"), Err(6));
    assert_eq!(owner_on(36, b"\0\0\x02\xC3\0\xA9"), Err(6));
    assert_eq!(with_block_one(b"", b"", b"\0a\xC3\0\0\x15", b""), Err(6), "block 1's separator");
    assert_eq!(with_block_one(&[1], MARKER, b"\0a\xC3\0\xA9BC-1", b""), Err(6));
    assert_eq!(with_block_one(b"", MARKER, b"\0\0\x02a\xC3\0\x15", b""), Err(6), "its second separator");
    assert_eq!(with_block_one(b"", b"", b"\0a\xC3\0\0\0", b""), Err(6), "trailing 00");
    for length in 0x80..=0xBF {
        // The byte behind block 1 is the next block's length.
        let behind = block(300, &vec![b'x'; length - 3]);
        assert_eq!(with_block_one(b"", b"", b"\0a\xC3", &behind), Err(6));
        assert_eq!(with_block_one(&[1], b"", b"\0\xE2\x82", &behind), Err(6));
        assert_eq!(with_block_one(b"", MARKER, b"\0\0\x03\xF0\x9F\x98", &behind), Err(6));
    }
    // In a sheet the parts follow an identifier.
    let cut = build::sheet(&[(1, b"a\xC3"), (4, &[0xA9, 0, 1, 0]), (5, &[0x10])]);
    assert!(is_text(&cut[14..17]));
    assert_eq!(written(&cut, 64), Err(9));
    assert_eq!(written(&sheet_with(&[(1, b"\xC3"), (22, b"\xA9")]), 64), Err(9), "two elements make no character");
}

#[test]
fn point_27_sixteen_bytes_are_the_limit_of_the_item_field_however_few_characters() {
    for character in ["é", "😀"] {
        let sixteen = character.repeat(16 / character.len());
        let seventeen = format!("{sixteen}x");
        let tag = tag_with(&[(1, sixteen.as_bytes())], 36);
        assert_eq!((&tag[3..19], &tag[34..]), (sixteen.as_bytes(), &[0, 0][..]), "in the basic block");
        assert!(written(&sheet_with(&[(1, sixteen.as_bytes())]), 32).is_ok());
        let tag = tag_with(&[(1, seventeen.as_bytes())], 64);
        assert_eq!((tag[3], &tag[4..19], tag[34]), (1, &[0; 15][..], 5 + 17), "in block 1");
        assert_eq!(&tag[39..56], seventeen.as_bytes());
        let short = tag_with(&[], 32);
        assert_eq!(written(&sheet_with(&[(1, seventeen.as_bytes())]), 32), Err(11));
        assert_eq!(edited(&short, 1, seventeen.as_bytes()), Err(11));
        assert!(edited(&short, 1, sixteen.as_bytes()).is_ok());
        let beside = |primary: &str| written(&sheet_with(&[(1, primary.as_bytes()), (22, b"x")]), 64).map(|_| ());
        assert_eq!((beside(&sixteen), beside(&seventeen)), (Ok(()), Err(10)));
        let other = tag_with(&[(22, b"x")], 64);
        assert!(edited(&other, 1, sixteen.as_bytes()).is_ok());
        assert_eq!(edited(&other, 1, seventeen.as_bytes()), Err(10));
    }
}

#[test]
fn point_27_the_owner_field_block_1_and_the_sheet_count_bytes_too() {
    let owner = |text: &str| [&[2], text.as_bytes()].concat();
    for (text, length, in_field) in [("ééééé", 36, true), ("éééééx", 64, false), ("éééé", 32, true)] {
        let tag = tag_with(&[(23, &owner(text))], length);
        assert_eq!(tag[23], if in_field { 2 } else { 1 }, "{text}");
        assert_eq!(besides(&tag), only(23, &owner(text)));
    }
    assert_eq!(written(&sheet_with(&[(23, &owner("ééééx"))]), 32), Err(11));
    // Block 1 takes 250 bytes of an item, and an owner of 248.
    for number in [1, 22] {
        let fits = "é".repeat(125);
        assert_eq!(in_sheet(number, fits.as_bytes()), only(number, fits.as_bytes()));
        assert_eq!(in_sheet(number, format!("{fits}x").as_bytes()), Err(11), "126 characters");
        assert_eq!(in_edit(number, "é".repeat(126).as_bytes()), Err(11));
    }
    assert!(in_sheet(23, &owner(&"é".repeat(124))).is_ok());
    assert_eq!(in_sheet(23, &owner(&"é".repeat(125))), Err(11));
    // An edit takes 255 bytes.
    for (number, before) in [(1, ""), (22, ""), (23, "\x02x")] {
        let longest = format!("{before}{}x", "é".repeat((254 - before.len()) / 2));
        assert_eq!(longest.len(), 255);
        assert_eq!(in_edit(number, longest.as_bytes()), Err(11), "255 bytes");
        assert_eq!(in_edit(number, format!("{longest}x").as_bytes()), Err(9), "256 bytes");
    }
    assert_eq!(in_edit(1, "é".repeat(128).as_bytes()), Err(9), "128 characters are 256 bytes");
}

#[test]
fn point_28_the_text_of_an_alternative_owner_is_what_follows_02_or_03() {
    for kind in [2, 3] {
        let value = |text: &[u8]| [&[kind], text].concat();
        assert_eq!(in_sheet(23, &value("Ærø".as_bytes())), only(23, &value("Ærø".as_bytes())));
        for bad in [&b""[..], b"\xA9", b"a\xC3", b"\xA9\xC3"] {
            assert_eq!((in_sheet(23, &value(bad)), in_edit(23, &value(bad))), (Err(9), Err(9)));
            assert_eq!(owner_on(36, &[&[0, 0], &value(bad)[..]].concat()), Err(6));
            // Bytes before 02 and 03 that are not judged begin no character.
            assert_eq!(owner_on(36, &[&[b'a', 0xC3], &value(bad)[..]].concat()), Err(6));
            assert_eq!(with_block_one(b"", MARKER, &[&[0, 0], &value(bad)[..]].concat(), b""), Err(6));
        }
    }
    assert_eq!(in_sheet(23, "é".as_bytes()), Err(9), "it begins with neither");
    assert_eq!(in_sheet(23, b"\xC2\x02a"), Err(9));
}

#[test]
fn point_29_the_isil_keeps_its_alphabet() {
    for bad in ["É-1", "DKÉ-1", "DK-é", "DK-1é2", "DK–1", "DK-\u{80}", "OCLC-1é"] {
        assert_eq!((in_sheet(3, bad.as_bytes()), in_edit(3, bad.as_bytes())), (Err(9), Err(9)), "{bad}");
        assert_eq!(with_block_one(b"", MARKER, &[b"\0\0", bad.as_bytes()].concat(), b""), Err(6), "{bad}");
    }
    for owner in ["é", "é-1", "ÆØ-1", "\u{80}"] {
        let inside = [b"\0\0", owner.as_bytes()].concat();
        assert_eq!(with_block_one(b"", MARKER, &inside, b""), Err(6), "{owner} is judged as an ISIL");
    }
    for byte in 0x80..=0xFF {
        assert_eq!(owner_on(36, &[b'D', b'K', byte]), Err(6), "{byte:02X} as the third byte");
        assert_eq!(owner_on(36, &[0, 0, byte, 0xA9]), Err(6));
        assert_eq!(owner_on(36, &[b'D', b'K', b'1', byte]), Err(6));
        assert_eq!(owner_on(36, &[byte, b'K', b'1']), Err(6));
        let anything = [byte, byte ^ 0x55];
        let other = [&anything[..], b"\x02\xC3\xA9"].concat();
        assert_eq!(owner_on(36, &other), only(23, b"\x02\xC3\xA9"), "before 02 anything may stand");
        let marker = [&anything[..], &[1]].concat();
        assert_eq!(with_block_one(b"", &marker, b"\0\0ABC-1", b""), only(3, b"ABC-1"), "and before the marker");
    }
}

#[test]
fn point_30_the_marker_cannot_be_mistaken() {
    for text in ["é", "a", "😀", "ééééé"] {
        let behind_01 = [&[1], text.as_bytes()].concat();
        assert_eq!(item(&behind_01), Err(6), "{text}");
        assert_eq!(with_block_one(&behind_01, b"", "\0é".as_bytes(), b""), Err(6), "{text}");
        assert_eq!(with_block_one(&[1], b"", &[&[0], &behind_01[..]].concat(), b""), Err(6), "{text}");
        assert_eq!((in_sheet(1, &behind_01), in_edit(1, &behind_01)), (Err(9), Err(9)), "{text}");
        let field = [MARKER, text.as_bytes()].concat();
        assert_eq!(with_block_one(b"", &field, b"\0\0ABC-1", b""), Err(6), "{text} behind the owner's marker");
    }
    assert_eq!(with_block_one(&[1], b"", "\0é".as_bytes(), b""), only(1, "é".as_bytes()));
    assert_eq!(item(&[1]), Err(7), "the marker alone, and no block 1");
}

#[test]
fn point_31_carried_blocks_are_not_judged() {
    for bytes in values::NO_TEXT.into_iter().chain(["é".as_bytes()]) {
        for id in [2, 100, 101, 300] {
            let carried = block(id, bytes);
            assert_eq!(in_sheet(255, &carried), only(255, &carried));
            assert_eq!(besides(&Draft::default().chain(&[&carried]).tag(64)), only(255, &carried));
        }
    }
}

#[test]
fn point_31_the_listing_is_hex_and_nothing_is_normalised() {
    let tag = tag_with(&[(1, "Åse Öström".as_bytes()), (23, "\x02€".as_bytes())], 64);
    assert_eq!(listing(&tag), "elements 4\n1 C385736520C396737472C3B66D\n4 01000100\n5 10\n23 02E282AC\n");
    // One letter in two forms, a ligature, a sign that stands for a letter, blanks at the ends, a mark of byte order.
    let forms = ["é", "e\u{301}", "\u{FB01}", "fi", "\u{212B}", "Å", "A\u{30A}", " é ", "\u{FEFF}é", "É"];
    for form in forms {
        assert_eq!(in_sheet(1, form.as_bytes()), only(1, form.as_bytes()));
        assert_eq!(in_edit(22, form.as_bytes()), only(22, form.as_bytes()));
    }
    let mut tag = tag_with(&[(1, "é".as_bytes())], 36);
    let (pages, old) = edit(&mut tag, 1, "e\u{301}".as_bytes()).unwrap();
    assert!(pages > 0 && old == "é".as_bytes(), "the other form is another name");
    assert_eq!(besides(&tag), only(1, "e\u{301}".as_bytes()));
}

/// The rule before E4: "A text byte is 20 to 7E hex."
fn was_text(bytes: &[u8]) -> bool {
    bytes.iter().all(|byte| (0x20..=0x7E).contains(byte))
}

/// Makes every byte from 80 up a 1F: text of the new rule then where it was text of the old one.
fn text_as_before(text: &mut [u8]) {
    text.iter_mut().filter(|byte| **byte >= 0x80).for_each(|byte| *byte = 0x1F);
}

/// The tag with the bytes of its texts so, and its checks right: what becomes of it now became of the tag itself before E4.
fn tag_as_before(tag: &[u8]) -> Vec<u8> {
    let mut tag = tag.to_vec();
    if reading::content_of(&tag).is_err_and(|refusal| ![6, 7].contains(&refusal.number)) {
        return tag; // Its fields were not looked at.
    }
    let owner_end = tag.len().min(34);
    text_as_before(&mut tag[3..19]);
    if matches!(tag[23], 2 | 3) {
        text_as_before(&mut tag[24..owner_end]);
    }
    if let Some(place) = place_of_block_one(&tag) {
        let end = place + usize::from(tag[place]);
        // Neither the media format nor the usage byte is text.
        let fields = &mut tag[end.min(place + 5)..end];
        fields.split_mut(|byte| *byte == 0).take(2).for_each(text_as_before);
    }
    tags::repair(&mut tag);
    tag
}

/// Where block 1 begins in a sound chain that has one.
fn place_of_block_one(tag: &[u8]) -> Option<usize> {
    let mut place = 34;
    while *tag.get(place)? != 0 {
        if tag[place] > 1 && tag[place + 1..place + 3] == [1, 0] {
            return Some(place);
        }
        place += usize::from(tag[place]);
    }
    None
}

/// The same of a sheet, where its form is right.
fn sheet_as_before(sheet: &[u8]) -> Vec<u8> {
    let Ok(entries) = decode(sheet) else { return sheet.to_vec() };
    let values = entries.into_iter().map(|(number, value)| (number, value_as_before(u32::from(number), value)));
    let values: Vec<(u8, Vec<u8>)> = values.collect();
    build::sheet(&values.iter().map(|(number, value)| (*number, &value[..])).collect::<Vec<_>>())
}

/// The same of an element's value.
fn value_as_before(number: u32, value: &[u8]) -> Vec<u8> {
    let mut value = value.to_vec();
    if matches!(number, 1 | 22 | 23) {
        text_as_before(&mut value);
    }
    value
}

/// How often an answer became another one: (before, now).
type Changes = BTreeMap<(u32, u32), usize>;

/// Notes what the call gives now and what it gave before. Where it was not refused for a text, that is the same; where it
/// was, it gets no nearer to the beginning of the order.
fn note(changes: &mut Changes, order: &[u32], call: Call, before: Call) {
    let same_input = call.buffers == before.buffers;
    let (now, before) = (confirmed(call), before.outcome());
    if [6, 9].contains(&before.answer) {
        let place = |answer: u32| order.iter().position(|number| *number == answer).unwrap_or(order.len());
        assert!(place(now.answer) >= place(before.answer), "{} and now {}", before.answer, now.answer);
    } else {
        assert_eq!((now.answer, &now.results), (before.answer, &before.results));
        assert!(same_input || before.answer != 0, "what was accepted had no byte from 80 up in a text");
    }
    *changes.entry((before.answer, now.answer)).or_default() += 1;
}

/// Just these changes were met, besides answers that stay.
fn changed(changes: &Changes) -> Vec<(u32, u32)> {
    changes.keys().filter(|(before, now)| before != now).copied().collect()
}

#[test]
fn point_32_the_old_rule_is_the_new_one_without_bytes_from_80_up() {
    let (mut random, mut was) = (Random::new(320), 0);
    let two = (0..=u16::MAX).map(|number| number.to_be_bytes().to_vec());
    let texts = (0..20_000).map(|place| values::text(&mut random, place % 40));
    for string in two.chain(texts) {
        let mut before = string.clone();
        text_as_before(&mut before);
        assert_eq!(was_text(&string), is_text(&before), "{string:02X?}");
        assert!(!was_text(&string) || is_text(&string), "what was text is text: {string:02X?}");
        was += usize::from(was_text(&string) && string.len() > 2);
    }
    assert!(was > 5000);
}

#[test]
fn point_32_tags_change_only_from_6() {
    let (mut random, mut changes) = (Random::new(321), Changes::new());
    for _ in 0..20_000 {
        let (tag, room) = (tags::any(&mut random), if random.one_in(10) { 20 } else { 5000 });
        let [now, before] = [tag.clone(), tag_as_before(&tag)].map(|tag| Call::read(tag, vec![0xEE; room]));
        note(&mut changes, &READING, now, before);
    }
    assert_eq!(changed(&changes), [(6, 0), (6, 2), (6, 7)], "{changes:?}");
    assert!(changes[&(0, 0)] > 2000 && changes[&(6, 0)] > 2000 && changes[&(6, 6)] > 1000, "{changes:?}");
}

#[test]
fn point_32_sheets_change_only_from_9() {
    let (mut random, mut changes) = (Random::new(322), Changes::new());
    for _ in 0..20_000 {
        let length = tags::length(&mut random);
        let (sheet, map) = (sheets::any(&mut random, length), locks::any(&mut random, length, 30));
        let [now, before] =
            [sheet.clone(), sheet_as_before(&sheet)].map(|sheet| Call::write(sheet, vec![0xEE; length], map.clone()));
        note(&mut changes, &WRITING, now, before);
    }
    assert_eq!(changed(&changes), [(9, 0), (9, 10), (9, 11), (9, 12)], "{changes:?}");
    assert!(changes[&(0, 0)] > 1000 && changes[&(9, 0)] > 1000 && changes[&(9, 9)] > 1000, "{changes:?}");
}

#[test]
fn point_32_edits_change_only_from_6_and_9() {
    let (mut random, mut changes) = (Random::new(323), Changes::new());
    for _ in 0..40_000 {
        let tag = if random.one_in(2) { tags::any(&mut random) } else { tags::own(&mut random) };
        let content = reading::content_of(&tag).unwrap_or_default();
        let Edit { number, value } = edits::any(&mut random, &content);
        let (map, room) = (locks::any(&mut random, tag.len(), 40), edits::old_room(&mut random, 25));
        let call = |tag, value| Call::edit(tag, map.clone(), number, value, vec![0xEE; room]);
        let before = call(tag_as_before(&tag), value_as_before(number, &value));
        note(&mut changes, &EDITING, call(tag, value), before);
    }
    let from_6 = [0, 2, 7, 9, 10, 11, 12, 13].map(|now| (6, now));
    assert_eq!(changed(&changes), [&from_6[..], &[(9, 0), (9, 10), (9, 11), (9, 12)]].concat(), "{changes:?}");
    assert!(changes[&(0, 0)] > 2000 && changes[&(6, 0)] > 1000 && changes[&(9, 0)] > 200, "{changes:?}");
}

#[test]
fn names_with_accents_are_edited_there_and_back() {
    let steps: [(u32, &str); 9] = [
        (1, "Ærø"),
        (22, "Þórr Łódź Ťažký"),
        (23, "\x02Öst"),
        (23, "\x03Österreichische"),
        (1, "Ærøskøbing"),
        (22, ""),
        (1, "北京图书馆的一本书"),
        (1, "😀😀😀😀"),
        (23, ""),
    ];
    let mut tag = tag_with(&[(1, b"B1"), (255, &block(300, b"\xFF"))], 128);
    let mut done = Vec::new();
    for (number, value) in steps {
        let before = tag.clone();
        let (pages, old) = edit(&mut tag, number, value.as_bytes()).unwrap();
        let now = besides(&tag).unwrap().into_iter().find(|(found, _)| u32::from(*found) == number);
        assert_eq!(now.map_or(vec![], |(_, value)| value), value.as_bytes());
        done.push((before, number, value, pages, old));
    }
    for (before, number, value, pages, old) in done.into_iter().rev() {
        assert_eq!(edit(&mut tag, number, &old), Ok((pages, value.as_bytes().to_vec())), "{value}");
        assert_eq!(tag, before, "{value}");
    }
}
