//! The readings of document 01, points 24 to 32: the sheet, the values, the layout.

use independent::build::{self, block, hex};
use independent::generate::locks;
use independent::model::element;
use independent::trial::{besides, edited, elements, only, read, sheet_up_to, sheet_with, tag_with, write, written};

const SET: (u8, &[u8]) = (4, &[1, 0, 1, 0]);
const USAGE: (u8, &[u8]) = (5, &[0x10]);

#[test]
fn reading_24_the_shortest_sheets() {
    assert_eq!(written(&hex("00 00"), 36), Err(9), "a good sheet without 4 and 5");
    assert_eq!(written(&hex("00 00 00"), 36), Err(8));
    assert_eq!(written(&hex("00 00 77"), 36), Err(8));
    assert_eq!(written(&hex("00"), 36), Err(8));
    assert_eq!(written(&[], 36), Err(8));
    assert_eq!(written(&hex("01 00"), 36), Err(8), "a count without its entry");
    let empty_identifier = hex("03 00 01 0E 00 00 04 0E 00 04 05 12 00 01 01 00 01 00 10");
    assert_eq!(written(&empty_identifier, 36), Err(9), "an entry of length 0");
    assert!(written(&hex("02 00 04 0A 00 04 05 0E 00 01 01 00 01 00 10"), 36).is_ok());
}

#[test]
fn reading_25_unknown_numbers_obey_the_order() {
    let carried = block(300, b"x");
    let sheet = |entries: &[(u8, &[u8])]| written(&build::sheet(entries), 64);
    for unknown in (0..=254).filter(|number| !element::SINGLE.contains(number)) {
        assert_eq!(written(&sheet_with(&[(unknown, b"x")]), 64), Err(9), "{unknown} in order");
        assert_eq!(written(&sheet_with(&[(unknown, b"x"), (unknown, b"x")]), 64), Err(8), "{unknown} twice");
        let mut misplaced = vec![(1, &b"B1"[..]), SET, USAGE];
        misplaced.insert(if unknown < 5 { 3 } else { 0 }, (unknown, b"x"));
        assert_eq!(sheet(&misplaced), Err(8), "{unknown} out of order");
    }
    assert_eq!(sheet(&[USAGE, SET]), Err(8));
    assert_eq!(sheet(&[SET, SET, USAGE]), Err(8));
    assert_eq!(sheet(&[SET, (255, &carried), USAGE]), Err(8), "255 before another number");
    assert_eq!(sheet(&[(255, &carried), SET, USAGE]), Err(8));
    assert!(sheet(&[SET, USAGE, (255, &carried), (255, &carried)]).is_ok(), "255 may repeat");
}

#[test]
fn reading_26_every_offset_is_the_running_place_and_none_wraps() {
    let good = sheet_with(&[(1, b"B1"), (22, b"x")]);
    for place in (0..4).flat_map(|entry| [3 + 4 * entry, 4 + 4 * entry]) {
        for change in [1, 0x80, 0xFF] {
            let mut wrong = good.clone();
            wrong[place] ^= change;
            assert_eq!(written(&wrong, 64), Err(8), "offset byte {place}");
        }
    }
    let mut empty = build::sheet(&[SET, USAGE, (77, b"")]);
    assert_eq!(written(&empty, 64), Err(9), "an empty entry at the running place");
    empty[11] -= 1;
    assert_eq!(written(&empty, 64), Err(8), "an empty entry elsewhere");

    // 252 blocks end before 65,536. 253 begin before it and end behind it. The 254th would begin behind it.
    let longest = block(300, &[b'x'; 252]);
    for (count, answer) in [(252, 11), (253, 11), (254, 8), (300, 8)] {
        let mut entries = vec![SET, USAGE];
        entries.resize(2 + count, (255, &longest));
        assert_eq!(written(&build::sheet(&entries), 2048), Err(answer), "{count} blocks");
    }
    for (place, answer) in [(65_534, 11), (65_535, 11), (65_536, 8), (65_537, 8)] {
        let sheet = sheet_up_to(place);
        assert_eq!(sheet.len(), place + 3, "the last of 3 bytes");
        assert_eq!(written(&sheet, 2048), Err(answer), "an entry at {place}");
    }
    let shortest = block(300, b"");
    for (count, answer) in [(671, None), (672, Some(11))] {
        let sheet = sheet_with(&vec![(255, &shortest[..]); count]);
        assert_eq!(sheet[..2], ((count + 2) as u16).to_le_bytes());
        let tag = written(&sheet, 2048);
        assert_eq!(tag.as_ref().err().copied(), answer, "{count} blocks of 3 bytes");
        assert!(tag.is_err() || read(&tag.unwrap()) == Ok(sheet));
    }
}

#[test]
fn reading_27_a_carried_value_is_one_whole_well_formed_block() {
    let carry = |value: &[u8]| written(&sheet_with(&[(255, value)]), 64).map(|tag| tag[34..34 + value.len()].to_vec());
    for good in
        [block(2, b""), block(100, b"abc"), block(101, b""), block(256, b"x"), block(257, b"x"), block(65535, b"")]
    {
        assert_eq!(carry(&good), Ok(good));
    }
    let two_blocks = [block(101, b""), block(102, b"")].concat();
    let bad: [&[u8]; 11] = [
        b"",
        &[0],
        &[1],
        &[2, 101],
        &two_blocks,
        &block(101, b"abc")[..5],
        &[&block(101, b"abc")[..], &[0]].concat(),
        &block(0, b"abc"),
        &block(1, &[5]),
        &hex("03 02 00"),
        &hex("04 02 00 07"),
    ];
    for value in bad {
        assert_eq!(carry(value), Err(9), "{value:?}");
    }
    assert_eq!(carry(&hex("04 02 00 06")), Ok(hex("04 02 00 06")));
}

#[test]
fn reading_28_forms_of_set_information_isil_and_text() {
    let set = |value: &[u8]| written(&build::sheet(&[(4, value), USAGE]), 36).map(|tag| tag[1..3].to_vec());
    assert_eq!(set(&[9, 0, 3, 0]), Ok(vec![9, 3]));
    for bad in [&[1, 0, 1][..], &[1, 0, 1, 0, 0], &[1, 1], &[9, 0, 3, 1], &[9, 1, 3, 0]] {
        assert_eq!(set(bad), Err(9), "{bad:?}");
    }
    let isil = |value: &[u8]| besides(&written(&sheet_with(&[(3, value)]), 64)?);
    for good in [&b"A-1"[..], b"ABCD-12345678901", b"DK-a-b-c", b"DK--", b"DK---", b"OCLC-Zz/:-09"] {
        assert_eq!(isil(good), only(3, good), "the first hyphen ends the prefix");
    }
    for bad in [
        &b"-1"[..],
        b"ABCDE-1",
        b"DK-",
        b"DK-123456789012",
        b"DK1",
        b"dk-1",
        b"D1-1",
        b"DK -1",
        b"DK-1 ",
        b"DK-1_2",
        b"DK-\xE5",
    ] {
        assert_eq!(isil(bad), Err(9), "{bad:?}");
    }
    let item = |value: &[u8]| besides(&written(&sheet_with(&[(1, value)]), 64)?);
    assert_eq!(item(b" a  "), only(1, b" a  "), "blanks are text and nothing is trimmed");
    assert_eq!(item(b" "), only(1, b" "));
    for byte in 0..=255 {
        // By itself; request E4 makes text of those from 80 up where they form a character.
        let good = (0x20..=0x7E).contains(&byte);
        assert_eq!(item(&[byte]), if good { only(1, &[byte]) } else { Err(9) });
        let owner = written(&sheet_with(&[(23, &[3, byte])]), 36).map(|tag| tag[24]);
        assert_eq!(owner, if good { Ok(byte) } else { Err(9) });
    }
}

#[test]
fn reading_29_value_before_clash_before_large() {
    assert_eq!(written(&build::sheet(&[USAGE]), 36), Err(9), "4 is missing");
    assert_eq!(written(&build::sheet(&[SET]), 36), Err(9), "5 is missing");
    assert_eq!(written(&sheet_with(&[(3, b"DK-1"), (23, b"\x02x")]), 36), Err(10));
    assert_eq!(written(&sheet_with(&[(3, b"DK-1"), (23, b"\x04x")]), 36), Err(9), "a bad 23 beside a 3");
    assert_eq!(written(&build::sheet(&[(3, b"DK-1"), SET, (23, b"\x02x")]), 36), Err(9), "a clash, and 5 is missing");
    let (sixteen, seventeen) = (&[b'7'; 16][..], &[b'7'; 17][..]);
    assert_eq!(written(&sheet_with(&[(1, seventeen), (22, b"x")]), 32), Err(10));
    assert_eq!(written(&sheet_with(&[(1, sixteen), (22, b"x")]), 32), Err(11));
    assert!(written(&sheet_with(&[(1, sixteen), (22, b"x")]), 64).is_ok());
}

#[test]
fn reading_30_what_pushes_an_isil_to_block_1_and_what_32_bytes_cannot_hold() {
    let (unit, prefix) = (b"12345678901", b"ABCD");
    for prefix_length in 1..=4 {
        for unit_length in 1..=11 {
            let isil = [&prefix[..prefix_length], b"-", &unit[..unit_length]].concat();
            let tag = tag_with(&[(3, &isil)], 64);
            let in_block_one = prefix_length > 2;
            assert_eq!(tag[23] == 1, in_block_one, "{prefix_length} {unit_length}");
            assert_eq!(tag[34] != 0, in_block_one);
            assert_eq!(besides(&tag), only(3, &isil));
            let short = written(&sheet_with(&[(3, &isil)]), 32).err();
            assert_eq!(short, (in_block_one || unit_length > 9).then_some(11), "{prefix_length} {unit_length}");
        }
    }
    for (number, value) in [(19, &[1][..]), (22, b"x"), (255, &block(300, b""))] {
        assert_eq!(written(&sheet_with(&[(number, value)]), 32), Err(11), "{number}");
    }
    assert_eq!(written(&build::sheet(&[SET, (5, &[0x11])]), 32), Err(11), "a sub qualifier");
    assert!(written(&build::sheet(&[SET, (5, &[0xF0])]), 32).is_ok());
    assert_eq!(edited(&tag_with(&[], 32), 19, &[1]), Err(11));
}

#[test]
fn reading_31_block_1_has_at_most_255_bytes() {
    let text = [b'7'; 255];
    let length_of_block_one = |sheet: &[u8]| written(sheet, 2048).map(|tag| tag[34]);
    let item = |number: u8, length: usize| length_of_block_one(&sheet_with(&[(number, &text[..length])]));
    for number in [1, 22] {
        assert_eq!([item(number, 249), item(number, 250), item(number, 251)], [Ok(254), Ok(255), Err(11)]);
    }
    let with_usage = |length: usize| length_of_block_one(&build::sheet(&[SET, (5, &[0x11]), (22, &text[..length])]));
    assert_eq!([with_usage(246), with_usage(247), with_usage(248)], [Ok(254), Ok(255), Err(11)]);
    let owner = |length: usize| length_of_block_one(&sheet_with(&[(23, &[&[2], &text[..length]].concat())]));
    assert_eq!([owner(247), owner(248), owner(249)], [Ok(254), Ok(255), Err(11)]);

    let owner_alone = tag_with(&[(3, b"ABC-1")], 64);
    assert_eq!(owner_alone[38..46], *b"\0\0ABC-1\0", "leading 00 stay");
    let usage_alone = written(&build::sheet(&[SET, (5, &[0x15])]), 64).unwrap();
    assert_eq!(usage_alone[34..43], hex("08 01 00 1C 00 00 00 15 00"));
    let all = tag_with(&[(3, b"ABC-1"), (19, &[6]), (22, b"it")], 64);
    assert_eq!(all[34..50], *b"\x0D\x01\0\x4B\x06it\0ABC-1\0\0\0");
}

#[test]
fn reading_32_a_full_tag_needs_no_end_mark_and_the_rest_becomes_00() {
    for body in 20..=28 {
        let carried = block(300, &vec![0xEE; body - 1]);
        let mut tag = vec![0xFF; 64];
        let answer = write(&sheet_with(&[(255, &carried)]), &mut tag, &locks::open(64));
        assert_eq!(answer.is_ok(), carried.len() <= 30);
        if answer.is_ok() {
            let end = 34 + carried.len();
            assert_eq!((&tag[34..end], &tag[end..]), (&carried[..], &vec![0; 64 - end][..]));
            assert_eq!(besides(&tag), only(255, &carried));
        }
    }
    assert_eq!(elements(&tag_with(&[], 36)).unwrap().len(), 2);
}
