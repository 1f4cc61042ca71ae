//! The readings of document 01, points 1 to 12: sizes, locks and order; the basic block.

use independent::build::{self, block, Draft};
use independent::generate::locks;
use independent::trial::{
    besides, damage, edit, edit_under, edited, elements, is_loose, only, read, sheet_with, tag_with, write, written,
};

/// A block 1 with nothing but this owner.
fn owner_beyond(owner: &[u8]) -> Vec<u8> {
    block(1, &[&[0, 0], owner].concat())
}

#[test]
fn reading_01_lengths_28_33_34_are_refused_and_32_36_pass() {
    let whole = tag_with(&[], 2048);
    for length in [0, 4, 28, 31, 33, 34, 35, 37, 2046] {
        assert_eq!(read(&whole[..length]), Err(1), "{length}");
        assert_eq!(written(&sheet_with(&[]), length), Err(1), "{length}");
        assert_eq!(edited(&whole[..length], 3, b""), Err(1), "{length}");
    }
    for length in (36..=2048).step_by(4).chain([32]) {
        assert!(read(&whole[..length]).is_ok(), "{length}");
        assert_eq!(written(&sheet_with(&[]), length).as_deref(), Ok(&whole[..length]));
        assert_eq!(edited(&whole[..length], 3, b"").as_deref(), Ok(&whole[..length]));
    }
    assert_eq!(read(&[&whole[..], &[0; 4]].concat()), Err(1));
}

#[test]
fn reading_02_a_32_byte_tag_takes_8_lock_bytes_and_a_2_is_refused_before_all_else() {
    let (good, bad) = (sheet_with(&[]), [9, 9]);
    let mut tag = tag_with(&[], 32);
    for map in [&[0; 7][..], &[0; 9], &[0; 32], &[]] {
        assert_eq!(write(&good, &mut tag, map), Err(1), "{} lock bytes", map.len());
        assert_eq!(edit_under(&mut tag, map, 3, b"", 255), Err(1));
    }
    for page in 0..8 {
        let mut map = [0; 8];
        map[page] = 1;
        assert_eq!(write(&good, &mut tag, &map), Ok(0));
        assert_eq!(write(&bad, &mut tag, &map), Err(8));
        map[page] = 2;
        assert_eq!(write(&good, &mut tag, &map), Err(1), "nothing would change on page {page}");
        assert_eq!(write(&bad, &mut tag, &map), Err(1), "Size before Sheet");
        assert_eq!(edit_under(&mut tag, &map, 3, b"", 255), Err(1));
        assert_eq!(edit_under(&mut vec![0; 32], &map, 3, b"", 0), Err(1), "Size before Content");
    }
}

#[test]
fn reading_03_an_earlier_number_over_the_whole_input_comes_before_a_later_one() {
    let damage_last = Draft::default().item(b"\0x").chain(&[&[1, 1, 1, 2]]).tag(40);
    assert_eq!(
        damage(&damage_last),
        Some((15, 37)),
        "a bad item field stands before the damage, but 15 comes before 6"
    );
    assert_eq!(read(&Draft::default().item(b"\0x").tag(40)), Err(6));

    let usage_disagrees = block(1, &[0, 0, 0, 0x25]);
    let draft = Draft::default().chain(&[&usage_disagrees]);
    assert_eq!(read(&draft.tag(44)), Err(7));
    assert_eq!(read(&Draft { ordinal: 2, ..draft.clone() }.tag(44)), Err(6));
    let damage_too = [&usage_disagrees[..], &block(2, b"").repeat(2), &[2]].concat();
    assert_eq!(damage(&draft.chain(&[&damage_too]).tag(64)), Some((15, 34 + 8 + 2 * 4)));

    let mut bad_first_value = build::sheet(&[(1, b""), (4, &[1, 0, 1, 0]), (5, &[0x10])]);
    assert_eq!(written(&bad_first_value, 36), Err(9));
    bad_first_value.push(0);
    assert_eq!(written(&bad_first_value, 36), Err(8), "the end is wrong");
    let clash_then_unknown = sheet_with(&[(3, b"DK-1"), (23, b"\x02x"), (77, b"x")]);
    assert_eq!(written(&clash_then_unknown, 36), Err(9));
}

#[test]
fn reading_04_writing_never_judges_the_old_tag() {
    let sheet = sheet_with(&[(1, b"B1")]);
    let right = tag_with(&[(1, b"B1")], 64);
    let mut wrong_crc = right.clone();
    wrong_crc[19] ^= 1;
    let damaged = Draft::default().chain(&[&[2, 2, 2]]).tag(64);
    for mut old in [vec![0; 64], vec![0xFF; 64], wrong_crc, damaged] {
        assert!(read(&old).is_err());
        assert!(write(&sheet, &mut old, &locks::open(64)).is_ok());
        assert_eq!(old, right);
    }
}

#[test]
fn reading_05_locked_is_only_for_a_page_whose_bytes_would_change() {
    let mut tag = tag_with(&[(1, b"B1")], 36);
    assert_eq!(write(&sheet_with(&[(1, b"B1")]), &mut tag, &locks::all_locked(36)), Ok(0));
    // "B2" changes byte 4 on page 1 and the CRC on pages 4 and 5.
    let sheet = sheet_with(&[(1, b"B2")]);
    for page in 0..9 {
        let mut map = locks::open(36);
        map[page] = 1;
        let answer = if [1, 4, 5].contains(&page) { Err(12) } else { Ok(3) };
        assert_eq!(write(&sheet, &mut tag.clone(), &map), answer, "page {page} locked");
    }
}

#[test]
fn reading_06_content_before_crc_and_the_crc_without_19_and_20_low_byte_first() {
    let tag = tag_with(&[(1, b"B1")], 36);
    assert_eq!(tag[19..21], [0xD9, 0x4B], "4BD9, low byte first");
    assert_eq!(tag_with(&[(1, b"B1")], 32)[19..21], [0xD9, 0x4B], "two 00 are added on 32 bytes");
    let mut wrong = tag.clone();
    wrong.swap(19, 20);
    assert_eq!(read(&wrong), Err(4));
    for content in (0..16).filter(|content| *content != 1) {
        wrong[0] = 0x10 | content;
        assert_eq!(read(&wrong), Err(3), "content parameter {content}");
    }
    let mut short = tag_with(&[(3, b"DK-1")], 32);
    assert!(read(&short).is_ok());
    short[31] = 1;
    assert_eq!(read(&short), Err(4));
}

#[test]
fn reading_07_an_ordinal_above_the_parts_is_6_on_a_tag_and_9_in_a_sheet_or_an_edit() {
    for (parts, ordinal) in [(0, 0), (1, 0), (1, 1), (255, 255), (0, 1), (1, 2), (254, 255)] {
        let good = ordinal <= parts;
        let value = [parts, 0, ordinal, 0];
        let tag = Draft { parts, ordinal, ..Draft::default() }.tag(36);
        let entries = vec![(4, value.to_vec()), (5, vec![0x10])];
        assert_eq!(elements(&tag), if good { Ok(entries) } else { Err(6) });
        let sheet = build::sheet(&[(4, &value), (5, &[0x10])]);
        assert_eq!(written(&sheet, 36), if good { Ok(tag.clone()) } else { Err(9) });
        assert_eq!(edited(&tag_with(&[], 36), 4, &value), if good { Ok(tag) } else { Err(9) });
    }
}

#[test]
fn reading_08_the_item_field_is_00_or_text_or_01_and_fifteen_00() {
    let with = |item: &[u8]| besides(&Draft::default().item(item).tag(64));
    assert_eq!(with(b""), Ok(vec![]));
    assert_eq!(with(b"\0A"), Err(6));
    assert_eq!(with(b"A\0B"), Err(6));
    assert_eq!(with(b"\0\0\0\0\0\0\0\0\0\0\0\0\0\0\0A"), Err(6));
    assert_eq!(with(b"0123456789ABCDEF"), only(1, b"0123456789ABCDEF"));
    assert_eq!(with(b"A\x7F"), Err(6));
    assert_eq!(with(b" ~"), only(1, b" ~"));
    let marked = |item: &[u8]| besides(&Draft::default().item(item).chain(&[&block(1, b"\0B2")]).tag(64));
    assert_eq!(marked(&[1]), only(1, b"B2"));
    for place in 1..16 {
        let mut item = [0; 16];
        (item[0], item[place]) = (1, 1);
        assert_eq!(marked(&item), Err(6), "a byte at {place}");
    }
}

#[test]
fn reading_09_the_third_byte_of_the_owner_field_chooses_its_form() {
    let with = |owner: &[u8]| besides(&Draft::default().owner(owner).tag(36));
    assert_eq!(with(b""), Ok(vec![]));
    assert_eq!(with(b"DK1"), only(3, b"DK-1"));
    assert_eq!(with(b"DK"), Err(6), "two capitals and no unit");
    assert_eq!(with(b"D"), Err(6));
    assert_eq!(with(b"\0D"), Err(6));
    assert_eq!(with(&[0, 0, 2]), Err(6), "02 with no text");
    assert_eq!(with(&[0, 0, 3]), Err(6), "03 with no text");
    assert_eq!(with(b"\0\0\x02x"), only(23, b"\x02x"));
    assert_eq!(with(b"\0\0\x03x y"), only(23, b"\x03x y"));
    assert_eq!(with(b"\0\0\x02x\0y"), Err(6), "text behind a 00");
    assert_eq!(with(b"\0\0\x04x"), Err(6), "no form begins 04");
    assert_eq!(with(b"DK1\0x"), Err(6));
    assert_eq!(with(b"DK1_"), Err(6), "no unit character");
    assert_eq!(with(b"dK1"), Err(6));
    let marked = |owner: &[u8]| besides(&Draft::default().owner(owner).chain(&[&owner_beyond(b"ABC-1")]).tag(64));
    assert_eq!(marked(&[0, 0, 1]), only(3, b"ABC-1"));
    for place in 3..13 {
        let mut owner = [0; 13];
        (owner[2], owner[place]) = (1, 7);
        assert_eq!(marked(&owner), Err(6), "a byte at {place} behind the marker");
    }
}

#[test]
fn reading_10_one_capital_and_a_blank_is_a_prefix_of_one() {
    let with = |owner: &[u8]| besides(&Draft::default().owner(owner).tag(36));
    assert_eq!(with(b"X 12"), only(3, b"X-12"));
    assert_eq!(with(b" X12"), Err(6), "a blank first");
    assert_eq!(with(b"  12"), Err(6), "two blanks");
    assert_eq!(with(b"DK-"), only(3, b"DK--"), "a hyphen is a unit character");
    assert_eq!(&tag_with(&[(3, b"X-12")], 36)[21..34], b"X 12\0\0\0\0\0\0\0\0\0");
    assert_eq!(&tag_with(&[(3, b"DK--")], 36)[21..25], b"DK-\0");
}

#[test]
fn reading_11_the_first_two_bytes_before_01_02_and_03_may_be_anything_but_are_loose() {
    let beyond = owner_beyond(b"ABC-1");
    for kind in [1, 2, 3] {
        for (first, second) in [(0, 0), (b'D', b'K'), (0, 9), (0xFF, 0)] {
            let field = if kind == 1 { vec![first, second, 1] } else { vec![first, second, kind, b'x'] };
            let chain: &[u8] = if kind == 1 { &beyond } else { &[] };
            let tag = Draft::default().owner(&field).chain(&[chain]).tag(64);
            assert_eq!(besides(&tag), if kind == 1 { only(3, b"ABC-1") } else { only(23, &[kind, b'x']) });
            assert_eq!(is_loose(&tag), (first, second) != (0, 0));
            let mut other = tag.clone();
            other[21] ^= 1;
            assert_eq!(read(&other), Err(4), "they are under the CRC");
        }
    }
}

#[test]
fn reading_12_on_32_bytes_the_limits_are_9_and_8_and_a_marker_is_7() {
    let (nine, ten) = (b"DK-123456789", b"DK-1234567890");
    let (eight, more) = (b"\x0212345678", b"\x02123456789");
    for (number, fits, does_not) in [(3, &nine[..], &ten[..]), (23, eight, more)] {
        assert_eq!(besides(&tag_with(&[(number, fits)], 32)), only(number, fits));
        assert_eq!(written(&sheet_with(&[(number, does_not)]), 32), Err(11));
        assert_eq!(besides(&tag_with(&[(number, does_not)], 36)), only(number, does_not));
    }
    assert_eq!(read(&Draft::default().owner(&[0, 0, 1]).tag(32)), Err(7));
    assert_eq!(read(&Draft::default().item(&[1]).tag(32)), Err(7));
    assert_eq!(read(&Draft::default().owner(&[0, 0, 1, 0, 0, 0, 0, 0, 0, 0, 5]).tag(32)), Err(6));
    assert_eq!(edit(&mut Draft::default().owner(&[0, 0, 1]).tag(32), 3, b""), Err(7));
}
