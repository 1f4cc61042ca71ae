//! The readings of document 01, points 33 to 39: reading, editing, `taglist`.

use independent::build::{block, blocks_up_to};
use independent::examples;
use independent::generate::{locks, sheets, tags};
use independent::model::layout::layout;
use independent::model::reading::content_of;
use independent::model::{listing, sheet};
use independent::random::Random;
use independent::trial::{
    besides, carrying, edit, edit_under, edited, is_loose, only, read, read_into, sheet_with, tag_with, written,
};

#[test]
fn reading_33_room_equal_to_the_length_is_enough_and_14_is_coded() {
    for example in examples::all() {
        let length = example.sheet.len();
        for room in 0..length {
            assert_eq!(read_into(&example.tag, room), Err(2), "{} in {room}", example.name);
        }
        assert_eq!(read_into(&example.tag, length), Ok(example.sheet.clone()));
        assert_eq!(read_into(&example.tag, length + 9), Ok(example.sheet));
    }
    // 2 + 4 x 255 + 5 + 253 x 255 = 65,542: the 254th block would begin behind 65,535.
    let longest = block(300, &[0; 252]);
    let sheet = sheet::of_content(&carrying(vec![longest.clone(); 253])).unwrap();
    assert_eq!(sheet.len(), 65_542);
    assert_eq!(sheet::of_content(&carrying(vec![longest; 254])), Err(14));
    let up_to = |place| sheet::of_content(&carrying(blocks_up_to(place))).map(|sheet| sheet.len());
    assert_eq!((up_to(65_535), up_to(65_536)), (Ok(65_538), Err(14)));
    let most = tag_with(&vec![(255, &block(300, b"")[..]); 671], 2048);
    assert_eq!(read(&most).unwrap().len(), 2 + 4 * 673 + 5 + 3 * 671);
}

#[test]
fn reading_34_room_under_255_and_loose_before_room_and_value() {
    let own = tag_with(&[(19, &[1])], 64);
    let open = locks::open(64);
    for room in [0, 1, 254] {
        assert_eq!(edit_under(&mut own.clone(), &open, 3, b"", room), Err(2), "nothing to hand out");
        assert_eq!(edit_under(&mut own.clone(), &open, 3, b"bad", room), Err(2), "Room before Value");
    }
    for room in [255, 256, 300] {
        assert_eq!(edit_under(&mut own.clone(), &open, 19, &[1], room), Ok((0, vec![1])));
        assert_eq!(edit_under(&mut own.clone(), &open, 3, b"bad", room), Err(9));
    }
    for place in 40..64 {
        let mut loose = own.clone();
        loose[place] = 1;
        assert_eq!(read(&loose), read(&own), "byte {place} stands behind the end mark");
        assert_eq!(edit_under(&mut loose, &open, 3, b"", 254), Err(13));
        assert_eq!(edit_under(&mut loose, &open, 3, b"bad", 255), Err(13));
        assert_eq!(edit_under(&mut loose, &open, 300, b"", 0), Err(13));
    }
}

#[test]
fn reading_35_the_writers_layout_of_what_was_read_always_fits() {
    let mut random = Random::new(35);
    let mut met = 0;
    for _ in 0..4000 {
        let tag = if random.one_in(2) { tags::loose(&mut random) } else { tags::mixed(&mut random) };
        let Ok(content) = content_of(&tag) else { continue };
        let image = layout(&content, tag.len()).expect("never longer than what was read");
        assert_eq!(content_of(&image), Ok(content));
        assert!(!is_loose(&image));
        met += 1;
    }
    assert!(met > 1000, "only {met} tags were read");
    assert_eq!(edited(&tag_with(&[], 36), 19, &[1]), Err(11), "11 comes from the new value");
}

#[test]
fn reading_36_a_second_owner_is_10_and_no_change_is_accepted_under_full_locks() {
    let with_isil = tag_with(&[(3, b"DK-1")], 64);
    let with_other = tag_with(&[(23, b"\x02x")], 64);
    assert_eq!(edited(&with_isil, 23, b"\x02x"), Err(10), "no replacement");
    assert_eq!(edited(&with_other, 3, b"DK-1"), Err(10));
    assert_eq!(edited(&with_other, 3, b""), Ok(with_other.clone()));
    let locked = locks::all_locked(64);
    let under_locks = |tag: &[u8], number: u32, value: &[u8], room: usize| {
        edit_under(&mut tag.to_vec(), &locked, number, value, room)
    };
    assert_eq!(under_locks(&with_isil, 3, b"DK-1", 255), Ok((0, b"DK-1".to_vec())));
    assert_eq!(under_locks(&with_isil, 23, b"", 255), Ok((0, vec![])));
    assert_eq!(under_locks(&with_isil, 4, &[1, 0, 1, 0], 255), Ok((0, vec![1, 0, 1, 0])));
    assert_eq!(under_locks(&with_isil, 3, b"DK-2", 255), Err(12));
    assert_eq!(under_locks(&with_isil, 3, b"", 255), Err(12));
    assert_eq!(under_locks(&with_isil, 23, b"", 254), Err(2), "only after 1 to 9 pass");
    assert_eq!(under_locks(&with_isil, 4, b"", 255), Err(9));
    assert_eq!(under_locks(&with_isil, 22, b"\x01", 255), Err(9));
}

#[test]
fn reading_37_numbers_outside_the_table_and_long_values_are_9() {
    let tag = tag_with(&[(1, b"B1"), (19, &[1])], 2048);
    let known = [1, 3, 4, 5, 19, 22, 23];
    let far = [513, 65_537, 65_559, 0x0100_0001, u32::MAX];
    for number in (0..=300).chain(far).filter(|number| !known.contains(number)) {
        for value in [&b""[..], b"1", b"DK-1", b"\x01\0\x01\0", &block(300, b"x")] {
            assert_eq!(edited(&tag, number, value), Err(9), "{number} {value:?}");
        }
    }
    let text = [b'7'; 300];
    for (length, answer) in [(250, Ok(())), (251, Err(11)), (255, Err(11)), (256, Err(9)), (300, Err(9))] {
        assert_eq!(edited(&tag, 1, &text[..length]).map(|_| ()), answer, "{length} bytes");
    }
    let with_22 = tag_with(&[(1, b"B1"), (22, b"x")], 2048);
    assert_eq!(edited(&with_22, 1, &text[..255]), Err(10));
    assert_eq!(edited(&with_22, 1, &text[..256]), Err(9));
    for number in [4, 5] {
        assert_eq!(edited(&tag, number, b""), Err(9), "removing {number}");
    }
}

#[test]
fn reading_38_the_old_element_goes_out_in_sheet_form() {
    let identifier = [b'7'; 20];
    let cases: [(u8, &[u8]); 8] = [
        (1, b"B1"),
        (1, &identifier),
        (3, b"US-InU-Mu"),
        (3, b"ABCD-1"),
        (19, &[200]),
        (22, b"other"),
        (23, b"\x03far away"),
        (23, b"\x02longer than the field"),
    ];
    for (number, value) in cases {
        let mut tag = tag_with(&[(number, value)], 112);
        assert_eq!(edit(&mut tag, number.into(), b"").map(|(_, old)| old), Ok(value.to_vec()));
        assert_eq!(besides(&tag), Ok(vec![]));
        assert_eq!(edit(&mut tag, number.into(), value).map(|(_, old)| old), Ok(vec![]));
        assert_eq!(besides(&tag), only(number, value));
    }
    let mut tag = tag_with(&[], 64);
    assert_eq!(edit(&mut tag, 4, &[200, 0, 7, 0]).map(|(_, old)| old), Ok(vec![1, 0, 1, 0]));
    assert_eq!(edit(&mut tag, 4, &[1, 0, 0, 0]).map(|(_, old)| old), Ok(vec![200, 0, 7, 0]));
    assert_eq!(edit(&mut tag, 5, &[0x23]).map(|(_, old)| old), Ok(vec![0x10]));
    assert_eq!(edit(&mut tag, 5, &[0x20]).map(|(_, old)| old), Ok(vec![0x23]));
}

#[test]
fn reading_39_taglist_counts_entries_and_a_newline_is_a_byte() {
    let carried = [block(300, b""), block(2, b"z")];
    let tag = tag_with(&[(19, &[0xAB]), (255, &carried[0]), (255, &carried[1])], 64);
    assert_eq!(listing(&tag), "elements 5\n4 01000100\n5 10\n19 AB\n255 032C01\n255 0502007D7A\n");
    assert_eq!(listing(&[&tag[..], b"\n"].concat()), "refused 1\n");
    assert_eq!(listing(&[&tag[..], b"\n\n\n\n"].concat()), listing(&tag), "68 bytes, four of them behind the end mark");
    let b2 = examples::b2();
    assert_eq!(written(&b2.sheet, 76), Ok(b2.tag), "lower case a789656c and no final 00");
    let mut random = Random::new(39);
    let content = sheets::fitting(&mut random, 2048);
    let lines = listing(&layout(&content, 2048).unwrap());
    assert_eq!(lines.lines().count(), 1 + content.elements().count() + content.carried.len());
    assert_eq!(listing(&written(&sheet_with(&[]), 36).unwrap()), "elements 2\n4 01000100\n5 10\n");
}
