//! Document 01, "Pairs to try" and "The whole case", in both directions where a pair has two.

use independent::build::hex;
use independent::examples::{whole_case, WHOLE_CASE_LISTING};
use independent::generate::locks;
use independent::model::crc::crc;
use independent::model::listing;
use independent::trial::{besides, edited, elements, only, read, sheet_with, tag_with, write, written};

#[test]
fn crc_of_nothing_of_00_of_ff_and_of_the_nine_digits() {
    assert_eq!(crc([]), 0xFFFF);
    assert_eq!(crc([0x00]), 0xE1F0);
    assert_eq!(crc([0xFF]), 0xFF00);
    assert_eq!(crc(*b"123456789"), 0x29B1);
}

#[test]
fn tag_lengths_0_33_34_and_2052_are_refused_1_and_36_passes() {
    let sheet = whole_case().sheet;
    for length in [0, 33, 34, 2052] {
        let mut tag = whole_case().tag;
        tag.resize(length, 0);
        assert_eq!(read(&tag), Err(1), "reading {length} bytes");
        assert_eq!(written(&sheet, length), Err(1), "writing {length} bytes");
        assert_eq!(edited(&tag, 1, b"B2"), Err(1), "editing {length} bytes");
    }
    assert_eq!(read(&whole_case().tag), Ok(sheet));
}

#[test]
fn parts_255_ordinal_255_writes_ff_ff_and_parts_256_is_refused_9() {
    let sheet = |set: [u8; 4]| independent::build::sheet(&[(4, &set), (5, &[0x10])]);
    let tag = written(&sheet([255, 0, 255, 0]), 36).unwrap();
    assert_eq!(tag[1..3], [0xFF, 0xFF]);
    assert_eq!(elements(&tag).unwrap()[0], (4, vec![255, 0, 255, 0]));
    assert_eq!(written(&sheet([0, 1, 255, 0]), 36), Err(9));
}

#[test]
fn us_inu_mu_fills_the_owner_field() {
    let tag = tag_with(&[(3, b"US-InU-Mu")], 36);
    assert_eq!(&tag[21..34], b"USInU-Mu\0\0\0\0\0");
    assert_eq!(besides(&tag), only(3, b"US-InU-Mu"));
}

#[test]
fn an_identifier_of_16_stays_in_the_basic_block_and_17_does_not() {
    let (sixteen, seventeen) = (&b"0123456789ABCDEF"[..], &b"0123456789ABCDEFG"[..]);
    let tag = tag_with(&[(1, sixteen)], 64);
    assert_eq!((&tag[3..19], tag[34]), (sixteen, 0));
    assert_eq!(besides(&tag), only(1, sixteen));

    let tag = tag_with(&[(1, seventeen)], 64);
    assert_eq!(tag[3..19], hex("01 00 00 00 00 00 00 00 00 00 00 00 00 00 00 00"));
    assert_eq!(tag[34..37], hex("16 01 00"));
    assert_eq!((tag[38], &tag[39..56], tag[56]), (0, seventeen, 0));
    assert_eq!(besides(&tag), only(1, seventeen));

    assert!(written(&sheet_with(&[(1, sixteen)]), 32).is_ok());
    assert_eq!(written(&sheet_with(&[(1, seventeen)]), 32), Err(11));
}

#[test]
fn an_all_zero_36_byte_tag_is_refused_3() {
    assert_eq!(read(&[0; 36]), Err(3));
    assert_eq!(edited(&[0; 36], 1, b"B1"), Err(3));
    assert_eq!(listing(&[0; 36]), "refused 3\n");
}

#[test]
fn the_whole_case_in_both_directions() {
    let case = whole_case();
    let mut tag = hex("A7").repeat(36);
    assert_eq!(write(&case.sheet, &mut tag, &locks::open(36)), Ok(9));
    assert_eq!(tag[..5], hex("11 01 01 42 31"));
    assert_eq!(tag[5..19], [0; 14]);
    assert_eq!(tag[21..], [0; 15]);
    assert_eq!(tag, case.tag);
    assert_eq!(read(&tag), Ok(case.sheet.clone()));
    assert_eq!(write(&case.sheet, &mut tag, &locks::all_locked(36)), Ok(0));
    assert_eq!(listing(&tag), WHOLE_CASE_LISTING);
    assert_eq!(listing(&[]), "refused 1\n");
    assert_eq!(listing(&[0x11; 2049]), "refused 1\n");
}

#[test]
fn taglist_takes_2048_bytes_and_not_one_more() {
    let mut input = tag_with(&[(1, b"B1")], 2048);
    assert_eq!(listing(&input), WHOLE_CASE_LISTING);
    for _ in 0..8 {
        input.push(0);
        assert_eq!(listing(&input), "refused 1\n", "{} bytes", input.len());
    }
}
