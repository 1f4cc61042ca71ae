//! The published examples of source document 001, B.1 and B.2.

use independent::build::block;
use independent::examples::{b1, b2, Example};
use independent::generate::locks;
use independent::model::listing;
use independent::trial::{damage, edit, is_loose, read, write, written};

/// The sheet writes the tag, the tag reads as the sheet, and writing again changes nothing.
fn holds_both_ways(example: Example) {
    let Example { name, sheet, mut tag } = example;
    assert_eq!(written(&sheet, tag.len()), Ok(tag.clone()), "{name}");
    assert_eq!(read(&tag), Ok(sheet.clone()), "{name}");
    assert!(!is_loose(&tag), "{name}");
    let locked = locks::all_locked(tag.len());
    assert_eq!(write(&sheet, &mut tag, &locked), Ok(0), "{name}");
}

#[test]
fn b1_the_truncated_basic_block() {
    holds_both_ways(b1());
    let lines = "elements 4\n1 31303030303030303536\n3 444B2D373138353030\n4 01000100\n5 10\n";
    assert_eq!(listing(&b1().tag), lines);
}

#[test]
fn b2_basic_block_library_extension_and_acquisition() {
    holds_both_ways(b2());
    let tag = b2().tag;
    assert_eq!(tag.len(), 76, "at least 608 bits");
    assert_eq!(tag[34..39], block(1, &[1]), "05 01 00 05 01 by its rule");
    assert_eq!(tag[39..73], block(2, b"Bogvognen\x001234567890\0\0a789656c"), "checksum 71 by its rule");
}

#[test]
fn b2_with_the_printed_capital_breaks_the_printed_checksum() {
    let mut tag = b2().tag;
    assert_eq!(tag[65], b'a');
    tag[65] = b'A';
    assert_eq!(damage(&tag), Some((18, 39)), "block 2 begins at byte 39");
}

#[test]
fn b2_can_be_edited_and_brought_back() {
    let mut tag = b2().tag;
    let (pages, old) = edit(&mut tag, 19, b"").unwrap();
    assert_eq!(old, [1]);
    assert_eq!(tag[34..68], b2().tag[39..73]);
    assert_eq!(edit(&mut tag, 19, &old), Ok((pages, vec![])));
    assert_eq!(tag, b2().tag);
}
