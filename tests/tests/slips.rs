//! Document 01, "Slips that look right": each would fail here.

use independent::build::{self, block, Draft};
use independent::generate::locks;
use independent::model::crc::{crc, of_tag};
use independent::trial::{edit, read, sheet_with, tag_with, write, written};

#[test]
fn parts_260_are_not_written_as_4() {
    assert_eq!(written(&build::sheet(&[(4, &[4, 1, 1, 0]), (5, &[0x10])]), 36), Err(9));
    assert_eq!(edit(&mut tag_with(&[], 36), 4, &[4, 1, 1, 0]), Err(9));
}

#[test]
fn the_crc_runs_neither_over_all_34_bytes_nor_over_30_on_a_short_tag() {
    let long = tag_with(&[(1, b"B1")], 36);
    assert_ne!(of_tag(&long), crc(long[..34].iter().copied()));
    let short = tag_with(&[(1, b"B1"), (3, b"DK-123456789")], 32);
    let thirty = short[..19].iter().chain(&short[21..]).copied();
    assert_ne!(of_tag(&short), crc(thirty.clone()));
    assert_eq!(of_tag(&short), crc(thirty.chain([0, 0])));
}

#[test]
fn the_owner_marker_is_the_third_byte_of_the_field() {
    let owner_beyond = block(1, b"\0\0ABC-1");
    assert!(read(&Draft::default().owner(&[0, 0, 1]).chain(&[&owner_beyond]).tag(64)).is_ok());
    assert_eq!(read(&Draft::default().owner(&[1]).chain(&[&owner_beyond]).tag(64)), Err(6));
}

#[test]
fn blocks_that_move_leave_no_old_bytes_behind_the_end_mark() {
    let carried = block(300, b"seven bytes");
    let mut tag = tag_with(&[(19, &[1]), (22, b"another item"), (255, &carried)], 80);
    edit(&mut tag, 22, b"").unwrap();
    let end = 34 + 5 + carried.len();
    assert_eq!(tag[39..end], carried);
    assert_eq!(tag[end..], vec![0; 80 - end]);
    edit(&mut tag, 19, b"").unwrap();
    assert_eq!(tag[34..end - 5], carried);
    assert_eq!(tag[end - 5..], vec![0; 80 - end + 5]);
}

#[test]
fn a_locked_page_whose_bytes_do_not_change_is_no_refusal() {
    let mut tag = tag_with(&[(19, &[1])], 40);
    let mut map = locks::all_locked(40);
    map[9] = 0;
    // The media format is byte 38 and the checksum byte 37, both on page 9.
    assert_eq!(write(&sheet_with(&[(19, &[2])]), &mut tag, &map), Ok(1));
    map[9] = 1;
    assert_eq!(write(&sheet_with(&[(19, &[1])]), &mut tag, &map), Err(12));
    assert_eq!(write(&sheet_with(&[(19, &[2])]), &mut tag, &map), Ok(0));
}
