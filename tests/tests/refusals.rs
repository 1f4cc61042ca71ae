//! Every refusal of every call, reached by an input with that fault alone, and the order among them: an input with all
//! faults at once is mended fault by fault. `trial` checks each time that no buffer has changed.

use independent::build::{self, block, Draft};
use independent::generate::locks;
use independent::model::refusal::{name, APART, EDITING, OFFSET, READING, TOGETHER, TO_TEXT, TO_WORDS, WRITING};
use independent::model::sheet;
use independent::trial::{
    apart_into, carrying, damage, edit_under, edited, read, read_into, sheet_with, tag_with, to_text_into,
    to_words_into, together_into, write, written,
};

/// Tags of 64 bytes, each with one fault, and the refusal that reading and editing give for it.
fn faulty_tags() -> Vec<(u32, Vec<u8>)> {
    let plain = Draft::default();
    let mut wrong_crc = plain.tag(64);
    wrong_crc[20] ^= 1;
    vec![
        (1, plain.tag(66)),
        (3, Draft { first: 0x12, ..plain.clone() }.tag(64)),
        (4, wrong_crc),
        (15, plain.clone().chain(&[&[2]]).tag(64)),
        (16, plain.clone().chain(&[&[31, 101, 0]]).tag(64)),
        (17, plain.clone().chain(&[&block(0, b"")]).tag(64)),
        (17, plain.clone().chain(&[&[3, 100, 0]]).tag(64)),
        (18, plain.clone().chain(&[&[4, 100, 0, 0]]).tag(64)),
        (19, plain.clone().chain(&[&block(1, b""), &block(1, b"")]).tag(64)),
        (6, Draft { ordinal: 2, ..plain.clone() }.tag(64)),
        (6, plain.clone().item(&[7]).tag(64)),
        (6, plain.clone().owner(b"DK").tag(64)),
        (6, plain.clone().chain(&[&block(1, &[0, 7])]).tag(64)),
        (7, plain.clone().item(&[1]).tag(64)),
        (7, plain.clone().owner(&[0, 0, 1]).tag(64)),
        (7, plain.clone().chain(&[&block(1, b"\0\0DK-1")]).tag(64)),
        (7, plain.chain(&[&block(1, &[0, 0, 0, 0x20])]).tag(64)),
    ]
}

/// A chain that fills 64 bytes: a block 1, fillers, and four bytes at the end, from byte 60 on.
fn chain_up_to(end: [u8; 4]) -> Vec<u8> {
    [&block(1, &[5])[..], &[1; 21], &end].concat()
}

/// The ends of such a chain that are refused 15, 16, 17, 18 and 19, each with one fault less.
const MENDED: [[u8; 4]; 5] = [[2, 0, 0, 0], [5, 0, 0, 0], [4, 0, 0, 0], [4, 1, 0, 0], [4, 1, 0, 5]];

#[test]
fn reading_gives_each_refusal() {
    assert_eq!(READING, [1, 3, 4, 15, 16, 17, 18, 19, 6, 7, 14, 2]);
    for (number, tag) in faulty_tags() {
        assert_eq!(read(&tag), Err(number));
        let place = if number == 19 { 38 } else { 34 };
        assert_eq!(damage(&tag), (15..=19).contains(&number).then_some((number, place)));
    }
    let tag = tag_with(&[], 36);
    assert_eq!(read_into(&tag, 14), Err(2));
    assert_eq!(read_into(&tag, 15).map(|sheet| sheet.len()), Ok(15));
    assert_eq!(sheet::of_content(&carrying(vec![block(300, &[1; 252]); 254])), Err(OFFSET));
}

#[test]
fn the_numbers_have_the_words_of_the_table() {
    let table = "accepted Size Room Content Check retired Field Mismatch Sheet Value Clash Large Locked Loose Offset \
                 Length End ID Checksum Second Word High Parts Bank unknown";
    assert_eq!((0..=24).map(name).collect::<Vec<_>>().join(" "), table);
}

#[test]
fn reading_with_all_faults_at_once_gives_them_in_order() {
    let mut draft = Draft { first: 0x12, ordinal: 2, ..Draft::default() }.owner(&[0, 0, 1]);
    draft.chain = chain_up_to(MENDED[0]);
    let break_crc = |mut tag: Vec<u8>| {
        tag[19] ^= 0xFF;
        tag
    };
    let mut met = vec![read_into(&break_crc(draft.tag(62)), 0)];
    met.push(read_into(&break_crc(draft.tag(64)), 0));
    draft.first = 0x11;
    met.push(read_into(&break_crc(draft.tag(64)), 0));
    for end in MENDED {
        draft.chain = chain_up_to(end);
        met.push(read_into(&draft.tag(64), 0));
    }
    draft.chain.clear();
    met.push(read_into(&draft.tag(64), 0));
    draft.ordinal = 1;
    met.push(read_into(&draft.tag(64), 0));
    draft.owner.clear();
    met.push(read_into(&draft.tag(64), 0));
    assert_eq!(met, [1, 3, 4, 15, 16, 17, 18, 19, 6, 7, 2].map(Err));
    assert!(read(&draft.tag(64)).is_ok());
}

#[test]
fn writing_gives_each_refusal() {
    assert_eq!(WRITING, [1, 8, 9, 10, 11, 12]);
    let good = sheet_with(&[(1, b"B1")]);
    assert_eq!(written(&good, 35), Err(1));
    assert_eq!(write(&good, &mut vec![0; 36], &[0; 8]), Err(1));
    assert_eq!(write(&good, &mut vec![0; 36], &[0, 0, 0, 0, 0, 0, 0, 0, 2]), Err(1));
    assert_eq!(written(&good[..good.len() - 1], 36), Err(8));
    assert_eq!(written(&sheet_with(&[(2, b"x")]), 36), Err(9));
    assert_eq!(written(&sheet_with(&[(3, b"DK-1"), (23, b"\x03x")]), 36), Err(10));
    assert_eq!(written(&sheet_with(&[(1, &[b'7'; 17]), (22, b"x")]), 2048), Err(10));
    assert_eq!(written(&sheet_with(&[(19, &[1])]), 36), Err(11));
    assert_eq!(written(&sheet_with(&[(22, &[b'7'; 251])]), 2048), Err(11));
    assert_eq!(write(&good, &mut vec![0; 36], &[0, 0, 0, 0, 1, 0, 0, 0, 0]), Err(12));
    assert_eq!(write(&good, &mut vec![0; 36], &[0, 0, 0, 0, 0, 0, 0, 0, 1]), Ok(4));
}

#[test]
fn writing_with_all_faults_at_once_gives_them_in_order() {
    let (set, usage) = ((4, &[1, 0, 1, 0][..]), (5, &[0x10][..]));
    let item = (22, &[b'7'; 40][..]);
    let misplaced = build::sheet(&[usage, set, (3, b"DK-1"), (23, b"\x04"), item]);
    let bad_value = build::sheet(&[(3, b"DK-1"), set, usage, item, (23, b"\x04")]);
    let clash = build::sheet(&[(3, b"DK-1"), set, usage, item, (23, b"\x03x")]);
    let large = build::sheet(&[(3, b"DK-1"), set, usage, item]);
    let fits = build::sheet(&[(3, b"DK-1"), set, usage]);
    let (mut tag, locked, open) = (vec![0; 64], [1; 16], [0; 16]);
    assert_eq!(write(&misplaced, &mut tag, &[2; 16]), Err(1));
    assert_eq!(write(&misplaced, &mut tag, &locked), Err(8));
    assert_eq!(write(&bad_value, &mut tag, &locked), Err(9));
    assert_eq!(write(&clash, &mut tag, &locked), Err(10));
    assert_eq!(write(&large, &mut tag, &locked), Err(11));
    assert_eq!(write(&fits, &mut tag, &locked), Err(12));
    // Bytes 0 to 2 on page 0, the CRC on pages 4 and 5, the owner on page 5.
    assert_eq!(write(&fits, &mut tag, &open), Ok(3));
}

#[test]
fn editing_gives_each_refusal() {
    assert_eq!(EDITING, [1, 3, 4, 15, 16, 17, 18, 19, 6, 7, 13, 2, 9, 10, 11, 12]);
    for (number, tag) in faulty_tags() {
        assert_eq!(edited(&tag, 1, b"B1"), Err(number));
    }
    let tag = tag_with(&[(3, b"DK-1"), (22, b"x")], 64);
    let open = locks::open(64);
    let mut map = open.clone();
    map[15] = 2;
    assert_eq!(edit_under(&mut tag.clone(), &map, 1, b"B1", 255), Err(1));
    assert_eq!(edit_under(&mut tag.clone(), &open[1..], 1, b"B1", 255), Err(1));
    assert_eq!(edited(&Draft::default().chain(&[&[1]]).tag(64), 1, b"B1"), Err(13));
    assert_eq!(edit_under(&mut tag.clone(), &open, 1, b"B1", 254), Err(2));
    assert_eq!(edited(&tag, 1, b"\x7F"), Err(9));
    assert_eq!(edited(&tag, 23, b"\x02x"), Err(10));
    assert_eq!(edited(&tag, 1, &[b'7'; 17]), Err(10));
    assert_eq!(edited(&tag, 22, &[b'7'; 26]), Err(11));
    assert_eq!(edited(&tag, 22, &[b'7'; 25]).map(|tag| tag[63]), Ok(b'7'));
    map[15] = 1;
    assert_eq!(edit_under(&mut tag.clone(), &map, 22, &[b'7'; 25], 255), Err(12));
    assert_eq!(edit_under(&mut tag.clone(), &map, 22, &[b'7'; 21], 255), Ok((7, b"x".to_vec())));
}

#[test]
fn editing_with_all_faults_at_once_gives_them_in_order() {
    let mut draft = Draft { first: 0x12, ordinal: 2, ..Draft::default() }.owner(&[0, 0, 1]);
    draft.chain = chain_up_to(MENDED[0]);
    let break_crc = |mut tag: Vec<u8>| {
        tag[19] ^= 0xFF;
        tag
    };
    let locked = [1; 16];
    let bad = |tag: Vec<u8>, room: usize| edit_under(&mut tag.clone(), &locked, 23, b"\x04", room).map(|_| ());
    let mut met = vec![edit_under(&mut break_crc(draft.tag(64)), &[2; 16], 23, b"\x04", 0).map(|_| ())];
    met.push(bad(break_crc(draft.tag(64)), 0));
    draft.first = 0x11;
    met.push(bad(break_crc(draft.tag(64)), 0));
    for end in MENDED {
        draft.chain = chain_up_to(end);
        met.push(bad(draft.tag(64), 0));
    }
    draft.chain = chain_up_to([1; 4]);
    met.push(bad(draft.tag(64), 0));
    draft.ordinal = 1;
    met.push(bad(draft.tag(64), 0));
    draft.owner = b"DK1".to_vec();
    met.push(bad(draft.tag(64), 0));
    draft.chain.clear();
    met.push(bad(draft.tag(64), 0));
    met.push(bad(draft.tag(64), 255));
    let mut tag = draft.tag(64);
    let long = [&[2][..], &[b'x'; 40]].concat();
    met.push(edit_under(&mut tag, &locked, 23, &long, 255).map(|_| ()));
    tag = Draft::default().tag(64);
    met.push(edit_under(&mut tag, &locked, 23, &long, 255).map(|_| ()));
    met.push(edit_under(&mut tag, &locked, 23, b"\x02x", 255).map(|_| ()));
    assert_eq!(met, EDITING.map(Err));
    // The owner on pages 5 and 6, the CRC on pages 4 and 5.
    assert_eq!(edit_under(&mut tag, &[0; 16], 23, b"\x02x", 255), Ok((3, vec![])));
}

#[test]
fn words_into_text_gives_20_before_2() {
    assert_eq!(TO_TEXT, [20, 2]);
    assert_eq!(to_text_into(&[0x141C, 0x0001], 2), Err(20));
    assert_eq!(to_text_into(&[0x141C, 0x0001], 6), Err(20));
    assert_eq!(to_text_into(&[0x141C], 2), Err(2));
    assert_eq!(to_text_into(&[0x141C], 3), Ok(b"CH-".to_vec()));
}

#[test]
fn text_into_words_gives_21_before_2() {
    assert_eq!(TO_WORDS, [21, 2]);
    assert_eq!(to_words_into(b"CH-\x80", 0), Err(21));
    assert_eq!(to_words_into(b"CH-\x80", 4), Err(21));
    assert_eq!(to_words_into(b"CH-", 0), Err(2));
    assert_eq!(to_words_into(b"CH-", 1), Ok(vec![0x141C]));
}

#[test]
fn taking_apart_gives_each_refusal() {
    assert_eq!(APART, [22, 6, 23, 2]);
    let enough = [1, 4, 4];
    let given = |texts: &[&[u8]], isil_leads: u32, number: u32| {
        for text in texts {
            assert_eq!(apart_into(text, isil_leads, enough), Err(number), "{text:02X?}");
        }
    };
    given(&[b"DK-1", b"DK-1.X.31."], 1, 22);
    given(&[b"X.31.", b"DK-1.X.31"], 0, 22);
    given(&[b"dk-1.X.31", b"DK-1..31", b"DK-1.\x7F.31", b"DK-1.X.", b"DK-1.X.32S", b"DK-1.X.00"], 1, 6);
    given(&[b"", &[b'x'; 256], b"X.13"], 0, 6);
    given(&[b"DK-1.X.S"], 1, 23);
    given(&[b"X.S"], 0, 23);
    for short in 0..3 {
        let mut rooms = enough;
        rooms[short] -= 1;
        assert_eq!(apart_into(b"DK-1.X.31", 1, rooms), Err(2));
    }
    assert!(apart_into(b"DK-1.X.31", 1, enough).is_ok());
}

#[test]
fn taking_apart_with_all_faults_at_once_gives_them_in_order() {
    let texts: [&[u8]; 9] = [
        b"dk-1.\xFF.s.S",
        b"dk-1.\xFF.s",
        b"DK-1.\xFF.s",
        b"DK-1.X.s",
        b"dk-1.X.S",
        b"DK-1.\xFF.S",
        b"DK-1.X.S",
        b"DK-1.X.31",
        b"DK-1.X",
    ];
    let met = texts.map(|text| apart_into(text, 1, [0; 3]).unwrap_err());
    assert_eq!(met, [22, 6, 6, 6, 6, 6, 23, 2, 2]);
    let rooms = [[1, 0, 0], [1, 4, 0], [1, 0, 4], [0, 4, 4], [1, 4, 4]];
    assert_eq!(rooms.map(|rooms| apart_into(b"DK-1.X", 1, rooms).err()), [Some(2), Some(2), Some(2), Some(2), None]);
}

#[test]
fn putting_together_gives_9_before_2() {
    assert_eq!(TOGETHER, [9, 2]);
    let good: [&[u8]; 3] = [b"X", b"DK-1", &[3, 0, 1, 0]];
    let faults: [[&[u8]; 3]; 3] = [[b"A.B", b"", &[0xFF; 256]], [b"dk-1", b"DK-1.", b"-"], [&[1, 0, 2, 0], b"", b"31"]];
    for (place, bad) in faults.iter().enumerate().flat_map(|(place, bad)| bad.map(|bad| (place, bad))) {
        let mut elements = good;
        elements[place] = bad;
        assert_eq!([0, 300].map(|room| together_into(elements, room)), [const { Err(9) }; 2], "{bad:02X?}");
    }
    // All faults at once, mended one by one.
    assert_eq!(together_into([b"A.B", b"dk-1", &[1, 0, 2, 0]], 0), Err(9));
    assert_eq!(together_into([b"X", b"dk-1", &[1, 0, 2, 0]], 0), Err(9));
    assert_eq!(together_into([b"X", b"DK-1", &[1, 0, 2, 0]], 0), Err(9));
    assert_eq!(together_into(good, 0), Err(2));
    assert_eq!(together_into(good, 8), Err(2));
    assert_eq!(together_into(good, 9), Ok(b"DK-1.X.31".to_vec()));
}
