//! The readings of document 01, points 13 to 23: the chain and block 1.

use independent::build::{block, hex, Draft};
use independent::trial::{besides, damage, elements, is_loose, only, read, sheet_with, tag_with, written, Elements};

/// A tag of 64 bytes with this chain.
fn chained(blocks: &[&[u8]]) -> Vec<u8> {
    Draft::default().chain(blocks).tag(64)
}

/// A tag with a block 1 of this inside and these raw fields.
fn fields(item: &[u8], owner: &[u8], inside: &[u8]) -> Vec<u8> {
    Draft::default().item(item).owner(owner).chain(&[&block(1, inside)]).tag(64)
}

/// What the tag carries.
fn carried(blocks: &[&[u8]]) -> Result<Elements, u32> {
    Ok(blocks.iter().map(|block| (255, block.to_vec())).collect())
}

#[test]
fn reading_13_a_36_byte_tag_has_two_chain_bytes() {
    let mut tag = Draft::default().tag(36);
    for first in 0..=255 {
        for second in 0..=255 {
            tag[34..].copy_from_slice(&[first, second]);
            let found = match (first, second) {
                (0, _) | (1, 0 | 1) => None,
                (1, 2) => Some((15, 35)),
                (1, _) => Some((16, 35)),
                (2, _) => Some((15, 34)),
                _ => Some((16, 34)),
            };
            assert_eq!(damage(&tag), found, "{first} {second}");
            assert!(found.is_some() || besides(&tag) == Ok(vec![]), "{first} {second}");
        }
    }
}

#[test]
fn reading_14_00_ends_the_chain_only_where_a_block_would_begin() {
    let inner = block(300, &[0, 0, 0]);
    assert_eq!(besides(&chained(&[&inner, &block(301, b"x")])), carried(&[&inner, &block(301, b"x")]));
    let media = block(1, &[5]);
    assert_eq!(besides(&chained(&[&media, &[0], &media])), only(19, &[5]), "a second block 1 behind the end");
    assert_eq!(damage(&chained(&[&media, &media, &[0]])), Some((19, 39)));
    assert_eq!(besides(&chained(&[&[0], &[2, 2, 2, 2]])), Ok(vec![]));
    assert_eq!(besides(&chained(&[&[1, 1, 0], &[255; 20]])), Ok(vec![]));
    assert_eq!(damage(&chained(&[&[1, 1], &[255; 20]])), Some((16, 36)));
}

#[test]
fn reading_15_least_lengths_by_id() {
    for id in 0..=u16::MAX {
        let [low, high] = id.to_le_bytes();
        let three = [3, low, high];
        assert_eq!(
            besides(&chained(&[&three])),
            if id > 100 { carried(&[&three]) } else { Err(17) },
            "3 bytes, ID {id}"
        );
        let four = [4, low, high, 4 ^ low ^ high];
        let right = match id {
            0 => Err(17),
            1 => Ok(vec![]),
            _ => carried(&[&four]),
        };
        assert_eq!(besides(&chained(&[&four])), right, "4 bytes, ID {id}");
    }
}

#[test]
fn reading_16_the_id_has_16_bits() {
    for id in [256, 257, 0x0164, 0x6400] {
        let without_checksum = block(id, b"any");
        let twice = [&without_checksum[..], &without_checksum];
        assert_eq!(besides(&chained(&twice)), carried(&twice), "ID {id}");
        let tag = tag_with(&[(255, &without_checksum), (255, &without_checksum)], 64);
        assert_eq!(besides(&tag), carried(&twice));
    }
    assert_eq!(damage(&chained(&[&hex("05 64 00 77 77")])), Some((18, 34)), "ID 100 has a checksum");
    assert_eq!(besides(&chained(&[&hex("05 65 00 77 77")])), carried(&[&hex("05 65 00 77 77")]), "ID 101 has none");
}

#[test]
fn reading_17_ends_doubles_and_insides_of_carried_blocks() {
    let rest = block(2, &[0xAA; 26]);
    let full = chained(&[&rest]);
    assert_eq!((rest.len(), besides(&full)), (30, carried(&[&rest])));
    assert!(!is_loose(&full), "a full tag needs no end mark");
    let longer = block(200, &[0xAA; 28]);
    assert_eq!(damage(&Draft::default().chain(&[&longer[..30]]).tag(64)), Some((16, 34)), "past the tag");

    let doubles = [&block(2, b"a")[..], &block(2, b"a")];
    assert_eq!(besides(&chained(&doubles)), carried(&doubles));
    let (media, other) = (&block(1, &[5])[..], &block(2, b"a")[..]);
    for (chain, place) in [
        (&[media, media][..], 39),
        (&[media, other, media], 44),
        (&[other, media, media], 44),
        (&[media, &[1], media], 40),
        (&[other, media, &[1], other, &[1], media], 51),
    ] {
        assert_eq!(damage(&chained(chain)), Some((19, place)), "a second block 1, wherever it stands");
    }
    let zeros = block(3, &[b'x', 0, 0, 0, 1, 0, 0]);
    assert_eq!(besides(&chained(&[&zeros])), carried(&[&zeros]), "neither judged nor stripped");
    assert!(!is_loose(&chained(&[&zeros])));
    for place in 0..zeros.len() {
        let mut wrong = zeros.clone();
        wrong[place] ^= 0x10;
        assert_eq!(read(&chained(&[&wrong])).is_ok(), place == 2, "byte {place}; the ID 1003 hex has no checksum");
    }
}

#[test]
fn reading_18_stripping_comes_before_counting_what_follows_the_second_separator() {
    let with = |inside: &[u8]| elements(&fields(b"", b"", inside)).map(|all| all[1].1[0]);
    assert_eq!(with(&[0, 0, 0, 0x15]), Ok(0x15));
    assert_eq!(with(&[0, 0, 0, 0x15, 0, 0]), Ok(0x15));
    assert_eq!(with(&[0, 0, 0, 0, 0, 0]), Ok(0x10));
    assert_eq!(with(&[0, 0, 0, 0, 0x15]), Err(6), "two bytes, 00 and 15");
    assert_eq!(with(&[0, 0, 0, 0x15, 0x15]), Err(6));
    assert_eq!(with(&[0, 0, 0, 0x15, 0, 1]), Err(6));
    // Only what follows the four leading bytes is stripped: here the checksum is 00 and the body is all 00 but one.
    let block_one = hex("05 01 00 00 04");
    assert_eq!(besides(&chained(&[&block_one])), only(19, &[4]));
}

#[test]
fn reading_19_a_block_1_with_nothing_in_it_reads_as_absent_and_is_loose() {
    for zeros in 0..=20 {
        let tag = chained(&[&block(1, &vec![0; zeros])]);
        assert_eq!(besides(&tag), Ok(vec![]), "{zeros}");
        assert!(is_loose(&tag), "{zeros}");
    }
    for media in 1..=255 {
        let tag = chained(&[&block(1, &[media])]);
        assert_eq!(besides(&tag), only(19, &[media]));
        assert!(!is_loose(&tag));
        assert!(is_loose(&chained(&[&block(1, &[media, 0])])), "a trailing 00");
    }
    assert_eq!(besides(&fields(b"", b"", b"\0item")), only(22, b"item"), "media 00 is no element 19");
}

#[test]
fn reading_20_fields_of_block_1_are_judged_whether_or_not_a_marker_stands() {
    for (marked, owner) in [(true, &[0, 0, 1][..]), (false, &[])] {
        let good = if marked { only(3, b"ABC-1") } else { Err(7) };
        assert_eq!(besides(&fields(b"", owner, b"\0\0ABC-1")), good);
        for bad in
            [&b"\0\0ABC"[..], b"\0\0abc-1", b"\0\0ABCDE-1", b"\0\0ABC-123456789012", b"\0\0\x02", b"\0\0\x03\x1F"]
        {
            assert_eq!(besides(&fields(b"", owner, bad)), Err(6), "{bad:?}");
        }
    }
    for item in [&[1][..], b"", b"text"] {
        assert!(read(&fields(item, b"", b"\0text")).is_ok());
        assert_eq!(read(&fields(item, b"", b"\0te\x7Ft")), Err(6));
        assert_eq!(read(&fields(item, b"", b"\0\x01")), Err(6));
    }
}

#[test]
fn reading_21_markers_and_block_1_must_agree() {
    let marker = &[0, 0, 1];
    assert_eq!(read(&fields(b"", b"", b"\0\0ABC-1")), Err(7), "an owner without the marker");
    assert_eq!(read(&fields(b"", b"DK1", b"\0\0ABC-1")), Err(7), "an owner beside a basic owner");
    assert_eq!(read(&fields(b"", b"\0\0\x02x", b"\0\0ABC-1")), Err(7));
    assert_eq!(read(&fields(b"", marker, b"\0item")), Err(7), "the marker and no owner");
    assert_eq!(read(&Draft::default().owner(marker).tag(36)), Err(7), "the marker and no block 1");
    assert_eq!(besides(&fields(b"", marker, b"\0\0ABC-1")), only(3, b"ABC-1"));
    assert_eq!(read(&fields(&[1], b"", b"\x05")), Err(7), "a marked item that is empty");
    assert_eq!(read(&fields(&[1], marker, b"\0\0ABC-1")), Err(7));
    assert_eq!(read(&Draft::default().item(&[1]).tag(36)), Err(7), "a marked item and no block 1");
    assert_eq!(besides(&fields(&[1], b"", b"\0item")), only(1, b"item"));
}

#[test]
fn reading_22_what_could_stand_in_the_basic_block_reads_from_block_1_and_is_loose() {
    for length in 1..=24 {
        let item = vec![b'7'; length];
        let tag = fields(&[1], b"", &[&[0], &item[..]].concat());
        assert_eq!(besides(&tag), only(1, &item), "{length}");
        assert_eq!(is_loose(&tag), length <= 16, "{length}");
    }
    assert_eq!(besides(&fields(b"", b"", b"\0other")), only(22, b"other"));
    assert_eq!(besides(&fields(b"one", b"", b"\0other")), Ok(vec![(1, b"one".to_vec()), (22, b"other".to_vec())]));
    assert!(!is_loose(&fields(b"one", b"", b"\0other")));
    let owners = [
        (3, &b"DK-1"[..], true),
        (3, b"X-12345678901", true),
        (3, b"ABC-1", false),
        (23, b"\x021234567890", true),
        (23, b"\x0212345678901", false),
    ];
    for (number, owner, loose) in owners {
        let tag = fields(b"", &[0, 0, 1], &[&[0, 0], owner].concat());
        assert_eq!(besides(&tag), only(number, owner));
        assert_eq!(is_loose(&tag), loose, "{owner:?}");
    }
}

#[test]
fn reading_23_a_nonzero_usage_byte_agrees_with_the_main_qualifier_and_is_element_5() {
    for main in 0..16 {
        for usage in 0..=255 {
            let chain = block(1, &[0, 0, 0, usage]);
            let tag = Draft { first: main << 4 | 1, ..Draft::default() }.chain(&[&chain]).tag(64);
            let element = if usage == 0 { main << 4 } else { usage };
            let agrees = usage == 0 || usage >> 4 == main;
            assert_eq!(elements(&tag).map(|all| all[1].1[0]), if agrees { Ok(element) } else { Err(7) });
            assert_eq!(agrees && is_loose(&tag), agrees && usage & 15 == 0, "{main} {usage}");
        }
    }
    let main_0 = written(&independent::build::sheet(&[(4, &[1, 0, 1, 0]), (5, &[0x05])]), 44).unwrap();
    assert_eq!((main_0[0], &main_0[38..42]), (0x01, &[0, 0, 0, 5][..]));
    assert_eq!(elements(&main_0).unwrap()[1], (5, vec![5]));
    assert_eq!(written(&sheet_with(&[]), 44).unwrap()[34], 0, "no usage byte where the sub qualifier is 0");
}
