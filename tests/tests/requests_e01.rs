//! Request E1, place and cause of damage: points 1 to 10 of its readings, each with the cases that tell it from the other
//! way to read the words.

use independent::build::{block, hex, repair_crc, Draft};
use independent::compare::case::{Call, PRESET};
use independent::generate::damaged::{self, Damaged};
use independent::generate::{locks, tags};
use independent::model::listing;
use independent::random::Random;
use independent::trial::{
    answer, besides, confirmed, damage, edit_under, edited, is_loose, read, read_into, sheet_with, tag_with,
};
use std::collections::BTreeSet;

/// The damage of a tag of 64 bytes with this chain.
fn found(chain: &[&[u8]]) -> Option<(u32, usize)> {
    damage(&Draft::default().chain(chain).tag(64))
}

/// The damage of a tag whose last bytes are these, with fillers before them.
fn found_at_end(end: &[u8], length: usize) -> Option<(u32, usize)> {
    damage(&Draft::default().chain(&[&vec![1; length - 34 - end.len()], end]).tag(length))
}

/// A block whose checksum is wrong.
fn wrong_sum(id: u16, body: &[u8]) -> Vec<u8> {
    let mut block = block(id, body);
    block[3] ^= 0xFF;
    block
}

#[test]
fn point_01_the_place_counts_from_0_at_the_tags_first_byte_to_the_blocks_own_length_byte() {
    assert_eq!(found(&[&[2]]), Some((15, 34)), "not 0, as from the chain's start, and not 35, as from 1");
    assert_eq!(found(&[&block(300, b"x"), &[2]]), Some((15, 38)), "not the block before it");
    assert_eq!(found(&[&[1, 1, 1], &[2]]), Some((15, 37)), "not the fillers before it");
    assert_eq!(found(&[&block(300, b"x"), &[1], &hex("05 00 00 05 07")]), Some((17, 39)), "not its ID");
    assert_eq!(found(&[&[1], &wrong_sum(2, b"abc")]), Some((18, 35)), "neither its checksum nor its end");
    assert_eq!(found(&[&block(1, b""), &[1], &block(1, b"")]), Some((19, 39)));
    assert_eq!(found(&[&[1; 10], &[21, 2, 0, 0]]), Some((16, 44)), "not where the tag ends");
    for length in (36..=2048).step_by(4) {
        assert_eq!(found_at_end(&[2], length), Some((15, length - 1)));
        assert_eq!(found_at_end(&[255], length), Some((16, length - 1)), "2047 at most");
        assert_eq!(damage(&Draft::default().chain(&[&[2]]).tag(length)), Some((15, 34)), "34 at least");
    }
}

#[test]
fn point_02_the_first_damaged_block_decides_and_at_that_block_the_first_of_15_to_19() {
    let one = &block(1, &[5])[..];
    let damaged: [(u32, &[u8]); 4] =
        [(15, &[2, 0]), (17, &hex("04 00 00 04")), (18, &wrong_sum(2, b"")), (19, &block(1, b""))];
    for (number, first) in damaged {
        for (_, second) in damaged {
            assert_eq!(found(&[one, first, second]), Some((number, 39)), "whatever stands behind it");
        }
        let end = [one, first, &[3]].concat();
        assert_eq!(found_at_end(&end, 64), Some((number, 64 - 1 - first.len())), "a 16 at the tag's last byte");
    }
    assert_eq!(found(&[one, one, &[2]]), Some((19, 39)), "a 19 at an earlier block before a 15 at a later one");

    // One block with all that a block can have at once, mended number by number.
    let mended = [(15, "02"), (16, "05 00 00 00"), (17, "04 00 00 00"), (18, "04 01 00 00"), (19, "04 01 00 05")];
    for (number, block) in mended {
        let end = [one, &hex(block)].concat();
        assert_eq!(found_at_end(&end, 64), Some((number, 64 - (end.len() - 5))));
    }
    assert_eq!(found_at_end(&[one, &hex("04 02 00 06")].concat(), 64), None);
}

#[test]
fn point_03_length_2_is_15_even_at_the_tags_last_byte() {
    let tag = Draft::default().chain(&[&[1, 2]]).tag(36);
    assert_eq!(damage(&tag), Some((15, 35)), "it runs past the end too, but 15 is tested first");
    assert_eq!(found_at_end(&[2], 2048), Some((15, 2047)));
    assert_eq!(found_at_end(&[2, 0], 64), Some((15, 62)), "and where it ends with the tag");
    assert_eq!(found(&[&hex("02 00 00 00")]), Some((15, 34)), "whatever its ID would be");
}

#[test]
fn point_04_past_the_end_is_16_whatever_the_id_says_and_where_it_is_not_there() {
    for length in 3..=255 {
        assert_eq!(found_at_end(&[length], 64), Some((16, 63)), "no byte of the ID is there");
        assert_eq!(found_at_end(&[length, 0], 64), Some((16, 62)), "half of it is there");
    }
    for length in 4..=255 {
        for id in [[0, 0], [1, 0], [2, 0], [100, 0], [101, 0], [0, 1], [255, 255]] {
            assert_eq!(found_at_end(&[length, id[0], id[1]], 64), Some((16, 61)), "{length} {id:?}");
        }
    }
    assert_eq!(found_at_end(&hex("FF 00 00"), 64), Some((16, 61)), "ID 0 is not looked at");
    assert_eq!(found_at_end(&hex("05 02 00 00"), 64), Some((16, 60)), "nor is the checksum");
    assert_eq!(found(&[&block(1, b""), &[27, 1, 0]]), Some((16, 38)), "nor is a second block 1: 26 bytes are left");
    assert_eq!(found(&[&[31, 44, 1]]), Some((16, 34)), "one byte more than there is");
    assert_eq!(found(&[&[30, 44, 1]]), None, "as many as there are");
}

#[test]
fn point_05_id_0_at_every_length_and_a_structured_block_of_3_are_17() {
    for length in 3..=255 {
        for sum in [0, 1] {
            let mut zero_id = vec![0; usize::from(length)];
            zero_id[0] = length;
            // With four bytes or more the XOR of the whole is the sum's value.
            zero_id.iter_mut().skip(3).take(1).for_each(|byte| *byte = length ^ sum);
            let tag = Draft::default().chain(&[&[1], &zero_id]).tag(300);
            assert_eq!(damage(&tag), Some((17, 35)), "{length} bytes, the XOR good or not");
        }
    }
    for id in 1..=100 {
        assert_eq!(found(&[&[3, id, 0]]), Some((17, 34)), "3 bytes, ID {id}");
        assert_eq!(found(&[&[4, id, 0, 4 ^ id]]), None, "4 bytes, ID {id}");
    }
    assert_eq!(found(&[&hex("03 03 00")]), Some((17, 34)), "though the XOR of the whole is 00");
    assert_eq!(found(&[&hex("03 65 00")]), None, "ID 101 has no checksum");
    assert_eq!(found(&[&hex("03 00 01")]), None, "nor has ID 256");
    assert_eq!(found(&[&block(1, b""), &hex("03 01 00")]), Some((17, 38)), "a short second block 1 is not 19");
}

#[test]
fn point_06_a_second_block_1_is_18_by_its_checksum_else_19_at_its_own_place() {
    let one = block(1, &[5]);
    assert_eq!(found(&[&one, &wrong_sum(1, &[5])]), Some((18, 39)));
    assert_eq!(found(&[&one, &one]), Some((19, 39)), "not 34, where the first stands");
    assert_eq!(found(&[&one, &block(2, b"a"), &[1], &block(1, b"")]), Some((19, 45)));
    assert_eq!(found(&[&wrong_sum(1, &[5]), &one]), Some((18, 34)), "the first by its own checksum");
    assert_eq!(found(&[&one, &one, &one]), Some((19, 39)), "nor is the third one told");
    assert_eq!(found(&[&block(1, b""), &block(1, b"")]), Some((19, 38)), "though the first has nothing in it");
    assert_eq!(found(&[&one, &block(257, &[5]), &block(256, b"")]), None, "IDs with a byte 01 are others");
    assert_eq!(found(&[&one, &[0], &one]), None, "behind the end mark nothing is judged");
}

/// Calls that are refused for something else than damage, though some of it lies in a block, with the number of each.
fn refused_without_place() -> Vec<(u32, Call)> {
    let draft = Draft::default;
    let read = |tag: Vec<u8>, room: usize| Call::read(tag, vec![0xEE; room]);
    let edit = |tag: Vec<u8>, number: u32, value: &[u8], room: usize| {
        let open = locks::open(tag.len());
        Call::edit(tag, open, number, value.to_vec(), vec![0xEE; room])
    };
    let mut wrong_crc = draft().chain(&[&[2]]).tag(64);
    wrong_crc[20] ^= 1;
    let tags = [
        (1, draft().chain(&[&[2]]).tag(62)),
        (3, Draft { first: 0x12, ..draft() }.chain(&[&[2]]).tag(64)),
        (4, wrong_crc),
        (6, draft().chain(&[&block(300, b"x"), &block(1, b"\0\x07")]).tag(64)),
        (6, draft().item(&[7]).tag(64)),
        (7, draft().chain(&[&block(300, b"x"), &block(1, b"\0\0DK-1")]).tag(64)),
        (7, draft().chain(&[&block(1, &[0, 0, 0, 0x25])]).tag(64)),
    ];
    let loose = draft().chain(&[&block(300, b"x"), &[1], &block(300, b"y")]).tag(64);
    let own = tag_with(&[(3, b"DK-1"), (19, &[5])], 64);
    let mut calls: Vec<(u32, Call)> = Vec::new();
    for (number, tag) in tags {
        calls.extend([(number, read(tag.clone(), 200)), (number, edit(tag, 1, b"B1", 255))]);
    }
    calls.extend([(2, read(own.clone(), 10)), (13, edit(loose, 1, b"B1", 255)), (2, edit(own.clone(), 1, b"B1", 254))]);
    calls.extend([(9, edit(own.clone(), 1, &[7], 255)), (10, edit(own.clone(), 23, b"\x02x", 255))]);
    calls.push((11, edit(own.clone(), 1, &[b'7'; 40], 255)));
    calls.push((12, Call::edit(own, locks::all_locked(64), 19, vec![6], vec![0xEE; 255])));
    calls
}

#[test]
fn point_07_only_damage_has_a_place() {
    for (number, call) in refused_without_place() {
        let printed = call.describe();
        let refused = confirmed(call);
        assert_eq!(refused.answer, number, "{printed}");
        assert_eq!(refused.results.last(), Some(&PRESET), "{printed}");
    }
    assert_eq!(listing(&Draft::default().chain(&[&block(1, b"\0\x07")]).tag(64)), "refused 6\n");
    assert_eq!(listing(&Draft::default().chain(&[&block(1, b"\0\0DK-1")]).tag(64)), "refused 7\n");
}

#[test]
fn point_08_15_to_19_stand_where_5_stood() {
    for Damaged { tag, number, .. } in damaged::every() {
        let with = |change: &dyn Fn(&mut Vec<u8>)| {
            let mut tag = tag.clone();
            change(&mut tag);
            let locked = locks::all_locked(tag.len());
            (read_into(&tag, 0).map(|_| ()), edit_under(&mut tag, &locked, 300, b"", 0).map(|_| ()))
        };
        let set = |tag: &mut Vec<u8>, place: usize, byte: u8| {
            tag[place] = byte;
            repair_crc(tag);
        };
        let both = |number: u32| (Err(number), Err(number));
        assert_eq!(with(&|_| ()), both(number), "before 13, 2, 9 and 12");
        assert_eq!(with(&|tag| set(tag, 3, 7)), both(number), "before 6");
        assert_eq!(with(&|tag| set(tag, 3, 1)), both(number), "before 7");
        assert_eq!(with(&|tag| tag[19] ^= 1), both(4), "after 4");
        assert_eq!(with(&|tag| set(tag, 0, 0x12)), both(3), "after 3");
        assert_eq!(with(&|tag| tag.push(0)), both(1), "after 1");
    }
}

#[test]
fn point_08_there_is_none_in_a_sheet_nor_on_32_bytes_and_5_is_given_by_no_call() {
    for bad in [&hex("02")[..], &hex("03"), &hex("03 00 00"), &hex("03 02 00"), &hex("04 02 00 07"), &block(1, b"")] {
        let refused = confirmed(Call::write(sheet_with(&[(255, bad)]), vec![0; 64], locks::open(64)));
        assert_eq!((refused.answer, &refused.results[..]), (9, &[PRESET][..]), "writing walks no tag");
    }
    let mut random = Random::new(8);
    for _ in 0..5000 {
        let mut tag = random.bytes(32);
        tag[0] = tag[0] & 0xF0 | 1;
        repair_crc(&mut tag);
        assert!(matches!(read(&tag), Ok(_) | Err(6 | 7)));
        assert_eq!(damage(&tag), None);
    }
    let mut met = BTreeSet::new();
    for tag in (0..5000).map(|_| tags::any(&mut random)) {
        let open = locks::open(tag.len());
        met.insert(answer(Call::read(tag.clone(), vec![0; 30])));
        met.insert(answer(Call::edit(tag, open, 1, vec![b'B'], vec![0; 255])));
    }
    assert!(met.is_superset(&(15..=19).collect()) && !met.contains(&5), "{met:?}");
}

#[test]
fn point_09_taglist_prints_the_place_after_the_number_and_a_blank_in_decimal() {
    let printed = |chain: &[&[u8]], length: usize| listing(&Draft::default().chain(chain).tag(length));
    assert_eq!(printed(&[&[1, 3]], 36), "refused 16 35\n");
    assert_eq!(printed(&[&hex("01 02")], 64), "refused 15 35\n");
    assert_eq!(printed(&[&hex("04 01 00 05 04 01 00 05")], 64), "refused 19 38\n");
    assert_eq!(printed(&[&[1; 66], &hex("03 00 00")], 112), "refused 17 100\n");
    assert_eq!(printed(&[&[1; 2010], &hex("04 02 00 00")], 2048), "refused 18 2044\n");
    assert_eq!(printed(&[&[1; 2013], &[2]], 2048), "refused 15 2047\n");
    assert_eq!(listing(&[0; 36]), "refused 3\n", "every other refusal as before");
    for Damaged { tag, number, place } in damaged::every() {
        assert_eq!(listing(&tag), format!("refused {number} {place}\n"));
        assert_eq!((read(&tag), edited(&tag, 1, b"B1")), (Err(number), Err(number)));
        assert_eq!(damage(&tag), Some((number, place)), "the same from reading and from editing");
    }
}

#[test]
fn point_10_the_answer_is_the_bare_number_and_the_place_is_written_at_15_to_19_only() {
    for Damaged { tag, number, place } in damaged::every() {
        let open = locks::open(tag.len());
        let read = confirmed(Call::read(tag.clone(), vec![0xEE; 200]));
        assert_eq!((read.answer, &read.results[..]), (number, &[PRESET, place as u64][..]));
        let edit = confirmed(Call::edit(tag, open, 1, b"B1".to_vec(), vec![0xEE; 255]));
        assert_eq!((edit.answer, &edit.results[..]), (number, &[PRESET, PRESET, place as u64][..]));
    }
    let tag = tag_with(&[(19, &[5]), (255, &block(300, b"x"))], 64);
    assert!(!is_loose(&tag) && besides(&tag).is_ok());
    let read = confirmed(Call::read(tag.clone(), vec![0xEE; 200]));
    assert_eq!((read.answer, read.results[1]), (0, PRESET), "also when the work is done");
    let edit = confirmed(Call::edit(tag, locks::open(64), 19, vec![6], vec![0xEE; 255]));
    assert_eq!((edit.answer, &edit.results[1..]), (0, &[1, PRESET][..]));
}
