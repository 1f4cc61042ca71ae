//! Thousands of random sheets and tags, there and back.

use independent::build;
use independent::generate::{locks, sheets, tags};
use independent::model::pages::PAGE;
use independent::model::{layout::layout, reading::content_of, sheet};
use independent::random::Random;
use independent::trial::{is_loose, read, write};

const ROUNDS: usize = 10_000;

#[test]
fn what_is_written_reads_back() {
    let mut random = Random::new(1);
    let mut accepted = 0;
    for _ in 0..ROUNDS {
        let length = tags::length(&mut random);
        let sheet = sheets::any(&mut random, length);
        let mut tag = random.bytes(length);
        let before = tag.clone();
        let Ok(pages) = write(&sheet, &mut tag, &locks::open(length)) else { continue };
        accepted += 1;
        assert_eq!(read(&tag), Ok(sheet.clone()));
        assert!(!is_loose(&tag));
        let differing = (0..length / PAGE).filter(|page| before[page * PAGE..][..PAGE] != tag[page * PAGE..][..PAGE]);
        assert_eq!(pages, differing.count());
        assert_eq!(write(&sheet, &mut tag, &locks::all_locked(length)), Ok(0));
    }
    assert!(accepted > ROUNDS / 4, "only {accepted} sheets were written");
}

#[test]
fn a_sheet_that_was_read_writes_the_own_layout_and_changes_0_pages_of_it() {
    let mut random = Random::new(2);
    for _ in 0..ROUNDS {
        let mut tag = tags::own(&mut random);
        let (before, locked) = (tag.clone(), locks::all_locked(tag.len()));
        let sheet = read(&tag).unwrap();
        assert_eq!(write(&sheet, &mut tag, &locked), Ok(0));
        assert_eq!(tag, before);
    }
}

#[test]
fn a_loose_tag_becomes_the_own_layout_by_writing_what_it_reads() {
    let mut random = Random::new(3);
    let mut loose = 0;
    for _ in 0..ROUNDS {
        let mut tag = tags::loose(&mut random);
        let Ok(sheet) = read(&tag) else { continue };
        let was_loose = is_loose(&tag);
        loose += usize::from(was_loose);
        let open = locks::open(tag.len());
        assert_eq!(write(&sheet, &mut tag, &open).unwrap() > 0, was_loose);
        assert_eq!(read(&tag), Ok(sheet));
        assert!(!is_loose(&tag));
    }
    assert!(loose > ROUNDS / 2, "only {loose} tags were loose");
}

#[test]
fn under_a_lock_map_no_locked_page_changes_and_the_count_never_exceeds_the_open_pages() {
    let mut random = Random::new(4);
    let (mut done, mut locked_out) = (0, 0);
    for _ in 0..ROUNDS {
        let length = tags::length(&mut random);
        let content = sheets::fitting(&mut random, length);
        let sheet = sheet::of_content(&content).unwrap();
        let image = layout(&content, length).unwrap();
        let mut tag = image.clone();
        (0..random.below(4)).for_each(|_| tag[random.below(length)] ^= 1);
        let (before, map) = (tag.clone(), locks::good(&mut random, length));
        let would_differ = |page: usize| before[page * PAGE..][..PAGE] != image[page * PAGE..][..PAGE];
        let hit = (0..map.len()).any(|page| map[page] == 1 && would_differ(page));
        match write(&sheet, &mut tag, &map) {
            Ok(pages) => {
                done += 1;
                assert!(!hit && tag == image);
                assert!(pages <= map.iter().filter(|lock| **lock == 0).count());
            }
            Err(number) => {
                locked_out += 1;
                assert!(hit && number == 12);
            }
        }
    }
    assert!(done > 1000 && locked_out > 1000, "{done} done, {locked_out} locked out");
}

#[test]
fn any_single_change_of_the_basic_block_is_refused() {
    let mut random = Random::new(5);
    for _ in 0..200 {
        let tag = tags::own(&mut random);
        for place in 0..tag.len().min(34) {
            let mut changed = tag.clone();
            changed[place] ^= random.between(1, 255) as u8;
            assert!(read(&changed).is_err(), "byte {place}");
            build::repair_crc(&mut changed);
            assert_ne!(content_of(&changed), Err(4.into()), "the CRC is repaired");
        }
    }
}
