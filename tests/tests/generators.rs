//! The generators reach what they are for.

use independent::build::hex;
use independent::generate::damaged::{self, Damaged};
use independent::generate::identifiers::{self, Elements, Text, LEADS};
use independent::generate::{edits, locks, sheets, tags, values, words};
use independent::model::block_one::BlockOne;
use independent::model::refusal::{APART, DAMAGE, EDITING, OFFSET, READING, TOGETHER, TO_TEXT, TO_WORDS, WRITING};
use independent::model::text::is_text;
use independent::model::{
    chain, editing, element, pages, reading, sheet, text_to_words, words_to_text, writing, Content, Refusal,
};
use independent::random::Random;
use independent::trial::{apart, apart_into, damage, together, together_into};
use std::collections::{BTreeMap, BTreeSet};

/// 0 for a call that is done, else the refusal's number.
fn number<T>(answer: Result<T, impl Into<Refusal>>) -> u32 {
    answer.map_or_else(|refusal| refusal.into().number, |_| 0)
}

/// Every refusal of the order, 14 excepted, and acceptance were met at least so often.
fn all_met(met: &BTreeMap<u32, usize>, order: &[u32], least: usize) {
    for number in order.iter().filter(|number| **number != OFFSET).chain([&0]) {
        assert!(met.get(number).is_some_and(|times| *times >= least), "answer {number} in {met:?}");
    }
}

#[test]
fn the_generator_of_numbers_is_splitmix64() {
    let mut random = Random::new(1_234_567);
    let first: Vec<u64> = (0..3).map(|_| random.number()).collect();
    assert_eq!(first, [6457827717110365317, 3203168211198807973, 9817491932198370423]);
}

#[test]
fn tags_of_any_kind_meet_every_refusal_of_reading() {
    let (mut random, mut met) = (Random::new(21), BTreeMap::new());
    for _ in 0..20_000 {
        let tag = tags::any(&mut random);
        let room = if random.one_in(20) { 10 } else { 5000 };
        *met.entry(number(reading(&tag, &mut vec![0; room]))).or_default() += 1;
    }
    all_met(&met, &READING, 100);
}

#[test]
fn sheets_and_lock_maps_meet_every_refusal_of_writing() {
    let (mut random, mut met) = (Random::new(22), BTreeMap::new());
    for _ in 0..20_000 {
        let length = if random.one_in(40) { tags::bad_length(&mut random) } else { tags::length(&mut random) };
        let sheet = sheets::any(&mut random, length);
        let map = locks::any(&mut random, length, 30);
        *met.entry(number(writing(&sheet, &mut vec![0; length], &map))).or_default() += 1;
    }
    all_met(&met, &WRITING, 100);
}

#[test]
fn edits_of_any_tag_meet_every_refusal_of_editing() {
    let (mut random, mut met) = (Random::new(23), BTreeMap::new());
    for _ in 0..40_000 {
        let mut tag = if random.one_in(2) { tags::any(&mut random) } else { tags::own(&mut random) };
        let content = reading::content_of(&tag).unwrap_or_default();
        let edit = edits::any(&mut random, &content);
        let map = locks::any(&mut random, tag.len(), 40);
        let mut old = vec![0; edits::old_room(&mut random, 25)];
        let answer = editing(&mut tag, &map, edit.number, &edit.value, &mut old);
        *met.entry(number(answer)).or_default() += 1;
    }
    all_met(&met, &EDITING, 100);
}

#[test]
fn random_bytes_get_as_far_as_they_should() {
    let mut random = Random::new(28);
    let (mut tags_met, mut entries_met, mut changed_met) = (BTreeSet::new(), BTreeSet::new(), BTreeSet::new());
    for _ in 0..20_000 {
        tags_met.insert(number(reading(&tags::checked(&mut random), &mut [0; 5000])));
        let written = |sheet: &[u8]| number(writing(sheet, &mut [0; 64], &locks::open(64)));
        entries_met.insert(written(&sheets::random_entries(&mut random)));
        changed_met.insert(written(&sheets::mutated(&mut random, 64)));
    }
    assert!(
        tags_met.is_disjoint(&BTreeSet::from([1, 3, 4])) && tags_met.is_superset(&BTreeSet::from([15, 16, 6])),
        "{tags_met:?}"
    );
    assert_eq!(entries_met.into_iter().collect::<Vec<_>>(), [0, 9, 10, 11]);
    assert!(changed_met.is_superset(&BTreeSet::from([0, 8, 9, 11])), "{changed_met:?}");
}

#[test]
fn lengths_are_permitted_or_not_as_they_should_be() {
    let mut random = Random::new(24);
    let lengths: BTreeSet<usize> = (0..400_000).map(|_| tags::length(&mut random)).collect();
    let permitted: BTreeSet<usize> = (0..3000).filter(|length| pages::is_tag_length(*length, 4)).collect();
    assert!(lengths == permitted && permitted.len() == 505, "all lengths and no other");
    assert!((0..5000).all(|_| !permitted.contains(&tags::bad_length(&mut random))));
}

#[test]
fn contents_reach_the_edges() {
    let mut random = Random::new(25);
    let (mut identifiers, mut block_ones, mut ends, mut most) = (BTreeSet::new(), BTreeSet::new(), BTreeSet::new(), 0);
    for _ in 0..20_000 {
        let length = tags::length(&mut random);
        let content = sheets::content(&mut random, length);
        identifiers.insert(content.get(element::PRIMARY).len());
        let large =
            writing(&sheet::of_content(&content).unwrap(), &mut vec![0; length], &locks::open(length)) == Err(11);
        let carried: usize = content.carried.iter().map(Vec::len).sum();
        if content.get(element::MEDIA).is_empty() && content.get(element::OTHER_ITEM).len() > 240 {
            block_ones.insert((content.get(element::OTHER_ITEM).len(), large));
        }
        if carried > 0 && length < 100 {
            ends.insert((length as isize - 34 - carried as isize, large));
        }
        most = most.max(content.carried.len());
    }
    for length in [0, 1, 15, 16, 17, 249, 250, 251, 255] {
        assert!(identifiers.contains(&length), "an identifier of {length} bytes");
    }
    assert!(block_ones.contains(&(250, false)) && block_ones.contains(&(251, true)), "{block_ones:?}");
    assert!(ends.contains(&(0, false)), "blocks that fill a tag exactly");
    assert!(ends.contains(&(-1, true)), "blocks that fill it by one too many");
    assert_eq!(most, 671, "blocks of 3 bytes on 2,048");
}

#[test]
fn texts_have_exact_bytes_and_characters_of_every_length() {
    let mut random = Random::new(35);
    let (mut characters, mut with_fewer) = (BTreeSet::new(), BTreeSet::new());
    for length in (0..50_000).map(|round| round % 300) {
        let text = values::text(&mut random, length);
        assert!(text.len() == length && is_text(&text));
        let text = String::from_utf8(text).unwrap();
        with_fewer.extend((text.chars().count() < length).then_some(length));
        characters.extend(text.chars());
    }
    assert!(with_fewer.into_iter().eq(2..300), "fewer characters than bytes");
    let edges = " ~\u{80}\u{9F}\u{A0}\u{7FF}\u{800}\u{D7FF}\u{E000}\u{FEFF}\u{FFFE}\u{FFFF}\u{10000}\u{10FFFF}";
    assert!(edges.chars().all(|edge| characters.contains(&edge)));
    assert!(characters.contains(&'ø') && characters.len() > 100_000);
}

#[test]
fn what_makes_no_text_makes_none_wherever_it_is_put() {
    let text = "aé€😀ÿ".as_bytes();
    for bytes in values::NO_TEXT {
        for place in 0..=text.len() {
            let spoiled = [&text[..place], bytes, &text[place..]].concat();
            assert!(!is_text(&spoiled), "{spoiled:02X?}");
        }
    }
}

/// The first thing that is wrong with a text.
fn fault(text: &[u8]) -> Option<&'static str> {
    let Err(error) = std::str::from_utf8(text) else { return (!is_text(text)).then_some("taken out") };
    let rest = &text[error.valid_up_to()..];
    let fault = match (rest[0], rest.get(1)) {
        (0x80..=0xBF, _) => "the rest of a character alone",
        (0xC0 | 0xC1, _) | (0xE0, Some(0x80..=0x9F)) | (0xF0, Some(0x80..=0x8F)) => "too long a form",
        (0xED, Some(0xA0..=0xBF)) => "a surrogate",
        (0xF4, Some(0x90..=0xBF)) | (0xF5.., _) => "above 10FFFF",
        _ if error.error_len().is_none() => "cut by the end",
        _ => "cut by another character",
    };
    Some(fault)
}

/// The texts of a tag whose chain is sound, good or bad, and where they stand.
fn texts_of_tag(tag: &[u8]) -> Vec<(&'static str, &[u8])> {
    let Ok(blocks) = chain::blocks(tag) else { return Vec::new() };
    let mut texts = vec![("item field", up_to_00(&tag[3..19]))];
    let owner = up_to_00(&tag[23..tag.len().min(34)]);
    texts.extend(text_of_owner(owner).map(|text| ("owner field", text)));
    if let Some(inside) = blocks.iter().find(|block| chain::id(block) == 1).and_then(|block| block.get(5..)) {
        let item = up_to_00(inside);
        texts.push(("block 1's item", item));
        let owner = inside.get(item.len() + 1..).map(up_to_00);
        texts.extend(owner.and_then(text_of_owner).map(|text| ("block 1's owner", text)));
    }
    texts
}

fn up_to_00(bytes: &[u8]) -> &[u8] {
    bytes.split(|byte| *byte == 0).next().unwrap_or_default()
}

/// What follows 02 or 03.
fn text_of_owner(owner: &[u8]) -> Option<&[u8]> {
    owner.split_first().filter(|(kind, _)| [2, 3].contains(*kind)).map(|(_, text)| text)
}

/// The text of an element's value, where it has one.
fn text_of(number: u32, value: &[u8]) -> Option<&[u8]> {
    match number {
        1 | 22 => Some(value),
        23 => text_of_owner(value),
        _ => None,
    }
}

#[test]
fn bad_texts_are_bad_in_every_way_and_stand_everywhere() {
    let mut random = Random::new(36);
    let mut met: BTreeMap<(String, &str), usize> = BTreeMap::new();
    let mut note = |place: String, text: &[u8]| {
        fault(text).into_iter().for_each(|fault| *met.entry((place.clone(), fault)).or_default() += 1);
    };
    for _ in 0..60_000 {
        texts_of_tag(&tags::mixed(&mut random)).into_iter().for_each(|(place, text)| note(place.to_string(), text));
        for (number, value) in sheet::decode(&sheets::flawed(&mut random, 128)).expect("a sheet of the right form") {
            text_of(u32::from(number), value).into_iter().for_each(|text| note(format!("sheet, {number}"), text));
        }
        let edits::Edit { number, value } = edits::any(&mut random, &Content::default());
        text_of(number, &value).into_iter().for_each(|text| note(format!("edit, {number}"), text));
    }
    assert!(met.len() == 10 * 7 && met.values().all(|times| *times >= 3), "{met:?}");
}

/// Which of the ways to be loose a tag shows.
fn ways_to_be_loose(tag: &[u8]) -> Vec<&'static str> {
    let Ok(content) = reading::content_of(tag) else { return Vec::new() };
    let blocks = chain::blocks(tag).unwrap();
    let one =
        blocks.iter().find(|block| chain::id(block) == 1).and_then(|block| BlockOne::read(block)).unwrap_or_default();
    let used = 34 + blocks.iter().map(|block| block.len()).sum::<usize>();
    let rest = tag.get(used..).unwrap_or(&[]);
    let isil = content.get(element::ISIL);
    let ways = [
        ("filler", tag.get(34) == Some(&1)),
        ("block 1 not first", blocks.iter().skip(1).any(|block| chain::id(block) == 1)),
        ("bytes behind the end", rest.first() == Some(&0) && rest.iter().any(|byte| *byte != 0)),
        ("two bytes before 01, 02, 03", (1..=3).contains(&tag[23]) && tag[21..23] != [0, 0]),
        ("short marked item", tag[3] == 1 && one.item.len() <= 16),
        ("basic owner in block 1", tag[23] == 1 && isil.get(2) == Some(&b'-')),
        ("usage byte with sub qualifier 0", one.usage != 0 && one.usage & 15 == 0),
        ("trailing 00 in block 1", blocks.iter().any(|block| chain::id(block) == 1 && block.last() == Some(&0))),
    ];
    ways.into_iter().filter(|(_, seen)| *seen).map(|(way, _)| way).collect()
}

#[test]
fn loose_tags_are_loose_in_every_way() {
    let mut random = Random::new(26);
    let mut met: BTreeMap<&str, usize> = BTreeMap::new();
    for _ in 0..5000 {
        for way in ways_to_be_loose(&tags::loose(&mut random)) {
            *met.entry(way).or_default() += 1;
        }
    }
    assert!(met.len() == 8 && met.values().all(|times| *times > 100), "{met:?}");
    assert_eq!(ways_to_be_loose(&tags::own(&mut random)), Vec::<&str>::new());
}

/// Where the damaged block stands.
fn standings(Damaged { tag, place, .. }: &Damaged) -> Vec<&'static str> {
    let end = place + usize::from(tag[*place]);
    let blocks_before = chain::blocks(&tag[..*place]).expect("a sound chain up to the damage");
    let fillers = tag[34..*place].iter().rev().take_while(|byte| **byte == 1).count();
    let standings = [
        ("at byte 34", *place == 34),
        ("first, behind fillers", *place > 34 && blocks_before.is_empty()),
        ("behind a block", !blocks_before.is_empty() && fillers == 0),
        ("behind a block and fillers", !blocks_before.is_empty() && fillers > 0),
        ("behind a block 1", blocks_before.iter().any(|block| chain::id(block) == 1)),
        ("before other bytes", tag.get(end).is_some_and(|byte| *byte != 0)),
        ("before the end mark", tag.get(end) == Some(&0)),
        ("at the tag's end", end >= tag.len()),
        ("on the longest tag", tag.len() == 2048),
    ];
    standings.into_iter().filter(|(_, seen)| *seen).map(|(standing, _)| standing).collect()
}

/// Each of the damaged tags is refused as it was made to be, and each number is met wherever a block can stand: in 9
/// ways; 16, which has nothing behind it, in 7; 19, which has a block before it, in 7.
fn damage_is_found_and_everywhere(tags: impl Iterator<Item = Damaged>, least: usize) {
    let mut met: BTreeMap<(u32, &str), usize> = BTreeMap::new();
    for damaged in tags {
        assert_eq!(damage(&damaged.tag), Some((damaged.number, damaged.place)), "{damaged:?}");
        standings(&damaged).into_iter().for_each(|standing| *met.entry((damaged.number, standing)).or_default() += 1);
    }
    let ways = DAMAGE.map(|number| met.keys().filter(|(met, _)| *met == number).count());
    assert!(ways == [9, 7, 9, 9, 7] && met.values().all(|times| *times >= least), "{met:?}");
}

#[test]
fn every_damage_stands_everywhere() {
    damage_is_found_and_everywhere(damaged::every().into_iter(), 1);
}

#[test]
fn any_damage_stands_everywhere() {
    let mut random = Random::new(29);
    damage_is_found_and_everywhere((0..10_000).map(|_| damaged::any(&mut random)), 20);
}

#[test]
fn damage_stands_behind_damage_of_every_number() {
    let mut random = Random::new(30);
    let mut met = BTreeSet::new();
    for damaged in damaged::every().into_iter().chain((0..10_000).map(|_| damaged::any(&mut random))) {
        // The block is mended: made a run of fillers as far as its length goes, or as far as the tag does.
        let Damaged { mut tag, number, place } = damaged;
        let end = tag.len().min(place + usize::from(tag[place]));
        tag[place..end].fill(1);
        met.extend(damage(&tag).map(|(behind, _)| (number, behind)));
    }
    let pairs = DAMAGE.iter().flat_map(|first| DAMAGE.map(|second| (*first, second)));
    assert_eq!(met.len(), 25 - 5, "{met:?}");
    assert!(pairs.filter(|(first, _)| *first != 16).all(|pair| met.contains(&pair)), "{met:?}");
}

#[test]
fn words_and_texts_are_good_and_bad_as_they_were_made_to_be() {
    let mut random = Random::new(31);
    for _ in 0..5000 {
        let (bank, text) = words::bank(&mut random);
        let mut read = vec![0; text.len()];
        assert_eq!(words_to_text(&bank, &mut read), Ok(text.len()));
        assert_eq!(read, text);
        let spoiled = words::spoiled_bank(&mut random);
        assert_eq!(words_to_text(&spoiled, &mut vec![0; 3 * spoiled.len()]), Err(20));
        let text = words::text(&mut random);
        assert!(text_to_words(&text, &mut vec![0; text.len()]).is_ok());
        let spoiled = words::spoiled_text(&mut random);
        assert_eq!(text_to_words(&spoiled, &mut vec![0; spoiled.len()]), Err(21));
    }
    for bad in words::BAD_EDGES {
        assert_eq!(words_to_text(&[bad], &mut [0; 3]), Err(20), "{bad:04X}");
    }
    let outside = |byte: &u8| *byte < 0x80 && !words::BASIC.contains(byte);
    assert!(words::BESIDE.iter().all(outside));
}

/// Which kind of word without a meaning this is.
fn kind_of_bad(word: u16) -> &'static str {
    let sum = word.saturating_sub(1);
    match (word, [sum / 1600, sum / 40 % 40, sum % 40].map(|value| value == 0)) {
        (0xFC00..=0xFC7F, _) => "a meaning",
        (0, _) => "0000",
        (0xFA01..=0xFAFF, _) => "FA",
        (0xFB00..=0xFBFF, _) => "FB",
        (0xFC80..=0xFCFF, _) => "FC",
        (0xFD00..=0xFDFF, _) => "FD",
        (0xFE00..=0xFEFF, _) => "FE",
        (0xFF00..=0xFFFF, _) => "FF",
        (_, [true, true, true]) => "three pads",
        (_, [true, true, false]) => "pad, pad, A",
        (_, [true, false, true]) => "pad, A, pad",
        (_, [true, false, false]) => "pad, A, B",
        (_, [false, true, false]) => "A, pad, B",
        _ => "a meaning",
    }
}

#[test]
fn words_without_a_meaning_are_of_every_kind_and_stand_everywhere() {
    let mut random = Random::new(32);
    let (mut kinds, mut standings): (BTreeMap<&str, usize>, BTreeMap<&str, usize>) = Default::default();
    for _ in 0..10_000 {
        *kinds.entry(kind_of_bad(words::bad(&mut random))).or_default() += 1;
        let bank = words::spoiled_bank(&mut random);
        let place = bank.iter().position(|word| kind_of_bad(*word) != "a meaning");
        let standing = match (place.unwrap(), bank.len()) {
            (_, 1) => "alone",
            (0, _) => "first",
            (place, length) if place + 1 == length => "last",
            _ => "between others",
        };
        *standings.entry(standing).or_default() += 1;
    }
    assert!(kinds.len() == 12 && kinds.values().all(|times| *times > 100), "{kinds:?}");
    assert!(standings.len() == 4 && standings.values().all(|times| *times > 100), "{standings:?}");
}

#[test]
fn words_and_texts_meet_every_refusal_in_rooms_of_every_kind() {
    let (mut random, mut to_text, mut to_words) = (Random::new(33), BTreeMap::new(), BTreeMap::new());
    // How much the room is off by, where a bank or a text is good.
    let mut off = BTreeSet::new();
    for _ in 0..10_000 {
        let (bank, text) = words::bank(&mut random);
        let room = words::room(&mut random, text.len());
        off.insert((room as isize - text.len() as isize).clamp(-2, 2));
        *to_text.entry(number(words_to_text(&bank, &mut vec![0; room]))).or_default() += 1;
        *to_text.entry(number(words_to_text(&words::spoiled_bank(&mut random), &mut vec![0; room]))).or_default() += 1;
        for text in [words::text(&mut random), words::spoiled_text(&mut random)] {
            let room = words::room(&mut random, text.len() / 2);
            *to_words.entry(number(text_to_words(&text, &mut vec![0; room]))).or_default() += 1;
        }
    }
    all_met(&to_text, &TO_TEXT, 1000);
    all_met(&to_words, &TO_WORDS, 1000);
    assert_eq!(off.into_iter().collect::<Vec<_>>(), [-2, -1, 0, 1, 2]);
}

/// The lengths of the runs of the 39 in a text.
fn runs(text: &[u8]) -> impl Iterator<Item = usize> + '_ {
    text.split(|byte| !words::BASIC.contains(byte)).map(<[u8]>::len)
}

#[test]
fn texts_have_runs_of_every_length_and_every_character() {
    let mut random = Random::new(34);
    let (mut lengths, mut bytes) = (BTreeSet::new(), BTreeSet::new());
    for text in (0..20_000).map(|_| words::text(&mut random)) {
        lengths.extend(runs(&text));
        bytes.extend(text);
    }
    assert!((0..=15).all(|length| lengths.contains(&length)) && lengths.last() > Some(&300), "{lengths:?}");
    assert!(bytes.into_iter().eq(0..=0x7F), "each of the 128, and no other");
}

#[test]
fn identifiers_and_elements_are_good_and_bad_as_they_were_made_to_be() {
    let mut random = Random::new(37);
    let (mut leads, mut bits) = (BTreeSet::new(), BTreeSet::new());
    for _ in 0..20_000 {
        let Text { text, isil_leads, right } = identifiers::text(&mut random);
        assert_eq!(apart(&text, isil_leads != 0), right, "{isil_leads} {text:02X?}");
        leads.insert((isil_leads, right.err()));
        let Elements { elements: [item, isil, set], right } = identifiers::elements(&mut random);
        assert_eq!(together(&item, &isil, &set), right, "{item:02X?} {isil:02X?} {set:02X?}");
        bits.insert((isil.is_empty(), set == [0; 4], right.is_ok()));
    }
    assert_eq!(leads.len(), LEADS.len() * 4, "each number of a caller with each answer: {leads:?}");
    assert_eq!(bits.len(), 8, "{bits:?}");
}

/// What is wrong with a part in the set's place; nothing where it is set information.
fn fault_of_set(part: &[u8]) -> &'static str {
    let (total, ordinal) = part.split_at(part.len() / 2);
    let number = |digits: &[u8]| std::str::from_utf8(digits).unwrap().parse::<u32>().unwrap();
    match part.len() {
        0 => "empty",
        _ if part == b"S" => "another bank",
        _ if part.contains(&b'S') => "more than S",
        _ if part == b"s" => "a small s",
        _ if !part.iter().all(u8::is_ascii_digit) => "no digit",
        1 | 3 | 5 => "an odd count",
        7.. => "more than six",
        _ if number(total) == 0 => "a total of 0",
        _ if total[0] == b'0' => "a total with a leading zero",
        _ if number(total) > 255 => "a total above 255",
        _ if number(ordinal) > number(total) => "an ordinal above the total",
        _ => "none",
    }
}

#[test]
fn set_parts_are_bad_in_every_way() {
    let (mut random, mut met) = (Random::new(38), BTreeMap::new());
    for _ in 0..20_000 {
        *met.entry(fault_of_set(&identifiers::bad_set_part(&mut random))).or_insert(0) += 1;
        let (total, ordinal) = identifiers::set(&mut random);
        assert_eq!(fault_of_set(&identifiers::digits(total, ordinal)), "none");
    }
    assert!(met.len() == 10 && met.values().all(|times| *times > 50), "{met:?}");
    assert!(!met.contains_key("none") && !met.contains_key("another bank"), "{met:?}");
    let listed: BTreeSet<&str> = identifiers::bad_sets().into_iter().map(fault_of_set).collect();
    assert!(listed.into_iter().eq(met.into_keys()));
}

#[test]
fn parts_and_elements_reach_the_edges() {
    let mut random = Random::new(39);
    let (mut good, mut bad, mut sets) = (BTreeSet::new(), BTreeSet::new(), BTreeSet::new());
    let (mut faults, mut counts) = (BTreeSet::new(), BTreeSet::new());
    for _ in 0..40_000 {
        good.insert(identifiers::item(&mut random).len());
        let item = identifiers::bad_item(&mut random);
        faults.extend(fault(&item));
        bad.insert(if fault(&item).is_some() { 1 } else { item.len() });
        sets.insert(identifiers::set(&mut random));
        let Text { text, isil_leads, .. } = identifiers::text(&mut random);
        counts.insert((isil_leads != 0, text.split(|byte| *byte == b'.').count()));
    }
    assert!([1, 2, 15, 16, 253, 254, 255].iter().all(|length| good.contains(length)) && good.last() == Some(&255));
    assert_eq!(bad.into_iter().collect::<Vec<_>>(), [0, 1, 256, 257, 300, 511, 512], "1 for no text");
    assert_eq!(faults.len(), 7, "{faults:?}");
    let edges = [(1, 0), (1, 1), (9, 9), (10, 0), (10, 9), (99, 99), (100, 99), (100, 100), (255, 0), (255, 255)];
    assert!(edges.iter().all(|edge| sets.contains(edge)), "{sets:?}");
    let (with, without): (Vec<_>, Vec<_>) = counts.into_iter().partition(|(isil_leads, _)| *isil_leads);
    assert!(with.into_iter().map(|(_, count)| count).eq(1..=6));
    assert!(without.into_iter().map(|(_, count)| count).eq(1..=5));
}

#[test]
fn faults_of_identifiers_stand_together_and_rooms_are_of_every_kind() {
    let mut random = Random::new(40);
    let (mut apart_met, mut together_met) = (BTreeMap::new(), BTreeMap::new());
    // Which faults a text shows besides its refusal, and which of the three rooms are short.
    let (mut together_with, mut short) = (BTreeSet::new(), BTreeMap::new());
    for _ in 0..20_000 {
        let made = identifiers::text(&mut random);
        let (exact, rooms) = (made.lengths(), identifiers::rooms(&mut random, made.lengths()));
        let Text { text, isil_leads, right } = made;
        *apart_met.entry(number(apart_into(&text, isil_leads, rooms))).or_default() += 1;
        if let Err(number) = right {
            together_with.insert((number, text.ends_with(b".S"), rooms == [0; 3]));
        } else {
            let off: [isize; 3] = std::array::from_fn(|place| rooms[place] as isize - exact[place] as isize);
            *short.entry(off.map(|off| off.clamp(-1, 1))).or_insert(0) += 1;
        }
        let Elements { elements, right } = identifiers::elements(&mut random);
        let room = words::room(&mut random, right.map_or(20, |text| text.len()));
        let elements = elements.each_ref().map(|element| &element[..]);
        *together_met.entry(number(together_into(elements, room))).or_default() += 1;
    }
    all_met(&apart_met, &APART, 500);
    all_met(&together_met, &TOGETHER, 500);
    assert_eq!(together_with.len(), 2 * 2 * 2 + 2, "22 and 6 with S and without, 23, each with room and without");
    for only in [[-1, 0, 0], [0, -1, 0], [0, 0, -1], [0, 0, 0], [1, 1, 1]] {
        assert!(short.get(&only).is_some_and(|times| *times > 100), "{only:?} in {short:?}");
    }
}

#[test]
fn a_sheet_past_the_last_offset_is_long_and_judged_right() {
    let mut random = Random::new(27);
    let met: BTreeSet<(usize, u32)> = (0..20)
        .map(|_| {
            let sheet = sheets::past_the_last_offset(&mut random);
            (sheet.len(), writing(&sheet, &mut vec![0; 2048], &locks::open(2048)).unwrap_err())
        })
        .collect();
    assert_eq!(met.into_iter().collect::<Vec<_>>(), [(65_283, 11), (65_542, 11), (65_801, 8), (66_060, 8)]);
    assert_eq!(hex("0A fF"), [10, 255]);
}
