//! Request E5, the UHF identifier taken apart and put together: points 33 to 47 of its readings, and 0 as far as it is about
//! these calls, each with the cases that tell it from the other way to read the words.

use independent::compare::case::{Call, PRESET};
use independent::examples::{TEXT, WORDS};
use independent::generate::identifiers::{self, Elements, Text, LEADS};
use independent::generate::values::NO_TEXT;
use independent::generate::words;
use independent::model::{put_together, take_apart};
use independent::random::Random;
use independent::trial::{apart, apart_into, confirmed, to_text, to_words, together, together_into};
use std::collections::BTreeMap;

/// Elements 1, 3 and 4 as a test lists them.
fn elements(item: &[u8], isil: &[u8], total: u8, ordinal: u8) -> Result<[Vec<u8>; 3], u32> {
    Ok([item.to_vec(), isil.to_vec(), vec![total, 0, ordinal, 0]])
}

/// What becomes of this part in the set's place: total and ordinal, or the refusal. An ISIL before it changes nothing.
fn set(part: &[u8]) -> Result<(u8, u8), u32> {
    let alone = apart(&[b"X.", part].concat(), false);
    let led = apart(&[b"DK-1.X.", part].concat(), true);
    assert_eq!(alone.as_ref().map(|elements| &elements[2]), led.as_ref().map(|elements| &elements[2]));
    alone.map(|[_, _, set]| (set[0], set[2]))
}

/// What becomes of this identifier, taken apart and put together, alone and between others: nothing, or 6 and 9.
fn try_item(item: &[u8], good: bool) {
    let around: [(&[u8], &[u8], [u8; 4]); 4] =
        [(b"", b"", [0; 4]), (b"", b".31", [3, 0, 1, 0]), (b"DK-1", b"", [0; 4]), (b"DK-1", b".1000", [10, 0, 0, 0])];
    for (isil, digits, set) in around {
        let dot: &[u8] = if isil.is_empty() { b"" } else { b"." };
        let text = [isil, dot, item, digits].concat();
        let right = if good { elements(item, isil, set[0], set[2]) } else { Err(6) };
        assert_eq!(apart(&text, !isil.is_empty()), right, "{item:02X?}");
        assert_eq!(together(item, isil, &set), if good { Ok(text) } else { Err(9) }, "{item:02X?}");
    }
}

/// All set information in digits, number after number: "leading zeros kept", and as many digits for both as the total takes.
fn all_sets() -> BTreeMap<String, (u8, u8)> {
    let pairs = (1..=255u8).flat_map(|total| (0..=total).map(move |ordinal| (total, ordinal)));
    let digits = |(total, ordinal): (u8, u8)| {
        let width = total.to_string().len();
        (format!("{total}{ordinal:0>width$}"), (total, ordinal))
    };
    pairs.map(digits).collect()
}

#[test]
fn the_example_of_the_sources_both_ways() {
    assert_eq!(apart(b"CH-000134-1.12345678.31", true), elements(b"12345678", b"CH-000134-1", 3, 1));
    assert_eq!(together(b"12345678", b"CH-000134-1", &[3, 0, 1, 0]).as_deref(), Ok(TEXT));
    assert_eq!(apart(TEXT, false), Err(22), "three parts, and no ISIL");
    // 002, 6.2.4: the six structures.
    assert_eq!(apart(b"12345678", false), elements(b"12345678", b"", 0, 0));
    assert_eq!(apart(b"12345678.S", false), Err(23));
    assert_eq!(apart(b"12345678.31", false), elements(b"12345678", b"", 3, 1));
    assert_eq!(apart(b"CH-000134-1.12345678", true), elements(b"12345678", b"CH-000134-1", 0, 0));
    assert_eq!(apart(b"CH-000134-1.12345678.S", true), Err(23));
    // 003, 7.3.7, prints one zero less, which is another ISIL.
    assert_eq!(apart(b"CH-00134-1.12345678.31", true), elements(b"12345678", b"CH-00134-1", 3, 1));
}

#[test]
fn from_words_to_elements_and_back() {
    let text = to_text(&WORDS).unwrap();
    let [item, isil, set] = apart(&text, true).unwrap();
    assert_eq!(to_words(&together(&item, &isil, &set).unwrap()), Ok(WORDS.to_vec()));
    let (mut random, mut done) = (Random::new(50), 0);
    while done < 1000 {
        let Text { text, isil_leads, right } = identifiers::text(&mut random);
        let (Ok(elements), true) = (right, text.is_ascii()) else { continue };
        let read = to_text(&to_words(&text).unwrap()).unwrap();
        assert_eq!(apart(&read, isil_leads != 0).as_ref(), Ok(&elements));
        assert_eq!(together(&elements[0], &elements[1], &elements[2]), Ok(text));
        done += 1;
    }
}

#[test]
fn point_00_a_refusal_changes_nothing_and_the_real_output_decides_on_room() {
    let lent = [vec![0xE1; 9], vec![0xE3; 5], vec![0xE4; 5]];
    let outcome = |text: &[u8]| {
        let done = confirmed(Call::apart(text.to_vec(), 1, lent.clone()));
        (done.answer, done.results, done.buffers[1..].to_vec())
    };
    let filled = vec![b"AB\xE1\xE1\xE1\xE1\xE1\xE1\xE1".to_vec(), b"DK-1\xE3".to_vec(), vec![3, 0, 1, 0, 0xE4]];
    assert_eq!(outcome(b"DK-1.AB.31"), (0, vec![2, 4, 4], filled));
    for (text, number) in [(&b"DK-1"[..], 22), (b"DK-1.AB.s", 6), (b"DK-1.AB.S", 23), (b"DK-123.AB.31", 2)] {
        assert_eq!(outcome(text), (number, vec![PRESET; 3], lent.to_vec()));
    }
    let outcome = |item: &[u8]| {
        let elements = [item.to_vec(), b"DK-1".to_vec(), vec![3, 0, 1, 0]];
        let done = confirmed(Call::together(elements, vec![0xEE; 11]));
        (done.answer, done.results, done.buffers[3].clone())
    };
    assert_eq!(outcome(b"AB"), (0, vec![10], b"DK-1.AB.31\xEE".to_vec()));
    assert_eq!(outcome(b"ABC"), (0, vec![11], b"DK-1.ABC.31".to_vec()), "just the room");
    for (item, number) in [(&b"A.B"[..], 9), (b"ABCD", 2)] {
        assert_eq!(outcome(item), (number, vec![PRESET], vec![0xEE; 11]));
    }
}

#[test]
fn point_33_the_number_of_parts_is_asked_first() {
    for (text, with, without) in [
        (&b""[..], 22, 6),
        (b".", 6, 6),
        (b"..", 6, 22),
        (b"...", 22, 22),
        (b"\xFF", 22, 6),
        (b"\xFF.\xFF.\xFF.\xFF", 22, 22),
        (b"dk-1..S.", 22, 22),
        (b"dk-1.X.S", 6, 22),
        (b"dk-1", 22, 0),
        (b"X.31.", 6, 22),
        (b".X.31", 6, 22),
    ] {
        let answer = |isil_leads: bool| apart(text, isil_leads).map_or_else(|number| number, |_| 0);
        assert_eq!((answer(true), answer(false)), (with, without), "{text:02X?}");
    }
    for parts in 1..=300 {
        // A good identifier, so that nothing but the number is wrong; with an ISIL before it where one leads.
        let text = ["DK-1", "X", "31"].into_iter().chain(vec!["31"; 300]).take(parts).collect::<Vec<_>>().join(".");
        assert_eq!(apart(text.as_bytes(), true).err(), (parts != 2 && parts != 3).then_some(22), "{parts}");
        let without = text.strip_prefix("DK-1.").unwrap_or(&text);
        let parts = without.split('.').count();
        assert_eq!(apart(without.as_bytes(), false).err(), (parts != 1 && parts != 2).then_some(22), "{parts}");
    }
    assert_eq!(apart_into(&[b'.'; 65_537], 1, [0; 3]), Err(22), "more parts than two bytes count");
}

#[test]
fn point_34_the_flag_alone_decides() {
    assert_eq!(apart(b"DK-1.31", true), elements(b"31", b"DK-1", 0, 0));
    assert_eq!(apart(b"DK-1.31", false), elements(b"DK-1", b"", 3, 1));
    assert_eq!(apart(b"DK-1", false), elements(b"DK-1", b"", 0, 0), "an ISIL's form alone is an identifier");
    assert_eq!(apart(b"DK-1", true), Err(22));
    assert_eq!(apart(b"X.31", true), Err(6), "nor is the first part taken for an identifier where it is no ISIL");
    assert_eq!(apart(b"DK-1.X", false), Err(6), "nor for an ISIL where the second is no set");
    for isil_leads in LEADS {
        let right = if isil_leads == 0 { elements(b"DK-1", b"", 3, 1) } else { elements(b"31", b"DK-1", 0, 0) };
        assert_eq!(apart_into(b"DK-1.31", isil_leads, [9; 3]), right, "{isil_leads}: 0 is no, any other number yes");
    }
    for bit in 0..32 {
        assert_eq!(apart_into(b"DK-1.31", 1 << bit, [9; 3]), elements(b"31", b"DK-1", 0, 0));
    }
}

#[test]
fn point_35_a_bad_part_is_6() {
    for isil in
        ["", "-", "DK", "DK-", "-1", "dk-1", "DKXYZ-1", "DK-123456789012", "DK 1", "DK-1_", "D1-1", "DK-é", " DK-1"]
    {
        assert_eq!(apart(format!("{isil}.X").as_bytes(), true), Err(6), "{isil}");
        assert_eq!(apart(format!("{isil}.X.31").as_bytes(), true), Err(6), "{isil}");
    }
    for isil in ["D-1", "OCLC-12345678901", "DK-a/b-:", "DK--", "US-InU-Mu"] {
        assert_eq!(apart(format!("{isil}.X").as_bytes(), true), elements(b"X", isil.as_bytes(), 0, 0), "{isil}");
    }
    try_item(b"", false);
    (1..=255).for_each(|length| try_item(&vec![b'x'; length], true));
    [256, 257, 511, 512, 65_537, 65_791].into_iter().for_each(|length| try_item(&vec![b'x'; length], false));
    NO_TEXT.into_iter().chain([&b"\0"[..]]).for_each(|bytes| try_item(bytes, false));
    for part in identifiers::bad_sets() {
        assert_eq!(set(part), Err(6), "{part:02X?}");
    }
}

#[test]
fn point_36_identifiers_are_text_as_e4_has_it_both_ways() {
    for good in ["é", "Þórr Łódź", "北京", "😀", "\u{80}", "\u{FEFF}", " ", "~", "a b"] {
        try_item(good.as_bytes(), true);
        assert_eq!(to_words(&together(good.as_bytes(), b"", &[0; 4]).unwrap()).is_ok(), good.is_ascii(), "21 is E2's");
    }
    for bytes in NO_TEXT {
        try_item(&[b"a", bytes].concat(), false);
        try_item(&[bytes, b"a"].concat(), false);
    }
    // Limits count bytes, and a dot does not go on with a character.
    try_item("é".repeat(127).as_bytes(), true);
    try_item("é".repeat(128).as_bytes(), false);
    try_item(format!("{}x", "é".repeat(127)).as_bytes(), true);
    assert_eq!(apart(b"a\xE2\x82.31", false), Err(6));
    assert_eq!(apart(b"a.\xAC", false), Err(6));
    for byte in 0x80..=0xFF {
        try_item(&[byte], false);
    }
}

#[test]
fn point_37_s_is_23_as_a_single_capital_in_the_sets_place() {
    assert_eq!(set(b"S"), Err(23));
    for part in [&b"s"[..], b"SS", b"3S", b"S3", b" S", b"S ", b"\xD3", b"S\0"] {
        assert_eq!(set(part), Err(6), "{part:02X?}");
    }
    for byte in (0..=255).filter(|byte| ![b'S', b'.'].contains(byte)) {
        assert_eq!(set(&[byte]), Err(6), "{byte:02X}");
    }
    assert_eq!(apart(b"S", false), elements(b"S", b"", 0, 0));
    assert_eq!(apart(b"DK-1.S", true), elements(b"S", b"DK-1", 0, 0));
    assert_eq!(apart(b"DK-1.S", false), Err(23));
    assert_eq!(apart(b"S.S", false), Err(23));
    assert_eq!(apart(b"S.31", false), elements(b"S", b"", 3, 1));
    assert_eq!(apart(b"S.X", true), Err(6), "no ISIL either");
    assert_eq!(together(b"S", b"DK-1", &[0; 4]).as_deref(), Ok(&b"DK-1.S"[..]));
}

#[test]
fn point_38_6_before_23_before_2() {
    let long = [&[b'x'; 256][..], b".S"].concat();
    for (text, isil_leads) in
        [(&b".S"[..], false), (b"dk-1.X.S", true), (&long, false), (b"\xC3.S", false), (b"DK-1..S", true)]
    {
        assert_eq!(apart(text, isil_leads), Err(6), "{text:02X?}");
        assert_eq!(apart_into(text, u32::from(isil_leads), [0; 3]), Err(6), "{text:02X?}");
    }
    for rooms in [[0; 3], [1, 0, 4], [0, 4, 4], [1, 4, 3], [9; 3]] {
        assert_eq!(apart_into(b"X.S", 0, rooms), Err(23));
        assert_eq!(apart_into(b"DK-1.X.S", 1, rooms), Err(23));
        assert_eq!(apart_into(b"X.s", 0, rooms), Err(6));
        assert_eq!(apart_into(b"X.S.", 0, rooms), Err(22));
    }
}

#[test]
fn point_39_the_total_decides_the_count_of_digits() {
    for bad in
        ["00", "01", "0901", "099099", "256000", "260004", "1", "111", "10101", "1001001", "10001000", "0000", "000000"]
    {
        assert_eq!(set(bad.as_bytes()), Err(6), "{bad}");
    }
    for (good, total, ordinal) in
        [("10", 1, 0), ("99", 9, 9), ("1001", 10, 1), ("9999", 99, 99), ("100001", 100, 1), ("255255", 255, 255)]
    {
        assert_eq!(set(good.as_bytes()), Ok((total, ordinal)), "{good}");
    }
    let sets = all_sets();
    let two = (0..100).map(|number| format!("{number:02}"));
    let four = (0..10_000).step_by(7).chain(900..1200).map(|number| format!("{number:04}"));
    for digits in two.chain(four) {
        assert_eq!(set(digits.as_bytes()), sets.get(&digits).copied().ok_or(6), "{digits}");
    }
}

#[test]
fn every_two_four_and_six_digits_both_ways() {
    // By the model alone; the comparison has those at each bound by the library.
    let (sets, mut good) = (all_sets(), 0);
    for width in [2, 4, 6] {
        for number in 0..10u32.pow(width) {
            let digits = format!("{number:0width$}", width = width as usize);
            let text = [b"X.", digits.as_bytes()].concat();
            let (mut item, mut set) = ([0; 1], [0xEE; 4]);
            let lengths = take_apart(&text, 0, [&mut item, &mut [], &mut set]);
            let right = sets.get(&digits);
            assert_eq!(lengths, right.map(|_| [1, 0, 4]).ok_or(6), "{digits}");
            let Some((total, ordinal)) = right else { continue };
            assert_eq!(set, [*total, 0, *ordinal, 0], "{digits}");
            let mut built = [0; 8];
            assert_eq!(put_together(b"X", b"", &set, &mut built), Ok(text.len()), "{digits}");
            assert_eq!(built[..text.len()], text, "{digits}");
            good += 1;
        }
    }
    assert_eq!((good, sets.len()), ((2..=256).sum(), good), "each total with its ordinals, once");
}

#[test]
fn every_total_with_every_ordinal_both_ways() {
    for (total, ordinal) in (0..=255u8).flat_map(|total| (0..=255u8).map(move |ordinal| (total, ordinal))) {
        // By the model alone; the comparison has them all by the library.
        let (set, mut text) = ([total, 0, ordinal, 0], [0xEE; 12]);
        let used = put_together(b"X", b"D-1", &set, &mut text);
        if ordinal > total {
            assert_eq!((used, text), (Err(9), [0xEE; 12]), "{total} {ordinal}");
            continue;
        }
        let used = used.unwrap();
        let digits = if total == 0 { 0 } else { 1 + 2 * total.to_string().len() };
        assert_eq!(used, b"D-1.X".len() + digits, "{total} {ordinal}");
        let (mut item, mut isil, mut back) = ([0; 1], [0; 3], [0; 4]);
        assert_eq!(take_apart(&text[..used], 1, [&mut item, &mut isil, &mut back]), Ok([1, 3, 4]));
        assert_eq!((item, isil, back), (*b"X", *b"D-1", set), "{total} {ordinal}");
    }
}

#[test]
fn point_40_ordinal_0_is_good_and_above_the_total_is_6() {
    for total in 1..=255u8 {
        let width = total.to_string().len();
        let with = |ordinal: u32| set(format!("{total}{ordinal:0width$}").as_bytes());
        assert_eq!((with(0), with(total.into())), (Ok((total, 0)), Ok((total, total))));
        assert_eq!(with(u32::from(total) + 1), Err(6), "{total}, also where a digit more is needed");
    }
    assert_eq!((set(b"10"), set(b"1000"), set(b"100000")), (Ok((1, 0)), Ok((10, 0)), Ok((100, 0))));
    for byte in (0..=255u8).filter(|byte| !byte.is_ascii_digit() && *byte != b'.') {
        for digits in [b"31", b"10"] {
            assert_eq!((set(&[byte, digits[1]]), set(&[digits[0], byte])), (Err(6), Err(6)), "{byte:02X}");
        }
        (0..6).for_each(|place| {
            let mut digits = *b"200100";
            digits[place] = byte;
            assert_eq!(set(&digits), Err(6), "{byte:02X} at {place}");
        });
    }
    assert_eq!(set("３１".as_bytes()), Err(6), "wide digits");
}

#[test]
fn point_41_no_set_part_is_0_and_0_and_needs_its_room() {
    assert_eq!(apart_into(b"X", 0, [1, 0, 4]), elements(b"X", b"", 0, 0));
    assert_eq!(apart_into(b"X", 0, [1, 0, 3]), Err(2));
    assert_eq!(apart_into(b"DK-1.X", 1, [1, 4, 3]), Err(2));
    assert_eq!(apart(b"X.255003", false).unwrap()[2], [0xFF, 0, 3, 0], "total, 00, ordinal, 00");
}

#[test]
fn point_42_each_buffer_by_itself() {
    assert_eq!(apart_into(b"X", 0, [1, 0, 4]), elements(b"X", b"", 0, 0), "no ISIL needs no room");
    for (item, isil, set) in
        (0..4).flat_map(|item| (0..6).flat_map(move |isil| (0..6).map(move |set| (item, isil, set))))
    {
        let enough = item >= 2 && isil >= 4 && set >= 4;
        let right = if enough { elements(b"AB", b"DK-1", 3, 1) } else { Err(2) };
        assert_eq!(apart_into(b"DK-1.AB.31", 1, [item, isil, set]), right, "{item} {isil} {set}");
        let enough = item >= 2 && set >= 4;
        let right = if enough { elements(b"AB", b"", 3, 1) } else { Err(2) };
        assert_eq!(apart_into(b"AB.31", 0, [item, isil, set]), right, "{item} {isil} {set}");
    }
}

#[test]
fn point_43_an_identifier_of_2_4_or_6_digits_is_not_refused() {
    for item in ["31", "00", "1099", "0000", "255001", "260004", "999999", "1", "123", "12345", "12345678"] {
        try_item(item.as_bytes(), true);
    }
    assert_eq!(apart(b"31.31", false), elements(b"31", b"", 3, 1));
}

#[test]
fn point_44_building_takes_no_isil_as_no_bytes_and_element_4_as_four() {
    assert_eq!(together(b"X", b"", &[3, 0, 1, 0]).as_deref(), Ok(&b"X.31"[..]));
    assert_eq!(together(b"X", b"DK-1", &[3, 0, 1, 0]).as_deref(), Ok(&b"DK-1.X.31"[..]));
    for isil in ["-", "DK", "DK-", "dk-1", "DKXYZ-1", "DK-123456789012", "DK-1.", ".DK-1", "D.K-1", ".", " ", "DK-é"] {
        assert_eq!(together(b"X", isil.as_bytes(), &[0; 4]), Err(9), "{isil}");
    }
    for length in (0..=10).filter(|length| *length != 4) {
        assert_eq!(together(b"X", b"", &vec![0; length]), Err(9), "{length} bytes are not element 4");
    }
    assert_eq!(together(b"X", b"", b""), Err(9), "empty is not none");
}

#[test]
fn point_45_a_bad_element_or_a_dot_is_9() {
    for item in [&b"."[..], b".X", b"X.", b"A.B", b"..", b"X.31", b"DK-1.X"] {
        assert_eq!(together(item, b"", &[0; 4]), Err(9), "{item:02X?}");
        assert_eq!(together_into([item, b"DK-1", &[3, 0, 1, 0]], 0), Err(9), "{item:02X?}");
    }
    for set in [
        [1, 0, 2, 0],
        [0, 0, 1, 0],
        [0, 1, 0, 0],
        [4, 1, 4, 0],
        [255, 0, 0, 1],
        [0, 1, 0, 1],
        [0, 3, 0, 1],
        [9, 0, 10, 0],
    ] {
        assert_eq!(together(b"X", b"", &set), Err(9), "{set:02X?}");
    }
    assert_eq!(together(b"X", b"DK-1", &[0; 4]).as_deref(), Ok(&b"DK-1.X"[..]), "0 and 0 writes no set part");
    assert_eq!(together(b"X", b"", &[0; 4]).as_deref(), Ok(&b"X"[..]));
    let longest = [&[b'x'; 255][..], b"OCLC-12345678901", &[255, 0, 255, 0]];
    let [item, isil, set] = longest;
    assert_eq!(together(item, isil, set).map(|text| text.len()), Ok(279));
    assert_eq!((together_into(longest, 279).is_ok(), together_into(longest, 278)), (true, Err(2)));
    let mut random = Random::new(45);
    for _ in 0..2000 {
        let Elements { elements: [item, isil, set], right } = identifiers::elements(&mut random);
        assert_eq!(together(&item, &isil, &set), right);
        assert!(right.is_err() || !right.unwrap().ends_with(b".S") || item == b"S", "no S is ever written");
    }
}

#[test]
fn point_46_it_is_one_to_one_both_ways() {
    let (mut random, mut split, mut built) = (Random::new(46), 0, 0);
    for _ in 0..4000 {
        let Text { text, isil_leads, right } = identifiers::text(&mut random);
        let found = apart(&text, isil_leads != 0);
        assert_eq!(found, right, "{text:02X?}");
        if let Ok([item, isil, set]) = found {
            assert_eq!(isil.is_empty(), isil_leads == 0);
            assert_eq!(together(&item, &isil, &set), Ok(text));
            split += 1;
        }
        let Elements { elements, right } = identifiers::elements(&mut random);
        if let Ok(text) = right {
            assert_eq!(together(&elements[0], &elements[1], &elements[2]).as_ref(), Ok(&text));
            assert_eq!(apart(&text, !elements[1].is_empty()), Ok(elements));
            built += 1;
        }
    }
    assert!(split > 1000 && built > 1000, "{split} {built}");
}

#[test]
fn point_47_a_dot_in_an_fc2e_word_is_a_dot() {
    let dot = words::of_one(b'.');
    let bank =
        [words::of_basic(b"DK-"), words::of_basic(b"1"), dot, words::of_basic(b"AB"), dot, words::of_basic(b"31")];
    let text = to_text(&bank).unwrap();
    assert_eq!(apart(&text, true), elements(b"AB", b"DK-1", 3, 1));
    assert_ne!(to_words(&text).unwrap(), bank, "which is not how it is written");
    // Characters, and neither words nor pads, are taken apart.
    assert_eq!(apart(&to_text(&[0xFC53, dot, 0xFC53]).unwrap(), false), Err(23));
    assert_eq!(apart(&to_text(&[0xFC00]).unwrap(), false), Err(6));
}
