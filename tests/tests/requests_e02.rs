//! Request E2, UHF words: points 12 to 22 of its readings, and 0 as far as it is about these calls, each with the cases
//! that tell it from the other way to read the words. Whatever is said of one word or one character is tried of all.

use independent::compare::case::{in_words, Call, PRESET};
use independent::compare::to_words_cases::texts;
use independent::examples::{TEXT, WORDS};
use independent::generate::words;
use independent::model::words_to_text;
use independent::random::Random;
use independent::trial::{confirmed, to_text, to_text_into, to_words, to_words_into};
use std::collections::BTreeMap;

/// Source document 002, table D.1, the columns that are numbers: HEX code, 8-bit code, value.
const TABLE: &str = "
    41 01000001 1   42 01000010 2   43 01000011 3   44 01000100 4   45 01000101 5   46 01000110 6   47 01000111 7
    48 01001000 8   49 01001001 9   4A 01001010 10  4B 01001011 11  4C 01001100 12  4D 01001101 13  4E 01001110 14
    4F 01001111 15  50 01010000 16  51 01010001 17  52 01010010 18  53 01010011 19  54 01010100 20  55 01010101 21
    56 01010110 22  57 01010111 23  58 01011000 24  59 01011001 25  5A 01011011 26  2D 00101101 27  2E 00101110 28
    3A 00101110 29  30 00110000 30  31 00110001 31  32 00110010 32  33 00110011 33  34 00110100 34  35 00110101 35
    36 00110110 36  37 00110111 37  38 00111000 38  39 00111001 39";

/// The table's rows: HEX code, 8-bit code, value.
fn rows() -> Vec<(u8, u8, u16)> {
    let columns: Vec<&str> = TABLE.split_whitespace().collect();
    let number = |digits, radix| u8::from_str_radix(digits, radix).unwrap();
    columns.chunks(3).map(|row| (number(row[0], 16), number(row[1], 2), row[2].parse().unwrap())).collect()
}

/// The value of each of the 39, by the HEX column.
fn values() -> BTreeMap<u8, u16> {
    rows().into_iter().map(|(code, _, value)| (code, value)).collect()
}

/// The word of three values.
fn word(a: u16, b: u16, c: u16) -> u16 {
    1600 * a + 40 * b + c + 1
}

/// The words of a text by the house rule, character by character. None for a byte above 7F.
fn step_by_step(text: &[u8]) -> Option<Vec<u16>> {
    let values = values();
    let (mut words, mut begun) = (Vec::new(), Vec::new());
    for character in text {
        match values.get(character) {
            Some(value) => begun.push(*value),
            None => {
                close(&mut begun, &mut words);
                words.push((*character < 0x80).then_some(0xFC00 + u16::from(*character))?);
            }
        }
        if begun.len() == 3 {
            close(&mut begun, &mut words);
        }
    }
    close(&mut begun, &mut words);
    Some(words)
}

/// Makes a word of what is begun, if anything is.
fn close(begun: &mut Vec<u16>, words: &mut Vec<u16>) {
    if !begun.is_empty() {
        begun.resize(3, 0);
        words.push(word(begun[0], begun[1], begun[2]));
        begun.clear();
    }
}

/// Every word that has a meaning, and its characters: all of one, two and three of the 39, and FC with all of 00 to 7F.
fn meanings() -> BTreeMap<u16, Vec<u8>> {
    let values = values();
    let mut all: Vec<(u16, Vec<u8>)> = (0..=0x7F).map(|low| (0xFC00 + u16::from(low), vec![low])).collect();
    for (first, a) in &values {
        all.push((word(*a, 0, 0), vec![*first]));
        for (second, b) in &values {
            all.push((word(*a, *b, 0), vec![*first, *second]));
            all.extend(values.iter().map(|(third, c)| (word(*a, *b, *c), vec![*first, *second, *third])));
        }
    }
    let count = all.len();
    let meanings: BTreeMap<u16, Vec<u8>> = all.into_iter().collect();
    assert_eq!((count, meanings.len()), (39 + 39 * 39 + 39 * 39 * 39 + 128, count), "no word has two meanings");
    meanings
}

#[test]
fn the_pair_of_document_02_both_ways() {
    assert_eq!(
        to_words(b"CH-000134-1.12345678.31"),
        Ok(vec![0x141C, 0xC04F, 0xC70B, 0xADB5, 0xC6E2, 0xDA1D, 0xED4D, 0xD319])
    );
    assert_eq!(to_text(&WORDS).as_deref(), Ok(TEXT));
    assert_eq!(to_words(TEXT), Ok(WORDS.to_vec()));
    assert_eq!((TEXT.len(), 16 * WORDS.len()), (23, 128), "002, 7.3.5.3: 23 characters are 128 bits, or 8 words");
}

#[test]
fn a_text_with_characters_outside_the_39_both_ways() {
    let words = [0x1AD4, 0xC1C1, 0xFC2F, 0xCC61, 0xFC61];
    assert_eq!(to_words(b"DK-1/2.a"), Ok(words.to_vec()));
    assert_eq!(to_text(&words).as_deref(), Ok(&b"DK-1/2.a"[..]));
}

#[test]
fn each_of_the_65536_words_means_what_makes_it_or_nothing() {
    let meanings = meanings();
    for number in 0..=u16::MAX {
        // By the model alone; the comparison has each of them by the library.
        let mut text = [0xEE; 4];
        let used = words_to_text(&[number], &mut text);
        let right = meanings.get(&number);
        assert_eq!(used, right.map(Vec::len).ok_or(20), "{number:04X}");
        let filled = used.unwrap_or(0);
        assert_eq!(&text[..filled], right.map_or(&[][..], |right| right), "{number:04X}");
        assert_eq!(text[filled..], [0xEE; 4][filled..], "{number:04X}");
    }
}

#[test]
fn every_triple_of_values_makes_a_word_of_its_own() {
    let triples = (0..40).flat_map(|a| (0..40).flat_map(move |b| (0..40).map(move |c| (a, b, c))));
    assert!(triples.map(|(a, b, c)| word(a, b, c)).eq(1..=64_000), "0001 to FA00, each once");
}

#[test]
fn each_of_the_256_bytes_by_itself() {
    let values = values();
    for byte in 0..=255 {
        let right = match values.get(&byte) {
            Some(value) => Ok(vec![1600 * value + 1]),
            None if byte <= 0x7F => Ok(vec![0xFC00 + u16::from(byte)]),
            None => Err(21),
        };
        assert_eq!(to_words(&[byte]), right, "{byte:02X}");
        assert_eq!(right.and_then(|words| to_text(&words)), if byte <= 0x7F { Ok(vec![byte]) } else { Err(21) });
    }
}

#[test]
fn every_text_of_up_to_3_of_14_bytes() {
    for text in texts(b"AZ-.:09a/@[\0\x7F\x80", 3) {
        let words = to_words(&text);
        assert_eq!(words, step_by_step(&text).ok_or(21), "{text:02X?}");
        assert_eq!(words.and_then(|words| to_text(&words)), if text.is_ascii() { Ok(text) } else { Err(21) });
    }
}

#[test]
fn what_is_written_reads_back() {
    let mut random = Random::new(12);
    let mut longest = 0;
    for round in 0..1000 {
        let mut text = words::text(&mut random);
        if round % 100 == 0 {
            text = (0..200).flat_map(|_| words::text(&mut random)).collect();
        }
        let words = to_words(&text).unwrap();
        assert_eq!(Some(&words), step_by_step(&text).as_ref());
        assert_eq!(to_text(&words).as_ref(), Ok(&text));
        longest = longest.max(text.len());
    }
    assert!(longest > 2000, "{longest}");
}

#[test]
fn point_00_a_refusal_changes_nothing_and_the_real_output_decides_on_room() {
    let used = |call: Call| {
        let outcome = confirmed(call);
        (outcome.answer, outcome.results[0], in_words(&outcome.buffers[1]))
    };
    let (lent, rest) = (vec![0xEEEE; 4], 0xEEEE);
    assert_eq!(used(Call::to_words(b"AB/C".to_vec(), &lent)), (0, 3, vec![word(1, 2, 0), 0xFC2F, word(3, 0, 0), rest]));
    assert_eq!(used(Call::to_words(b"AB/\x80".to_vec(), &lent)), (21, PRESET, lent.clone()));
    assert_eq!(used(Call::to_words(b"AB/Ca".to_vec(), &lent)), (0, 4, to_words(b"AB/Ca").unwrap()), "just the room");
    assert_eq!(used(Call::to_words(b"AB/CaD".to_vec(), &lent)), (2, PRESET, lent.clone()), "one too many");
    let lent = [0xEE; 4].to_vec();
    let used = |words: &[u16]| {
        let outcome = confirmed(Call::to_text(words, lent.clone()));
        (outcome.answer, outcome.results[0], outcome.buffers[1].clone())
    };
    let one = word(1, 0, 0);
    assert_eq!(used(&[one, one, one]), (0, 3, b"AAA\xEE".to_vec()), "three words could have held nine characters");
    assert_eq!(used(&[one, one, one, 0xFC61]), (0, 4, b"AAAa".to_vec()), "just the room");
    assert_eq!(used(&[one, one, one, 0x0000]), (20, PRESET, lent.clone()));
    assert_eq!(used(&[one, one, one, word(1, 1, 0)]), (2, PRESET, lent.clone()), "one too many");
}

#[test]
fn point_12_0001_to_fa00_are_value_plus_1_and_0000_and_fa01_to_faff_have_no_meaning() {
    assert_eq!(to_text(&[0xFA00]).as_deref(), Ok(&b"999"[..]), "the largest, 1600 * 39 + 40 * 39 + 39 + 1");
    assert_eq!(word(39, 39, 39), 0xFA00);
    assert_eq!(to_text(&[word(1, 0, 0)]).as_deref(), Ok(&b"A"[..]), "the least with a meaning");
    assert_eq!(to_text(&[0x0000]), Err(20), "one less than three pads");
    for low in 0x01..=0xFF {
        assert_eq!(to_text(&[0xFA00 + low]), Err(20), "though 7.3.7 says: FA or lower");
    }
}

#[test]
fn point_13_fb_fd_fe_and_ff_have_no_meaning() {
    for high in [0xFB, 0xFD, 0xFE, 0xFF] {
        for low in 0..=0xFF {
            assert_eq!(to_text(&[u16::from_be_bytes([high, low])]), Err(20), "{high:02X}{low:02X}");
        }
    }
    // 002, D.2.2: 123456789 as an integer of four bytes; e with an acute accent in UTF-8, filled up with 00.
    assert_eq!(to_text(&[0xFB00, 0x075B, 0xCD15]), Err(20));
    assert_eq!(to_text(&[0xFDC3, 0xA900]), Err(20));
    let digits = to_words(b"123456789123456789").unwrap();
    assert_eq!(digits.len(), 6, "nor does the writer make FB of nine digits and more");
}

#[test]
fn point_14_fc00_to_fc7f_is_one_character_and_fc80_to_fcff_has_no_meaning() {
    for low in 0x00..=0xFF {
        let right = if low <= 0x7F { Ok(vec![low]) } else { Err(20) };
        assert_eq!(to_text(&[0xFC00 + u16::from(low)]), right, "control characters included");
    }
    assert_eq!(to_text(&[0xFC00, 0xFC00]).as_deref(), Ok(&[0, 0][..]), "00 is a character and no pad");
    assert_eq!(to_words(b"A\0B"), Ok(vec![word(1, 0, 0), 0xFC00, word(2, 0, 0)]));
    assert_eq!(to_words(b"A\0\0"), Ok(vec![word(1, 0, 0), 0xFC00, 0xFC00]));
}

#[test]
fn point_15_fc_is_read_for_one_of_the_39_and_never_written() {
    let mut random = Random::new(15);
    for (code, value) in values() {
        assert_eq!(to_text(&[0xFC00 + u16::from(code)]), Ok(vec![code]));
        assert_eq!(to_words(&[code]), Ok(vec![word(value, 0, 0)]));
    }
    for _ in 0..500 {
        let words = to_words(&words::text(&mut random)).unwrap();
        let behind_fc = words.iter().filter(|word| **word >= 0xFC00).map(|word| *word as u8);
        assert!(behind_fc.into_iter().all(|low| !values().contains_key(&low)), "{words:04X?}");
    }
}

#[test]
fn point_16_pads_are_one_or_two_at_the_right_of_any_word() {
    for a in 1..40 {
        for b in 1..40 {
            assert_eq!(to_text(&[word(a, b, 0)]).map(|text| text.len()), Ok(2));
            assert_eq!(to_text(&[word(a, 0, b)]), Err(20), "A, pad, B");
            assert_eq!(to_text(&[word(0, a, b)]), Err(20), "pad, A, B");
        }
        assert_eq!(to_text(&[word(a, 0, 0)]).map(|text| text.len()), Ok(1));
        assert_eq!(to_text(&[word(0, 0, a)]), Err(20), "pad, pad, A");
        assert_eq!(to_text(&[word(0, a, 0)]), Err(20), "pad, A, pad");
    }
    assert_eq!(to_text(&[0x0001]), Err(20), "three pads");
    assert_eq!(to_text(&[word(1, 2, 3), 0x0001]), Err(20), "also at the end");
    let words = [word(1, 0, 0), word(2, 3, 0), word(4, 5, 6), word(7, 0, 0), word(8, 9, 0)];
    assert_eq!(to_text(&words).as_deref(), Ok(&b"ABCDEFGHI"[..]), "not just before FC or at the end");
}

#[test]
fn point_17_several_rows_of_words_read_as_one_text_and_only_what_is_written_reads_back() {
    let rows = [
        vec![word(1, 2, 3)],
        vec![word(1, 2, 0), word(3, 0, 0)],
        vec![word(1, 0, 0), word(2, 3, 0)],
        vec![word(1, 0, 0), word(2, 0, 0), word(3, 0, 0)],
        vec![0xFC41, word(2, 3, 0)],
        vec![0xFC41, 0xFC42, 0xFC43],
    ];
    for row in &rows {
        assert_eq!(to_text(row).as_deref(), Ok(&b"ABC"[..]), "{row:04X?}");
    }
    assert_eq!(to_words(b"ABC").as_ref(), Ok(&rows[0]), "the first alone is written");
    let mut random = Random::new(17);
    let mut others = 0;
    for _ in 0..500 {
        let (words, text) = words::bank(&mut random);
        assert_eq!(to_text(&words).as_ref(), Ok(&text));
        let written = to_words(&text).unwrap();
        assert_eq!(to_text(&written), Ok(text));
        others += usize::from(written != words);
    }
    assert!(others > 250, "{others} rows that nobody wrote");
}

#[test]
fn point_18_runs_are_cut_in_threes_and_what_is_left_is_padded() {
    let (a, ab, abc) = (word(1, 0, 0), word(1, 2, 0), word(1, 2, 3));
    let written = |text: &[u8]| to_words(text).unwrap();
    assert_eq!((written(b"A"), written(b"AB"), written(b"ABC")), (vec![a], vec![ab], vec![abc]));
    assert_eq!(written(b"ABCA"), [abc, a], "no word is begun before three are there");
    assert_eq!(written(b"ABCABC"), [abc, abc], "and no word of pads is made where nothing is left");
    assert_eq!(written(b"/A"), [0xFC2F, a]);
    assert_eq!(written(b"A/"), [a, 0xFC2F]);
    assert_eq!(written(b"AB/A"), [ab, 0xFC2F, a]);
    assert_eq!(written(b"ABC/AB"), [abc, 0xFC2F, ab]);
    assert_eq!(written(b"ABCA/BC"), [abc, a, 0xFC2F, word(2, 3, 0)], "a run does not go on behind it");
    assert_eq!(written(b"//"), [0xFC2F, 0xFC2F], "one word for each");
    assert_eq!(written(b"AbC"), [a, 0xFC62, word(3, 0, 0)], "lower case is outside");
    for capital in b'A'..=b'Z' {
        let small = capital.to_ascii_lowercase();
        assert_eq!(written(&[small]), [0xFC00 + u16::from(small)]);
        assert_eq!(to_text(&written(&[capital, small])), Ok(vec![capital, small]));
    }
    // Runs of each length, alone and between characters outside.
    for length in 0..=30 {
        let run = &b"ABC".repeat(10)[..length];
        let left = [vec![], vec![a], vec![ab]];
        let right = [vec![abc; length / 3], left[length % 3].clone()].concat();
        assert_eq!(written(run), right);
        assert_eq!(written(&[b"/", run, b"/"].concat()), [&[0xFC2F][..], &right, &[0xFC2F]].concat());
        assert_eq!(written(&[run, b"/", run].concat()), [&right[..], &[0xFC2F], &right].concat());
    }
    // 002, 7.3.5.3: pads before the solidus, FC2F, and back to the basic set.
    assert_eq!(written(b"CH-0/1"), [0x141C, word(30, 0, 0), 0xFC2F, word(31, 0, 0)]);
}

#[test]
fn point_19_20_is_for_any_word_and_21_for_any_byte_and_both_come_before_2() {
    for place in 0..=WORDS.len() {
        for bad in words::BAD_EDGES {
            let mut words = WORDS.to_vec();
            words.insert(place, bad);
            assert_eq!([0, 22, 23, 24, 100].map(|room| to_text_into(&words, room)), [const { Err(20) }; 5]);
        }
    }
    for place in 0..=TEXT.len() {
        for bad in [0x80, 0xAD, 0xC1, 0xFF] {
            let mut text = TEXT.to_vec();
            text.insert(place, bad);
            assert_eq!([0, 7, 8, 9, 100].map(|room| to_words_into(&text, room)), [const { Err(21) }; 5]);
        }
    }
    for byte in 0x80..=0xFF {
        assert_eq!(to_words_into(&[b'A', byte], 0), Err(21));
    }
    assert_eq!((to_text_into(&WORDS, 22), to_words_into(TEXT, 7)), (Err(2), Err(2)), "without them 2 is left");
    let mut random = Random::new(19);
    for _ in 0..1000 {
        let numbers: Vec<u16> = (0..4).map(|_| random.number() as u16).collect();
        assert!(matches!(to_text_into(&numbers, 8), Ok(_) | Err(20 | 2)), "reading never gives 21");
        assert!(matches!(to_words_into(&random.bytes(4), 3), Ok(_) | Err(21 | 2)), "and writing never 20");
    }
}

#[test]
fn point_20_reading_counts_characters_and_writing_counts_words() {
    for room in 0..=30 {
        assert_eq!(to_text_into(&WORDS, room), if room < 23 { Err(2) } else { Ok(TEXT.to_vec()) }, "{room} characters");
        assert_eq!(to_words_into(TEXT, room), if room < 8 { Err(2) } else { Ok(WORDS.to_vec()) }, "{room} words");
    }
    assert_eq!((to_text_into(&[], 0), to_words_into(b"", 0)), (Ok(vec![]), Ok(vec![])), "nothing gives nothing");
    assert_eq!((to_text_into(&[], 5), to_words_into(b"", 5)), (Ok(vec![]), Ok(vec![])));
    let empty = confirmed(Call::to_words(vec![], &[]));
    assert_eq!((empty.answer, &empty.results[..]), (0, &[0][..]), "its count, 0, is given");
    assert_eq!((to_text_into(&[0xFC00], 0), to_words_into(b"A", 0)), (Err(2), Err(2)));
}

#[test]
fn point_21_words_are_numbers_and_not_pairs_of_bytes() {
    assert_eq!(to_words(b"CH-"), Ok(vec![5148]));
    assert_eq!(to_text(&[5148]).as_deref(), Ok(&b"CH-"[..]));
    assert_eq!(5148, 0x141C);
    assert_eq!(to_text(&[0x1C14]).as_deref(), Ok(&b"DS-"[..]), "the bytes the other way round");
    assert_eq!(to_text(&[0x2FFC]).as_deref(), Ok(&b"G-C"[..]), "which is no FC word");
}

#[test]
fn point_22_slips_of_the_sources() {
    // 002, D.2.3, prints ADB5 for 123 too, and so does 003.
    let printed = [0x141C, 0xC04F, 0xC70B, 0xADB5, 0xADB5, 0xDA1D, 0xED4D, 0xD319];
    assert_eq!(to_text(&printed).as_deref(), Ok(&b"CH-000134-1.-1.45678.31"[..]));
    assert_eq!((to_words(b"-1."), to_words(b"123")), (Ok(vec![0xADB5]), Ok(vec![0xC6E2])));
    // 002 also has the letter O in the second word.
    assert!(u16::from_str_radix("CO4F", 16).is_err() && to_words(b"000") == Ok(vec![0xC04F]));
    // The three words that it works out are right; a base 10 stands behind each sum as two more digits.
    assert_eq!((to_words(b"CH-"), 0x141C), (Ok(vec![1600 * 3 + 40 * 8 + 27 + 1]), 5148));
    assert_eq!((to_words(b"000"), 0xC04F), (Ok(vec![1600 * 30 + 40 * 30 + 30 + 1]), 49_231));
    assert_eq!((to_words(b"31"), 0xD319), (Ok(vec![1600 * 33 + 40 * 31 + 1]), 54_041));
    // Table D.1 has the bits of two rows wrong, and the hyphen as an underscore, or a dash in 003.
    let wrong: Vec<(u8, u8, u16)> = rows().into_iter().filter(|(code, bits, _)| code != bits).collect();
    assert_eq!(wrong, [(b'Z', b'[', 26), (b':', b'.', 29)]);
    assert_eq!((to_words(b"Z"), to_words(b"[")), (Ok(vec![word(26, 0, 0)]), Ok(vec![0xFC5B])));
    assert_eq!((to_words(b":"), to_words(b".")), (Ok(vec![word(29, 0, 0)]), Ok(vec![word(28, 0, 0)])));
    assert_eq!((to_words(b"-"), to_words(b"_")), (Ok(vec![word(27, 0, 0)]), Ok(vec![0xFC5F])));
    assert_eq!(to_words("–".as_bytes()), Err(21));
    // 003, 7.3.7, has one zero less than the words that it is said to come from.
    let short = to_words(b"CH-00134-1.12345678.31").unwrap();
    assert_eq!(short, [0x141C, 0xC050, 0xD3AC, 0xC640, 0xCD4B, 0xE086, 0xF202, 0xC1C1]);
    // 003, 7.3.5.2, has CH in Cyrillic letters.
    assert_eq!(to_words("СН-000134-1.12345678.31".as_bytes()), Err(21));
}
