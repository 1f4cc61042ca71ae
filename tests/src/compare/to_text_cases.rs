//! Cases of words into text.

use super::case::{in_bytes, Call, Case, Outcome};
use crate::examples;
use crate::generate::words::{self, of_basic, of_one, BAD_EDGES};
use crate::model::text_to_words;
use crate::random::Random;

/// The fixed cases and so many random ones.
pub fn all(seed: u64, count: usize) -> impl Iterator<Item = Case> + Send {
    let fixed = nothing().chain(published()).chain(every_word()).chain(spoiled()).chain(rooms()).chain(long());
    fixed.chain(random(seed, count))
}

/// Random words, words of which one has no meaning, words with a meaning, and words of a text.
pub fn random(seed: u64, count: usize) -> impl Iterator<Item = Case> + Send {
    let mut random = Random::new(seed);
    (0..count).map(move |_| match random.below(6) {
        0 => {
            let length = random.below(12);
            let words: Vec<u16> = (0..length).map(|_| random.number() as u16).collect();
            in_any_room(&mut random, "random words", words, 2 * length)
        }
        1 | 2 => {
            let words = words::spoiled_bank(&mut random);
            let room = 3 * words.len();
            in_any_room(&mut random, "words of which one has no meaning", words, room)
        }
        3 => read_back(&mut random),
        _ => {
            let (words, text) = words::bank(&mut random);
            in_any_room(&mut random, "words with a meaning", words, text.len())
        }
    })
}

fn in_any_room(random: &mut Random, group: &'static str, words: Vec<u16>, exact: usize) -> Case {
    let room = words::room(random, exact);
    let text = random.bytes(room);
    Case::new(group, Call::to_text(&words, text))
}

/// The words of a text: not what the model makes of them, but the law itself. "what is written reads back"
fn read_back(random: &mut Random) -> Case {
    let text = words::text(random);
    let mut words = vec![0; text.len()];
    let used = text_to_words(&text, &mut words).expect("characters up to 7F, and a word for each");
    let more = random.below(4);
    let behind = random.bytes(more);
    let call = Call::to_text(&words[..used], [&vec![0xEE; text.len()], &behind[..]].concat());
    let expected = Outcome {
        answer: 0,
        results: vec![text.len() as u64],
        buffers: vec![in_bytes(&words[..used]), [text, behind].concat()],
    };
    Case { group: "words of a text, read back", call, expected }
}

/// No words, often enough that the buffers are passed in every way.
fn nothing() -> impl Iterator<Item = Case> + Send {
    (0..16).map(|time| Case::new("no words", Call::to_text(&[], vec![0xEE; time / 8])))
}

/// The papers' words in every room up to one more than is needed.
fn published() -> impl Iterator<Item = Case> + Send {
    let other = [0x1AD4, 0xC1C1, 0xFC2F, 0xCC61, 0xFC61];
    [examples::WORDS.to_vec(), other.to_vec()].into_iter().flat_map(|words| {
        (0..=3 * words.len() + 1)
            .map(move |room| Case::new("the papers' words, all rooms", Call::to_text(&words, vec![0xEE; room])))
    })
}

fn every_word() -> impl Iterator<Item = Case> + Send {
    (0..=u16::MAX).map(|word| Case::new("each of the 65,536 words", Call::to_text(&[word], vec![0xEE; 4])))
}

/// Up to six words, one of them without a meaning: each place, each edge, no room and room enough.
fn spoiled() -> impl Iterator<Item = Case> + Send {
    let good = [of_basic(b"CH-"), of_basic(b"1"), of_one(b'/'), of_basic(b"AB"), of_one(0)];
    (0..=good.len()).flat_map(move |length| {
        (0..=length).flat_map(move |place| {
            BAD_EDGES.into_iter().flat_map(move |bad| {
                let mut words = good[..length].to_vec();
                words.insert(place, bad);
                [0, 1, 24].map(|room| {
                    let call = Call::to_text(&words, vec![0xEE; room]);
                    Case::new("one word without a meaning at each place", call)
                })
            })
        })
    })
}

/// Every row of up to four words of one, two and three characters and behind FC, with the room exact, one short, one more
/// and none.
fn rooms() -> impl Iterator<Item = Case> + Send {
    let words = [(of_basic(b"Z"), 1), (of_basic(b"9:"), 2), (of_basic(b"A-0"), 3), (of_one(0), 1)];
    let rows = (0..=4).flat_map(|length| (0..4usize.pow(length)).map(move |row| (length, row)));
    rows.flat_map(move |(length, row)| {
        let row: Vec<(u16, usize)> = (0..length).map(|place| words[row / 4usize.pow(place) % 4]).collect();
        let words: Vec<u16> = row.iter().map(|(word, _)| *word).collect();
        let exact: usize = row.iter().map(|(_, characters)| characters).sum();
        [0, exact.saturating_sub(1), exact, exact + 1]
            .map(|room| Case::new("all rows of up to 4 kinds of words", Call::to_text(&words, vec![0xEE; room])))
    })
}

/// Counts of words and of characters that pass 255 and 65,535: just the room, one short, and a bad word at the end.
fn long() -> impl Iterator<Item = Case> + Send {
    let kinds = [(of_basic(b"999"), 3, [85, 86, 21_845, 21_846]), (of_one(b'q'), 1, [255, 256, 65_535, 65_536])];
    kinds.into_iter().flat_map(move |(word, characters, lengths)| {
        lengths.into_iter().flat_map(move |length| {
            let words = vec![word; length];
            let bad = [&words[..], &[0]].concat();
            let exact = length * characters;
            [(words.clone(), exact), (words, exact - 1), (bad, exact)]
                .map(|(words, room)| Case::new("85 to 65,536 words", Call::to_text(&words, vec![0xEE; room])))
        })
    })
}
