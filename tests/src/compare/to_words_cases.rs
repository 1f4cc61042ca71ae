//! Cases of text into words.

use super::case::{Call, Case};
use crate::examples;
use crate::generate::words::{self, BESIDE};
use crate::model::text_to_words;
use crate::random::Random;

/// The fixed cases and so many random ones.
pub fn all(seed: u64, count: usize) -> impl Iterator<Item = Case> + Send {
    let characters = nothing().chain(published()).chain(every_byte()).chain(short());
    let fixed = characters.chain(rooms()).chain(spoiled()).chain(long());
    fixed.chain(random(seed, count))
}

/// Random bytes, texts of which one byte is above 7F, and texts.
pub fn random(seed: u64, count: usize) -> impl Iterator<Item = Case> + Send {
    let mut random = Random::new(seed);
    (0..count).map(move |_| {
        let (group, text) = match random.below(6) {
            0 => {
                let length = random.below(12);
                ("random bytes as text", random.bytes(length))
            }
            1 | 2 => ("texts of which one byte is above 7F", words::spoiled_text(&mut random)),
            _ => ("texts", words::text(&mut random)),
        };
        let exact = words_in(&text).unwrap_or(text.len());
        let room = words::room(&mut random, exact);
        let words: Vec<u16> = (0..room).map(|_| random.number() as u16).collect();
        Case::new(group, Call::to_words(text, &words))
    })
}

/// How many words the text takes, where it is one.
fn words_in(text: &[u8]) -> Option<usize> {
    text_to_words(text, &mut vec![0; text.len()]).ok()
}

/// What stands in a buffer of words before it is filled.
fn unfilled(room: usize) -> Vec<u16> {
    vec![0xEEEE; room]
}

/// No text, often enough that the buffers are passed in every way.
fn nothing() -> impl Iterator<Item = Case> + Send {
    (0..16).map(|time| Case::new("no text", Call::to_words(vec![], &unfilled(time / 8))))
}

/// The papers' texts in every room up to one more than is needed.
fn published() -> impl Iterator<Item = Case> + Send {
    [examples::TEXT.to_vec(), b"DK-1/2.a".to_vec()].into_iter().flat_map(|text| {
        (0..=text.len())
            .map(move |room| Case::new("the papers' texts, all rooms", Call::to_words(text.clone(), &unfilled(room))))
    })
}

/// Every byte alone, and behind and before others of the 39 and outside them.
fn every_byte() -> impl Iterator<Item = Case> + Send {
    let around: [(&[u8], &[u8]); 6] =
        [(b"", b""), (b"A", b"B"), (b"AB", b"C"), (b"", b"AB"), (b"a", b"b"), (b"ABC", b"")];
    (0..=255).flat_map(move |byte| {
        around.map(|(before, behind)| {
            let text = [before, &[byte], behind].concat();
            Case::new("every byte, among others", Call::to_words(text, &unfilled(5)))
        })
    })
}

/// Every text of up to three characters of a mixed alphabet, 80 among it.
fn short() -> impl Iterator<Item = Case> + Send {
    let alphabet = b"AZ-.:09a/@[\0\x7F\x80";
    texts(alphabet, 3).map(|text| Case::new("all texts of up to 3 of 14 bytes", Call::to_words(text, &unfilled(3))))
}

/// Every text of up to this length over these bytes.
pub fn texts(alphabet: &'static [u8], longest: u32) -> impl Iterator<Item = Vec<u8>> + Send {
    let size = alphabet.len();
    (0..=longest).flat_map(move |length| {
        (0..size.pow(length))
            .map(move |text| (0..length).map(|place| alphabet[text / size.pow(place) % size]).collect::<Vec<u8>>())
    })
}

/// Every pattern of up to nine characters inside and outside the 39, with the room exact and one short.
fn rooms() -> impl Iterator<Item = Case> + Send {
    texts(b"M/", 9).flat_map(|text| {
        let exact = words_in(&text).expect("characters up to 7F");
        [exact, exact.saturating_sub(1)].map(|room| {
            let call = Call::to_words(text.clone(), &unfilled(room));
            Case::new("all patterns of up to 9 characters, exact rooms", call)
        })
    })
}

/// Up to nine characters, one of them above 7F: each place, no room, one too few and room enough.
fn spoiled() -> impl Iterator<Item = Case> + Send {
    let good = b"AB/CDEfG";
    (0..=good.len()).flat_map(move |length| {
        (0..=length).flat_map(move |place| {
            [0x80, 0xC1, 0xFF].into_iter().flat_map(move |bad| {
                let mut text = good[..length].to_vec();
                text.insert(place, bad);
                [0, 2, 9].map(|room| {
                    let call = Call::to_words(text.clone(), &unfilled(room));
                    Case::new("one byte above 7F at each place", call)
                })
            })
        })
    })
}

/// Counts of characters and of words that pass 255 and 65,535: just the room, one short, and a bad byte at the end.
fn long() -> impl Iterator<Item = Case> + Send {
    let kinds: [(&[u8], [usize; 4]); 3] = [
        (b"9", [765, 768, 196_605, 196_606]),
        (b"Q/", [255, 256, 65_535, 65_536]),
        (&BESIDE, [255, 256, 65_535, 65_536]),
    ];
    kinds.into_iter().flat_map(move |(kind, lengths)| {
        lengths.into_iter().flat_map(move |length| {
            let text: Vec<u8> = kind.iter().copied().cycle().take(length).collect();
            let exact = words_in(&text).expect("characters up to 7F");
            let bad = [&text[..], &[0x80]].concat();
            [(text.clone(), exact), (text, exact - 1), (bad, exact)]
                .map(|(text, room)| Case::new("255 to 196,606 characters", Call::to_words(text, &unfilled(room))))
        })
    })
}
