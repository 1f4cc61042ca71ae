//! Cases of taking an identifier apart.

use super::case::{Call, Case, Outcome};
use super::text_cases::name;
use super::to_words_cases::texts;
use crate::examples;
use crate::generate::identifiers::{self, Elements, Text, LEADS};
use crate::model::put_together;
use crate::random::Random;

/// The fixed cases and so many random ones.
pub fn all(seed: u64, count: usize) -> impl Iterator<Item = Case> + Send {
    let parts = nothing().chain(published()).chain(short()).chain(sets()).chain(every_byte());
    let fixed = parts.chain(lengths()).chain(combined()).chain(many_parts());
    fixed.chain(random(seed, count))
}

/// Random bytes, random characters with dots among them, texts that were built, and texts good and bad.
pub fn random(seed: u64, count: usize) -> impl Iterator<Item = Case> + Send {
    let mut random = Random::new(seed);
    (0..count).map(move |_| match random.below(8) {
        0 => {
            let (length, isil_leads) = (random.below(20), identifiers::leads(&mut random));
            let among = random.pick(&[&b".S0123DK-a\xC3\xA9\0"[..], b"...31"]);
            let mut character = || if random.one_in(8) { random.byte() } else { random.pick(among) };
            let text = (0..length).map(|_| character()).collect();
            in_any_room(&mut random, "random bytes and characters", text, isil_leads, [length, length, 4])
        }
        1 | 2 => built(&mut random),
        _ => {
            let made = identifiers::text(&mut random);
            let (group, lengths) = (group_of(&made), made.lengths());
            in_any_room(&mut random, group, made.text, made.isil_leads, lengths)
        }
    })
}

fn group_of(text: &Text) -> &'static str {
    match text.right {
        Err(22) => "texts of too few or too many parts",
        Err(6) => "texts with a bad part",
        Err(_) => "texts that point to another bank",
        Ok(_) => "texts with good parts",
    }
}

fn in_any_room(random: &mut Random, group: &'static str, text: Vec<u8>, isil_leads: u32, lengths: [usize; 3]) -> Case {
    let rooms = identifiers::rooms(random, lengths);
    Case::new(group, Call::apart(text, isil_leads, rooms.map(|room| random.bytes(room))))
}

/// A text that was built: not what the model makes of it, but the law itself. What is built takes apart to the same three.
fn built(random: &mut Random) -> Case {
    let elements = loop {
        if let Elements { elements, right: Ok(_) } = identifiers::elements(random) {
            break elements;
        }
    };
    let mut text = vec![0; 279];
    let used = put_together(&elements[0], &elements[1], &elements[2], &mut text).expect("good elements, and room");
    text.truncate(used);
    let isil_leads = if elements[1].is_empty() { 0 } else { random.pick(&LEADS[1..]) };
    let more = random.below(3);
    let behind = random.bytes(more);
    let lent = elements.each_ref().map(|element| [&vec![0xEE; element.len()], &behind[..]].concat());
    let results = elements.iter().map(|element| element.len() as u64).collect();
    let filled = elements.into_iter().map(|element| [element, behind.clone()].concat());
    let expected = Outcome { answer: 0, results, buffers: [text.clone()].into_iter().chain(filled).collect() };
    Case { group: "texts that were built, taken apart", call: Call::apart(text, isil_leads, lent), expected }
}

/// Buffers that are not filled yet.
fn unfilled(rooms: [usize; 3]) -> [Vec<u8>; 3] {
    rooms.map(|room| vec![0xEE; room])
}

/// The text with room enough.
fn with_room(group: &'static str, text: &[u8], isil_leads: u32) -> Case {
    Case::new(group, Call::apart(text.to_vec(), isil_leads, unfilled([258, 17, 5])))
}

/// The same by a caller who says no and by one who says yes.
fn both_ways(group: &'static str, text: &[u8]) -> [Case; 2] {
    [0, 1].map(|isil_leads| with_room(group, text, isil_leads))
}

/// No text, often enough that the buffers are passed in every way, and every way to say yes.
fn nothing() -> impl Iterator<Item = Case> + Send {
    let rooms = [[0; 3], [1; 3]].into_iter().flat_map(|rooms| [rooms; 16]);
    rooms
        .enumerate()
        .map(|(time, rooms)| Case::new("no text", Call::apart(vec![], LEADS[time % LEADS.len()], unfilled(rooms))))
}

/// The papers' text and its shorter forms, by every caller: each room none, one short, exact and one more.
fn published() -> impl Iterator<Item = Case> + Send {
    let texts = [examples::TEXT, b"CH-000134-1.12345678", b"12345678.31", b"12345678", b"CH-000134-1.12345678.S"];
    texts.into_iter().flat_map(|text| {
        LEADS.into_iter().flat_map(move |isil_leads| {
            (0..64).map(move |place| {
                let rooms = [[0, 7, 8, 9][place % 4], [0, 10, 11, 12][place / 4 % 4], [0, 3, 4, 5][place / 16]];
                let call = Call::apart(text.to_vec(), isil_leads, unfilled(rooms));
                Case::new("the papers' text and its shorter forms", call)
            })
        })
    })
}

/// Every text of up to four characters of six, alone and behind an ISIL.
fn short() -> impl Iterator<Item = Case> + Send {
    texts(b".S31D-", 4).flat_map(|text| {
        let behind = both_ways("all texts of up to 4 of 6 characters", &[b"D-1.", &text[..]].concat());
        both_ways("all texts of up to 4 of 6 characters", &text).into_iter().chain(behind)
    })
}

/// Every two and every four digits in the set's place; of six, every total with ordinals about each bound; and what is no set.
fn sets() -> impl Iterator<Item = Case> + Send {
    let four = (0..100).map(|number| format!("{number:02}")).chain((0..10_000).map(|number| format!("{number:04}")));
    let six = (0..1000usize).flat_map(|total| {
        let ordinals = [0, 1, 99, 100, 255, 256, 999, total.saturating_sub(1), total, (total + 1).min(999)];
        ordinals.map(|ordinal| format!("{total:03}{ordinal:03}"))
    });
    let digits = four.chain(six).map(String::into_bytes);
    let bad = identifiers::bad_sets().into_iter().map(<[u8]>::to_vec);
    digits.chain(bad).flat_map(|set| {
        [(&b"X."[..], 0), (b"DK-1.X.", 1)]
            .map(|(before, isil_leads)| with_room("digits in the set's place", &[before, &set].concat(), isil_leads))
    })
}

/// Every byte in each part.
fn every_byte() -> impl Iterator<Item = Case> + Send {
    let texts = ["*", "a*b", "D*-1.X", "DK-*.X", "DK-1.*", "DK-1.a*.31", "X.*", "X.*0", "X.10*0"];
    (0..=255).flat_map(move |byte| {
        texts.into_iter().flat_map(move |text| both_ways("every byte in each part", &with_part(text, &[byte])))
    })
}

/// The text with these bytes for its star.
fn with_part(text: &str, part: &[u8]) -> Vec<u8> {
    text.split('*').map(str::as_bytes).collect::<Vec<_>>().join(part)
}

/// Identifiers about as long as the limit, with and without other parts, in letters and in characters of 2 and 3 bytes; and
/// ISILs of every length.
fn lengths() -> impl Iterator<Item = Case> + Send {
    let items = about_the_limit().flat_map(|length| ["x", "é", "€"].map(|character| name(character, length)));
    let identifiers = items.flat_map(|item| {
        let texts = ["*", "*.31", "*.S", "DK-1.*", "DK-1.*.31", "OCLC-12345678901.*.255001"];
        texts
            .into_iter()
            .flat_map(move |text| both_ways("identifiers about as long as the limit", &with_part(text, &item)))
    });
    identifiers.chain(isils().flat_map(|isil| both_ways("ISILs of every length", &with_part("*.X", isil.as_bytes()))))
}

/// Lengths of an identifier about 255, and those that a byte, or two, would take for shorter ones.
pub fn about_the_limit() -> impl Iterator<Item = usize> + Send {
    (0..=3).chain(250..=260).chain([511, 512, 65_535, 65_536, 65_791])
}

/// Capitals, a hyphen and digits in numbers that make an ISIL, and in others.
pub fn isils() -> impl Iterator<Item = String> + Send {
    (0..=6).flat_map(|prefix| (0..=13).map(move |unit| format!("{:A<prefix$}-{:1<unit$}", "", "")))
}

/// Good and bad parts in all ways together, with one part more or less, and with any of the three rooms short: the order.
fn combined() -> impl Iterator<Item = Case> + Send {
    let isils = [&b""[..], b"DK-1.", b"dk-1.", b"."];
    let items = [&b"AB"[..], b"", b"\xC3", b"S", &[b'x'; 256]];
    let sets = [&b""[..], b".31", b".S", b".s", b".00", b".", b".31.", b".S.S"];
    isils.into_iter().flat_map(move |isil| {
        items.into_iter().flat_map(move |item| {
            sets.into_iter().flat_map(move |set| {
                (0..16).map(move |place| {
                    let short = [place % 2, place / 2 % 2, place / 4 % 2];
                    let rooms = [2 - short[0], 4 - short[1], 4 - short[2]];
                    let call = Call::apart([isil, item, set].concat(), (place / 8) as u32, unfilled(rooms));
                    Case::new("good and bad parts in all ways together", call)
                })
            })
        })
    })
}

/// Dots about as many as one and two bytes count.
fn many_parts() -> impl Iterator<Item = Case> + Send {
    [253, 254, 255, 256, 257, 258, 65_534, 65_535, 65_536, 65_537, 65_538]
        .into_iter()
        .flat_map(|dots| both_ways("255 to 65,539 parts", &vec![b'.'; dots]))
}
