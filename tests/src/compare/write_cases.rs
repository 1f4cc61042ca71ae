//! Cases of writing.

use super::case::{Call, Case};
use crate::alphabets::{self, Place};
use crate::examples;
use crate::generate::{locks, sheets, tags};
use crate::model::{self, pages};
use crate::random::Random;
use crate::trial::{sheet_up_to, sheet_with};

/// The fixed cases and so many random ones.
pub fn all(seed: u64, count: usize) -> impl Iterator<Item = Case> + Send {
    let sheets = published().chain(short_sheets()).chain(changed_sheets()).chain(offsets());
    let others = lengths().chain(refused()).chain(lock_maps()).chain(alphabets::cases(Place::write));
    sheets.chain(others).chain(random(seed, count))
}

/// Random bytes, random entries, sheets with random changes, and sheets of any kind.
pub fn random(seed: u64, count: usize) -> impl Iterator<Item = Case> + Send {
    let mut random = Random::new(seed);
    (0..count).map(move |_| {
        let length = if random.one_in(40) { tags::bad_length(&mut random) } else { tags::length(&mut random) };
        let (group, sheet) = match random.below(8) {
            0 => ("random bytes as sheets", sheets::noise(&mut random)),
            1 => ("random entries under a right header", sheets::random_entries(&mut random)),
            2 | 3 => ("whole sheets with random changes", sheets::mutated(&mut random, length)),
            _ => ("generated sheets", sheets::any(&mut random, length)),
        };
        on_any_tag(&mut random, group, sheet, length)
    })
}

/// The papers' sheets: on an empty tag, on the tag that is already so with all pages locked, with each page locked.
fn published() -> impl Iterator<Item = Case> + Send {
    examples::all().into_iter().flat_map(|example| {
        let length = example.tag.len();
        let locked_pages = (0..length / pages::PAGE).map(move |page| {
            let mut map = locks::open(length);
            map[page] = 1;
            (vec![0; length], map)
        });
        let whole = [(vec![0; length], locks::open(length)), (example.tag.clone(), locks::all_locked(length))];
        whole.into_iter().chain(locked_pages).map(move |(tag, map)| {
            Case::new("the papers' examples, each page locked", Call::write(example.sheet.clone(), tag, map))
        })
    })
}

/// Every sheet of two bytes or less, and some of three.
fn short_sheets() -> impl Iterator<Item = Case> + Send {
    let two = (0..=u16::MAX).map(|count| count.to_le_bytes().to_vec());
    let others = (0..=255).flat_map(|byte| [vec![byte], vec![0, 0, byte], vec![byte, 0, 0]]);
    two.chain(others)
        .chain([vec![]])
        .map(|sheet| Case::new("all sheets of up to 2 bytes", Call::write(sheet, vec![0xEE; 36], locks::open(36))))
}

/// Every change of one byte of a sheet, every shorter sheet, and longer ones.
fn changed_sheets() -> impl Iterator<Item = Case> + Send {
    let group = "every change of one byte of 3 sheets, every shorter one";
    examples::all().into_iter().flat_map(move |example| {
        let sheet = example.sheet;
        let changed = {
            let sheet = sheet.clone();
            (0..sheet.len()).flat_map(move |place| {
                let sheet = sheet.clone();
                (1..=255u8).map(move |change| {
                    let mut changed = sheet.clone();
                    changed[place] ^= change;
                    changed
                })
            })
        };
        let cut = (0..=sheet.len() + 4).map(move |length| {
            let mut cut = sheet.clone();
            cut.resize(length, 0);
            cut
        });
        changed.chain(cut).map(move |sheet| Case::new(group, Call::write(sheet, vec![0xEE; 76], locks::open(76))))
    })
}

/// Sheets whose last entry begins about where an offset of two bytes ends.
fn offsets() -> impl Iterator<Item = Case> + Send {
    (65_530..=65_540).map(|place| {
        let call = Call::write(sheet_up_to(place), vec![0xEE; 64], locks::open(64));
        Case::new("last entries at 65,530 to 65,540", call)
    })
}

/// Lock maps about the right length, and every byte in the first and in the last page's place.
fn lock_maps() -> impl Iterator<Item = Case> + Send {
    let lengths = (0..=20).map(|length| vec![0; length]);
    let bytes = (0..=255).flat_map(|byte| {
        [0, 8].map(|page| {
            let mut map = vec![0; 9];
            map[page] = byte;
            map
        })
    });
    lengths.chain(bytes).flat_map(|map| {
        [vec![0xEE; 36], examples::whole_case().tag].map(|tag| {
            let call = Call::write(examples::whole_case().sheet, tag, map.clone());
            Case::new("lock maps of 0 to 20 bytes, and of every byte", call)
        })
    })
}

/// One sheet on every length up to 2,100.
fn lengths() -> impl Iterator<Item = Case> + Send {
    (0..=2100).map(|length| {
        let sheet = examples::whole_case().sheet;
        Case::new("all lengths 0 to 2,100", Call::write(sheet, vec![0xEE; length], locks::open(length)))
    })
}

/// Elements that clash, and elements that have no layout.
fn refused() -> impl Iterator<Item = Case> + Send {
    let two_owners = sheet_with(&[(3, b"DK-1"), (23, b"\x02x")]);
    let two_items = sheet_with(&[(1, &[b'7'; 17]), (22, b"x")]);
    let long_item = sheet_with(&[(1, &[b'7'; 17])]);
    let full_block = sheet_with(&[(22, &[b'7'; 251])]);
    [two_owners, two_items, long_item, full_block].into_iter().flat_map(|sheet| {
        [32, 36, 64, 2048].map(|length| {
            let call = Call::write(sheet.clone(), vec![0xEE; length], locks::open(length));
            Case::new("clashes and elements too long", call)
        })
    })
}

/// The sheet for a tag that is nearly so already, of another content, or nothing of the kind, under any lock map.
fn on_any_tag(random: &mut Random, group: &'static str, sheet: Vec<u8>, length: usize) -> Case {
    let tag = old_tag(random, &sheet, length);
    let map = locks::any(random, length, 30);
    Case::new(group, Call::write(sheet, tag, map))
}

fn old_tag(random: &mut Random, sheet: &[u8], length: usize) -> Vec<u8> {
    let mut tag = vec![0; length];
    match random.below(4) {
        0 => {}
        1 => tag = random.bytes(length),
        _ => {
            let open = locks::open(length);
            if model::writing(sheet, &mut tag, &open).is_ok() {
                let places = random.below(3);
                (0..places).for_each(|_| tag[random.below(length)] ^= 1);
            }
        }
    }
    tag
}
