//! Cases of a write or an edit that was cut off: the tags that only some of its page stores have reached. Each is read,
//! edited, and written again.

use super::case::{Call, Case, Outcome};
use super::read_cases::room_for;
use crate::generate::edits::{self, Edit};
use crate::generate::{damaged, locks, sheets, tags};
use crate::model::layout::layout;
use crate::model::reading::content_of;
use crate::model::{editing, pages, sheet};
use crate::random::Random;

/// Up to so many page stores are tried in every order. The bytes of a tag tell which pages were stored and not in which
/// order, so every order cut at every place is every subset of the pages, each tried once.
const FEW: usize = 5;

pub fn all(seed: u64, count: usize) -> impl Iterator<Item = Case> + Send {
    let mut random = Random::new(seed);
    (0..count).flat_map(move |_| {
        let stores = if random.one_in(2) { write(&mut random) } else { edit(&mut random) };
        stores.cases(&mut random)
    })
}

/// A call whose pages are stored one by one, and the tag that it leaves.
struct Stores {
    call: Call,
    before: Vec<u8>,
    after: Vec<u8>,
    locks: Vec<u8>,
    /// An edit to be tried on every tag between: the one that was cut off, where it was an edit.
    again: Edit,
}

/// A write over a tag of another content, a loose one, a damaged one, an empty one, or no tag at all.
fn write(random: &mut Random) -> Stores {
    let before = match random.below(8) {
        0 => vec![0; tags::length(random)],
        1 => {
            let length = tags::length(random);
            random.bytes(length)
        }
        2 => tags::loose(random),
        3 => damaged::any(random).tag,
        _ => tags::own(random),
    };
    let content = sheets::fitting(random, before.len());
    let after = layout(&content, before.len()).expect("a content that fits");
    let locks = harmless_locks(random, &before, &after);
    let call = Call::write(sheet_of(&after), before.clone(), locks.clone());
    Stores { call, before, after, locks, again: edits::modest(random, &content) }
}

/// An edit that changes a page.
fn edit(random: &mut Random) -> Stores {
    let before = tags::own(random);
    let content = content_of(&before).expect("the writer's own layout reads");
    let open = locks::open(before.len());
    let found = (0..1000).find_map(|_| {
        let edit = edits::modest(random, &content);
        let mut after = before.clone();
        let done = editing(&mut after, &open, edit.number, &edit.value, &mut [0; 255]).ok()?;
        (done.pages > 0).then_some((edit, after))
    });
    let (again, after) = found.expect("one edit in a thousand changes a page");
    let locks = harmless_locks(random, &before, &after);
    let call = edit_call(&before, &locks, &again);
    Stores { call, before, after, locks, again }
}

/// A lock map that locks no page which has to change.
fn harmless_locks(random: &mut Random, before: &[u8], after: &[u8]) -> Vec<u8> {
    let mut map = locks::good(random, before.len());
    pages::differing(before, after, pages::PAGE).into_iter().for_each(|page| map[page] = 0);
    map
}

/// The sheet of a tag in the writer's own layout.
fn sheet_of(tag: &[u8]) -> Vec<u8> {
    let content = content_of(tag).expect("the writer's own layout reads");
    sheet::of_content(&content).expect("no offset of a tag's sheet passes 65,535")
}

fn edit_call(tag: &[u8], locks: &[u8], edit: &Edit) -> Call {
    Call::edit(tag.to_vec(), locks.to_vec(), edit.number, edit.value.clone(), vec![0xEE; 255])
}

impl Stores {
    /// The call itself, then all that is tried on each tag between.
    fn cases(self, random: &mut Random) -> impl Iterator<Item = Case> + Send {
        let Stores { call, before, after, locks, again } = self;
        let changed = pages::differing(&before, &after, pages::PAGE);
        let (whole, between, stored) = if changed.len() <= FEW {
            let subsets = (0..1 << changed.len()).map(|set| subset(&changed, set)).collect();
            (
                "calls that store up to 5 pages",
                "torn tags read: every subset of their pages, so every order cut anywhere",
                subsets,
            )
        } else {
            let prefixes: Vec<Vec<usize>> = (0..=changed.len()).map(|count| changed[..count].to_vec()).collect();
            ("calls that store more pages", "torn tags read: every prefix of their stores in page order", prefixes)
        };
        let content = content_of(&after).expect("the writer's own layout reads");
        let others = [edits::modest(random, &content), edits::any(random, &content)];
        let map = locks::good(random, before.len());
        let sheet = sheet_of(&after);
        let tried = stored.into_iter().flat_map(move |pages| {
            let tag = torn(&before, &after, &pages);
            let read = Case::new(between, Call::read(tag.clone(), vec![0xEE; room_for(&tag)]));
            let edits = [(&again, &locks), (&others[0], &map), (&others[1], &locks)];
            let edits = edits.map(|(edit, locks)| Case::new("torn tags edited", edit_call(&tag, locks, edit)));
            let written = written_again(&sheet, tag, &after, &locks);
            [read, written].into_iter().chain(edits)
        });
        [Case::new(whole, call)].into_iter().chain(tried)
    }
}

/// The pages whose bits are set.
fn subset(pages: &[usize], set: usize) -> Vec<usize> {
    pages.iter().enumerate().filter(|(bit, _)| set >> bit & 1 == 1).map(|(_, page)| *page).collect()
}

/// The tag before, with these pages of the tag after.
fn torn(before: &[u8], after: &[u8], stored: &[usize]) -> Vec<u8> {
    let mut tag = before.to_vec();
    for page in stored {
        let place = page * pages::PAGE..(page + 1) * pages::PAGE;
        tag[place.clone()].copy_from_slice(&after[place]);
    }
    tag
}

/// The same sheet once more: not what the model makes of it, but the law itself. It is accepted, lays the same bytes
/// down, and counts the pages that were still missing.
fn written_again(sheet: &[u8], tag: Vec<u8>, after: &[u8], locks: &[u8]) -> Case {
    let missing = pages::differing(&tag, after, pages::PAGE).len();
    let expected = Outcome {
        answer: 0,
        results: vec![missing as u64],
        buffers: vec![sheet.to_vec(), after.to_vec(), locks.to_vec()],
    };
    let call = Call::write(sheet.to_vec(), tag, locks.to_vec());
    Case { group: "torn tags written: the same sheet again", call, expected }
}
