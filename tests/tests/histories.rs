//! Thousands of random edit histories, and the way back.

use independent::generate::locks;
use independent::history::{history, History};
use independent::random::Random;
use independent::trial::{edit_under, is_loose, tag_with};
use std::collections::BTreeMap;

/// Hands the old elements back, newest first: each is accepted, restores the earlier bytes, counts the same pages and
/// hands out what the edit had set.
fn go_back(history: &History) {
    let Some(last) = history.steps.last() else { return };
    let mut tag = last.after.clone();
    for step in history.steps.iter().rev() {
        let (Some(back), Ok(edited)) = (step.way_back(), step.answer) else { continue };
        assert_eq!(tag, step.after);
        let answer = edit_under(&mut tag, &history.locks, back.number, &back.value, 255);
        assert_eq!(answer, Ok((edited.pages, step.edit.value.clone())));
        assert_eq!(tag, step.before);
    }
    assert_eq!(tag, history.steps[0].before);
}

#[test]
fn after_each_edit_the_law_holds_and_the_way_back_restores_all() {
    let mut random = Random::new(11);
    let mut met: BTreeMap<u32, usize> = BTreeMap::new();
    for _ in 0..3000 {
        let history = history(&mut random);
        history.holds().unwrap();
        go_back(&history);
        for step in &history.steps {
            assert!(!is_loose(&step.after));
            *met.entry(step.answer.err().map_or(0, |refusal| refusal.number)).or_default() += 1;
        }
    }
    for number in [0, 2, 9, 10, 11, 12] {
        assert!(met.get(&number).is_some_and(|times| *times > 100), "answer {number} in {met:?}");
    }
}

#[test]
fn a_wrong_step_is_seen() {
    let mut random = Random::new(12);
    let mut seen = 0;
    for _ in 0..200 {
        let mut history = history(&mut random);
        let Some(place) = history.steps.iter().position(|step| step.answer.is_ok()) else { continue };
        let kind = random.below(4);
        let step = &mut history.steps[place];
        match (kind, &mut step.answer) {
            (0, Ok(edited)) => edited.pages += 1,
            (1, Ok(edited)) => edited.old_length += 1,
            (2, _) => step.old[254] ^= 1,
            _ => step.after[20] ^= 1,
        }
        assert!(history.holds().is_err(), "kind {kind}");
        seen += 1;
    }
    assert!(seen > 150);
}

#[test]
fn a_history_by_hand() {
    let mut tag = tag_with(&[(1, b"B1")], 64);
    let start = tag.clone();
    let open = locks::open(64);
    let mut edit = |number: u32, value: &[u8]| {
        let answer = edit_under(&mut tag, &open, number, value, 255);
        (answer, tag.clone())
    };
    let (first, with_media) = edit(19, &[5]);
    // 05 01 00 01 05 on bytes 34 to 38: pages 8 and 9.
    assert_eq!(first, Ok((2, vec![])));
    assert_eq!(with_media[34..40], [5, 1, 0, 1, 5, 0]);
    let (second, with_owner) = edit(3, b"DK-7");
    // The owner on page 5, the CRC on pages 4 and 5.
    assert_eq!(second, Ok((2, vec![])));
    assert_eq!(&with_owner[21..25], b"DK7\0");
    let (refused, unchanged) = edit(23, b"\x02x");
    assert_eq!((refused, unchanged), (Err(10), with_owner));
    assert_eq!(edit(3, b""), (Ok((2, b"DK-7".to_vec())), with_media));
    assert_eq!(edit(19, b""), (Ok((2, vec![5])), start));
}
