//! Cases of many edits of one tag, each followed by a reading, and of the way back.

use super::case::{Call, Case, Outcome, PRESET};
use crate::history::{history, History, Step};
use crate::random::Random;

pub fn all(seed: u64, count: usize) -> impl Iterator<Item = Result<Case, String>> + Send {
    let mut random = Random::new(seed);
    (0..count).flat_map(move |_| {
        let history = history(&mut random);
        match history.holds() {
            Ok(()) => cases_of(&history).into_iter().map(Ok).collect(),
            Err(line) => vec![Err(line)],
        }
    })
}

fn cases_of(history: &History) -> Vec<Case> {
    let mut cases = Vec::new();
    for step in &history.steps {
        cases.push(Case::new("edits of histories", edit(history, step)));
        cases.push(Case::new("readings after each edit", Call::read(step.after.clone(), vec![0xEE; 5000])));
    }
    cases.extend(history.steps.iter().rev().filter_map(|step| way_back(history, step)));
    cases
}

fn edit(history: &History, step: &Step) -> Call {
    let (number, value) = (step.edit.number, step.edit.value.clone());
    Call::edit(step.before.clone(), history.locks.clone(), number, value, step.room.clone())
}

/// Handing the old element back: not what the model makes of it, but the law itself. It is accepted, restores the
/// earlier bytes, counts the same pages, and hands out what the edit had set.
fn way_back(history: &History, step: &Step) -> Option<Case> {
    let edited = step.answer.ok()?;
    let back = step.way_back()?;
    let room = vec![0xDD; 300];
    let set = &step.edit.value;
    let old = [set, &room[set.len()..]].concat();
    let call = Call::edit(step.after.clone(), history.locks.clone(), back.number, back.value.clone(), room);
    let expected = Outcome {
        answer: 0,
        results: vec![edited.pages as u64, set.len() as u64, PRESET],
        buffers: vec![step.before.clone(), history.locks.clone(), back.value, old],
    };
    Some(Case { group: "way back, newest first", call, expected })
}
