//! Histories: many edits of one tag under one lock map, and the way back.

use crate::generate::edits::{self, Edit};
use crate::generate::{locks, sheets, tags};
use crate::model::layout::layout;
use crate::model::{editing, pages, Content, Edited, Refusal};
use crate::random::Random;

/// One edit and what became of it.
pub struct Step {
    pub edit: Edit,
    pub before: Vec<u8>,
    pub answer: Result<Edited, Refusal>,
    pub after: Vec<u8>,
    /// The buffer for the old element before the edit and after it.
    pub room: Vec<u8>,
    pub old: Vec<u8>,
}

pub struct History {
    pub start: Content,
    pub locks: Vec<u8>,
    pub steps: Vec<Step>,
}

impl Step {
    /// Edits the tag by the model.
    fn take(before: Vec<u8>, locks: &[u8], edit: Edit, room: Vec<u8>) -> Step {
        let (mut after, mut old) = (before.clone(), room.clone());
        let answer = editing(&mut after, locks, edit.number, &edit.value, &mut old);
        Step { edit, before, answer, after, room, old }
    }

    /// The edit that hands the old element back; none after a refusal.
    pub fn way_back(&self) -> Option<Edit> {
        let edited = self.answer.ok()?;
        Some(Edit { number: self.edit.number, value: self.old[..edited.old_length].to_vec() })
    }
}

/// Up to 40 edits from a tag in the writer's own layout.
pub fn history(random: &mut Random) -> History {
    let length = tags::length(random);
    let start = sheets::fitting(random, length);
    let locks = locks::good(random, length);
    let mut tag = layout(&start, length).expect("a content that fits");
    let mut now = start.clone();
    let mut steps = Vec::new();
    for _ in 0..random.between(1, 40) {
        let edit = edits::modest(random, &now);
        let old_room = edits::old_room(random, 60);
        let step = Step::take(tag, &locks, edit, random.bytes(old_room));
        if step.answer.is_ok() {
            now.put(step.edit.number as u8, &step.edit.value);
        }
        tag = step.after.clone();
        steps.push(step);
    }
    History { start, locks, steps }
}

impl History {
    /// Whether after each edit the tag is the layout of the starting elements with the accepted edits applied, the
    /// page count is that of the pages that differ, the old element is the one that stood there, and no locked page
    /// differs from the start; a line where not.
    pub fn holds(&self) -> Result<(), String> {
        let Some(first) = self.steps.first() else { return Ok(()) };
        let mut now = self.start.clone();
        for (place, step) in self.steps.iter().enumerate() {
            let held = self.step_holds(step, &mut now) && self.locked_pages_equal(&first.before, &step.after);
            if !held {
                return Err(format!("step {place} of a history breaks the law: {:?}", step.edit));
            }
        }
        Ok(())
    }

    fn step_holds(&self, step: &Step, now: &mut Content) -> bool {
        let Ok(edited) = step.answer else { return step.after == step.before && step.old == step.room };
        let number = step.edit.number as u8;
        let old = now.get(number).to_vec();
        now.put(number, &step.edit.value);
        let differing = step.before.chunks(pages::PAGE).zip(step.after.chunks(pages::PAGE)).filter(|(a, b)| a != b);
        layout(now, step.after.len()).as_ref() == Some(&step.after)
            && edited.pages == differing.count()
            && step.old == [&old, &step.room[old.len()..]].concat()
            && edited.old_length == old.len()
    }

    fn locked_pages_equal(&self, start: &[u8], now: &[u8]) -> bool {
        let pages = start.chunks(pages::PAGE).zip(now.chunks(pages::PAGE)).zip(&self.locks);
        pages.into_iter().all(|((start, now), lock)| *lock == 0 || start == now)
    }
}
