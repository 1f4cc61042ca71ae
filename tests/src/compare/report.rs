//! What a run has tried and met.

use super::case::{Call, Case, Placing};
use crate::model::refusal;
use std::collections::BTreeMap;

#[derive(Clone, Default)]
pub struct Report {
    pub groups: Vec<(&'static str, u64)>,
    pub answers: BTreeMap<u32, u64>,
    /// Cases whose buffers began behind a guard page. Those of the others ended before one.
    pub behind_guard: u64,
    differing: u64,
    /// The shortest case that differs: its length and its line.
    shortest: Option<(usize, String)>,
}

impl Report {
    /// Counts a case that has been answered.
    pub fn count(&mut self, case: &Case, placing: Placing) {
        self.count_group(case.group, 1);
        *self.answers.entry(case.expected.answer).or_default() += 1;
        self.behind_guard += u64::from(placing.behind_guard);
    }

    /// Calls of one group that were answered by a byte each. `call` makes the one at a place, for the line where it differs.
    pub fn of_answers(
        group: &'static str,
        right: &[u8],
        got: &[u8],
        placing: Placing,
        call: impl Fn(usize) -> Call,
    ) -> Report {
        let calls = right.len() as u64;
        let mut report = Report { groups: vec![(group, calls)], ..Report::default() };
        report.behind_guard = if placing.behind_guard { calls } else { 0 };
        for (place, (right, got)) in right.iter().zip(got).enumerate() {
            *report.answers.entry(u32::from(*right)).or_default() += 1;
            if right != got {
                let line = || format!("the answer is {got} instead of {right} at {}", call(place).describe());
                report.note_line(call(place).length(), line);
            }
        }
        report
    }

    fn count_group(&mut self, group: &'static str, more: u64) {
        match self.groups.iter_mut().find(|(known, _)| *known == group) {
            Some((_, times)) => *times += more,
            None => self.groups.push((group, more)),
        }
    }

    /// Adds what another run has tried and met.
    pub fn add(&mut self, other: Report) {
        other.groups.iter().for_each(|(group, times)| self.count_group(group, *times));
        other.answers.iter().for_each(|(answer, times)| *self.answers.entry(*answer).or_default() += times);
        self.behind_guard += other.behind_guard;
        self.differing += other.differing;
        let shortest = [self.shortest.take(), other.shortest];
        self.shortest = shortest.into_iter().flatten().min_by_key(|(length, _)| *length);
    }

    /// Notes a case whose outcome is another than the right one.
    pub fn note(&mut self, case: &Case, got: &[u8]) {
        let line = || format!("{} at {}", case.difference(got), case.call.describe());
        self.note_line(case.call.length(), line);
    }

    fn note_line(&mut self, length: usize, line: impl FnOnce() -> String) {
        self.differing += 1;
        if self.shortest.as_ref().is_none_or(|(shortest, _)| length < *shortest) {
            self.shortest = Some((length, line()));
        }
    }

    pub fn differs(&self) -> bool {
        self.differing > 0
    }

    pub fn cases(&self) -> u64 {
        self.answers.values().sum()
    }

    /// The report in words; or the line that says that a case differs or a refusal was not met.
    pub fn judged(&self, subject: &str, seed: u64, to_be_met: Vec<u32>) -> Result<String, String> {
        if let Some((_, line)) = &self.shortest {
            return Err(format!(
                "{subject}: {} of {} cases differ, the shortest: {line}",
                self.differing,
                self.cases()
            ));
        }
        if let Some(number) = to_be_met.iter().find(|number| !self.answers.contains_key(number)) {
            return Err(format!("{subject}: {} cases, and none is refused {number}", self.cases()));
        }
        Ok(self.in_words(subject, seed))
    }

    /// A line for each group of cases.
    pub fn groups_in_words(&self) -> String {
        self.groups.iter().map(|(group, times)| format!("  {times:>8}  {group}\n")).collect()
    }

    fn in_words(&self, subject: &str, seed: u64) -> String {
        let mut words = format!("{subject}: {} cases from seed {seed}, all as the model says\n", self.cases());
        words += &self.groups_in_words();
        words += "  met:";
        for (number, times) in &self.answers {
            words += &match number {
                0 => format!(" accepted {times}"),
                _ => format!(", {number} {} {times}", refusal::name(*number)),
            };
        }
        words + "\n"
    }
}
