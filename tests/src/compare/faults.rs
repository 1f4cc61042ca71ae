//! What goes wrong at a desk, in one run: stores that are cut off, changed bytes, and random buffers for each call.

use super::arguments::Subject;
use super::engine::{self, shared, Cases};
use super::report::Report;
use super::{
    apart_cases, changed_cases, edit_cases, read_cases, to_text_cases, to_words_cases, together_cases, torn_cases,
    write_cases,
};
use crate::model::refusal;
use std::time::{Duration, Instant};

/// Writes and edits that are cut off.
const TORN: usize = 20_000;

/// Pairs of values for every two neighbouring bytes.
const PAIRS: usize = 32;

/// One part of the run.
struct Part {
    subject: Subject,
    title: &'static str,
    report: Report,
    time: Duration,
}

/// All parts, with so many random buffers for each call.
pub fn compare(program: &[String], seed: u64, count: usize) -> Result<String, String> {
    let parts: [(Subject, &str, Vec<Cases>); 9] = [
        (Subject::Torn, "torn writes", shared(seed, TORN, torn_cases::all)),
        (Subject::Changed, "changed bytes", changed_cases::shares(seed, PAIRS)),
        (Subject::Read, "random buffers, reading", shared(seed, count, read_cases::random)),
        (Subject::Write, "random buffers, writing", shared(seed, count, write_cases::random)),
        (Subject::Edit, "random buffers, editing", shared(seed, count, edit_cases::random)),
        (Subject::ToText, "random buffers, words into text", shared(seed, count, to_text_cases::random)),
        (Subject::ToWords, "random buffers, text into words", shared(seed, count, to_words_cases::random)),
        (Subject::Apart, "random buffers, taking apart", shared(seed, count, apart_cases::random)),
        (Subject::Together, "random buffers, putting together", shared(seed, count, together_cases::random)),
    ];
    let mut done: Vec<Part> = Vec::new();
    for (subject, title, shares) in parts {
        let start = Instant::now();
        let name = format!("faults, {title}");
        let report = engine::compare(program, shares).map_err(|line| format!("{name}: {line}"))?;
        report.judged(&name, seed, subject.to_be_met())?;
        done.push(Part { subject, title, report, time: start.elapsed() });
    }
    Ok(in_words(&done, seed))
}

fn in_words(parts: &[Part], seed: u64) -> String {
    let mut all = Report::default();
    let mut words = String::new();
    for Part { title, report, time, .. } in parts {
        words += &format!("{title}: {} calls in {:.1} s\n", report.cases(), time.as_secs_f64());
        words += &report.groups_in_words();
        all.add(report.clone());
    }
    let (calls, behind) = (all.cases(), all.behind_guard);
    words += &table(parts, &all);
    let ending = calls - behind;
    words += &format!("guard pages: {ending} calls with all buffers ending at one, {behind} beginning behind one\n");
    let seconds = parts.iter().map(|part| part.time).sum::<Duration>().as_secs_f64();
    words += &format!("faults: {calls} calls from seed {seed} in {seconds:.0} s, ");
    words + "every answer and every byte as the independent program says\n"
}

/// How often each part met each answer.
fn table(parts: &[Part], all: &Report) -> String {
    let row = |name: &str, cells: Vec<String>| {
        let cells: String = cells.iter().map(|cell| format!("{cell:>10}")).collect();
        format!("  {name:<12}{cells}\n")
    };
    let reports: Vec<&Report> = parts.iter().map(|part| &part.report).chain([all]).collect();
    let names = parts.iter().map(|part| part.subject.name()).chain(["all"]);
    let mut rows = row("answer", names.map(str::to_string).collect());
    for answer in all.answers.keys() {
        let times = reports.iter().map(|report| report.answers.get(answer).copied().unwrap_or(0).to_string());
        let name =
            if *answer == 0 { "accepted".to_string() } else { format!("{answer:>2} {}", refusal::name(*answer)) };
        rows += &row(&name, times.collect());
    }
    rows + &row("calls", reports.iter().map(|report| report.cases().to_string()).collect())
}
