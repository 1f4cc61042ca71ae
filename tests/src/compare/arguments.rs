//! What the command line asks for.

use crate::model::refusal::{
    self, APART, CHECK, CLASH, CONTENT, DAMAGE, EDITING, FIELD, LARGE, LOCKED, LOOSE, MISMATCH, OFFSET, READING,
    TOGETHER, TO_TEXT, TO_WORDS, VALUE, WRITING,
};

pub const USAGE: &str =
    "usage: compare read|write|edit|texts|to_text|to_words|apart|together|histories|torn|changed|faults|taglist \
     SEED COUNT PROGRAM [ARGUMENT ..]";

#[derive(Clone, Copy, PartialEq, Eq)]
pub enum Subject {
    Read,
    Write,
    Edit,
    Texts,
    ToText,
    ToWords,
    Apart,
    Together,
    Histories,
    Torn,
    Changed,
    Faults,
    Taglist,
}

pub struct Arguments {
    pub subject: Subject,
    pub seed: u64,
    pub count: usize,
    /// The driver, or `taglist`, with the words before and after it that its machine needs.
    pub program: Vec<String>,
}

impl Subject {
    const ALL: [Subject; 13] = [
        Subject::Read,
        Subject::Write,
        Subject::Edit,
        Subject::Texts,
        Subject::ToText,
        Subject::ToWords,
        Subject::Apart,
        Subject::Together,
        Subject::Histories,
        Subject::Torn,
        Subject::Changed,
        Subject::Faults,
        Subject::Taglist,
    ];

    pub fn name(self) -> &'static str {
        match self {
            Subject::Read => "read",
            Subject::Write => "write",
            Subject::Edit => "edit",
            Subject::Texts => "texts",
            Subject::ToText => "to_text",
            Subject::ToWords => "to_words",
            Subject::Apart => "apart",
            Subject::Together => "together",
            Subject::Histories => "histories",
            Subject::Torn => "torn",
            Subject::Changed => "changed",
            Subject::Faults => "faults",
            Subject::Taglist => "taglist",
        }
    }

    /// The refusals that a run has to meet. 14 is left out, since no tag gives it.
    pub fn to_be_met(self) -> Vec<u32> {
        let all = match self {
            Subject::Read => READING.to_vec(),
            Subject::Write => WRITING.to_vec(),
            Subject::Edit => EDITING.to_vec(),
            Subject::Texts => vec![FIELD, MISMATCH, VALUE],
            Subject::ToText => TO_TEXT.to_vec(),
            Subject::ToWords => TO_WORDS.to_vec(),
            Subject::Apart => APART.to_vec(),
            Subject::Together => TOGETHER.to_vec(),
            Subject::Histories => vec![refusal::ROOM, VALUE, CLASH, LARGE, LOCKED],
            Subject::Torn => [&[CHECK], &DAMAGE[..], &[MISMATCH, LOOSE, VALUE, CLASH, LARGE, LOCKED]].concat(),
            Subject::Changed => {
                [&[refusal::ROOM, CONTENT, CHECK], &DAMAGE[..], &[FIELD, MISMATCH, LOOSE, LOCKED]].concat()
            }
            // Its parts are judged each by itself.
            Subject::Faults | Subject::Taglist => Vec::new(),
        };
        all.into_iter().filter(|number| *number != OFFSET).collect()
    }
}

/// Takes the words after the program's own name apart.
pub fn parse(words: &[String]) -> Result<Arguments, String> {
    let [subject, seed, count, program @ ..] = words else { return Err(USAGE.to_string()) };
    let subject = Subject::ALL.into_iter().find(|known| known.name() == subject);
    let subject = subject.ok_or_else(|| format!("compare: unknown subject; {USAGE}"))?;
    let seed = seed.parse().map_err(|_| format!("compare: the seed {seed} is no number"))?;
    let count = count.parse().map_err(|_| format!("compare: the count {count} is no number"))?;
    if program.is_empty() {
        return Err(format!("compare: no program to run; {USAGE}"));
    }
    Ok(Arguments { subject, seed, count, program: program.to_vec() })
}
