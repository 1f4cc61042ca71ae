//! The comparison of a library, or of `taglist`, with the model on many cases.

pub mod apart_cases;
pub mod arguments;
pub mod case;
pub mod changed_cases;
pub mod edit_cases;
pub mod engine;
pub mod faults;
pub mod history_cases;
pub mod read_cases;
pub mod report;
pub mod sweep;
pub mod taglist;
pub mod text_cases;
pub mod to_text_cases;
pub mod to_words_cases;
pub mod together_cases;
pub mod torn_cases;
pub mod write_cases;

use arguments::{Arguments, Subject};
use engine::{boxed, shared, Cases};

/// Does what the arguments ask for. The report in words, or one line that says what is wrong.
pub fn run(arguments: &Arguments) -> Result<String, String> {
    let Arguments { subject, seed, count, program } = arguments;
    let (seed, count) = (*seed, *count);
    let shares: Vec<Cases> = match subject {
        Subject::Read => vec![boxed(read_cases::all(seed, count))],
        Subject::Write => vec![boxed(write_cases::all(seed, count))],
        Subject::Edit => vec![boxed(edit_cases::all(seed, count))],
        Subject::ToText => vec![boxed(to_text_cases::all(seed, count))],
        Subject::ToWords => vec![boxed(to_words_cases::all(seed, count))],
        Subject::Apart => vec![boxed(apart_cases::all(seed, count))],
        Subject::Together => vec![boxed(together_cases::all(seed, count))],
        Subject::Texts => return text_cases::compare(program, seed, count),
        Subject::Histories => vec![Box::new(history_cases::all(seed, count))],
        Subject::Torn => shared(seed, count, torn_cases::all),
        Subject::Changed => changed_cases::shares(seed, count),
        Subject::Faults => return faults::compare(program, seed, count),
        Subject::Taglist => return taglist::compare(program, seed, count),
    };
    engine::compare(program, shares)?.judged(subject.name(), seed, subject.to_be_met())
}
