//! `compare SUBJECT SEED COUNT PROGRAM ..`: compares a library, through its driver, or `taglist` with the model.

use independent::compare::{arguments, run};
use std::process::ExitCode;

fn main() -> ExitCode {
    let words: Vec<String> = std::env::args().skip(1).collect();
    match arguments::parse(&words).and_then(|arguments| run(&arguments)) {
        Ok(report) => {
            print!("{report}");
            ExitCode::SUCCESS
        }
        Err(line) => {
            eprintln!("{line}");
            ExitCode::FAILURE
        }
    }
}
