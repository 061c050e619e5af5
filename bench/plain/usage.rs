//! How a program is called that reads standard input alone.

use std::process::ExitCode;

/// Says so to who gives words: help is on standard output, with status 0.
pub fn answer_to_words(usage: &str) -> Option<ExitCode> {
    let word = std::env::args_os().nth(1)?;
    if word == "--help" || word == "-h" {
        println!("{usage}");
        return Some(ExitCode::SUCCESS);
    }
    eprintln!("{usage}");
    Some(2.into())
}
