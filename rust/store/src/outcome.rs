//! How a command ends: 0 if all is well, 1 if the answer is no, 2 if there is no answer.

use std::io::{self, Write};

use reference::Refusal;

use crate::files::Files;

#[derive(Debug)]
pub enum Failure {
    /// A wrong call, a text with an error, or a file that cannot be read or written.
    Error(String),
    /// A refusal of the library, and what it means.
    Refused(Refusal, String),
    /// A list that is no plan, or a sheet that does not fit; what was printed shows it.
    No(String),
}

impl Failure {
    /// An error that names the file.
    pub fn of_file(file: &str, error: impl ToString) -> Failure {
        let file = if file == "-" { "standard input" } else { file };
        Failure::Error(format!("{file}: {}", error.to_string()))
    }
}

/// The status of a command that gave no answer.
pub const NO_ANSWER: u8 = 2;

/// Says why a command failed, and answers the status that it ends with.
pub fn settle(outcome: Result<(), Failure>, files: &Files) -> u8 {
    match outcome {
        Ok(()) => 0,
        Err(Failure::No(reason)) => {
            complain(&reason);
            1
        }
        Err(Failure::Error(reason)) => {
            complain(&reason);
            NO_ANSWER
        }
        Err(Failure::Refused(refusal, meaning)) => {
            let line = format!("refused {} {}\n", refusal.number, refusal.place);
            let printed = files.print(line.as_bytes());
            settle(printed.and(Err(Failure::No(meaning))), files)
        }
    }
}

/// One line on standard error, if that can be written.
pub fn complain(reason: &str) {
    let line = reason.replace(['\n', '\r'], " ");
    let _ = writeln!(io::stderr(), "store: {line}");
}
