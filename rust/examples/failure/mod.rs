//! How the examples fail, and what they tell then.

use std::io;
use std::process::ExitCode;

use shoalswift::Refusal;

/// Why nothing, or not everything, was done.
pub enum Failure {
    Refused(Refusal),
    /// Told with the file's name.
    File(String),
}

impl From<Refusal> for Failure {
    fn from(refusal: Refusal) -> Failure {
        Failure::Refused(refusal)
    }
}

/// An error of a file's, with its name.
pub fn of<T>(path: &str, answer: io::Result<T>) -> Result<T, Failure> {
    answer.map_err(|error| Failure::File(format!("{path}: {error}")))
}

/// The exit status of what was done with a map: 0 done, 1 refused, 2 anything
/// else. Prints why it was not done.
pub fn status(map: &str, done: Result<(), Failure>) -> ExitCode {
    match done {
        Ok(()) => ExitCode::SUCCESS,
        Err(Failure::Refused(refusal)) => {
            println!("refused: {map}: {refusal}");
            ExitCode::from(1)
        }
        Err(Failure::File(text)) => {
            eprintln!("failed: {text}");
            ExitCode::from(2)
        }
    }
}
