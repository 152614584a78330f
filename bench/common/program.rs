//! How a program begins to write, and how it ends.

use std::error::Error;
use std::fs::File;
use std::io;
use std::os::fd::AsFd;
use std::process::ExitCode;

/// Why a run doesn't come to its end: the exit status, and a line for the user.
pub struct Failure {
    status: u8,
    line: String,
}

impl Failure {
    pub fn new(status: u8, line: impl Into<String>) -> Failure {
        let line = line.into();
        Failure { status, line }
    }

    /// A failure that has no status of its own.
    pub fn other(line: impl Into<String>) -> Failure {
        Failure::new(1, line)
    }

    pub fn bad_stimulus(line: u64) -> Failure {
        Failure::new(4, format!("bad stimulus: line {line}"))
    }
}

impl<E: Error> From<E> for Failure {
    fn from(error: E) -> Failure {
        Failure::other(error.to_string())
    }
}

/// Standard output as a file, since it would be written line by line itself.
pub fn standard_output() -> io::Result<File> {
    Ok(File::from(io::stdout().as_fd().try_clone_to_owned()?))
}

/// Tells a failure on standard error, and answers the exit status.
pub fn status(end: Result<(), Failure>) -> ExitCode {
    match end {
        Ok(()) => ExitCode::SUCCESS,
        Err(failure) => {
            eprintln!("{}", failure.line);
            ExitCode::from(failure.status)
        }
    }
}
