//! `sheet`: sheets of the dispatch bench written from text, shown as text, explained and drawn; stores of
//! weights written, shown and asked; choices of a site graded; the seconds of runs.

mod commands;
mod study;

use std::ffi::OsString;
use std::io::Write;
use std::process::ExitCode;

use sheet::usage;

/// Why a command ended early.
enum Stop {
    /// The command line has no meaning, and why.
    Usage(String),
    /// What to print on standard error.
    Failed(String),
    /// All is said, and this is the exit status.
    Ended(u8),
}

/// What is said on standard error is the reason.
impl From<String> for Stop {
    fn from(message: String) -> Self {
        Stop::Failed(message)
    }
}

fn main() -> ExitCode {
    let args: Vec<OsString> = std::env::args_os().skip(1).collect();
    match commands::run(&args) {
        Ok(()) => ExitCode::SUCCESS,
        Err(Stop::Usage(why)) => {
            complain(&format!("sheet: {why}\n{}", usage::usage()));
            ExitCode::from(2)
        }
        Err(Stop::Failed(message)) => {
            complain(&format!("{message}\n"));
            ExitCode::FAILURE
        }
        Err(Stop::Ended(status)) => ExitCode::from(status),
    }
}

/// Standard error may be closed; then there is nobody to tell.
fn complain(message: &str) {
    let _ = std::io::stderr().write_all(message.as_bytes());
}
