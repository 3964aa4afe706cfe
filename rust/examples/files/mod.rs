//! Files of the examples: what cannot be read or written is said in plain words.

use std::io::{Error, ErrorKind, Write as _};
use std::path::Path;
use std::process::ExitCode;

fn why(error: &Error) -> String {
    match error.kind() {
        ErrorKind::NotFound => "there is no such file".into(),
        ErrorKind::PermissionDenied => "this user may not read it".into(),
        ErrorKind::IsADirectory => "is a folder, no file".into(),
        kind => kind.to_string(),
    }
}

/// The bytes of a file; what stands in the way is said on standard error.
pub fn read(path: &Path) -> Option<Vec<u8>> {
    let read = std::fs::read(path);
    read.inspect_err(|error| eprintln!("{}: {}", path.display(), why(error)))
        .ok()
}

/// Prints lines, and gives the exit status.
pub fn print(lines: &str) -> ExitCode {
    match std::io::stdout().write_all(lines.as_bytes()) {
        Ok(()) => ExitCode::SUCCESS,
        Err(error) => {
            eprintln!("standard output: {}", why(&error));
            ExitCode::FAILURE
        }
    }
}
