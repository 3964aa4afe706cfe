//! Files read and written, and what is said where that cannot be done.

use std::io::{Error, ErrorKind, Read};
use std::path::Path;

/// The bytes of a file, or of standard input, or a sentence that names the file.
pub fn read(path: &Path) -> Result<Vec<u8>, String> {
    let bytes = if path == Path::new("-") {
        let mut bytes = Vec::new();
        std::io::stdin().read_to_end(&mut bytes).map(|_| bytes)
    } else {
        std::fs::read(path)
    };
    bytes.map_err(|error| format!("{}: {}", path.display(), why(&error)))
}

/// Why a file could not be read or written.
pub fn why(error: &Error) -> String {
    match error.kind() {
        ErrorKind::NotFound => "there is no such file or folder".into(),
        ErrorKind::PermissionDenied => "this user may not read or write it".into(),
        ErrorKind::IsADirectory => "is a folder, no file".into(),
        ErrorKind::NotADirectory => "a folder on the way to it is a file".into(),
        ErrorKind::StorageFull => "there is no room left for it".into(),
        _ => {
            let said = error.to_string();
            said.split(" (os error").next().unwrap_or("").to_lowercase()
        }
    }
}

/// What is written into a file.
#[derive(Clone, Copy, PartialEq, Eq)]
pub enum Format {
    Sheet,
    Store,
    Drawing,
    Page,
}

impl Format {
    pub fn says(self) -> &'static str {
        match self {
            Format::Sheet => "a sheet",
            Format::Store => "a store of weights",
            Format::Drawing => "an SVG drawing",
            Format::Page => "a page for a browser",
        }
    }

    fn ending(self) -> &'static str {
        match self {
            Format::Sheet => "sheet",
            Format::Store => "store",
            Format::Drawing => "svg",
            Format::Page => "html",
        }
    }
}

/// Endings that say what a file holds. One that is not among them may be given to anything.
const ENDINGS: [&str; 13] = [
    "sheet", "store", "svg", "txt", "html", "png", "jpg", "jpeg", "pdf", "json", "csv", "gz", "zip",
];

/// Whether a file may be written that is made of another one: not over it, not over a read-only one, and under no ending of another format.
pub fn may_write(from: &Path, to: &Path, format: Format) -> Result<(), String> {
    let shown = to.display();
    let ending = to.extension().map(|e| e.to_string_lossy().to_lowercase());
    if let Some(ending) = ending.filter(|e| ENDINGS.contains(&&**e) && e != format.ending()) {
        let (says, own) = (format.says(), format.ending());
        return Err(format!(
            "{shown}: is to hold {says}, but its ending .{ending} says another format: name a file that ends in .{own}; nothing was written"
        ));
    }
    if from != Path::new("-") && is_same(from, to) {
        return Err(format!(
            "{shown}: is the file that is read: name another one to write to; nothing was written"
        ));
    }
    let found = std::fs::metadata(to);
    if found.is_ok_and(|found| found.is_file() && found.permissions().readonly()) {
        return Err(format!(
            "{shown}: is read-only: name another file, or let it be written to; nothing was written"
        ));
    }
    Ok(())
}

/// Two names of one file.
fn is_same(one: &Path, other: &Path) -> bool {
    let whole = |path: &Path| std::fs::canonicalize(path).ok();
    whole(one).is_some_and(|one| whole(other) == Some(one))
}

/// Puts a whole file in the place of `path`, so that there is never half a sheet. What is no plain file
/// (a link, a device, a pipe) stays what it is and is written to.
pub fn replace(path: &Path, bytes: &[u8]) -> Result<(), String> {
    let fault = |error: Error| format!("{}: {}", path.display(), why(&error));
    let is_plain = match std::fs::symlink_metadata(path) {
        Ok(found) => found.is_file(),
        Err(error) => error.kind() == ErrorKind::NotFound,
    };
    let (true, Some(name)) = (is_plain, path.file_name()) else {
        return std::fs::write(path, bytes).map_err(fault);
    };
    let mut name = name.to_os_string();
    name.push(format!(".{}.part", std::process::id()));
    let part = path.with_file_name(name);
    let done = std::fs::write(&part, bytes).and_then(|()| std::fs::rename(&part, path));
    done.map_err(|error| {
        let _ = std::fs::remove_file(&part);
        fault(error)
    })
}
