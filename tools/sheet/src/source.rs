//! A file that a command takes: a sheet, or a text of one. Every command that reads a sheet reads it here.

use std::path::Path;

use crate::files;
use crate::foreign::{self, Foreign};
use crate::line::Fault;
use crate::names::Names;
use crate::text::{self, Places};

/// The bytes of a sheet, and what is known of them beside.
#[derive(Clone, Debug, Default)]
pub struct Source {
    /// As it was named.
    pub file: String,
    pub bytes: Vec<u8>,
    pub names: Names,
    /// The lines of its records, where it was a text.
    pub places: Option<Places>,
    /// What it is, where it is a file of another kind.
    pub foreign: Option<Foreign>,
}

impl Source {
    /// The file as it is named, or why there are no bytes: it cannot be read, or it is a text that says no sheet.
    pub fn read(path: &Path) -> Result<Self, String> {
        Self::of(path, files::read(path)?)
    }

    /// The same of bytes that were read from there.
    pub fn of(path: &Path, bytes: Vec<u8>) -> Result<Self, String> {
        let file = path.display().to_string();
        let foreign = foreign::find(&bytes);
        if foreign.is_some() || !is_meant_as_text(&bytes) {
            return Ok(Self {
                file,
                foreign,
                ..Self::of_sheet(bytes)
            });
        }
        let folder = path.parent().unwrap_or(Path::new(""));
        let written = text::read(&bytes, folder).map_err(|faults| faulty(path, &faults))?;
        Ok(Self {
            file,
            bytes: written.bytes,
            names: written.names,
            places: Some(written.places),
            foreign: None,
        })
    }

    /// Bytes without a file.
    pub fn of_sheet(bytes: Vec<u8>) -> Self {
        Self {
            bytes,
            ..Self::default()
        }
    }

    pub fn shell_name(&self) -> String {
        shell_name(&self.file)
    }

    /// `FILE:LINE: ` in front of what is said of a bit, where the sheet was a text; of a bit that no line says, `FILE: `.
    pub fn before(&self, bit: Option<usize>) -> String {
        let Some(places) = &self.places else {
            return String::new();
        };
        let line = bit.map_or(places.head(), |bit| places.line(bit));
        match line {
            Some(line) => format!("{}:{line}: ", self.file),
            None => format!("{}: ", self.file),
        }
    }
}

/// A file's name as a shell takes it; FILE where it has none.
pub fn shell_name(file: &str) -> String {
    let is_plain = |c: char| c.is_alphanumeric() || "_-./".contains(c);
    match file {
        "" | "-" => "FILE".into(),
        file if file.chars().all(is_plain) && !file.starts_with('-') => file.into(),
        file => format!("'{}'", file.replace('\'', "'\\''")),
    }
}

/// A text, or one with a few bytes that are none of UTF-8 or not printed. No accepted sheet begins with a printed character.
fn is_meant_as_text(bytes: &[u8]) -> bool {
    let text = bytes.strip_prefix(b"\xef\xbb\xbf").unwrap_or(bytes);
    let is_printed = |b: &u8| matches!(b, b'\t' | b'\r' | b'\n' | b' '..=b'~');
    let printed = text.iter().filter(|b| is_printed(b)).count();
    let is_mostly = text.first().is_some_and(is_printed) && 8 * printed >= 7 * text.len();
    text::is_text(text) || is_mostly
}

/// The faults of a text, a line each.
pub fn faulty(from: &Path, faults: &[Fault]) -> String {
    let from = from.display();
    let line = |f: &Fault| format!("{from}:{}:{}: {}", f.line, f.column, f.what);
    faults.iter().map(line).collect::<Vec<_>>().join("\n")
}

/// A file of another kind in the place of a text.
pub fn not_foreign(from: &Path, bytes: &[u8]) -> Result<(), String> {
    match foreign::find(bytes) {
        None => Ok(()),
        Some(foreign) => Err(foreign.named(&from.display().to_string())),
    }
}
