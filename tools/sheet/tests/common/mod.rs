//! What the tests share: the program, its examples, stored lists.

#![allow(dead_code)]

use std::io::Write;
use std::path::{Path, PathBuf};
use std::process::{Command, Output, Stdio};

pub fn here(path: &str) -> PathBuf {
    Path::new(env!("CARGO_MANIFEST_DIR")).join(path)
}

/// Runs the program with something on its standard input.
pub fn run(args: &[&str], input: &[u8]) -> Output {
    let mut command = Command::new(env!("CARGO_BIN_EXE_sheet"));
    let pipes = command
        .args(args)
        .stdin(Stdio::piped())
        .stdout(Stdio::piped())
        .stderr(Stdio::piped());
    let mut child = pipes.spawn().unwrap();
    // A program that does not read its input may be gone already.
    let _ = child.stdin.take().unwrap().write_all(input);
    child.wait_with_output().unwrap()
}

pub fn text(bytes: &[u8]) -> String {
    String::from_utf8(bytes.to_vec()).unwrap()
}

/// The files of a folder with an ending, by name.
pub fn files(folder: &str, ending: &str) -> Vec<PathBuf> {
    let entries = std::fs::read_dir(here(folder)).unwrap();
    let mut files: Vec<PathBuf> = entries.map(|entry| entry.unwrap().path()).collect();
    files.retain(|path| path.extension().is_some_and(|e| e == ending));
    files.sort();
    files
}

pub fn name(path: &Path) -> String {
    path.file_stem().unwrap().to_string_lossy().into_owned()
}

/// A sheet of a stored list, and what stands after its bytes.
pub struct Stored<'a> {
    pub sheet: &'a [u8],
    pub after: &'a [u8],
}

/// The first sheet of a list: 16 bits of length, then its bytes.
pub fn stored(list: &[u8]) -> Stored<'_> {
    let length = usize::from(list[0]) << 8 | usize::from(list[1]);
    let (sheet, after) = list[2..].split_at(length);
    Stored { sheet, after }
}

/// Python's reader takes each line, and each has the keys of the first, in their order. Where there is no Python nothing is asked.
pub fn is_json(lines: &str) {
    const CHECK: &str = "\
import json, sys
keys = [list(json.loads(line)) for line in sys.stdin]
assert keys and all(k == keys[0] for k in keys), keys
";
    let python = Command::new("python3")
        .args(["-c", CHECK])
        .stdin(Stdio::piped())
        .spawn();
    let Ok(mut python) = python else { return };
    let mut input = python.stdin.take().unwrap();
    input.write_all(lines.as_bytes()).unwrap();
    drop(input);
    assert!(python.wait().unwrap().success(), "{lines}");
}

/// A stored text is what is said. With UPDATE set it is stored.
pub fn stored_as(stored: &str, said: &str) {
    let path = here(stored);
    if std::env::var_os("UPDATE").is_some() {
        std::fs::create_dir_all(path.parent().unwrap()).unwrap();
        std::fs::write(&path, said).unwrap();
    }
    assert_eq!(
        said,
        std::fs::read_to_string(&path).unwrap_or_default(),
        "{stored}"
    );
}
