//! The support desk's cases: a damaged file, what `explain` says of it, and what was done, with nothing else at hand, until it was accepted.
//!
//! tests/desk has for each case NAME.explain, the lines of `sheet explain`, and NAME.steps, what was typed. Each step is a command that `explain` says,
//! or an edit (`sed`) of a line that it names, or a fetch (`cp`) of the file where it says to fetch it again.

mod common;

use std::path::{Path, PathBuf};
use std::process::{Command, Output};

use common::{files, here, name, text};

/// A case's name, its file's name, and how the file came to be, from `original.sheet` and `original.txt`.
const CASES: [(&str, &str, &str); 15] = [
    ("cut", "site.sheet", "head -c 200 original.sheet"),
    ("gzip", "site.sheet", "gzip -n <original.sheet"),
    ("base64", "site.sheet", "base64 original.sheet"),
    (
        "utf_16",
        "site.txt",
        "iconv -f UTF-8 -t UTF-16 original.txt",
    ),
    (
        "carried_as_text",
        "site.sheet",
        "sed 's/$/\\r/' original.sheet",
    ),
    (
        "swapped_records",
        "site.sheet",
        "sed -n '/^aboard/{h;d};/^demand/{x;p;x};p' original.txt | sheet write -",
    ),
    (
        "late_stop",
        "site.sheet",
        "sed '/^stop id=3/{h;d};/^line/G' original.txt | sheet write -",
    ),
    (
        "wrong_id",
        "site.sheet",
        "sed 's/waiting stop=2/waiting stop=5/' original.txt | sheet write -",
    ),
    (
        "not_a_number",
        "site.sheet",
        "sed 's/max_speed=2.5/max_speed=0x7ff8000000000000/' original.txt | sheet write -",
    ),
    (
        "mask_bit",
        "site.sheet",
        "sed 's/serves=all/serves=0xf000000000000000/' original.txt | sheet write -",
    ),
    (
        "limit_0",
        "site.sheet",
        "sed 's/limit=none/limit=0/' original.txt | sheet write -",
    ),
    ("newline", "site.sheet", "cat original.sheet; echo"),
    (
        "edition",
        "site.sheet",
        "(echo 'sheet edition=7'; cat original.txt) | sheet write -",
    ),
    (
        "newer_kind",
        "site.sheet",
        "(cat original.txt; echo 'record kind=11 length=40 bits=0123456789') | sheet write -",
    ),
    (
        "text_crlf",
        "site.txt",
        "sed 's/phase=idle/phase=7/;s/weight=75/weight=-75/;s/$/\\r/' original.txt",
    ),
];

struct Room(PathBuf);

impl Drop for Room {
    fn drop(&mut self) {
        let _ = std::fs::remove_dir_all(&self.0);
    }
}

impl Room {
    /// A folder with the file as its writer wrote it.
    fn new(case: &str) -> Self {
        let room = std::env::temp_dir().join(format!("sheet-desk-{case}-{}", std::process::id()));
        std::fs::create_dir_all(&room).unwrap();
        let room = Self(room);
        let example = here("examples/small_etd.txt");
        std::fs::copy(example, room.0.join("original.txt")).unwrap();
        room.sh("sheet write original.txt original.sheet");
        room
    }

    /// A line as it is typed, in this folder.
    fn sh(&self, line: &str) -> Output {
        let program = Path::new(env!("CARGO_BIN_EXE_sheet")).parent().unwrap();
        let path = format!("{}:{}", program.display(), std::env::var("PATH").unwrap());
        let mut shell = Command::new("sh");
        let shell = shell
            .args(["-c", line])
            .env("PATH", path)
            .current_dir(&self.0);
        let output = shell.output().unwrap();
        assert!(output.status.success(), "{line}: {}", text(&output.stderr));
        output
    }
}

/// What is typed is what `explain` said so far.
fn is_said(step: &str, said: &str) -> bool {
    let sed = step.strip_prefix("sed -i '");
    let line: String = sed
        .unwrap_or("")
        .chars()
        .take_while(char::is_ascii_digit)
        .collect();
    match step.split(' ').next() {
        Some("sed") => {
            let after =
                [" ", ",", ":"].map(|end| [format!("line {line}{end}"), format!(":{line}{end}")]);
            after.iter().flatten().any(|words| said.contains(words))
        }
        Some("cp") => said.contains("etch ") && said.contains(" again, in binary"),
        _ => said.contains(&format!("`{step}`")) || step.starts_with("sheet explain "),
    }
}

#[test]
fn each_case_is_solved_from_what_is_said() {
    for (case, file, made) in CASES {
        let room = Room::new(case);
        let bytes = room.sh(made).stdout;
        std::fs::write(room.0.join(file), bytes).unwrap();
        let mut said = text(&room.sh(&format!("sheet explain {file}")).stdout);
        let stored = std::fs::read(here(&format!("tests/desk/{case}.explain"))).unwrap();
        assert_eq!(said, text(&stored), "{case}");
        assert!(said.starts_with("refused "), "{case}: {said}");
        let steps = std::fs::read(here(&format!("tests/desk/{case}.steps"))).unwrap();
        let mut last = String::new();
        for step in text(&steps).lines() {
            assert!(is_said(step, &said), "{case}: {step}\n{said}");
            last = text(&room.sh(step).stdout);
            said += &last;
        }
        assert!(last.starts_with("accepted\n"), "{case}: {last}");
    }
}

/// Every stored case is tried, and there are ten or more of them.
#[test]
fn every_case_is_tried() {
    let mut tried: Vec<&str> = CASES.iter().map(|case| case.0).collect();
    tried.sort();
    for ending in ["explain", "steps"] {
        let stored: Vec<String> = files("tests/desk", ending)
            .iter()
            .map(|p| name(p))
            .collect();
        assert_eq!(stored, tried);
    }
    assert!(tried.len() >= 10);
}
