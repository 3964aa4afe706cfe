//! Habits of a command line: files that are not written over, sentences about files, the manual page, completions.

mod common;

use std::path::PathBuf;
use std::process::{Command, Stdio};

use common::{here, run, text};
use sheet::usage::COMMANDS;

/// A folder that is gone when the test is.
struct Room(PathBuf);

impl Room {
    fn new(name: &str) -> Self {
        let room = std::env::temp_dir().join(format!("sheet-{name}-{}", std::process::id()));
        std::fs::create_dir_all(&room).unwrap();
        Self(room)
    }

    fn path(&self, name: &str) -> String {
        self.0.join(name).to_str().unwrap().into()
    }

    fn put(&self, name: &str, bytes: &[u8]) -> String {
        std::fs::write(self.0.join(name), bytes).unwrap();
        self.path(name)
    }
}

impl Drop for Room {
    fn drop(&mut self) {
        let _ = std::fs::remove_dir_all(&self.0);
    }
}

fn lobby() -> Vec<u8> {
    std::fs::read(here("examples/lobby.txt")).unwrap()
}

/// The command is not done: what it says stands on standard error, and the file is as it was.
fn is_refused(args: &[&str], file: &str, said: &str) {
    let before = std::fs::read(file).ok();
    let output = run(args, b"");
    assert_eq!(output.status.code(), Some(1), "{args:?}");
    assert_eq!(text(&output.stderr), format!("{file}: {said}\n"));
    assert_eq!(text(&output.stdout), "");
    assert_eq!(std::fs::read(file).ok(), before, "{args:?}");
}

#[test]
fn what_is_read_is_not_written_over() {
    let room = Room::new("same");
    let lobby = room.put("lobby", &lobby());
    let said = "is the file that is read: name another one to write to; nothing was written";
    is_refused(&["write", &lobby, &lobby], &lobby, said);
    let other_name = room.path("../") + room.0.file_name().unwrap().to_str().unwrap() + "/lobby";
    is_refused(&["write", &lobby, &other_name], &other_name, said);
    let store = std::fs::read(here("examples/stores/corrections.txt")).unwrap();
    let store = room.put("store", &store);
    is_refused(&["store", "write", &store, &store], &store, said);
    is_refused(&["draw", &lobby, &lobby], &lobby, said);
    #[cfg(unix)]
    {
        let link = room.path("link");
        std::os::unix::fs::symlink(&lobby, &link).unwrap();
        is_refused(&["write", &lobby, &link], &link, said);
    }
}

#[test]
fn a_read_only_file_is_kept() {
    let room = Room::new("read-only");
    let (lobby, out) = (
        room.put("lobby.txt", &lobby()),
        room.put("out", b"as before"),
    );
    let mut may = std::fs::metadata(&out).unwrap().permissions();
    may.set_readonly(true);
    std::fs::set_permissions(&out, may).unwrap();
    let said = "is read-only: name another file, or let it be written to; nothing was written";
    is_refused(&["write", &lobby, &out], &out, said);
}

#[test]
fn an_ending_says_what_a_file_holds() {
    let room = Room::new("endings");
    let lobby = room.put("lobby.txt", &lobby());
    let store = here("examples/stores/corrections.txt");
    let store = store.to_str().unwrap();
    let said = |holds: &str, ending: &str, own: &str| {
        format!(
            "is to hold {holds}, but its ending .{ending} says another format: name a file that ends in .{own}; nothing was written"
        )
    };
    let (svg, txt) = (room.path("a.svg"), room.path("a.TXT"));
    let sheet = room.path("a.sheet");
    is_refused(
        &["write", &lobby, &svg],
        &svg,
        &said("a sheet", "svg", "sheet"),
    );
    is_refused(
        &["write", &lobby, &txt],
        &txt,
        &said("a sheet", "txt", "sheet"),
    );
    let of_store = said("a store of weights", "sheet", "store");
    is_refused(&["store", "write", store, &sheet], &sheet, &of_store);
    for (out, ending) in [(&room.path("a.png"), "png"), (&sheet, "sheet")] {
        is_refused(
            &["draw", &lobby, out],
            out,
            &said("an SVG drawing", ending, "svg"),
        );
    }
    for out in ["a.sheet", "a", "a.bin", "a.2026", ".txt"] {
        let out = room.path(out);
        assert_eq!(
            run(&["write", &lobby, &out], b"").status.code(),
            Some(0),
            "{out}"
        );
    }
}

/// Sentences about files have no number of the system in them.
#[test]
fn sentences_about_files() {
    let room = Room::new("sentences");
    let (folder, file) = (room.path(""), room.put("file", b"x"));
    let below = format!("{file}/below");
    for (path, said) in [
        ("/no/such/file", "there is no such file or folder"),
        (&folder, "is a folder, no file"),
        (&below, "a folder on the way to it is a file"),
    ] {
        for command in [
            &["write"][..],
            &["show"],
            &["explain"],
            &["draw"],
            &["pass"],
            &["store", "show"],
        ] {
            // These two take folders (tests/many.rs).
            if path == folder && ["explain", "pass"].contains(&command[0]) {
                continue;
            }
            let output = run(&[command, &[path]].concat(), b"");
            assert_eq!(output.status.code(), Some(1));
            assert_eq!(
                text(&output.stderr),
                format!("{path}: {said}\n"),
                "{command:?}"
            );
        }
    }
    let lobby = room.put("lobby.txt", &lobby());
    let output = run(&["write", &lobby, "/no/such/folder/a.sheet"], b"");
    let said = "/no/such/folder/a.sheet: there is no such file or folder\n";
    assert_eq!(text(&output.stderr), said);
    let policy = "policy strategy=ETD tick_rate=60 traffic=idle weights=/no/such.store day=1\n";
    let output = run(&["write", "-"], policy.as_bytes());
    assert!(
        !text(&output.stderr).contains("os error"),
        "{}",
        text(&output.stderr)
    );
}

/// Files of other kinds, by their bytes, and what is said of them.
fn foreign() -> Vec<(&'static str, Vec<u8>, &'static str)> {
    let utf_16: Vec<u8> = String::from_utf8(lobby())
        .unwrap()
        .encode_utf16()
        .flat_map(u16::to_le_bytes)
        .collect();
    let base64 = "AQAJBAdS//9ATgAAAAAAAAAAAAAAAAAA\nAAAAAAAAAAAAAAAAAAAA\n";
    vec![
        ("a.gz", b"\x1f\x8b\x08\x00\x00".to_vec(), "a gzip file"),
        (
            "a.zip",
            b"PK\x03\x04\x14".to_vec(),
            "a zip file, or a document that is one (xlsx, docx)",
        ),
        ("a.pdf", b"%PDF-1.7\n1 0 obj\n".to_vec(), "a PDF file"),
        (
            "a.svg",
            b"<svg xmlns=\"\"/>\n".to_vec(),
            "a page or a drawing (HTML, SVG or XML)",
        ),
        (
            "utf16",
            [b"\xff\xfe", &utf_16[..]].concat(),
            "a text in UTF-16",
        ),
        ("utf16_plain", utf_16, "a text in UTF-16"),
        ("mail", base64.into(), "in base64, as files in a mail are"),
    ]
}

#[test]
fn files_of_other_kinds_are_named() {
    let room = Room::new("foreign");
    for (name, bytes, is) in foreign() {
        let path = room.put(name, &bytes);
        let written = run(&["write", &path], b"");
        assert_eq!(written.status.code(), Some(1));
        let said = text(&written.stderr);
        assert!(said.starts_with(&format!("{path}: is {is}: ")), "{said}");
        let shown = run(&["show", &path], b"");
        assert_eq!(run(&["write", "-"], &shown.stdout).stdout, bytes, "{name}");
    }
}

#[test]
fn files_of_other_kinds_are_explained() {
    let room = Room::new("foreign-explained");
    for (name, bytes, is) in foreign() {
        let path = room.put(name, &bytes);
        let said = text(&run(&["explain", &path], b"").stdout);
        assert!(said.starts_with("refused "), "{said}");
        let file = format!("\nfile: This is {is}, and no sheet.\nto do: ");
        assert!(said.contains(&file), "{said}");
        let passed = run(&["pass", &path], b"");
        assert!(text(&passed.stdout).starts_with("refused "));
        assert!(text(&passed.stderr).starts_with(&format!("{path}: is {is}: ")));
    }
}

#[test]
fn rule_11() {
    let stored = std::fs::read(here("tests/habits/rule_11")).unwrap();
    assert_eq!(text(&run(&["rule", "11"], b"").stdout), text(&stored));
}

/// A program that may be missing.
fn is_there(program: &str) -> bool {
    let found = Command::new(program).arg("--version").output();
    let found = found.is_ok_and(|output| output.status.success());
    if !found {
        println!("not run: {program} is not there");
    }
    found
}

/// What a program prints, given something to read.
fn piped(program: &str, args: &[&str], input: &[u8]) -> (String, String) {
    use std::io::Write;
    let mut command = Command::new(program);
    let pipes = command.args(args).stdin(Stdio::piped());
    let mut child = pipes
        .stdout(Stdio::piped())
        .stderr(Stdio::piped())
        .spawn()
        .unwrap();
    child.stdin.take().unwrap().write_all(input).unwrap();
    let output = child.wait_with_output().unwrap();
    (text(&output.stdout), text(&output.stderr))
}

/// The manual page has every command and option, and roff finds no fault in it.
#[test]
fn the_manual_page() {
    let page = run(&["man"], b"").stdout;
    let roff = text(&page).replace("\\-", "-");
    for command in &COMMANDS {
        let line = format!("\n.B sheet {}\n", command.line());
        assert!(roff.contains(&line), "{line}");
        for option in command.options {
            assert!(roff.contains(option.says.split_at(1).1), "{}", option.name);
        }
    }
    let lines = ["NAME", "SYNOPSIS", "DESCRIPTION", "COMMANDS", "EXAMPLES"];
    for name in lines {
        assert!(roff.contains(&format!("\n.SH {name}\n")), "{name}");
    }
    if is_there("groff") {
        let (shown, faults) = piped("groff", &["-man", "-ww", "-Tutf8", "-P-cbou"], &page);
        assert_eq!(faults, "");
        assert!(
            shown.contains("sheet explain SHEET") && shown.contains("--acceleration A"),
            "{shown}"
        );
        assert!(shown.contains("`write`"), "{shown}");
    }
}

#[test]
fn no_such_shell() {
    let output = run(&["completions", "tcsh"], b"");
    assert_eq!(output.status.code(), Some(1));
    assert_eq!(
        text(&output.stderr),
        "\"tcsh\": expected a shell: bash, zsh, fish\n"
    );
}

/// The folder in which files are completed.
fn completed_in(name: &str) -> Room {
    let room = Room::new(name);
    room.put("lobby.txt", b"");
    room.put("lobby two.sheet", b"");
    room
}

/// What stands on the command line, its last word to be completed, and what it can become, in order.
const COMPLETED: [(&str, &str); 20] = [
    ("sheet dr", "draw"),
    ("sheet ver", "version"),
    ("sheet s", "show store"),
    ("sheet store w", "weights write"),
    ("sheet example S", "SCAN"),
    ("sheet example side", "sideways"),
    ("sheet store show a R", "RSR"),
    ("sheet store weights a 1 E", "ETD"),
    ("sheet completions f", "fish"),
    ("sheet help expl", "explain"),
    ("sheet draw --ac", "--acceleration"),
    ("sheet pass a --d", "--deceleration"),
    ("sheet draw a --html lobby.t", "lobby.txt"),
    ("sheet show --h", "--help"),
    ("sheet explain lobby.t", "lobby.txt"),
    ("sheet draw --speed 1 lobby.t", "lobby.txt"),
    ("sheet write lobby.txt lobby.t", "lobby.txt"),
    ("sheet pass a b c lobby.t", "lobby.txt"),
    ("sheet grade a b --str", "--strict"),
    ("sheet compare a lobby.t", "lobby.txt"),
];

#[test]
fn bash_completes() {
    let room = completed_in("bash");
    let script = text(&run(&["completions", "bash"], b"").stdout);
    let file = room.put("completions", script.as_bytes());
    let (_, faults) = piped("bash", &["-n", &file], b"");
    assert_eq!(faults, "");
    let complete = |words: &[&str]| {
        let body = r#"cd "$1"; . ./completions; shift; COMP_WORDS=("$@"); COMP_CWORD=$(($# - 1)); _sheet; printf '%s\n' "${COMPREPLY[@]}" | sort"#;
        let args = [&["-c", body, "bash", room.0.to_str().unwrap()], words].concat();
        let (found, faults) = piped("bash", &args, b"");
        assert_eq!(faults, "", "{words:?}");
        found
            .lines()
            .map(String::from)
            .collect::<Vec<_>>()
            .join(" ")
    };
    for (line, becomes) in COMPLETED {
        let words: Vec<&str> = line.split(' ').collect();
        assert_eq!(complete(&words), becomes, "{line}");
    }
    assert_eq!(complete(&["sheet", "show", "lobby t"]), "lobby two.sheet");
    assert_eq!(complete(&["sheet", "draw", "a", "--speed", "l"]), "");
    assert_eq!(complete(&["sheet", "rule", "l"]), "");
}

#[test]
fn fish_completes() {
    if !is_there("fish") {
        return;
    }
    let room = completed_in("fish");
    let script = text(&run(&["completions", "fish"], b"").stdout);
    room.put("completions.fish", script.as_bytes());
    for (line, becomes) in COMPLETED {
        let body = format!(
            "cd {}; source completions.fish; complete -C '{line}'",
            room.0.display()
        );
        let (found, faults) = piped("fish", &["--no-config", "-c", &body], b"");
        assert_eq!(faults, "", "{line}");
        let mut words: Vec<&str> = found
            .lines()
            .map(|l| l.split('\t').next().unwrap())
            .collect();
        words.sort();
        assert_eq!(words.join(" "), becomes, "{line}");
    }
}

/// What zsh is given to complete a line with: its own functions stand for themselves, and print what they are told.
fn zsh_told(room: &Room, line: &str) -> String {
    let body = r#"
        _describe() { print -rl "$1" ${(P)2} }
        _arguments() { print -rl "at $CURRENT of $words" "$@" }
        . ./_sheet
        words=("$@") CURRENT=$#
        _sheet"#;
    let body = format!("cd {}\n{body}", room.0.display());
    let words: Vec<&str> = line.split(' ').collect();
    let args = [&["-f", "-c", &body, "zsh"], &words[..]].concat();
    let (told, faults) = piped("zsh", &args, b"");
    assert_eq!(faults, "", "{line}");
    told
}

#[test]
fn zsh_completes() {
    if !is_there("zsh") {
        return;
    }
    let room = completed_in("zsh");
    let script = text(&run(&["completions", "zsh"], b"").stdout);
    let file = room.put("_sheet", script.as_bytes());
    assert_eq!(piped("zsh", &["-n", &file], b"").1, "");
    for (line, told) in [
        (
            "sheet dr",
            &[
                "command\nexample:print a text to start from\\: ETD",
                "\ndraw:draw a sheet and",
                "\nstore:write, show and ask stores of weights\n",
            ][..],
        ),
        (
            "sheet store w",
            &[
                "command\nexample:print the text",
                "\nweights:print the six weights of a day",
            ],
        ),
        (
            "sheet draw a",
            &[
                "at 2 of draw a\n--",
                "\n--acceleration[the rate",
                "]:A:()\n",
                "\n1:SHEET:_files\n2::OUT:_files\n",
            ],
        ),
        (
            "sheet store weights a 1 E",
            &[
                "at 4 of weights a 1 E\n",
                "\n2:DAY:()\n3::STRATEGY:(ETD RSR SCAN)\n",
            ],
        ),
        ("sheet completions f", &["\n1:SHELL:(bash zsh fish)\n"]),
    ] {
        let found = zsh_told(&room, line);
        assert!(
            told.iter().all(|words| found.contains(words)),
            "{line}: {found}"
        );
    }
}
