//! What a text may say beside the records: names, ranges, defaults; line ends.

mod common;

use std::path::Path;

use common::{here, run, text};
use sheet::text;

fn file(name: &str) -> Vec<u8> {
    std::fs::read(here(&format!("tests/texts/{name}.txt"))).unwrap()
}

/// Names, ranges and defaults leave the sheet that the same text without them says.
#[test]
fn a_planners_text() {
    let [short, plain] = ["planner", "planner_plain"].map(file);
    let written = text::read(&short, Path::new("")).unwrap();
    assert_eq!(written.bytes, text::write(&plain, Path::new("")).unwrap());
    let names = &written.names;
    let stops: Vec<_> = names
        .stops
        .iter()
        .map(|(id, name)| (*id, &**name))
        .collect();
    assert_eq!(stops, [(1, "Lobby # 1"), (7, "Canteen"), (12, "Sky lobby")]);
    let cars: Vec<_> = names.cars.iter().map(|(id, name)| (*id, &**name)).collect();
    assert_eq!(cars, [(1, "Car A"), (3, "Shuttle, fast")]);
    // A sheet has no place for them.
    let shown = run(&["show", "-"], &written.bytes);
    let shown = String::from_utf8(shown.stdout).unwrap();
    assert!(!shown.contains("name=") && !shown.contains("default"));
    assert!(shown.contains("\nline id=2 serves=1,2,3,12\n"), "{shown}");
}

/// Lines end with LF, CR and LF, or CR.
#[test]
fn line_ends() {
    let text = String::from_utf8(file("planner")).unwrap();
    let bytes = text::write(text.as_bytes(), Path::new("")).unwrap();
    for end in ["\r\n", "\r"] {
        let other = text.replace('\n', end);
        assert_eq!(text::write(other.as_bytes(), Path::new("")).unwrap(), bytes);
        let bad = other.replace("id=7 position=12", "id=7 position=x");
        let faults = text::write(bad.as_bytes(), Path::new("")).unwrap_err();
        assert_eq!((faults[0].line, faults[0].column), (6, 11));
    }
    let marked = ["\u{feff}", &text].concat();
    assert_eq!(
        text::write(marked.as_bytes(), Path::new("")).unwrap(),
        bytes
    );
}

/// What no text says a sheet of is said by every command that takes a sheet, and nothing else is printed.
#[test]
fn no_sheet_is_said() {
    let none = "-:1:1: the text has no record: the first is a line policy, and `sheet example` prints a text to start from\n";
    let foo = "-:1:1: \"foo\": expected sheet, policy, stop, line, car, aboard, waiting, demand, closed, record or rest\n";
    for (input, said) in [
        ("# nothing\n", none),
        ("\n", none),
        ("foo\n", foo),
        ("# a\rfoo\r", &foo.replace(":1:1:", ":2:1:")),
    ] {
        for command in ["write", "explain", "draw", "pass"] {
            let output = run(&[command, "-"], input.as_bytes());
            assert_eq!(output.status.code(), Some(1), "{command} {input:?}");
            assert_eq!(text(&output.stderr), said, "{command} {input:?}");
            assert_eq!(text(&output.stdout), "", "{command} {input:?}");
        }
    }
}

/// A text with a byte that is none of UTF-8, or with the mark that ended files once, is taken for a text.
#[test]
fn texts_with_odd_bytes() {
    let lobby = std::fs::read(here("examples/lobby.txt")).unwrap();
    let mut latin = lobby.clone();
    latin.splice(2..2, [0xe9]);
    let dos = [&lobby[..], b"\x1a"].concat();
    let line = 1 + lobby.iter().filter(|b| **b == b'\n').count();
    for (bytes, said) in [
        (
            latin,
            "-:1:3: expected text in UTF-8; `sheet show` makes text of a sheet\n".into(),
        ),
        (
            dos,
            format!(
                "-:{line}:1: \"\\u{{1a}}\": expected sheet, policy, stop, line, car, aboard, waiting, demand, closed, record or rest\n"
            ),
        ),
    ] {
        for command in ["write", "explain", "pass"] {
            let output = run(&[command, "-"], &bytes);
            assert_eq!(output.status.code(), Some(1), "{command}");
            assert_eq!(text(&output.stderr), said, "{command}");
        }
    }
}

/// What is said of a text names its file, its lines and its names.
#[test]
fn lines_and_names_are_said() {
    let spoilt = [
        (
            "car id=3 line=2 position=40",
            "car id=3 line=2 position=4e6",
        ),
        ("position=12 name=Canteen", "position=inf name=Canteen"),
        (
            "waiting stop=12 destination=1 ",
            "waiting stop=12 destination=12 ",
        ),
    ];
    let mut content = String::from_utf8(file("planner")).unwrap();
    for (right, wrong) in spoilt {
        assert!(content.contains(right));
        content = content.replace(right, wrong);
    }
    let explained = run(&["explain", "-"], content.as_bytes());
    let said = text(&explained.stdout);
    let stored = std::fs::read(here("tests/texts/planner_spoilt.explain")).unwrap();
    assert_eq!(said, text(&stored));
    for command in ["pass", "draw"] {
        let output = run(&[command, "-"], content.as_bytes());
        let place = "-:6: Stop record 4 (id 7 \"Canteen\", bit 868; byte 108, bit 4): position is inf, but its range is -1,000,000 to 1,000,000. `sheet explain` says what to do.\n";
        assert_eq!(text(&output.stderr), place);
        assert_eq!(output.status.code(), Some(0));
    }
    let drawn = text(&run(&["draw", "-"], content.as_bytes()).stdout);
    assert!(drawn.contains(">-:6: Stop record 4 (id 7 "), "{drawn}");
    let page = text(&run(&["draw", "-", "--html", "-"], content.as_bytes()).stdout);
    assert!(
        page.contains("also 11: -:16: Car record 3 (id 3 "),
        "{page}"
    );
    let passed = run(&["pass", "-"], content.as_bytes());
    assert_eq!(text(&passed.stdout), "refused 11 at 868\n");
}

/// A refusal of the head, of what is not there and of the tail names the line that says so, where there is one.
#[test]
fn places_without_a_record() {
    let policy = "policy strategy=SCAN tick_rate=60 traffic=idle\n";
    for (content, place) in [
        (format!("# a\nsheet edition=3\n{policy}"), "-:2: Head "),
        (
            format!("sheet records=2\n{policy}"),
            "-:1: Record 2 of the 2 ",
        ),
        (
            format!("sheet records=0\n{policy}"),
            "-:1: Record 1 of the sheet ",
        ),
        (
            format!("sheet records=1\n{policy}\n# b\nrest length=16 bits=0001"),
            "-:5: Tail ",
        ),
        (format!("{policy}rest length=16 bits=0001"), "-:2: Tail "),
        ("stop id=1 position=0".into(), "-:1: Stop record 1 "),
    ] {
        let said = text(&run(&["explain", "-"], content.as_bytes()).stdout);
        assert!(said.lines().nth(1).unwrap().starts_with(place), "{said}");
    }
}
