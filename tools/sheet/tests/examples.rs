//! The examples, and what `explain` says of them.

mod common;

use std::path::Path;

use common::{files, here, name, run, text};
use dispatch_bench::{Refusal, read};
use sheet::{explain, rules, show};
use sheetgen::generate::{PROFILES, Profile, generate};
use sheetgen::rng::Rng;

#[test]
fn document_01() {
    let path = here("examples/document_01.txt");
    let written = run(&["write", path.to_str().unwrap()], b"");
    let hex: String = text(&std::fs::read(here("examples/document_01.hex")).unwrap());
    let digits: String = hex.split_whitespace().collect();
    let found: String = written.stdout.iter().map(|b| format!("{b:02x}")).collect();
    assert_eq!(found, digits);
    assert_eq!(written.stdout, sheetgen::Sheet::example().write());
    assert_eq!(written.stdout.len(), 326);
}

#[test]
fn explained_as_stored() {
    let more = files("tests/explained", "txt");
    assert!(more.len() >= 33);
    for path in files("examples", "txt").iter().chain(&more) {
        let written = run(&["write", path.to_str().unwrap()], b"");
        assert_eq!(text(&written.stderr), "", "{}", name(path));
        let explained = run(&["explain", "-"], &written.stdout);
        assert!(explained.status.success());
        let stored = std::fs::read(path.with_extension("explain")).unwrap();
        assert_eq!(text(&explained.stdout), text(&stored), "{}", name(path));
    }
}

/// A text in a sheet's place is taken for the sheet that it says; a refusal names its line.
#[test]
fn a_text_is_taken_for_its_sheet() {
    for path in [files("examples", "txt"), files("tests/explained", "txt")].concat() {
        let shown = path.to_str().unwrap();
        let sheet = run(&["write", shown], b"").stdout;
        for command in ["pass", "draw"] {
            let [of_text, of_sheet] = [(shown, &b""[..]), ("-", &sheet)]
                .map(|(word, input)| run(&[command, word], input));
            assert_eq!(of_text.status.code(), Some(0), "{shown}");
            if command == "pass" {
                assert_eq!(text(&of_text.stdout), text(&of_sheet.stdout), "{shown}");
            }
            let said = text(&of_text.stderr);
            assert_eq!(said.is_empty(), read(&sheet).is_ok(), "{said}");
            assert!(said.is_empty() || said.starts_with(shown), "{said}");
        }
        let explained = run(&["explain", shown], b"");
        assert_eq!(explained.status.code(), Some(0));
        let first = text(&explained.stdout);
        let stored = text(&std::fs::read(path.with_extension("explain")).unwrap());
        assert_eq!(first.lines().next(), stored.lines().next(), "{shown}");
    }
}

/// The lines of a pass are the stored ones, those of a refusal its first line.
#[test]
fn passes_as_stored() {
    let mut passes = 0;
    for path in files("examples", "txt") {
        let written = run(&["write", path.to_str().unwrap()], b"");
        let output = run(&["pass", "-"], &written.stdout);
        assert_eq!(output.status.code(), Some(0), "{}", name(&path));
        assert_eq!(text(&output.stderr), "", "{}", name(&path));
        let lines = text(&output.stdout);
        if let Ok(stored) = std::fs::read(path.with_extension("pass")) {
            assert_eq!(lines, text(&stored), "{}", name(&path));
            passes += 1;
        } else {
            let said = text(&std::fs::read(path.with_extension("explain")).unwrap());
            assert!(said.starts_with(&lines), "{}", name(&path));
            assert_eq!(lines.lines().count(), 1);
        }
    }
    assert_eq!(passes, 14);
    let example = run(&["pass", "-"], &sheetgen::Sheet::example().write());
    let stored = std::fs::read(here("../../crates/passprint/stdout")).unwrap();
    assert_eq!(example.stdout, stored);
}

/// An accepted sheet with closed landings or a load weight is explained with what a host of the first release says of it; one
/// without is not.
#[test]
fn a_first_release_is_named() {
    for index in 0..200 {
        let bytes = generate(Profile::Closed, 11, index);
        let records = sheetgen::generate::records(&bytes);
        let first = records.iter().find(|record| record.1 == 8).unwrap().0;
        let said = explain::explain(&bytes);
        assert!(said.starts_with("accepted\n"), "{said}");
        let words = format!(" If it is 4 at {first}, the host has a bench of the first release,");
        assert!(said.contains(&words), "{said}");
    }
    for index in 0..200 {
        let said = explain::explain(&generate(Profile::Load, 11, index));
        assert!(said.starts_with("accepted\n"), "{said}");
        let words = " If it is 15 at 24, the host has a bench of the first release,";
        assert!(said.contains(words), "{said}");
    }
    let example = explain::explain(&sheetgen::Sheet::example().write());
    assert!(!example.contains("first release"), "{example}");
}

/// An accepted sheet of edition 2 is explained with what a host whose bench reads edition 1 alone says of it.
#[test]
fn a_bench_of_edition_1_is_named() {
    for profile in [Profile::Sideways, Profile::Level] {
        for index in 0..200 {
            let said = explain::explain(&generate(profile, 11, index));
            assert!(said.starts_with("accepted\n"), "{said}");
            let words = " If it is 3 at 0, the host has a bench that reads edition 1 alone:";
            assert!(said.contains(words), "{said}");
        }
    }
    let example = explain::explain(&sheetgen::Sheet::example().write());
    assert!(!example.contains("edition"), "{example}");
}

/// An edition 2 sheet whose second coordinates are zeros of either sign is passed as its edition 1 twin, which is document 01's example.
#[test]
fn a_twin_answers_alike() {
    let path = here("examples/edition_2.txt");
    let bytes = run(&["write", path.to_str().unwrap()], b"").stdout;
    assert_eq!(
        sheetgen::twin::twin(&bytes),
        sheetgen::Sheet::example().write()
    );
    let passes = [
        path.with_extension("pass"),
        here("examples/document_01.pass"),
    ];
    let [second, first] = passes.map(|path| text(&std::fs::read(path).unwrap()));
    assert_eq!(second, first);
}

/// Held cells are said of an accepted sheet where its pass has some, and nowhere else.
#[test]
fn held_cells_are_named() {
    let mut seen = [0; 2];
    for index in 0..200 {
        let bytes = generate(Profile::Ceiling, 11, index);
        let held = dispatch_bench::pass(&bytes).unwrap().held;
        let said = explain::explain(&bytes);
        let words = match held {
            1 => "\nheld: 1 cell of its pass is held at the ceiling, 281,474,976,710,655: ",
            _ => &format!("\nheld: {held} cells of its pass are held at the ceiling, "),
        };
        assert_eq!(said.contains(words), held > 0, "{said}");
        assert_eq!(said.contains("\nheld: "), held > 0, "{said}");
        seen[usize::from(held > 0)] += 1;
    }
    assert!(seen.iter().all(|often| *often > 50), "{seen:?}");
}

/// Closed stops that riders of idle-listed cars are bound for are named, and nothing is said where there are none.
#[test]
fn riders_bound_for_closed_stops_are_named() {
    let mut seen = [0; 2];
    for index in 0..400 {
        let bytes = generate(Profile::Closed, 12, index);
        let stops = sheetgen::Sheet::of_accepted(&bytes).closed_first();
        let said = explain::explain(&bytes);
        let found = said.split_once("are bound for closed stop").map(|s| s.1);
        let words = found.map(|s| s.split_once(": no car is sent there.").unwrap().0);
        let named: Vec<String> = stops.iter().map(u32::to_string).collect();
        let expected = match &named[..] {
            [] => None,
            [one] => Some(format!(" {one}")),
            more => Some(format!("s {}", more.join(", "))),
        };
        assert_eq!(words.map(String::from), expected, "{said}");
        seen[usize::from(expected.is_some())] += 1;
    }
    assert!(seen.iter().all(|often| *often > 50), "{seen:?}");
}

/// The number of the line that `explain` says is to be put right.
fn line_to_repair(said: &str) -> Option<usize> {
    let repair = said.lines().find(|line| line.starts_with("repair: "))?;
    let (before, _) = repair.split_once(" of a.txt, which is this record")?;
    let (_, number) = before.rsplit_once(' ')?;
    number.replace(',', "").parse().ok()
}

/// In what `show` prints, that line is the refused record's: the lines above it end at the refusal's offset.
#[test]
fn the_line_to_repair_is_the_record() {
    let mut repaired = 0;
    for path in [files("examples", "txt"), files("tests/explained", "txt")].concat() {
        let bytes = run(&["write", path.to_str().unwrap()], b"").stdout;
        let said = explain::explain(&bytes);
        let Some(number) = line_to_repair(&said) else {
            let record = said.contains("\ntext: ");
            assert!(!record || said.contains("record kind="), "{}", name(&path));
            continue;
        };
        let shown = show::show(&bytes);
        let above: Vec<&str> = shown.lines().take(number - 1).collect();
        let above = match above.iter().all(|line| line.starts_with(['#', 's'])) {
            // Without a record above it there is the head.
            true if number <= 3 => vec![0; 3],
            _ => sheet::text::write(above.join("\n").as_bytes(), Path::new("")).unwrap(),
        };
        let offset = read(&bytes).unwrap_err().offset as usize;
        assert_eq!(above.len(), offset.div_ceil(8), "{}", name(&path));
        repaired += 1;
    }
    assert!(repaired > 45, "{repaired}");
}

/// With that line put right, or left out, the sheet is accepted.
#[test]
fn a_repaired_line_is_enough() {
    for (example, wrong, right) in [
        ("refusal_04_kind", "record kind=9", "# record kind=9"),
        ("refusal_07_lines", "line id=9", "# line id=9"),
        ("refusal_08_phase", "phase=7", "phase=idle"),
        ("refusal_10_line", "line=2", "line=1"),
        ("refusal_09_closed_twice", "closed stop=2", ""),
        ("refusal_10_closed_stop", "stop=5", "stop=1"),
        ("refusal_11_speed", "max_speed=0.0005", "max_speed=1"),
        ("refusal_12_limit", "limit=0", "limit=5"),
    ] {
        let path = here(&format!("examples/{example}.txt"));
        let bytes = run(&["write", path.to_str().unwrap()], b"").stdout;
        let number = line_to_repair(&explain::explain(&bytes)).unwrap();
        let shown = show::show(&bytes);
        let mut lines: Vec<String> = shown.lines().map(String::from).collect();
        assert!(lines[number - 1].contains(wrong), "{example}");
        lines[number - 1] = lines[number - 1].replace(wrong, right);
        let repaired = sheet::text::write(lines.join("\n").as_bytes(), Path::new("")).unwrap();
        assert_eq!(read(&repaired), Ok(()), "{example}");
    }
}

/// The text that is said to be the record's stands on the line that is named.
fn has_its_line(sheet: &[u8], said: &str) {
    let Some(number) = line_to_repair(said) else {
        return;
    };
    let text = said.lines().find_map(|line| line.strip_prefix("text: "));
    let text = text.unwrap();
    let start = text.split(".. (").next().unwrap();
    let shown = show::show(sheet);
    let line = shown.lines().nth(number - 1).unwrap();
    assert!(line == text || line.starts_with(start), "{said}");
}

/// The numbers that a sheet is refused by: 15 is given no more.
fn numbers() -> impl Iterator<Item = u32> {
    (2..=16).filter(|number| *number != 15)
}

#[test]
fn every_number_has_an_example() {
    let names: Vec<String> = files("examples", "txt").iter().map(|p| name(p)).collect();
    assert!(names.iter().all(|name| !name.starts_with("refusal_15_")));
    for number in numbers() {
        let start = format!("refusal_{number:02}_");
        let mut examples = names.iter().filter(|n| n.starts_with(&start)).peekable();
        assert!(examples.peek().is_some(), "refusal {number}");
        for example in examples {
            let stored = std::fs::read(here(&format!("examples/{example}.explain"))).unwrap();
            let first = format!("refused {number} at ");
            assert!(text(&stored).starts_with(&first), "{example}");
        }
    }
}

#[test]
fn stored_verdicts() {
    let list = std::fs::read(here("../../crates/replay_refusals/stdin")).unwrap();
    let mut left = &list[..];
    while !left.is_empty() {
        let case = common::stored(left);
        let offset = case.after[1..5]
            .iter()
            .fold(0, |n, b| n << 8 | u64::from(*b));
        let stored = match case.after[0] {
            0 => Ok(()),
            number => Err(Refusal {
                number: number.into(),
                offset,
            }),
        };
        assert_eq!(read(case.sheet), stored);
        has_sentence(case.sheet);
        left = &case.after[5..];
    }
}

/// A refusal names its record and field, and its rule.
fn has_sentence(sheet: &[u8]) {
    let said = explain::explain(sheet);
    let Err(Refusal { number, offset }) = read(sheet) else {
        assert!(said.starts_with("accepted\n"), "{said}");
        return;
    };
    let lines: Vec<&str> = said.lines().collect();
    assert_eq!(lines[0], format!("refused {number} at {offset}"));
    assert!(
        lines[1].contains("(bit ") || lines[1].contains(", bit "),
        "{said}"
    );
    assert!(
        lines[1].contains(": ") && !lines[1].contains("see the rule"),
        "{said}"
    );
    assert!(lines[2].starts_with(&format!("rule {number}: ")), "{said}");
    assert!(lines[3].starts_with("to do: "), "{said}");
    let by_damage = [3, 4, 5, 6, 8, 11].contains(&number);
    assert_eq!(lines[3].ends_with(rules::CHANGED), by_damage, "{said}");
    assert!(!lines[3].contains("the field"), "{said}");
    assert!(said.lines().all(|line| line.len() < 700), "{said}");
    let mended = lines.iter().filter(|line| line.starts_with("mended: "));
    assert_eq!(mended.count(), 1, "{said}");
    has_its_line(sheet, &said);
}

#[test]
fn every_generated_refusal_has_its_sentence() {
    for (_, profile) in PROFILES {
        for index in 0..300 {
            has_sentence(&generate(profile, 11, index));
        }
    }
}

/// Sheets that were cut or carried as texts, and bytes that begin as a sheet does.
#[test]
fn every_damaged_file_has_its_sentence() {
    let mut rng = Rng::new(11, 3, 0);
    for index in 0..200 {
        let sheet = generate(Profile::Valid, 11, index);
        has_sentence(&sheet[..rng.below(sheet.len())]);
        let as_text: String = sheet.iter().map(|b| char::from(*b)).collect();
        has_sentence(as_text.as_bytes());
        let ends: Vec<&[u8]> = sheet.split(|b| *b == b'\n').collect();
        has_sentence(&ends.join(&b"\r\n"[..]));
        let mut foreign: Vec<u8> = (0..3_000).map(|_| rng.next() as u8).collect();
        foreign[..2].copy_from_slice(&[1, 0]);
        has_sentence(&foreign);
    }
}

/// The manual's pages that show texts and refusals.
fn manual() -> String {
    let pages = ["MANUAL.md", "manual/planners.md", "manual/desk.md"];
    let page = |page: &str| text(&std::fs::read(here(&format!("../../docs/{page}"))).unwrap());
    pages.map(page).concat()
}

#[test]
fn the_manual_has_every_rule() {
    let manual = manual();
    for (k, rule) in rules::RULES.iter().enumerate() {
        let row = format!("| {} | {} | {} |", k + 1, rule.says, rule.remedy);
        assert!(manual.contains(&row), "{row}");
    }
    for path in files("examples", "txt") {
        let name = name(&path);
        assert!(manual.contains(&format!("`{name}`")), "{name}");
    }
}

/// Text as the manual shows it.
fn indented(text: &str) -> String {
    let line = |line: &str| match line {
        "" => "\n".into(),
        _ => format!("    {line}\n"),
    };
    text.lines().map(line).collect()
}

/// The manual shows the text of the first sheet, and of one for each number with what is said of it.
#[test]
fn the_manual_has_an_example_of_every_number() {
    let file = |path: &str| text(&std::fs::read(here(path)).unwrap());
    let manual = manual();
    assert!(manual.contains(&indented(&file("examples/lobby.txt"))));
    assert!(manual.contains(&indented(&file("examples/document_01.explain"))));
    let is_shown = |example: &str| {
        let said = file(&format!("examples/{example}.explain"));
        let mut lines = said.lines();
        let (first, reason) = (lines.next().unwrap(), lines.next().unwrap());
        let sheet = indented(&file(&format!("examples/{example}.txt")));
        manual.contains(&format!("{sheet}\n`{first}`: {reason}\n"))
    };
    let names: Vec<String> = files("examples", "txt").iter().map(|p| name(p)).collect();
    for number in numbers() {
        let start = format!("refusal_{number:02}_");
        let examples = names.iter().filter(|n| n.starts_with(&start));
        let shown = examples.filter(|n| is_shown(n));
        assert_eq!(shown.count(), 1, "refusal {number}");
    }
}

/// What is wrong with a text: what stands there, what is put in its place, and the number that it is refused by.
type Spoilt = (&'static str, &'static str, u32);

/// Faults of the text of `small_etd`, in the order of their records, and by rising number within one.
const SPOILT: [Spoilt; 16] = [
    ("age=0.005", "age=0.005 weight_6=1", 8),
    ("tick_rate=60", "tick_rate=0x7ff8000000000000", 11),
    ("limit=none", "limit=0", 12),
    (
        "stop id=1 position=0\nstop id=2 position=4",
        "stop id=2 position=4\nstop id=1 position=0",
        9,
    ),
    ("position=8\n", "position=2000000\n", 11),
    ("serves=all", "serves=0xf000000000000000", 10),
    ("id=7 line=1", "id=7 line=5", 10),
    ("max_speed=2 ", "max_speed=0.0005 ", 11),
    ("phase=moving stop=3", "phase=moving", 9),
    ("load=75", "load=-75", 11),
    ("aboard car=8", "aboard car=9", 10),
    ("waiting stop=2", "waiting stop=0", 9),
    ("weight=75", "weight=-75", 11),
    ("wait_ticks=600", "wait_ticks=9007199254740993", 14),
    ("demand stop=3", "demand stop=7", 10),
    (
        "riderless_call=no",
        "riderless_call=no\nrest length=16 bits=000a",
        16,
    ),
];

/// The numbers that `explain` names, the refusal's first.
fn numbers_of(said: &str) -> Vec<u32> {
    let number = |line: &str| {
        let after = line
            .strip_prefix("refused ")
            .or(line.strip_prefix("also "))?;
        after.split([' ', ':']).next()?.parse().ok()
    };
    said.lines().filter_map(number).collect()
}

/// Twenty warnings are printed, and how many more there are.
#[test]
fn many_warnings() {
    let start = text(&std::fs::read(here("examples/small_etd.txt")).unwrap());
    let (above, below) = start.split_at(start.find("demand").unwrap());
    let riders = "waiting stop=2 destination=2 weight=75 wait_ticks=1\n".repeat(25);
    let bytes = sheet::text::write([above, &riders, below].concat().as_bytes(), Path::new(""));
    let said = explain::explain(&bytes.unwrap());
    let warnings = said.lines().filter(|line| line.starts_with("warning: "));
    assert_eq!(warnings.count(), 21, "{said}");
    assert!(
        said.ends_with("warning: There are 5 more warnings like these.\n"),
        "{said}"
    );
}

/// Whichever faults a text has, `explain` names them all and no other: one, two or three of them.
#[test]
fn every_fault_is_named() {
    let file = text(&std::fs::read(here("examples/small_etd.txt")).unwrap());
    let mut tried = 0;
    for a in 0..SPOILT.len() {
        for b in a..SPOILT.len() {
            for c in b..SPOILT.len() {
                let mut chosen = vec![a, b, c];
                chosen.dedup();
                let mut spoilt = file.clone();
                for k in &chosen {
                    let (right, wrong, _) = SPOILT[*k];
                    assert!(spoilt.contains(right), "{right}");
                    spoilt = spoilt.replacen(right, wrong, 1);
                }
                let bytes = sheet::text::write(spoilt.as_bytes(), Path::new("")).unwrap();
                let said = explain::explain(&bytes);
                let numbers: Vec<u32> = chosen.iter().map(|k| SPOILT[*k].2).collect();
                assert_eq!(numbers_of(&said), numbers, "{chosen:?}\n{said}");
                assert!(
                    said.contains("\nmended: ") && said.contains("accepts the copy"),
                    "{said}"
                );
                tried += 1;
            }
        }
    }
    assert_eq!(tried, 16 * 17 * 18 / 6);
}
