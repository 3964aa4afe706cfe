//! What sites send to be graded: read from text, graded, and refused with a reason.

mod common;

use common::{files, here, name, run, text};
use sheet::grades::read;
use sheetgen::rng::Rng;

/// Each text of tests/bad_grades is refused with the stored message.
#[test]
fn bad_texts() {
    let sheet = sheetgen::Sheet::example().write();
    let paths = files("tests/bad_grades", "txt");
    assert!(paths.len() >= 8);
    for path in paths {
        let content = std::fs::read(&path).unwrap();
        let faults = read(&content).unwrap_err();
        let line = |f: &sheet::line::Fault| format!("{}:{}: {}\n", f.line, f.column, f.what);
        let said: String = faults.iter().map(line).collect();
        let stored = std::fs::read(path.with_extension("err")).unwrap();
        assert_eq!(said, text(&stored), "{}", name(&path));
        let shown = path.to_str().unwrap();
        let output = run(&["grade", "-", shown], &sheet);
        assert_eq!(output.status.code(), Some(1));
        assert_eq!(text(&output.stdout), "");
        let with_path = |line: &str| format!("{shown}:{line}\n");
        let wanted: String = said.lines().map(with_path).collect();
        assert_eq!(text(&output.stderr), wanted);
    }
}

/// Any text has an answer.
#[test]
fn any_text_has_an_answer() {
    let example = std::fs::read(here("examples/grades/least.txt")).unwrap();
    let mut rng = Rng::new(7, 4, 0);
    let (mut well, mut badly) = (0, 0);
    for _ in 0..4_000 {
        let mut text = example.clone();
        for _ in 0..1 + rng.below(3) {
            let at = rng.below(text.len());
            match rng.below(3) {
                0 => text[at] = rng.next() as u8,
                1 => text[at] = rng.pick(b" \n-x0#9"),
                _ => text.truncate(at.max(1)),
            }
        }
        match read(&text) {
            Ok(_) => well += 1,
            Err(faults) => {
                assert!(faults.iter().all(|f| f.line > 0 && f.column > 0));
                badly += 1;
            }
        }
    }
    assert!(well > 300 && badly > 300, "{well} {badly}");
}

mod graded {
    use sheetgen::generate::{PROFILES, Profile, generate};
    use sheetgen::grade::{Answer, Grader, LEAST_CELLS, Matrix, Sent};
    use sheetgen::grades::{WAYS, sent};

    use super::*;

    fn lobby() -> Vec<u8> {
        let path = here("examples/lobby.txt");
        run(&["write", path.to_str().unwrap()], b"").stdout
    }

    /// The answers that stand beside the examples, all of the sheet lobby; their names begin with the answer.
    #[test]
    fn answers_as_stored() {
        let paths = files("examples/grades", "txt");
        assert_eq!(paths.len(), 9);
        for path in paths {
            let output = run(&["grade", "-", path.to_str().unwrap()], &lobby());
            assert_eq!(output.status.code(), Some(0));
            assert_eq!(text(&output.stderr), "");
            let stored = text(&std::fs::read(path.with_extension("grade")).unwrap());
            assert_eq!(text(&output.stdout), stored, "{}", name(&path));
            let first = stored.lines().next().unwrap().replace(' ', "_");
            let first = first.replace("refused_", "refusal_").replace("_at_0", "");
            assert!(name(&path).starts_with(&first), "{first}");
        }
    }

    #[test]
    fn no_such_file_and_one_standard_input() {
        for args in [
            ["grade", "/no/such/file", "-"],
            ["grade", "-", "/no/such/file"],
        ] {
            let output = run(&args, b"");
            assert_eq!(output.status.code(), Some(1));
            assert!(text(&output.stderr).starts_with("/no/such/file: "));
            assert_eq!(text(&output.stdout), "");
        }
        let output = run(&["grade", "-", "-"], b"");
        assert_eq!(output.status.code(), Some(1));
        assert!(text(&output.stderr).contains("standard input is read once"));
    }

    /// A refused sheet is explained, whatever was sent.
    #[test]
    fn refused_sheets_are_explained() {
        for path in files("examples", "txt") {
            if name(&path).starts_with("refusal_") {
                let sheet = run(&["write", path.to_str().unwrap()], b"").stdout;
                let stored = std::fs::read(path.with_extension("explain")).unwrap();
                let said = sheet::grade::grade(&sheet, &read(b"car 9 column 9").unwrap());
                assert_eq!(said, text(&stored), "{}", name(&path));
            }
        }
    }

    fn is_line<T: std::fmt::Display>(name: &str, value: Option<T>) -> String {
        value.map_or(String::new(), |value| format!(" {name} {value}"))
    }

    /// The text of what was sent: more columns or prices than there are cars are those of cars without a record.
    fn as_text(ids: &[u32], width: usize, sent: &Sent) -> String {
        let mut lines = String::new();
        for k in 0..sent.columns.len().max(sent.car_prices.len()) {
            let id = ids.get(k).copied().unwrap_or(u32::MAX - k as u32);
            let (column, price) = (sent.columns.get(k), sent.car_prices.get(k));
            lines += &format!(
                "car {id}{}{}\n",
                is_line("column", column),
                is_line("price", price)
            );
        }
        for (column, price) in sent.column_prices.iter().enumerate() {
            // One more price is a second one of a column, or one outside.
            let column = if column == width && width > 0 {
                0
            } else {
                column
            };
            lines += &format!("column {column} price {price}\n");
        }
        lines
    }

    /// The first line is the answer of the second grader, and each has its reason.
    #[test]
    fn generated_choices_are_graded() {
        let mut seen = [0; 4];
        let accepted = PROFILES.iter().filter(|p| p.1 != Profile::Full);
        for ((_, profile), index) in accepted.flat_map(|p| (0..60).map(move |k| (p, k))) {
            let bytes = generate(*profile, 21, index);
            let Ok(pass) = dispatch_bench::pass(&bytes) else {
                continue;
            };
            let (cars, stops, cells) = (pass.cars, pass.stops, pass.matrix);
            let matrix = Matrix { cars, stops, cells };
            let idle = dispatch_bench::cars(&bytes).filter(|car| car.idle_listed);
            let ids: Vec<u32> = idle.map(|car| car.id).collect();
            for (name, way) in WAYS {
                let mut rng = Rng::new(21, way as u64, index);
                let mut sent = sent(&mut rng, way, &matrix);
                sent.lent = LEAST_CELLS;
                let grades = read(as_text(&ids, matrix.columns(), &sent).as_bytes()).unwrap();
                let said = sheet::grade::grade(&bytes, &grades);
                let lines: Vec<&str> = said.lines().collect();
                let (first, count, place) =
                    match (Grader { fault: None }).answer(Ok(&matrix), &sent) {
                        Answer::Least => ("least", 2, 0),
                        Answer::NotShown => ("not shown", 3, 1),
                        Answer::Refused(r) if r.number == 19 => ("refused 19 at 0", 4, 2),
                        Answer::Refused(_) => ("refused 20 at 0", 4, 3),
                    };
                assert_eq!((lines[0], lines.len()), (first, count), "{name} {said}");
                assert!(lines.iter().all(|line| line.len() > 4), "{name} {said}");
                let least = lines.last().unwrap().contains(", the least: ");
                let is_least = place < 2
                    && matrix.total(&sent.columns) == sheetgen::grade::solve(&matrix).total;
                assert_eq!(least, is_least, "{name} {said}");
                seen[place] += 1;
            }
        }
        assert!(seen.iter().all(|count| *count > 500), "{seen:?}");
    }

    /// A car that has two lines while another has none is no choice, though there are as many columns as cars.
    #[test]
    fn one_line_a_car_and_a_column() {
        let said = |more: &str| {
            let all = format!("car 1 column 0 price 0\ncolumn 0 price 0\n{more}");
            sheet::grade::grade(&lobby(), &read(all.as_bytes()).unwrap())
        };
        let second = |more: &str| said(more).lines().nth(1).unwrap().to_string();
        let twice = "car 1 column 1 price 800000\ncolumn 1 price 0\n";
        assert!(said(twice).starts_with("refused 19 at 0\n"));
        assert_eq!(second(twice), "Line 3: car 1 has a column already.");
        let unpriced = "car 2 column 1\ncar 2 price 800000\ncolumn 0 price 0\n";
        assert!(said(unpriced).starts_with("refused 20 at 0\n"));
        assert_eq!(second(unpriced), "Line 5: column 0 has a price already.");
        let apart = "car 2 column 1\ncar 2 price 800000\ncolumn 1 price 0\n";
        assert!(said(apart).starts_with("least\n"));
    }

    /// The rules of 19 and 20 stand in the manual, and so do the names of the examples.
    #[test]
    fn the_manual_has_every_rule_of_a_grade() {
        let pages = ["manual/planners.md", "manual/desk.md"];
        let page = |page: &str| text(&std::fs::read(here(&format!("../../docs/{page}"))).unwrap());
        let manual = pages.map(page).concat();
        for number in [19, 20] {
            let rule = sheet::rules::rule(number).unwrap();
            let row = format!("| {number} | {} | {} |", rule.says, rule.remedy);
            assert!(manual.contains(&row), "{row}");
        }
        for path in files("examples/grades", "txt") {
            let name = name(&path);
            assert!(manual.contains(&format!("`{name}`")), "{name}");
        }
        for shown in ["least.txt", "least.grade", "not_shown_too_low.grade"] {
            let content = std::fs::read(here(&format!("examples/grades/{shown}"))).unwrap();
            let lines = text(&content);
            let indented: String = lines.lines().map(|line| format!("    {line}\n")).collect();
            assert!(manual.contains(&indented), "{shown}");
        }
    }
}
