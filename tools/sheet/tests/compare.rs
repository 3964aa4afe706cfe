//! Two sheets side by side: what differs, what is proved of their totals, the drawing and the page; the limits raised.

mod common;

use std::path::PathBuf;

use sheet::compare::Comparison;
use sheet::raise::Raised;
use sheet::report::Form;
use sheet::source::Source;
use sheetgen::generate::{PROFILES, generate};

use common::{here, is_json, run, stored_as, text};

/// A folder of its own, away at the end.
struct Folder(PathBuf);

impl Folder {
    fn new(name: &str) -> Self {
        let path = std::env::temp_dir().join(format!("sheet-{name}-{}", std::process::id()));
        std::fs::create_dir_all(&path).unwrap();
        Folder(path)
    }

    /// A file of the folder.
    fn put(&self, name: &str, content: &str) -> String {
        let path = self.0.join(name);
        std::fs::write(&path, content).unwrap();
        path.to_str().unwrap().into()
    }

    fn name(&self, name: &str) -> String {
        self.0.join(name).to_str().unwrap().into()
    }

    fn said(&self, bytes: &[u8]) -> String {
        text(bytes).replace(&format!("{}/", self.0.display()), "")
    }
}

impl Drop for Folder {
    fn drop(&mut self) {
        let _ = std::fs::remove_dir_all(&self.0);
    }
}

fn example(name: &str) -> String {
    std::fs::read_to_string(here("examples").join(name)).unwrap()
}

/// What is printed of two texts.
fn compared(name: &str, first: &str, second: &str, options: &[&str]) -> String {
    let folder = Folder::new(name);
    let (first, second) = (
        folder.put("first.txt", first),
        folder.put("second.txt", second),
    );
    let output = run(&[&["compare", &first, &second], options].concat(), b"");
    assert_eq!(
        (output.status.code(), text(&output.stderr)),
        (Some(0), String::new())
    );
    folder.said(&output.stdout)
}

fn last(said: &str) -> &str {
    said.lines().last().unwrap()
}

/// The worked case of the manual: a bar under a limit, and the limit lifted.
#[test]
fn differences_are_listed() {
    let (before, added) = (example("bar_before.txt"), example("bar_added.txt"));
    stored_as(
        "tests/compared/bars.txt",
        &compared("bars", &before, &added, &[]),
    );
    stored_as(
        "tests/compared/bars.csv",
        &compared("bars-csv", &before, &added, &["--csv"]),
    );
    let json = compared("bars-json", &before, &added, &["--json"]);
    is_json(&json);
    stored_as("tests/compared/bars.json", &json);
    let lifted = before.replace("limit=1", "limit=none");
    stored_as(
        "tests/compared/limit.txt",
        &compared("limit", &before, &lifted, &[]),
    );
    let (lobby, office) = (example("lobby.txt"), example("office.txt"));
    stored_as(
        "tests/compared/office.txt",
        &compared("office", &lobby, &office, &[]),
    );
    let refused = example("refusal_08_phase.txt");
    let said = compared("refused", &lobby, &refused, &[]);
    stored_as("tests/compared/refused.txt", &said);
    let json = compared("refused-json", &refused, &lobby, &["--json"]);
    is_json(&json);
    assert!(json.contains("\"first\":{\"file\":\"first.txt\",\"status\":\"refused\",\"refusal\":8,\"offset\":750,\"cars\":null,"));
}

#[test]
fn the_same_sheet() {
    let lobby = example("lobby.txt");
    let said = compared("same", &lobby, &lobby, &[]);
    assert!(
        said.contains("\nThe sheets\n  the same in every bit\n\nThe passes\n"),
        "{said}"
    );
    assert_eq!(
        last(&said),
        "The sheets are the same in every bit, so their passes are too: the totals are 800,000, then 800,000."
    );
}

/// Records are found by id wherever they stand, and their order is told.
#[test]
fn another_order_of_records() {
    let lobby = example("lobby.txt");
    let cars: Vec<&str> = lobby
        .lines()
        .filter(|line| line.starts_with("car "))
        .collect();
    assert_eq!(cars.len(), 2);
    let swapped = lobby
        .replace(cars[0], "CAR")
        .replace(cars[1], cars[0])
        .replace("CAR", cars[1]);
    let said = compared("order", &lobby, &swapped, &[]);
    assert!(
        said.contains("\nThe sheets\n  car records: in another order\n\n"),
        "{said}"
    );
}

/// The names of a text stand beside the ids.
#[test]
fn names_are_told() {
    let before = example("bar_before.txt").replace("car id=7", "car name=north id=7");
    let added = example("bar_added.txt").replace("stop id=2", "stop name=\"the roof\" id=2");
    let said = compared("names", &before, &added, &[]);
    for line in [
        "  car 7 north: restricted none, then 1\n",
        "  car 7 north: idle, then stop 2 the roof\n",
        "  cell of car 7 north, stop 2 the roof: no rank, then 12000000\n",
    ] {
        assert!(said.contains(line), "{said}");
    }
}

const MORE: &str = "Nothing is proved of the two totals together: the sheets differ in more than the limit alone (demand 3), and in more than bars alone (F-14). The totals are ";

/// What is proved is said where all that it asks for holds, and else what fails.
#[test]
fn what_is_proved() {
    let (before, added) = (example("bar_before.txt"), example("bar_added.txt"));
    let none = |text: &str| text.replace("limit=1", "limit=none");
    let moved = before.replace("open_ticks=120", "open_ticks=120 restricted=2");
    assert_ne!(moved, before);
    for (k, (first, second, said)) in [
        (&before, &none(&before), "The sheets agree in every bit but the limit, 1 in the first and none in the second. Demand 3, proved: \"in each pass"),
        (&none(&before), &before, "The sheets agree in every bit but the limit, none in the first and 1 in the second, which is lower. Demand 3 is of a limit that is raised, so it holds with the two in the other order."),
        (&none(&before), &none(&added), "The sheets agree in every bit but 1 bar, more in the second, and have no limit. F-14, proved for any number of bars: \"with no candidate limit, one more bit in one car's restricted mask never lowers the total\". The total of the second is no lower than that of the first: 10,000,000, then 14,000,000."),
        (&none(&added), &none(&before), "The sheets agree in every bit but 1 bar, more in the first, and have no limit. F-14, proved for any number of bars: \"with no candidate limit, one more bit in one car's restricted mask never lowers the total\". The total of the first is no lower than that of the second: 14,000,000, then 10,000,000."),
        (&before, &added, "The sheets agree in every bit but 1 bar, more in the second, but they have a limit, 1, and F-14 is of sheets without one: under a limit the total may fall"),
        (&none(&before), &added, "Nothing is proved of the two totals together: both the limit and bars differ, and demand 3 is of the limit alone, F-14 of bars alone."),
        (&none(&moved), &none(&added), "The sheets agree in every bit but bars: the second has 1 bar that the first lacks, and lacks 2 bars that the first has. F-14 is of bars that are added alone, so nothing is proved"),
        (&before, &before.replace("position=6", "position=7"), MORE),
        (&before, &example("lobby.txt"), MORE),
        (&before, &before.replace("limit=1", "limit=0"), "Nothing is proved of the two totals together: the second sheet is refused, and the proofs are of two accepted sheets."),
    ].into_iter().enumerate() {
        let output = compared(&format!("proved-{k}"), first, second, &[]);
        assert!(last(&output).starts_with(said), "{k}: {output}");
    }
}

/// Both drawings stand in one, without their frames, with ids that stand once, and what differs is marked in both.
#[test]
fn drawn_side_by_side() {
    let folder = Folder::new("pair");
    let first = folder.put("before.txt", &example("bar_before.txt"));
    let second = folder.put("added.txt", &example("bar_added.txt"));
    let (svg, page) = (folder.name("both.svg"), folder.name("both.html"));
    let output = run(&["compare", &first, &second, &svg, "--html", &page], b"");
    assert_eq!(output.status.code(), Some(0));
    assert!(text(&output.stdout).starts_with("first: "));
    let drawn = std::fs::read_to_string(&svg).unwrap();
    for file in ["before.txt", "added.txt"] {
        assert_eq!(drawn.matches(&format!(">{file}</text>")).count(), 1);
    }
    // Car 7 in both buildings, its cells, and both legends.
    assert_eq!(drawn.matches("<rect class=\"differs\"").count(), 6);
    assert_eq!(
        drawn
            .matches("its decision differs in the other sheet")
            .count(),
        2
    );
    assert_eq!(drawn.matches("<svg").count(), 3);
    assert_eq!(drawn.matches("</svg>").count(), 3);
    let html = std::fs::read_to_string(&page).unwrap();
    for text in [&drawn, &html] {
        for id in text
            .split(" id=\"")
            .skip(1)
            .map(|after| after.split('"').next().unwrap())
        {
            assert_eq!(text.matches(&format!(" id=\"{id}\"")).count(), 1, "{id}");
        }
        assert_eq!(text.matches("<view id=\"first\" ").count(), 1);
    }
    for part in [
        "What differs",
        "The pass of the first",
        "car 7 idle",
        "car 7 stop 2",
        "id=\"second-table\"",
        &drawn,
    ] {
        assert!(html.contains(part), "{part}");
    }
    let printed = run(&["compare", &first, &second, "-"], b"");
    assert_eq!(text(&printed.stdout), drawn);
    let over = run(&["compare", &first, &second, &second], b"");
    assert_eq!(over.status.code(), Some(1));
    assert!(text(&over.stderr).ends_with("nothing was written\n"));
}

/// A drawing by itself has no mark and no class for one.
#[test]
fn one_drawing_is_as_ever() {
    let drawn = text(
        &run(
            &["draw", here("examples/bar_added.txt").to_str().unwrap()],
            b"",
        )
        .stdout,
    );
    assert!(!drawn.contains("differs"));
}

/// The limits from 1 on, up to the first that cuts nothing, and none.
#[test]
fn limits_are_raised() {
    let office = here("examples/office.txt");
    let bars = here("examples/bar_before.txt");
    let (office, bars) = (office.to_str().unwrap(), bars.to_str().unwrap());
    for (file, name) in [(office, "office"), (bars, "bars")] {
        let output = run(&["raise", file], b"");
        assert_eq!(output.status.code(), Some(0));
        stored_as(
            &format!("tests/compared/raise_{name}.txt"),
            &text(&output.stdout),
        );
    }
    stored_as(
        "tests/compared/raise_office.csv",
        &text(&run(&["raise", office, "--csv"], b"").stdout),
    );
    let plot = text(&run(&["raise", office, "-"], b"").stdout);
    stored_as("examples/limits/office.svg", &plot);
    let json = text(&run(&["raise", bars, "--json"], b"").stdout);
    is_json(&json);
    let steps = "\"cars\":2,\"own_limit\":1,\"agreed\":2,\"settled\":2,\"steps\":[{\"limit\":1,\"total\":\"281474978710656\",\"sent\":1,\"ranked\":2,\"changed\":null,\"unlike_none\":2},{\"limit\":2,\"total\":\"10000000\",\"sent\":2,\"ranked\":4,\"changed\":2,\"unlike_none\":0},{\"limit\":null,\"total\":\"10000000\",\"sent\":2,\"ranked\":4,\"changed\":0,\"unlike_none\":0}]}\n";
    assert!(json.ends_with(steps), "{json}");
}

/// Each line is the pass of the same sheet with that limit in its text, and the last limit is the first that ranks as many pairs as none.
#[test]
fn a_raised_limit_is_that_of_the_text() {
    let office = example("office.txt");
    let rows = text(
        &run(
            &[
                "raise",
                here("examples/office.txt").to_str().unwrap(),
                "--csv",
            ],
            b"",
        )
        .stdout,
    );
    let mut ranked = Vec::new();
    for row in rows.lines().skip(1) {
        let fields: Vec<&str> = row.split(',').collect();
        let with = office.replace("limit=none", &format!("limit={}", fields[0]));
        let bytes = run(&["write", "-"], with.as_bytes()).stdout;
        let pass = dispatch_bench::pass(&bytes).unwrap();
        assert_eq!(fields[1], pass.total.to_string());
        ranked.push(pass.ranked);
    }
    let none = ranked.pop().unwrap();
    assert_eq!(
        ranked.iter().position(|pairs| *pairs == none),
        Some(ranked.len() - 1)
    );
}

#[test]
fn raised_limits_are_plotted() {
    let folder = Folder::new("raise");
    let sheet = folder.put("bars.txt", &example("bar_before.txt"));
    let svg = folder.name("limits.svg");
    assert_eq!(run(&["raise", &sheet, &svg], b"").status.code(), Some(0));
    let drawn = std::fs::read_to_string(&svg).unwrap();
    for (part, times) in [
        (">From limit 2 on decided as without a limit</text>", 1),
        (">bars.txt</text>", 1),
        ("<rect class=\"bar\"", 9),
        (">281474978710656</text>", 1),
        (">10000000</text>", 1),
        (">100 %</text>", 2),
        ("<line class=\"agreed\"", 1),
        ("<line class=\"settled\"", 1),
        ("<rect class=\"differs\"", 1),
    ] {
        assert_eq!(drawn.matches(part).count(), times, "{part}");
    }
    assert_eq!(text(&run(&["raise", &sheet, "-"], b"").stdout), drawn);
    let refused = here("examples/refusal_08_phase.txt");
    let output = run(&["raise", refused.to_str().unwrap(), &svg], b"");
    assert_eq!(
        (output.status.code(), text(&output.stdout)),
        (Some(1), String::new())
    );
    assert!(
        text(&output.stderr)
            .contains("refused 8 at 750, so it has no pass under any limit; `sheet explain ")
    );
    assert_eq!(std::fs::read_to_string(&svg).unwrap(), drawn);
}

/// Generated sheets, refused ones among them: what differs is named exactly where the bytes differ, each in every form.
#[test]
fn generated_pairs() {
    let (mut compared, mut objects) = (0, String::new());
    for (_, profile) in PROFILES {
        for index in 0..12 {
            let first = generate(profile, 19, index);
            let mut bent = first.clone();
            let place = first.len() * (index as usize + 1) / 14;
            if let Some(byte) = bent.get_mut(place) {
                *byte ^= 1 << (index % 8);
            }
            for second in [generate(profile, 19, index + 1), bent, first.clone()] {
                let [one, two] = [&first, &second].map(|bytes| Source::of_sheet(bytes.clone()));
                let comparison = Comparison::new(&one, &two);
                assert_eq!(
                    comparison.differences.is_empty(),
                    first == second,
                    "{index}"
                );
                objects += &comparison.text(Form::Json);
                assert!(
                    comparison
                        .text(Form::Csv)
                        .starts_with("what,of,field,first,second\n")
                );
                assert!(
                    comparison
                        .text(Form::Words)
                        .ends_with(&format!("\n{}\n", comparison.proved.sentence))
                );
                compared += 1;
            }
        }
    }
    assert_eq!(compared, 36 * PROFILES.len());
    is_json(&objects);
}

/// What demand 3 and F-14 say holds of generated sheets: limits raised one by one, and a bar added where there is no limit.
#[test]
fn what_is_proved_holds() {
    let (mut raised, mut barred) = (0, 0);
    for (name, profile) in PROFILES {
        for index in 0..20 {
            let bytes = generate(profile, 23, index);
            let Ok(limits) = Raised::new(&bytes) else {
                continue;
            };
            let totals: Vec<u64> = limits.steps.iter().map(|step| step.total).collect();
            assert!(
                totals.is_sorted_by(|one, next| one >= next),
                "{name} {index}: {totals:?}"
            );
            raised += 1;
            let mut sheet = sheetgen::Sheet::of_accepted(&bytes);
            sheet.policy.limit = sheetgen::sheet::NO_LIMIT;
            let first = Source::of_sheet(sheet.write());
            let has_stops = !sheet.stops.is_empty();
            let can_be_barred = |car: &&mut sheetgen::Car| car.restricted == 0 && has_stops;
            let Some(car) = sheet.cars.iter_mut().find(can_be_barred) else {
                continue;
            };
            car.restricted = sheetgen::sheet::mask_bit(0);
            let second = Source::of_sheet(sheet.write());
            let proved = Comparison::new(&first, &second).proved;
            assert_eq!(
                (proved.claim, proved.holds),
                (Some("F-14"), true),
                "{name} {index}"
            );
            let total = |source: &Source| dispatch_bench::pass(&source.bytes).unwrap().total;
            assert!(total(&first) <= total(&second), "{name} {index}");
            barred += 1;
        }
    }
    assert!(raised > 200 && barred > 50, "{raised} {barred}");
}
