//! Why a car costs what it does for a stop: the command on stored pairs, and its library beside the pass.

mod common;

use common::{here, run, text};
use dispatch_bench::{CEILING, Reason, SENTINEL, Terms, Why, cars, pass, pending, read, why};
use sheet::source::Source;
use sheet::why::{Amount, Effect, Facts, Rank};
use sheetgen::Sheet;
use sheetgen::generate::{PROFILES, generate};

/// A text, a car, a stop, and the reason; the output is stored under the text's name and these.
const PAIRS: [(&str, &str, &str, u32); 23] = [
    ("examples/lobby.txt", "1", "3", 0),
    ("examples/load_weight.txt", "1", "3", 0),
    ("examples/small_scan.txt", "1", "3", 0),
    ("examples/ceiling.txt", "1", "1", 0),
    ("tests/why/terms.txt", "1", "3", 0),
    ("tests/why/reasons.txt", "away", "roof", 0),
    ("examples/lobby.txt", "3", "3", 1),
    ("examples/lobby.txt", "1", "9", 2),
    ("examples/small_rsr.txt", "3", "5", 3),
    ("examples/lobby.txt", "1", "2", 4),
    ("examples/small_rsr.txt", "1", "5", 4),
    ("examples/closed_bound.txt", "2", "3", 4),
    ("tests/why/reasons.txt", "1", "mast", 4),
    ("examples/small_rsr.txt", "4", "3", 5),
    ("examples/small_rsr.txt", "2", "6", 6),
    ("examples/small_rsr.txt", "1", "6", 7),
    ("tests/why/reasons.txt", "loaded", "roof", 8),
    ("tests/why/reasons.txt", "full", "3", 9),
    ("examples/small_rsr.txt", "2", "3", 10),
    ("tests/why/reasons.txt", "4", "2", 10),
    ("tests/why/reasons.txt", "below", "roof", 11),
    ("tests/why/reasons.txt", "still", "roof", 12),
    ("examples/small_scan.txt", "2", "5", 12),
];

fn output(words: &[&str]) -> String {
    let output = run(words, b"");
    assert_eq!(output.status.code(), Some(0), "{words:?}");
    assert_eq!(text(&output.stderr), "", "{words:?}");
    text(&output.stdout)
}

/// Every reason is met, and an example of each strategy.
#[test]
fn as_stored() {
    for (path, car, stop, number) in PAIRS {
        let name = path.rsplit('/').next().unwrap().strip_suffix(".txt");
        let name = format!("tests/why/{}_{car}_{stop}.why", name.unwrap());
        let found = output(&["why", path, car, stop]);
        assert_eq!(found, text(&std::fs::read(here(&name)).unwrap()), "{name}");
        let said = format!("\nno rank, reason {number}: ");
        assert_eq!(found.contains(&said), number > 0, "{name}");
    }
    let mut numbers: Vec<u32> = PAIRS.iter().map(|pair| pair.3).collect();
    numbers.dedup();
    assert_eq!(numbers, (0..=12).collect::<Vec<_>>());
}

/// For programs: a pair with a rank, one without, and a refused sheet.
#[test]
fn forms_as_stored() {
    for (path, car, stop, name) in [
        ("examples/lobby.txt", "1", "3", "lobby_1_3"),
        ("examples/load_weight.txt", "1", "3", "load_weight_1_3"),
        ("examples/small_rsr.txt", "2", "3", "small_rsr_2_3"),
        ("tests/why/reasons.txt", "away", "roof", "reasons_away_roof"),
        (
            "examples/refusal_08_phase.txt",
            "1",
            "3",
            "refusal_08_phase_1_3",
        ),
    ] {
        for form in ["json", "csv"] {
            let stored = here(&format!("tests/why/{name}.{form}"));
            let found = output(&["why", path, car, stop, &format!("--{form}")]);
            if std::env::var_os("UPDATE").is_some() {
                std::fs::write(&stored, &found).unwrap();
            }
            assert_eq!(found, text(&std::fs::read(&stored).unwrap()), "{name}");
        }
    }
}

/// The manual's examples are the stored outputs.
#[test]
fn the_manual_has_it() {
    let manual = include_str!("../../../docs/manual/planners.md");
    for name in ["lobby_1_3", "small_rsr_2_3"] {
        let stored = text(&std::fs::read(here(&format!("tests/why/{name}.why"))).unwrap());
        let stored = stored.replace("examples/", "");
        let lines: String = stored.lines().map(|line| format!("    {line}\n")).collect();
        assert_eq!(manual.matches(&lines).count(), 1, "{name}");
    }
}

/// A sheet says what its text does, but for the names and the lines.
#[test]
fn of_a_sheet() {
    let sheet = output_bytes("tests/why/reasons.txt");
    let of_sheet = text(&run(&["why", "-", "3", "3"], &sheet).stdout);
    let of_text = output(&["why", "tests/why/reasons.txt", "below", "roof"]);
    let plain = of_text.replace(" \"below\"", "").replace(" \"roof\"", "");
    let lines: Vec<String> = plain.lines().map(without_place).collect();
    assert_eq!(of_sheet.lines().collect::<Vec<_>>(), lines);
    assert!(of_sheet.contains("look at: aboard car=3 destination=1\n"));
}

fn output_bytes(path: &str) -> Vec<u8> {
    run(&["write", path], b"").stdout
}

fn without_place(line: &str) -> String {
    match line.split_once("look at: ") {
        Some((_, at)) => format!("look at: {}", at.split_once(": ").unwrap().1),
        None => line.into(),
    }
}

/// An id that there is comes before a name of digits; a name that is none is named.
#[test]
fn ids_and_names() {
    let reasons = "tests/why/reasons.txt";
    let first = |car: &str, stop: &str| {
        output(&["why", reasons, car, stop])
            .lines()
            .next()
            .map(String::from)
    };
    let says = |words: &str| Some(format!("{words}: RSR"));
    assert_eq!(first("away", "7"), says("car 5 \"away\", stop 4 \"7\""));
    assert_eq!(first("5", "4"), says("car 5 \"away\", stop 4 \"7\""));
    assert_eq!(first("5", "first floor"), first("away", "2"));
    assert_eq!(first("9", "2"), says("car 9, stop 2 \"first floor\""));
    let named_2 = std::fs::read(here(reasons)).unwrap();
    let named_2 = text(&named_2)
        .replace("name=7", "name=2")
        .replace("name=away", "name=full");
    let of = |car: &str, stop: &str| run(&["why", "-", car, stop], named_2.as_bytes());
    assert!(text(&of("1", "2").stdout).starts_with("car 1 \"loaded\", stop 2 \"first floor\""));
    for (car, stop, said) in [
        (
            "full",
            "2",
            "\"full\" is the name of several cars: name one by its id, 2, 5\n",
        ),
        (
            "1",
            "rof",
            "\"rof\": expected a stop's id, or its name in the text; did you mean roof?\n",
        ),
        (
            "4294967296",
            "1",
            "\"4294967296\": expected a car's id, or its name in the text\n",
        ),
    ] {
        let output = of(car, stop);
        assert_eq!(
            (output.status.code(), text(&output.stdout)),
            (Some(1), String::new())
        );
        assert_eq!(text(&output.stderr), said);
    }
    let of_sheet = run(&["why", "-", "1", "roof"], &output_bytes(reasons));
    let said = "\"roof\": expected a stop's id; a sheet has no names, but the text that it is written from can\n";
    assert_eq!(text(&of_sheet.stderr), said);
}

/// Of the cars that cover a stop those alone are named that go there, and of many riders the first three.
#[test]
fn records_to_look_at() {
    let of = |text: &str, car: &str, stop: &str| {
        let output = run(&["why", "-", car, stop], text.as_bytes());
        let said = common::text(&output.stdout);
        let looks = said
            .lines()
            .filter_map(|line| line.strip_prefix("look at: -:"));
        looks
            .map(|look| look.split_once(' ').unwrap().1.to_string())
            .collect::<Vec<_>>()
    };
    let small = text(&std::fs::read(here("examples/small_rsr.txt")).unwrap());
    let loading = small.replace(
        "id=2 line=1 phase=stopped",
        "id=2 line=1 phase=loading target=1",
    );
    assert_ne!(small, loading);
    let car_3 = "car id=3 line=1 phase=moving target=5 capacity=800 load=155";
    assert_eq!(of(&loading, "1", "5"), [car_3]);
    let reasons = text(&std::fs::read(here("tests/why/reasons.txt")).unwrap());
    let aboard = "aboard car=3 destination=1\n";
    let many = reasons.replace(aboard, &aboard.repeat(5));
    let shown = of(&many, "below", "roof");
    assert_eq!(shown[2..], ["aboard car=3 destination=1"; 3]);
    let output = text(&run(&["why", "-", "below", "roof"], many.as_bytes()).stdout);
    assert!(
        output.contains("\nlook at: 2 more of kind aboard\nto do: "),
        "{output}"
    );
}

/// A refused sheet is explained, whatever is asked for.
#[test]
fn refused() {
    let path = "examples/refusal_12_limit.txt";
    assert_eq!(output(&["why", path, "1", "1"]), output(&["explain", path]));
    let output = run(&["why", path, "1"], b"");
    assert_eq!(output.status.code(), Some(2));
    let said = "sheet: too few words after why: expected `sheet why SHEET CAR STOP";
    assert!(text(&output.stderr).starts_with(said));
}

/// A cost as a cell: rounded half away from zero and held to the ceiling.
fn cell(cost: f64) -> u64 {
    ((cost * 1e6).round() as u64).min(CEILING)
}

/// The facts of a ranked pair are the library's: each amount and each running cost is a term, and the cell is that of the pass.
fn is_of_the_library(facts: &Facts, terms: &Terms, value: u64) {
    let Rank::Ranked(ranked) = &facts.rank else {
        panic!("no rank");
    };
    assert_eq!(
        (ranked.cell, ranked.cost.to_bits()),
        (value, terms.cost().to_bits())
    );
    let slots = match *terms {
        Terms::Etd {
            travel,
            delay,
            doors,
            bonus,
            sum,
            squares,
            waited,
            cost,
        } => {
            vec![travel, delay, doors, bonus, sum, squares, waited, cost]
        }
        Terms::Rsr {
            travel,
            eta,
            direction,
            car_call,
            load,
            waited,
            age,
            ..
        } => {
            vec![travel, eta, direction, car_call, load, waited, age]
        }
        Terms::Scan { distance, cost } => vec![distance, cost],
    };
    let mut said = Vec::new();
    for part in &ranked.parts {
        match part.amount {
            Amount::Seconds(n) | Amount::Ticks(n) | Amount::Squares(n) | Amount::Plain(n) => {
                said.push(n)
            }
            Amount::Share(..) | Amount::One => {}
        }
        said.extend(part.so_far);
        let is_zero = part.weights.iter().any(|(_, weight)| *weight == 0.0);
        assert!(part.effect != Effect::LeftOut || is_zero);
    }
    let bits = |list: &[f64]| list.iter().map(|n| n.to_bits()).collect::<Vec<_>>();
    assert_eq!(bits(&said), bits(&slots));
    assert_eq!([facts.viable, facts.kept, facts.useful], [Some(true); 3]);
}

/// Over generated sheets: a pair of an idle car and a pending stop has a rank exactly where its cell is below the sentinel, and the last term is the
/// cell; any other pair is not listed or not pending.
#[test]
fn the_matrix_agrees() {
    let (mut seen, mut sheets) = ([0; 13], 0);
    for (_, profile) in PROFILES {
        for index in 0..6 {
            let bytes = generate(profile, 29, index);
            if read(&bytes).is_err() {
                continue;
            }
            sheets += 1;
            agrees(&bytes, &mut seen);
        }
    }
    assert!(sheets > 30, "{sheets}");
    let met = [0, 3, 4, 5, 6, 7, 8, 9, 10, 11, 12].map(|k| seen[k]);
    assert!(met.iter().all(|often| *often > 0), "{seen:?}");
}

fn agrees(bytes: &[u8], seen: &mut [usize; 13]) {
    let (pass, stops) = (pass(bytes).unwrap(), pending(bytes).unwrap());
    let source = Source::of_sheet(bytes.to_vec());
    let idle: Vec<u32> = cars(bytes)
        .filter(|car| car.idle_listed)
        .map(|car| car.id)
        .collect();
    for car in cars(bytes) {
        for stop in Sheet::of_accepted(bytes).stops {
            let row = idle.iter().position(|id| *id == car.id);
            let column = stops.iter().position(|id| *id == stop.id);
            let answer = why(bytes, car.id, stop.id).unwrap();
            let place = row.zip(column);
            let value = place.map(|(row, column)| pass.matrix[row * pass.columns() + column]);
            let number = match (answer, value) {
                (Why::Ranked(terms), Some(value)) => {
                    assert_eq!(cell(terms.cost()), value);
                    let few = seen[0].is_multiple_of(37);
                    let facts = few.then(|| Facts::of(&source, car.id, stop.id).unwrap());
                    facts
                        .iter()
                        .for_each(|facts| is_of_the_library(facts, &terms, value));
                    0
                }
                (Why::Unranked(reason), Some(value)) => {
                    assert!(value == SENTINEL && reason >= Reason::OffLine, "{reason}");
                    reason.number()
                }
                (Why::Unranked(Reason::NotListed), None) if row.is_none() => 3,
                (Why::Unranked(Reason::NotPending), None) if row.is_some() => 4,
                other => panic!("car {}, stop {}: {other:?}", car.id, stop.id),
            };
            seen[number as usize] += 1;
        }
    }
}
