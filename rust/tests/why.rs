//! Why pairs cost what they do or have no rank, over the sheets of ../fuzz/corpus_pass.

use std::path::Path;

use dispatch_bench::{
    CEILING, Reason, SENTINEL, TERMS, Terms, Why, cars, pass, pending, read, why,
};

fn stored(name: &str) -> Vec<u8> {
    let folder = Path::new(env!("CARGO_MANIFEST_DIR")).join("../fuzz/corpus_pass");
    std::fs::read(folder.join(name)).unwrap()
}

/// The stored sheets with their names.
fn corpus() -> Vec<(String, Vec<u8>)> {
    let folder = Path::new(env!("CARGO_MANIFEST_DIR")).join("../fuzz/corpus_pass");
    let names = std::fs::read_dir(folder).unwrap();
    let names = names.map(|entry| entry.unwrap().file_name().into_string().unwrap());
    let sheets: Vec<_> = names.map(|name| (name.clone(), stored(&name))).collect();
    assert!(sheets.len() > 50);
    sheets
}

fn reason(sheet: &[u8], car: u32, stop: u32) -> Option<Reason> {
    match why(sheet, car, stop).unwrap() {
        Why::Ranked(_) => None,
        Why::Unranked(reason) => Some(reason),
    }
}

fn terms(name: &str, car: u32, stop: u32) -> Terms {
    match why(&stored(name), car, stop) {
        Ok(Why::Ranked(terms)) => terms,
        other => panic!("{name}: {other:?}"),
    }
}

/// A cost as a cell: rounded half away from zero and held to the ceiling.
fn cell(cost: f64) -> u64 {
    ((cost * 1e6).round() as u64).min(CEILING)
}

#[test]
fn terms_by_strategy() {
    assert_eq!(
        terms("small_etd", 7, 2),
        Terms::Etd {
            travel: 2.0,
            delay: 0.0,
            doors: 0.0,
            bonus: -0.6,
            sum: 1.4,
            squares: 360_000.0,
            waited: 600.0,
            cost: 0.0,
        }
    );
    assert_eq!(
        terms("load_weight", 1, 3),
        Terms::Rsr {
            travel: 2.0,
            eta: 2.0,
            direction: 2.0,
            car_call: 2.0,
            load: 4.25,
            waited: 120.0,
            age: 4.01,
            cost: 4.01,
        }
    );
    let distance = 10.0;
    let scan = Terms::Scan {
        distance,
        cost: distance,
    };
    assert_eq!(terms("document_01", 7, 2), scan);
}

/// The first that holds, for one pair of each.
#[test]
fn reasons_of_stored_sheets() {
    for (name, car, stop, number) in [
        ("document_01", 9, 2, 1),
        ("document_01", 9, 4, 1),
        ("document_01", 7, 4, 2),
        ("document_01", 7, 0, 2),
        ("small_etd", 8, 1, 3),
        ("document_01", 7, 1, 4),
        ("etd_cover", 17, 2, 5),
        ("etd_extreme", 52, 5, 6),
        ("rsr_ties", 7, 1, 7),
        ("etd_extreme", 52, 1, 8),
        ("etd_extreme", 4_294_967_293, 4, 9),
        ("etd_cover", 25, 2, 10),
        ("rsr_fine", 47, 26, 11),
        ("rsr_near", 60, 9, 12),
        ("scan_closed", 49, 76, 12),
    ] {
        let found = reason(&stored(name), car, stop).map(Reason::number);
        assert_eq!(found, Some(number), "{name}: car {car}, stop {stop}");
    }
}

/// A pair of an idle car and a pending stop has a rank exactly where its cell is below the sentinel, and its last term is the cell; another pair
/// has no car, or is not listed, or not pending. Every reason is met.
#[test]
fn the_matrix_agrees() {
    let mut seen = [0; 13];
    for (name, sheet) in corpus() {
        let (Ok(pass), Ok(stops)) = (pass(&sheet), pending(&sheet)) else {
            continue;
        };
        let idle = cars(&sheet).filter(|car| car.idle_listed);
        for (car, row) in idle.zip(pass.rows()) {
            for (stop, value) in stops.iter().zip(row) {
                let place = format!("{name}: car {}, stop {stop}", car.id);
                match why(&sheet, car.id, *stop).unwrap() {
                    Why::Ranked(terms) => {
                        assert_eq!(cell(terms.cost()), *value, "{place}");
                        seen[0] += 1;
                    }
                    Why::Unranked(reason) => {
                        assert_eq!(*value, SENTINEL, "{place}");
                        assert!(reason >= Reason::OffLine, "{place}: {reason}");
                        seen[reason.number() as usize] += 1;
                    }
                }
            }
        }
        for car in cars(&sheet).filter(|car| !car.idle_listed) {
            for stop in &stops {
                assert_eq!(reason(&sheet, car.id, *stop), Some(Reason::NotListed));
                seen[3] += 1;
            }
        }
    }
    assert!(seen[5..].iter().chain([&seen[0], &seen[3]]).all(|n| *n > 0));
}

/// A refused sheet has no reasons, whatever is asked for.
#[test]
fn refusals() {
    let mut refused = 0;
    for (name, sheet) in corpus() {
        let verdict = read(&sheet);
        assert_eq!(why(&sheet, 1, 1).err(), verdict.err(), "{name}");
        refused += usize::from(verdict.is_err());
    }
    assert!(refused > 30);
    assert_eq!(why(&[], 7, 2).err(), read(&[]).err());
    assert_eq!(why(&[0xff; 70_000], 0, 0).unwrap_err().number, 3);
}

/// The header's numbers are the crate's, and the sentences are those of docs/manual/hosts.md.
#[test]
fn numbers_and_sentences() {
    let header = include_str!("../../include/dispatch_bench.h");
    let names = [
        "NO_CAR",
        "NO_STOP",
        "NOT_LISTED",
        "NOT_PENDING",
        "OFF_LINE",
        "BARRED",
        "CUT",
        "PASSED_BY",
        "FULL",
        "NOBODY",
        "OFF_PATH",
        "NO_RANK",
    ];
    let manual = include_str!("../../docs/manual/hosts.md");
    for (k, (reason, name)) in Reason::ALL.into_iter().zip(names).enumerate() {
        assert_eq!(reason.number() as usize, k + 1);
        let entry = format!("    DISPATCH_BENCH_{name} = {}", k + 1);
        let ends = |after: &str| !after.starts_with(|c: char| c.is_ascii_digit());
        let entries = header.split(&entry).skip(1).filter(|after| ends(after));
        assert_eq!(entries.count(), 1, "{entry}");
        assert_eq!(reason.to_string(), reason.says());
        let row = format!(
            "| {} | `DISPATCH_BENCH_{name}` | {} |",
            k + 1,
            reason.says()
        );
        assert_eq!(manual.matches(&row).count(), 1, "{row}");
    }
    let places = format!("#define DISPATCH_BENCH_TERMS {TERMS}\n");
    assert_eq!(header.matches(&places).count(), 1);
}
