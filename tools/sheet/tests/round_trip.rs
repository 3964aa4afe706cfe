//! What `show` prints, `write` turns into the same bytes.

mod common;

use std::path::Path;

use sheet::{show, text};
use sheetgen::generate::{PROFILES, generate};
use sheetgen::rng::Rng;

/// The text of a sheet, written again.
fn again(bytes: &[u8]) -> Vec<u8> {
    let shown = show::show(bytes);
    match text::write(shown.as_bytes(), Path::new("")) {
        Ok(bytes) => bytes,
        Err(faults) => panic!("{faults:?} in\n{shown}"),
    }
}

#[test]
fn stored_refusals() {
    let list = std::fs::read(common::here("../../crates/replay_refusals/stdin")).unwrap();
    let mut left = &list[..];
    let mut sheets = 0;
    while !left.is_empty() {
        let case = common::stored(left);
        assert_eq!(again(case.sheet), case.sheet, "sheet {sheets}");
        left = &case.after[5..];
        sheets += 1;
    }
    let said = std::fs::read(common::here("../../crates/replay_refusals/stdout")).unwrap();
    assert!(common::text(&said).contains(&format!("{sheets} sheets compared")));
}

#[test]
fn stored_passes() {
    let list = std::fs::read(common::here("../../crates/replay_passes/stdin")).unwrap();
    let mut left = &list[..];
    let mut sheets = 0;
    while !left.is_empty() {
        let case = common::stored(left);
        assert_eq!(again(case.sheet), case.sheet, "sheet {sheets}");
        let (cars, stops) = (usize::from(case.after[0]), usize::from(case.after[1]));
        let answer = 12 + 4 * cars + 8 * cars * cars.max(stops);
        left = &case.after[answer + 2 + usize::from(case.after[answer])..];
        sheets += 1;
    }
    assert!(sheets > 100, "{sheets}");
}

/// In comments thousands are set apart, in records not; `show` prints the whole of a long record.
#[test]
fn numbers_and_long_lines() {
    let path = common::here("tests/explained/long_car.txt");
    let bytes = text::write(&std::fs::read(path).unwrap(), Path::new("")).unwrap();
    let shown = show::show(&bytes);
    let counts = "# 1,116 bytes, 67 records: 1 policy, 64 stops, 1 line, 1 car, 0 aboard, 0 waiting, 0 demands";
    assert_eq!(shown.lines().next(), Some(counts));
    let car = shown.lines().last().unwrap();
    assert!(car.contains(" position=2000000 ") && car.ends_with(",4000000062 car_calls=none"));
}

/// Edition 2 is said by the first line; a record with a length of edition 1 is raw there, and so is one of edition 2 in edition 1.
#[test]
fn editions() {
    let mut sheet = sheetgen::Sheet::example();
    sheet.edition = 2;
    sheet.stops[1].across = 12.5;
    sheet.cars[0].across = -0.0;
    let bytes = sheet.write();
    let shown = show::show(&bytes);
    let lines: Vec<&str> = shown.lines().collect();
    assert_eq!(lines[1], "sheet edition=2");
    assert_eq!(lines[4], "stop id=2 position=10 across=12.5");
    assert!(
        lines[7].contains(" position=0 across=-0 max_speed=2 "),
        "{shown}"
    );
    assert_eq!(again(&bytes), bytes);
    for (edition, of) in [(1, &bytes), (2, &sheetgen::Sheet::example().write())] {
        let mut other = of.clone();
        other[0] = edition;
        let shown = show::show(&other);
        assert_eq!(shown.matches("\nrecord kind=2 ").count(), 3, "{shown}");
        assert_eq!(shown.matches("\nrecord kind=4 ").count(), 2, "{shown}");
        assert_eq!(again(&other), other);
    }
}

/// A closed landing is a line of its own; the comment counts them where there are some.
#[test]
fn closed_landings() {
    let mut sheet = sheetgen::Sheet::example();
    sheet.closed = vec![3, 1];
    let shown = show::show(&sheet.write());
    let counts = "# 339 bytes, 11 records: 1 policy, 3 stops, 1 line, 2 cars, 0 aboard, 0 waiting, 2 demands, 2 closed";
    assert_eq!(shown.lines().next(), Some(counts));
    assert!(shown.ends_with("\nclosed stop=3\nclosed stop=1\n"));
    assert_eq!(again(&sheet.write()), sheet.write());
}

#[test]
fn generated_sheets() {
    for (name, profile) in PROFILES {
        for index in 0..300 {
            let bytes = generate(profile, 7, index);
            assert_eq!(again(&bytes), bytes, "{name} 7 {index}");
        }
    }
}

#[test]
fn every_bit_of_a_double() {
    let mut rng = Rng::new(7, 0, 0);
    for k in 0..5_000 {
        let bits = match k {
            0..64 => 1 << k,
            64..128 => u64::MAX << (k - 64),
            _ => rng.next(),
        };
        let mut sheet = sheetgen::Sheet::example();
        sheet.stops[0].position = f64::from_bits(bits);
        let bytes = sheet.write();
        assert_eq!(again(&bytes), bytes, "{bits:016x}");
    }
}

#[test]
fn any_text_has_an_answer() {
    let text = std::fs::read(common::here("examples/small_etd.txt")).unwrap();
    let mut rng = Rng::new(7, 1, 0);
    let (mut written, mut refused) = (0, 0);
    for _ in 0..5_000 {
        let mut text = text.clone();
        for _ in 0..1 + rng.below(3) {
            let at = rng.below(text.len());
            match rng.below(3) {
                0 => text[at] = rng.next() as u8,
                1 => text[at] = rng.pick(b" =\n,:x0#-"),
                _ => text.truncate(at.max(1)),
            }
        }
        match text::write(&text, Path::new("")) {
            Ok(bytes) => {
                assert_eq!(again(&bytes), bytes);
                written += 1;
            }
            Err(faults) => {
                assert!(!faults.is_empty());
                refused += 1;
            }
        }
    }
    assert!(written > 80 && refused > 300, "{written} {refused}");
}
