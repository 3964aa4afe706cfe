//! The weights of stores, and their refusals.

use dispatch_bench::{Refusal, SLOTS, StoreRefusal, weights};

/// The store of tools/sheet/examples/stores/corrections.txt.
const EXAMPLE: &[u8] = include_bytes!("../../tools/sheet/examples/stores/corrections.store");

/// Setting, start, issue and value.
type Record = (u8, u32, u16, f64);

fn store(records: &[Record]) -> Vec<u8> {
    let mut bytes = Vec::new();
    for (setting, start, issue, value) in records {
        bytes.push(*setting);
        bytes.extend(start.to_be_bytes());
        bytes.extend(issue.to_be_bytes());
        bytes.extend(value.to_be_bytes());
    }
    bytes
}

/// A record for each slot, from day 100 on.
fn whole() -> Vec<Record> {
    (0..6).map(|slot| (slot, 100, 0, f64::from(slot))).collect()
}

/// The whole store with records after it.
fn with(more: &[Record]) -> Vec<u8> {
    store(&[&whole(), more].concat())
}

fn refused(number: u32, offset: u64) -> Result<[f64; SLOTS], StoreRefusal> {
    Err(StoreRefusal { number, offset })
}

#[test]
fn the_example() {
    let before = [1.5, 1.0, 0.5, 0.0, 0.0078125, 0.0];
    let after = [1.5, 1.0, 0.75, 0.0, 0.015625, 0.0];
    for (day, six) in [
        (20_454, before),
        (20_634, before),
        (20_635, after),
        (u32::MAX, after),
    ] {
        assert_eq!(weights(EXAMPLE, day), Ok(six), "{day}");
    }
    assert_eq!(weights(EXAMPLE, 20_453), refused(18, 0));
}

/// The latest start decides before the issue does; a start after the day does not count.
#[test]
fn starts_and_issues() {
    let first = |more: &[Record], day| weights(&with(more), day).unwrap()[0];
    assert_eq!(first(&[(0, 101, 0, 7.0), (0, 100, 9, 8.0)], 100), 8.0);
    assert_eq!(first(&[(0, 101, 0, 7.0), (0, 100, 9, 8.0)], 101), 7.0);
    assert_eq!(first(&[(0, 100, 65_535, 7.0), (0, 100, 9, 8.0)], 100), 7.0);
    assert_eq!(first(&[(0, u32::MAX, 0, 7.0)], u32::MAX), 7.0);
    assert_eq!(first(&[(0, u32::MAX, 0, 7.0)], u32::MAX - 1), 0.0);
}

#[test]
fn equal_values_are_harmless() {
    assert_eq!(weights(&with(&whole()), 100), weights(&with(&[]), 100));
}

/// All 64 bits count: a minus zero is another value than zero, and comes back as it is stored.
#[test]
fn minus_zero() {
    let zero = with(&[(3, 200, 0, -0.0), (3, 200, 0, -0.0)]);
    let six = weights(&zero, 200).unwrap();
    assert_eq!(six.map(f64::to_bits)[0], 0);
    assert_eq!(six.map(f64::to_bits)[3], 1 << 63);
    let both = with(&[(0, 100, 0, -0.0)]);
    assert_eq!(weights(&both, 200), refused(17, 720));
}

#[test]
fn refusals() {
    let at = |record: u64| 120 * record;
    for (bytes, answer) in [
        (vec![], refused(18, 0)),
        (with(&[])[..89].to_vec(), refused(2, at(5))),
        (store(&[whole()[0]; 257]), refused(7, at(256))),
        (with(&[(6, 0, 0, 0.0)]), refused(8, at(6))),
        (with(&[(0, 0, 0, f64::NAN)]), refused(11, at(6))),
        (with(&[(0, 100, 0, 1.0)]), refused(17, at(6))),
        (with(&[])[..75].to_vec(), refused(18, 5)),
    ] {
        assert_eq!(weights(&bytes, 100), answer);
    }
}

#[test]
fn any_bytes_have_an_answer() {
    let long = vec![0xff; 70_000];
    for length in [0, 1, 14, 15, 16, 3_840, 3_855, 70_000] {
        let refusal = weights(&long[..length], 7).unwrap_err();
        let number = match length {
            0 => 18,
            1..15 => 2,
            _ => 8,
        };
        assert_eq!((refusal.number, refusal.offset), (number, 0), "{length}");
    }
    for cut in 0..EXAMPLE.len() {
        let refusal = weights(&EXAMPLE[..cut], 20_500);
        let number = match (cut % 15, cut >= 90) {
            (0, true) => None,
            (0, false) => Some(18),
            _ => Some(2),
        };
        assert_eq!(refusal.err().map(|r| r.number), number, "{cut} bytes");
    }
}

/// Each number says its place and its rule.
#[test]
fn sentences() {
    for (number, offset, place) in [
        (1, 0, "0"),
        (2, 0, "0, record 1"),
        (7, 30_720, "30720, record 257"),
        (8, 240, "240, record 3"),
        (11, 120, "120, record 2"),
        (17, 720, "720, record 7"),
        (18, 5, "slot 5"),
    ] {
        let refusal = StoreRefusal { number, offset };
        assert!(refusal.rule().ends_with('.') && !refusal.remedy().is_empty());
        let said = format!("refused {number} at {place}: {}", refusal.rule());
        assert_eq!(refusal.to_string(), said);
    }
    for number in [0, 3, 16, 19, u32::MAX] {
        let refusal = StoreRefusal { number, offset: 0 };
        assert_eq!((refusal.rule(), refusal.remedy()), ("", ""));
    }
    // A sheet's refusals have their own words.
    let sheet = Refusal {
        number: 7,
        offset: 30_720,
    };
    assert!(sheet.to_string().starts_with("refused 7 at 30720: There"));
    assert_ne!(
        sheet.rule(),
        StoreRefusal {
            number: 7,
            offset: 30_720
        }
        .rule()
    );
}

/// The header's numbers of a store are the crate's.
#[test]
fn numbers_of_the_header() {
    let header = include_str!("../../include/dispatch_bench.h");
    let number = |before: &str| -> u64 {
        let after = header.split(before).nth(1).unwrap();
        let digits = after.split(|c: char| !c.is_ascii_digit()).next().unwrap();
        digits.parse().unwrap()
    };
    assert_eq!(number("#define DISPATCH_BENCH_WEIGHTS "), SLOTS as u64);
    let bits = number("#define DISPATCH_BENCH_WEIGHT_BITS ");
    let third = StoreRefusal {
        number: 17,
        offset: 2 * bits,
    };
    assert_eq!(third.record(), Some(3));
    assert_eq!(number("DISPATCH_BENCH_TWO_VALUES = "), 17);
    assert_eq!(number("DISPATCH_BENCH_NO_WEIGHT = "), 18);
    // Of 257 whole records the last is refused, whatever follows it.
    let most = number("#define DISPATCH_BENCH_MOST_STORE_BYTES ") as usize;
    let many = store(&[whole()[0]; 300]);
    assert_eq!(most, 257 * 15);
    assert_eq!(weights(&many[..most], 100), weights(&many, 100));
    assert_ne!(weights(&many[..most - 1], 100), weights(&many, 100));
}

/// The sentences of a store's refusals are those of docs/manual/desk.md.
#[test]
fn the_manual_has_every_sentence() {
    let manual = include_str!("../../docs/manual/desk.md");
    for number in [1, 2, 7, 8, 11, 17, 18] {
        let refusal = StoreRefusal { number, offset: 0 };
        let row = format!("| {number} | {} | {} |", refusal.rule(), refusal.remedy());
        assert_eq!(manual.matches(&row).count(), 1, "{row}");
    }
}
