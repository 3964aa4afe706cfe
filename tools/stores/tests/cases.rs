//! Stores that are bad, or that look so, by name: what the proved look-up and the second one answer.

use dispatch_bench::{StoreRefusal, weights};
use sheetgen::store::{self, MOST_RECORDS, Record, write};

const DAY: u32 = 20_454;

/// 0 with the six, or a number with its record, from 0, or with the slot.
#[derive(Clone, Copy, Debug, PartialEq)]
enum Answer {
    Six([f64; 6]),
    Refused(u32, u64),
}
use Answer::{Refused, Six};

/// What the plain store answers: its values by slot.
const PLAIN: [f64; 6] = [0.5, 1.5, 2.5, 3.5, 4.5, 5.5];

/// A record for each slot, from the day on.
fn plain() -> Vec<Record> {
    let record = |slot: usize| Record::new(slot as u8, DAY, 0, PLAIN[slot]);
    (0..6).map(record).collect()
}

/// The plain store with records after it.
fn with(more: &[Record]) -> Vec<u8> {
    write(&[&plain(), more].concat())
}

/// The plain store with the first `bytes` bytes of records after it.
fn with_bytes(more: &[Record], bytes: usize) -> Vec<u8> {
    let mut all = with(more);
    all.truncate(6 * 15 + bytes);
    all
}

/// So many records: the plain store, then corrections of slot 0 that rise by issue. The last issue is the answer.
fn many(count: usize) -> Vec<u8> {
    let corrections = (6..count).map(|i| Record::new(0, DAY, i as u16, i as f64));
    with(&corrections.collect::<Vec<_>>())
}

/// The plain store without some slots.
fn without(slots: &[u8]) -> Vec<u8> {
    let mut records = plain();
    records.retain(|record| !slots.contains(&record.setting));
    write(&records)
}

fn first(value: f64) -> Answer {
    let mut six = PLAIN;
    six[0] = value;
    Six(six)
}

/// Name, store, day, answer.
type Case = (&'static str, Vec<u8>, u32, Answer);

fn lengths() -> Vec<Case> {
    let full = many(MOST_RECORDS);
    let last = Record::new(0, DAY, 999, 7.0);
    let one_more = [many(MOST_RECORDS), write(&[last])].concat();
    let ninety = |bytes| with_bytes(&[last], bytes);
    let mut cases = vec![
        ("empty store", vec![], DAY, Refused(18, 0)),
        ("empty store, day 0", vec![], 0, Refused(18, 0)),
        ("256 records", full, DAY, first(255.0)),
        ("257 records", one_more.clone(), DAY, Refused(7, 256)),
        ("300 records", many(300), DAY, Refused(7, 256)),
        ("nothing after six records", ninety(0), DAY, Six(PLAIN)),
        ("a seventh record", ninety(15), DAY, first(7.0)),
    ];
    for bytes in 1..15 {
        let alone = with(&[])[..bytes].to_vec();
        cases.push(("1 to 14 bytes", alone, DAY, Refused(2, 0)));
        let after = ninety(bytes);
        cases.push(("1 to 14 bytes of a seventh", after, DAY, Refused(2, 6)));
        let cut = one_more[..15 * 256 + bytes].to_vec();
        cases.push(("257th record cut short", cut, DAY, Refused(2, 256)));
    }
    cases
}

fn settings() -> Vec<Case> {
    let of = |setting, value| with(&[Record::new(setting, DAY, 1, value)]);
    let mut last = PLAIN;
    last[5] = 7.0;
    vec![
        ("setting 5", of(5, 7.0), DAY, Six(last)),
        ("setting 6", of(6, 7.0), DAY, Refused(8, 6)),
        ("setting 255", of(255, 7.0), DAY, Refused(8, 6)),
        ("setting 6 and a NaN", of(6, f64::NAN), DAY, Refused(8, 6)),
        (
            "setting 6 in a store cut short",
            [of(6, 7.0), vec![0]].concat(),
            DAY,
            Refused(8, 6),
        ),
        (
            "setting 6 as the 257th",
            [many(256), write(&[Record::new(6, DAY, 0, 7.0)])].concat(),
            DAY,
            Refused(7, 256),
        ),
    ]
}

fn values() -> Vec<Case> {
    let of = |bits: u64| {
        let record = Record {
            value: bits,
            ..Record::new(0, DAY, 1, 0.0)
        };
        with(&[record])
    };
    let double = |value: f64| of(value.to_bits());
    let (most, minus) = (1e9_f64.to_bits(), 1_u64 << 63);
    let outside = Refused(11, 6);
    vec![
        ("zero", double(0.0), DAY, first(0.0)),
        ("one step above zero", of(1), DAY, first(f64::from_bits(1))),
        ("one step below zero", of(minus + 1), DAY, outside),
        ("minus zero", double(-0.0), DAY, first(-0.0)),
        ("1,000,000,000", of(most), DAY, first(1e9)),
        (
            "one step below 1,000,000,000",
            of(most - 1),
            DAY,
            first(f64::from_bits(most - 1)),
        ),
        ("one step above 1,000,000,000", of(most + 1), DAY, outside),
        ("minus 1,000,000,000", double(-1e9), DAY, outside),
        ("the largest double", double(f64::MAX), DAY, outside),
        ("infinity", double(f64::INFINITY), DAY, outside),
        ("minus infinity", double(f64::NEG_INFINITY), DAY, outside),
        ("a NaN", of(0x7ff8_0000_0000_0000), DAY, outside),
        ("a signalling NaN", of(0x7ff0_0000_0000_0001), DAY, outside),
        ("a NaN with a sign", of(0xfff8_0000_0000_0000), DAY, outside),
        ("all ones", of(u64::MAX), DAY, outside),
        (
            "outside in a record that no day takes",
            with(&[Record::new(0, u32::MAX, 0, -1.0)]),
            DAY,
            outside,
        ),
    ]
}

fn two_values() -> Vec<Case> {
    let of = |value| Record::new(0, DAY, 1, value);
    let far = |one: f64, other: f64| {
        let between = (2..200).map(|issue| Record::new(1, DAY, issue, PLAIN[1]));
        let all = [vec![of(one)], between.collect(), vec![of(other)]].concat();
        with(&all)
    };
    let one_step = f64::from_bits(7_f64.to_bits() + 1);
    vec![
        (
            "one value twice",
            with(&[of(7.0), of(7.0)]),
            DAY,
            first(7.0),
        ),
        (
            "two values, adjacent",
            with(&[of(7.0), of(8.0)]),
            DAY,
            Refused(17, 7),
        ),
        (
            "two values, one step apart",
            with(&[of(7.0), of(one_step)]),
            DAY,
            Refused(17, 7),
        ),
        (
            "two values, far apart",
            far(7.0, 8.0),
            DAY,
            Refused(17, 205),
        ),
        (
            "three values",
            with(&[of(7.0), of(8.0), of(9.0)]),
            DAY,
            Refused(17, 7),
        ),
        (
            "a value twice, then another",
            with(&[of(7.0), of(7.0), of(8.0)]),
            DAY,
            Refused(17, 8),
        ),
        (
            "another in the middle of three",
            with(&[of(7.0), of(8.0), of(7.0)]),
            DAY,
            Refused(17, 7),
        ),
        (
            "two pairs, the later one closed first",
            with(&[
                of(7.0),
                Record::new(1, DAY, 1, 1.0),
                Record::new(1, DAY, 1, 2.0),
                of(8.0),
            ]),
            DAY,
            Refused(17, 8),
        ),
        (
            "zero and minus zero",
            with(&[of(0.0), of(-0.0)]),
            DAY,
            Refused(17, 7),
        ),
        ("minus zero and zero", far(-0.0, 0.0), DAY, Refused(17, 205)),
        (
            "minus zero twice",
            with(&[of(-0.0), of(-0.0)]),
            DAY,
            first(-0.0),
        ),
        (
            "two values where no day takes them",
            with(&[
                Record::new(0, u32::MAX, 0, 7.0),
                Record::new(0, u32::MAX, 0, 8.0),
            ]),
            DAY,
            Refused(17, 7),
        ),
        (
            "two values before a missing slot",
            with(&[of(7.0), of(8.0)]),
            0,
            Refused(17, 7),
        ),
        (
            "two values before a value outside",
            with(&[of(7.0), of(8.0), of(-1.0)]),
            DAY,
            Refused(11, 8),
        ),
        (
            "other settings, days and issues",
            with(&[
                of(7.0),
                Record::new(0, DAY, 2, 8.0),
                Record::new(0, DAY - 1, 1, 9.0),
            ]),
            DAY,
            first(8.0),
        ),
    ]
}

fn days() -> Vec<Case> {
    let zero = write(
        &plain()
            .iter()
            .map(|r| Record { start: 0, ..*r })
            .collect::<Vec<_>>(),
    );
    let last = with(&[Record::new(0, u32::MAX, 0, 7.0)]);
    let earlier = with(&[Record::new(0, DAY - 1, u16::MAX, 7.0)]);
    vec![
        ("day 0", zero, 0, Six(PLAIN)),
        ("day 0 before every start", with(&[]), 0, Refused(18, 0)),
        ("the day before", with(&[]), DAY - 1, Refused(18, 0)),
        ("day 4,294,967,295", last.clone(), u32::MAX, first(7.0)),
        ("day 4,294,967,294", last, u32::MAX - 1, Six(PLAIN)),
        (
            "an earlier start with a higher issue",
            earlier,
            DAY,
            Six(PLAIN),
        ),
        ("slot 0 missing", without(&[0]), DAY, Refused(18, 0)),
        ("slot 3 missing", without(&[3]), DAY, Refused(18, 3)),
        ("slot 5 missing", without(&[5]), DAY, Refused(18, 5)),
        (
            "slots 2 and 4 missing",
            without(&[4, 2]),
            DAY,
            Refused(18, 2),
        ),
        (
            "slot 2 missing, slot 1 not started",
            [without(&[1, 2]), write(&[Record::new(1, DAY + 1, 0, 7.0)])].concat(),
            DAY,
            Refused(18, 1),
        ),
    ]
}

/// The bits of the six, or number and offset.
type Bits = Result<[u64; 6], (u32, u64)>;

fn wanted(answer: Answer) -> Bits {
    match answer {
        Six(six) => Ok(six.map(f64::to_bits)),
        Refused(18, slot) => Err((18, slot)),
        Refused(number, record) => Err((number, 120 * record)),
    }
}

#[test]
fn cases_by_name() {
    let mut tried = 0;
    for (name, bytes, day, answer) in
        [lengths(), settings(), values(), two_values(), days()].concat()
    {
        let proved: Bits = match weights(&bytes, day) {
            Ok(six) => Ok(six.map(f64::to_bits)),
            Err(StoreRefusal { number, offset }) => Err((number, offset)),
        };
        let second = store::weights(&bytes, day).map_err(|r| (r.number, r.offset));
        assert_eq!(proved, wanted(answer), "{name}, {} bytes", bytes.len());
        assert_eq!(second, wanted(answer), "{name}, second");
        tried += 1;
    }
    assert_eq!(tried, 7 + 3 * 14 + 6 + 16 + 15 + 11);
}
