//! The writer: document 01's example, the stored sheets read and written again, what is not written, and stores.

use std::num::NonZeroU32;
use std::path::Path;

use dispatch_bench::record::{
    Aboard, Car, Closed, Demand, Edition, EtdWeights, Line, Phase, Policy, Record, Sheet, Stop,
    Strategy, Traffic, Waiting, mask,
};
use dispatch_bench::{
    NotWritten, SHEET_BYTES, SheetWriter, StoreEntry, SweepDirection, SweepMode, pass, put_field,
    read, weights, write_store,
};

const EXAMPLE: &[u8] = include_bytes!("../../crates/passprint/stdin");

const POLICY: Policy = Policy {
    strategy: Strategy::Scan,
    limit: None,
    tick_rate: 60.0,
    traffic: Traffic::Idle,
};

fn stop(id: u32, position: f64) -> Stop {
    Stop {
        id,
        position,
        across: 0.0,
    }
}

fn car(id: u32, position: f64) -> Car {
    Car {
        id,
        line: 1,
        idle_listed: true,
        going_up: true,
        going_down: true,
        position,
        max_speed: 2.0,
        capacity: 100.0,
        ..Car::default()
    }
}

fn call(stop: u32) -> Demand {
    Demand {
        stop,
        riding_count: 0,
        riderless_call: true,
    }
}

/// Document 01's example.
fn put_example(writer: &mut SheetWriter) -> Result<(), NotWritten> {
    writer
        .put(POLICY)?
        .put(stop(1, 0.0))?
        .put(stop(2, 10.0))?
        .put(stop(3, 20.0))?
        .put(Line {
            id: 1,
            serves: mask(0..3).unwrap(),
        })?
        .put(car(7, 0.0))?
        .put(car(8, 20.0))?
        .put(call(2))?
        .put(call(3))?;
    Ok(())
}

#[test]
fn the_example_in_bytes_of_its_own_and_in_lent_ones() {
    let mut writer = SheetWriter::new(Edition::First);
    put_example(&mut writer).unwrap();
    assert_eq!(writer.sheet(), EXAMPLE);
    assert_eq!(
        format!("{writer:?}"),
        "SheetWriter { policies: 1, stops: 3, lines: 1, cars: 2, aboard: 0, waiting: 0, demands: 2, closed: 0 }"
    );
    assert_eq!(writer.finish(), EXAMPLE);
    let mut bytes = [0xff; SHEET_BYTES];
    let mut writer = SheetWriter::lent(&mut bytes, Edition::First).unwrap();
    put_example(&mut writer).unwrap();
    assert_eq!(writer.sheet(), EXAMPLE);
    assert!(bytes[EXAMPLE.len()..].iter().all(|byte| *byte == 0xff));
}

/// The accepted sheets of ../fuzz/corpus_pass.
fn accepted() -> Vec<(String, Vec<u8>)> {
    let folder = Path::new(env!("CARGO_MANIFEST_DIR")).join("../fuzz/corpus_pass");
    let mut sheets = Vec::new();
    for entry in std::fs::read_dir(folder).unwrap() {
        let path = entry.unwrap().path();
        let bytes = std::fs::read(&path).unwrap();
        if read(&bytes).is_ok() {
            sheets.push((path.display().to_string(), bytes));
        }
    }
    sheets
}

#[test]
fn accepted_sheets_are_read_and_written_again() {
    let (mut seen, mut editions) = ([0; 8], [0; 2]);
    for (name, bytes) in accepted() {
        let sheet = Sheet::read(&bytes).unwrap();
        assert!(sheet.write().unwrap() == bytes, "{name}");
        editions[usize::from(sheet.edition == Edition::Second)] += 1;
        for record in &sheet.records {
            seen[kind(record)] += 1;
        }
    }
    assert!(editions.iter().sum::<usize>() > 40, "{editions:?}");
    assert!(editions.iter().all(|n| *n > 3), "{editions:?}");
    assert!(seen.iter().all(|n| *n > 5), "{seen:?}");
}

fn kind(record: &Record) -> usize {
    match record {
        Record::Policy(_) => 0,
        Record::Stop(_) => 1,
        Record::Line(_) => 2,
        Record::Car(_) => 3,
        Record::Aboard(_) => 4,
        Record::Waiting(_) => 5,
        Record::Demand(_) => 6,
        Record::Closed(_) => 7,
    }
}

/// A record of each kind with every field, none of them as another.
fn every_field() -> Vec<Record> {
    let full = Car {
        phase: Phase::Moving(2),
        target: NonZeroU32::new(3),
        going_down: false,
        sweep: SweepDirection::Down,
        mode: SweepMode::Lenient,
        across: 1.5,
        load: 10.0,
        up_threshold: Some(0.5),
        down_threshold: Some(0.75),
        transition_ticks: 11,
        open_ticks: 12,
        restricted: mask([2]).unwrap(),
        car_calls: mask([0, 1]).unwrap(),
        ..car(7, 3.25)
    };
    let etd = EtdWeights {
        wait: 1.0,
        delay: 2.0,
        door: 3.0,
        wait_squared: 4.0,
        age: 5.0,
    };
    vec![
        Policy {
            strategy: Strategy::Etd(etd),
            limit: Some(2),
            traffic: Traffic::InterFloor,
            ..POLICY
        }
        .into(),
        stop(1, 0.0).into(),
        stop(2, -4.0).into(),
        Stop {
            across: -0.0,
            ..stop(3, 8.0)
        }
        .into(),
        Line {
            id: 1,
            serves: mask(0..3).unwrap(),
        }
        .into(),
        full.into(),
        Aboard {
            car: 7,
            destination: NonZeroU32::new(2),
        }
        .into(),
        Waiting {
            stop: 3,
            required_line: NonZeroU32::new(1),
            destination: None,
            weight: 75.5,
            wait_ticks: 1 << 53,
        }
        .into(),
        Demand {
            stop: 2,
            riding_count: 65_535,
            riderless_call: false,
        }
        .into(),
        Closed { stop: 1 }.into(),
    ]
}

#[test]
fn every_field_comes_back() {
    let sheet = Sheet {
        edition: Edition::Second,
        records: every_field(),
    };
    let bytes = sheet.write().unwrap();
    let back = Sheet::read(&bytes).unwrap();
    assert_eq!(back, sheet);
    // minus zero is equal to zero, but not its bits
    let across = back.records.iter().find_map(|record| match record {
        Record::Stop(stop) if stop.id == 3 => Some(stop.across.to_bits()),
        _ => None,
    });
    assert_eq!(across, Some((-0.0_f64).to_bits()));
}

#[test]
fn edition_1_has_no_second_coordinate() {
    let sheet = Sheet {
        edition: Edition::First,
        records: every_field(),
    };
    let back = Sheet::read(&sheet.write().unwrap()).unwrap();
    let Record::Car(car) = back.records[5] else {
        panic!("{:?}", back.records[5]);
    };
    assert_eq!((car.across, car.load), (0.0, 10.0));
}

#[test]
fn what_a_record_is_can_be_read() {
    let text = format!("{:?}", every_field()[6]);
    assert_eq!(text, "Aboard(Aboard { car: 7, destination: Some(2) })");
}

#[test]
fn a_limit_is_swept() {
    let mut sheet = Sheet::read(EXAMPLE).unwrap();
    let ranked = [1, 2].map(|limit| {
        let Record::Policy(policy) = &mut sheet.records[0] else {
            panic!("{:?}", sheet.records[0]);
        };
        policy.limit = Some(limit);
        pass(&sheet.write().unwrap()).unwrap().ranked
    });
    assert_eq!(ranked, [2, 4]);
}

#[test]
fn out_of_order_and_full() {
    let mut writer = SheetWriter::new(Edition::First);
    assert_eq!(writer.put(stop(1, 0.0)).err(), Some(NotWritten::OutOfOrder));
    writer.put(POLICY).unwrap();
    assert_eq!(writer.put(POLICY).err(), Some(NotWritten::Full));
    for id in 1..=8 {
        writer.put(Line { id, serves: 0 }).unwrap();
    }
    assert_eq!(writer.put(Line::default()).err(), Some(NotWritten::Full));
    assert_eq!(writer.put(stop(1, 0.0)).err(), Some(NotWritten::OutOfOrder));
    let lines = Sheet::read(writer.sheet()).unwrap().records.len() - 1;
    assert_eq!(lines, 8, "what was refused left nothing");
}

#[test]
fn lent_bytes_end() {
    let mut two = [7; 2];
    assert_eq!(
        SheetWriter::lent(&mut two, Edition::First).err(),
        Some(NotWritten::NoRoom)
    );
    let mut bytes = [0; 65];
    let mut writer = SheetWriter::lent(&mut bytes, Edition::First).unwrap();
    writer.put(POLICY).unwrap();
    assert_eq!(writer.put(stop(1, 0.0)).err(), Some(NotWritten::NoRoom));
    assert_eq!(writer.sheet().len(), 65);
    assert!(SheetWriter::lent(&mut [], Edition::First).is_err());
}

/// A writer with bytes of its own takes as many records as the head can count.
#[test]
fn the_most_records() {
    let mut writer = SheetWriter::new(Edition::First);
    writer.put(POLICY).unwrap();
    for _ in 1..65_535 {
        writer.put(Closed { stop: 1 }).unwrap();
    }
    assert_eq!(writer.put(Closed { stop: 1 }).err(), Some(NotWritten::Full));
    let sheet = writer.finish();
    assert_eq!(sheet.len(), (24 + 490 + 65_534 * 54_usize).div_ceil(8));
    assert_eq!(sheet[1..3], [255, 255]);
}

#[test]
fn the_sentences() {
    let all = [
        NotWritten::NoRoom,
        NotWritten::OutOfOrder,
        NotWritten::Full,
        NotWritten::NotHeld,
        NotWritten::Unknown(9),
    ];
    assert_eq!(all.map(|refused| refused.number()), [2, 6, 7, 8, 9]);
    assert_eq!(
        all[0].to_string(),
        "not written: the bytes that were lent end before the record or the field does"
    );
    assert_eq!(all[4].to_string(), "not written: the library answered 9");
}

#[test]
fn stores() {
    let entry = |setting, issue, value| StoreEntry {
        setting,
        start: 100,
        issue,
        value,
    };
    let mut entries: Vec<StoreEntry> = (0..6).map(|slot| entry(slot, 0, 1.5)).collect();
    entries.push(entry(2, 1, -0.0));
    let store = write_store(&entries).unwrap();
    assert_eq!(store.len(), 105);
    assert_eq!(store[90..97], [2, 0, 0, 0, 100, 0, 1]);
    let six = weights(&store, 100).unwrap();
    assert_eq!(six.map(f64::to_bits)[2], (-0.0_f64).to_bits());
    assert_eq!(six[5], 1.5);
    entries.resize(256, entry(0, 0, 1.5));
    assert_eq!(write_store(&entries).unwrap().len(), 3_840);
    entries.push(entry(0, 0, 1.5));
    assert_eq!(write_store(&entries), Err(NotWritten::Full));
    assert_eq!(write_store(&[]), Ok(vec![]));
}

/// The `width` bits from bit `at`.
fn bits(bytes: &[u8], at: usize, width: usize) -> u64 {
    let bit = |k: usize| u64::from(bytes[k / 8] >> (7 - k % 8) & 1);
    (at..at + width).fold(0, |value, k| value << 1 | bit(k))
}

/// Every width at every bit of a few bytes: the field is read back, and every other bit is kept.
#[test]
fn a_field_of_every_width_and_place() {
    let mut put = 0;
    for before in [0x00, 0xff, 0xa5] {
        for width in 0..=64 {
            for at in 0..=80 - width {
                let value = 0x9e37_79b9_7f4a_7c15_u64
                    .checked_shr(64 - width as u32)
                    .unwrap_or(0);
                let mut bytes = [before; 10];
                assert_eq!(
                    put_field(&mut bytes, at as u32, width as u32, value),
                    Ok(())
                );
                assert_eq!(bits(&bytes, at, width), value, "{width} bits at {at}");
                for k in (0..at).chain(at + width..80) {
                    assert_eq!(bits(&bytes, k, 1), bits(&[before; 10], k, 1), "bit {k}");
                }
                put += 1;
            }
        }
    }
    assert_eq!(put, 3 * 65 * (81 + 17) / 2);
}

#[test]
fn fields_that_are_not_put() {
    for (at, width, value, wanted) in [
        (0, 65, 0, NotWritten::NotHeld),
        (0, u32::MAX, 0, NotWritten::NotHeld),
        (0, 0, 1, NotWritten::NotHeld),
        (0, 3, 8, NotWritten::NotHeld),
        (0, 63, 1 << 63, NotWritten::NotHeld),
        (u32::MAX, 3, 8, NotWritten::NotHeld),
        (1, 64, 0, NotWritten::NoRoom),
        (64, 1, 1, NotWritten::NoRoom),
        (65, 0, 0, NotWritten::NoRoom),
        (u32::MAX, 64, 0, NotWritten::NoRoom),
    ] {
        let mut bytes = [0x5a; 8];
        let answered = put_field(&mut bytes, at, width, value);
        assert_eq!(answered, Err(wanted), "{width} bits at {at}");
        assert_eq!(bytes, [0x5a; 8]);
    }
    assert_eq!(put_field(&mut [], 0, 0, 0), Ok(()));
    assert_eq!(put_field(&mut [], 0, 1, 0), Err(NotWritten::NoRoom));
}

/// Document 01's example field by field is what the writer of records writes.
#[test]
fn a_sheet_by_its_fields() {
    let mut sheet = vec![0; EXAMPLE.len()];
    for at in (0..8 * EXAMPLE.len()).step_by(13) {
        let width = 13.min(8 * EXAMPLE.len() - at);
        put_field(
            &mut sheet,
            at as u32,
            width as u32,
            bits(EXAMPLE, at, width),
        )
        .unwrap();
    }
    assert_eq!(sheet, EXAMPLE);
}
