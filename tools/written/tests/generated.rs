//! Sheets and stores of every profile of tools/sheetgen: the proved writer gives the bytes that the second writer gives, and the crate reads the
//! records that the second reader reads.

use dispatch_bench::record::Sheet;
use dispatch_bench::{NotWritten, StoreEntry, write_store};
use sheetgen::generate::{PROFILES, generate};
use sheetgen::{store, stores};
use written::sheet_of;

/// The sheets of each profile.
const SHEETS: u64 = 200;

#[test]
fn generated_sheets() {
    let mut accepted = 0;
    for (name, profile) in PROFILES {
        for index in 0..SHEETS {
            let bytes = generate(profile, 5, index);
            let Ok(read) = Sheet::read(&bytes) else {
                assert!(sheetgen::read(&bytes).is_some(), "{name} {index}");
                continue;
            };
            let records = sheet_of(&sheetgen::Sheet::of_accepted(&bytes));
            assert_eq!(read, records, "{name} {index}");
            assert!(records.write().as_deref() == Ok(&bytes), "{name} {index}");
            assert!(read.write().as_deref() == Ok(&bytes), "{name} {index}");
            accepted += 1;
        }
    }
    assert!(accepted > 13 * SHEETS, "{accepted} were accepted");
}

/// A record with the bits that a writer of doubles gives: every NaN is the quiet one.
fn entry(record: &store::Record) -> StoreEntry {
    StoreEntry {
        setting: record.setting,
        start: record.start,
        issue: record.issue,
        value: record.double(),
    }
}

fn with_quiet_nans(record: &store::Record) -> store::Record {
    match record.double().is_nan() {
        true => store::Record {
            value: 0x7ff8_0000_0000_0000,
            ..*record
        },
        false => *record,
    }
}

#[test]
fn generated_stores() {
    let (mut written, mut full) = (0, 0);
    for (name, profile) in stores::PROFILES {
        for index in 0..SHEETS {
            let records = store::records(&stores::generate(profile, 5, index).bytes);
            let entries: Vec<StoreEntry> = records.iter().map(entry).collect();
            if records.len() > store::MOST_RECORDS {
                assert_eq!(
                    write_store(&entries),
                    Err(NotWritten::Full),
                    "{name} {index}"
                );
                full += 1;
                continue;
            }
            let wanted: Vec<store::Record> = records.iter().map(with_quiet_nans).collect();
            assert!(
                write_store(&entries).as_deref() == Ok(&store::write(&wanted)),
                "{name} {index}"
            );
            written += 1;
        }
    }
    assert!(
        written > 1_000 && full > 5,
        "{written} written, {full} full"
    );
}
