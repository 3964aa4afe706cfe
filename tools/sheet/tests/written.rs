//! What `write` puts field by field is what the typed writer of the proved library puts record by record, wherever that takes the records.

mod common;

use common::{files, here, name};
use dispatch_bench::record::Sheet;
use dispatch_bench::{StoreEntry, write_store};
use sheetgen::generate::{PROFILES, generate};

/// The records of an accepted sheet by their names, written one after the other.
fn typed(bytes: &[u8]) -> Option<Vec<u8>> {
    Some(Sheet::read(bytes).ok()?.write().unwrap())
}

#[test]
fn accepted_texts() {
    let (mut accepted, mut refused) = (0, 0);
    for folder in ["examples", "tests/explained", "tests/texts"] {
        for path in files(folder, "txt") {
            let text = std::fs::read(&path).unwrap();
            let bytes = sheet::text::write(&text, &here("examples/stores")).unwrap();
            match typed(&bytes) {
                Some(typed) => {
                    assert!(typed == bytes, "{}", name(&path));
                    accepted += 1;
                }
                None => refused += 1,
            }
        }
    }
    assert!(accepted > 15 && refused > 50, "{accepted} and {refused}");
}

#[test]
fn generated_sheets() {
    let mut accepted = 0;
    for (profile_name, profile) in PROFILES {
        for index in 0..20 {
            let sheet = generate(profile, 6, index);
            let text = sheet::show::show(&sheet);
            let bytes = sheet::text::write(text.as_bytes(), &here("")).unwrap();
            assert!(bytes == sheet, "{profile_name} {index}");
            if let Some(typed) = typed(&bytes) {
                assert!(typed == bytes, "{profile_name} {index}");
                accepted += 1;
            }
        }
    }
    assert!(accepted > 200, "{accepted} were accepted");
}

/// The stores whose records are whole and at most 256, each weight a number.
#[test]
fn stores() {
    let mut written = 0;
    for path in files("examples/stores", "txt") {
        let bytes = sheet::store::write(&std::fs::read(&path).unwrap()).unwrap();
        let entry = |record: &sheetgen::store::Record| StoreEntry {
            setting: record.setting,
            start: record.start,
            issue: record.issue,
            value: record.double(),
        };
        let entries: Vec<StoreEntry> = sheetgen::store::records(&bytes).iter().map(entry).collect();
        let is_whole = bytes.len() == 15 * entries.len();
        if !is_whole || entries.len() > 256 || entries.iter().any(|entry| entry.value.is_nan()) {
            continue;
        }
        assert!(
            write_store(&entries).as_ref() == Ok(&bytes),
            "{}",
            name(&path)
        );
        written += 1;
    }
    assert!(written > 4, "{written} were written");
}
