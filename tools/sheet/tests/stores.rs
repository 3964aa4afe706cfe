//! Stores of weights: written, shown, asked for a day, and named by a policy.

mod common;

use common::{files, here, name, run, text};
use sheet::store;
use sheetgen::rng::Rng;
use sheetgen::store::{RECORD_BYTES, Record, write};
use sheetgen::stores::{PROFILES, generate};

/// The store of a text among the examples.
fn example(name: &str) -> Vec<u8> {
    let path = here(&format!("examples/stores/{name}.txt"));
    store::write(&std::fs::read(path).unwrap()).unwrap()
}

/// What `show` prints of a store, written again, with names of each strategy and without.
fn is_kept(bytes: &[u8], what: &str) {
    for strategy in [None, Some(0), Some(1), Some(2)] {
        let shown = store::show(bytes, strategy);
        match store::write(shown.as_bytes()) {
            Ok(again) => assert_eq!(again, bytes, "{what}"),
            Err(faults) => panic!("{what}: {faults:?} in\n{shown}"),
        }
    }
}

#[test]
fn the_example_is_the_stored_one() {
    let stored = std::fs::read(here("examples/stores/corrections.store")).unwrap();
    assert_eq!(example("corrections"), stored);
    let printed = run(&["store", "example"], b"");
    let written = run(&["store", "write", "-"], &printed.stdout);
    assert_eq!(written.stdout, stored);
    let shown = run(&["store", "show", "-", "ETD"], &stored);
    let uncommented: Vec<String> = text(&printed.stdout)
        .lines()
        .map(|line| line.split('#').next().unwrap().trim().to_string())
        .filter(|line| !line.is_empty())
        .collect();
    let shown = text(&shown.stdout);
    let lines: Vec<&str> = shown.lines().collect();
    assert_eq!(lines[0], "# 150 bytes, 10 records");
    assert_eq!(lines[1..], uncommented);
}

#[test]
fn generated_stores_are_kept() {
    for (name, profile) in PROFILES {
        for index in 0..200 {
            let bytes = generate(profile, 7, index).bytes;
            is_kept(&bytes, &format!("{name} 7 {index}"));
        }
    }
}

#[test]
fn every_field_is_kept() {
    let mut rng = Rng::new(7, 2, 0);
    for k in 0..2_000 {
        let value = match k {
            0..64 => 1 << k,
            64..128 => u64::MAX << (k - 64),
            _ => rng.next(),
        };
        let record = Record {
            setting: rng.next() as u8,
            start: rng.next() as u32,
            issue: rng.next() as u16,
            value,
        };
        is_kept(&write(&[record]), &format!("{record:?}"));
    }
    for value in [0.0, -0.0, f64::NAN, f64::INFINITY, f64::NEG_INFINITY] {
        is_kept(&write(&[Record::new(0, 0, 0, value)]), &value.to_string());
    }
}

/// Of a store that is cut short every whole record is shown, then how many bytes are left.
#[test]
fn cut_short() {
    let bytes = example("corrections");
    for length in 0..bytes.len() {
        is_kept(&bytes[..length], &format!("{length} bytes"));
        let shown = text(&run(&["store", "show", "-"], &bytes[..length]).stdout);
        let whole = shown.lines().filter(|line| line.starts_with("weight "));
        assert_eq!(whole.count(), length / RECORD_BYTES);
        let said = match length % RECORD_BYTES {
            0 => "",
            1 => " # cut short: 1 byte of a record's 15\n",
            rest => &format!(" # cut short: {rest} bytes of a record's 15\n"),
        };
        assert!(shown.ends_with(said), "{shown}");
        assert_eq!(shown.contains("\nrest "), !said.is_empty());
    }
}

/// Any text has an answer, and what is written is kept.
#[test]
fn any_text_has_an_answer() {
    let example = std::fs::read(here("examples/stores/corrections.txt")).unwrap();
    let mut rng = Rng::new(7, 3, 0);
    let (mut written, mut refused) = (0, 0);
    for _ in 0..4_000 {
        let mut text = example.clone();
        for _ in 0..1 + rng.below(3) {
            let at = rng.below(text.len());
            match rng.below(3) {
                0 => text[at] = rng.next() as u8,
                1 => text[at] = rng.pick(b" =\n,:x0#-"),
                _ => text.truncate(at.max(1)),
            }
        }
        match store::write(&text) {
            Ok(bytes) => {
                is_kept(&bytes, "a changed text");
                written += 1;
            }
            Err(faults) => {
                assert!(faults.iter().all(|f| f.line > 0 && f.column > 0));
                refused += 1;
            }
        }
    }
    assert!(written > 300 && refused > 300, "{written} {refused}");
}

/// Each text of tests/bad_stores is refused with the stored message, and nothing is written.
#[test]
fn bad_texts() {
    let out = std::env::temp_dir().join(format!("sheet-store-{}", std::process::id()));
    std::fs::write(&out, "as before").unwrap();
    let paths = files("tests/bad_stores", "txt");
    assert!(paths.len() >= 22);
    for path in paths {
        let content = std::fs::read(&path).unwrap();
        let output = run(&["store", "write", "-", out.to_str().unwrap()], &content);
        assert_eq!(output.status.code(), Some(1), "{}", name(&path));
        assert_eq!(text(&output.stdout), "");
        let stored = std::fs::read(path.with_extension("err")).unwrap();
        assert_eq!(text(&output.stderr), text(&stored), "{}", name(&path));
        assert_eq!(std::fs::read(&out).unwrap(), b"as before");
    }
    std::fs::remove_file(&out).unwrap();
}

/// `store show` takes a text for the bytes that it is, and says so on standard error.
#[test]
fn a_text_is_shown_with_a_hint() {
    let example = std::fs::read(here("examples/stores/corrections.txt")).unwrap();
    let shown = run(&["store", "show", "-"], &example);
    assert_eq!(text(&shown.stderr), format!("-: hint: {}\n", store::HINT));
    assert_eq!(store::write(&shown.stdout).unwrap(), example);
}

#[test]
fn no_such_file() {
    for args in [
        &["store", "write", "/no/such/file"][..],
        &["store", "show", "/no/such/file"],
    ] {
        let output = run(args, b"");
        assert_eq!(output.status.code(), Some(1));
        assert!(text(&output.stderr).starts_with("/no/such/file: "));
        assert_eq!(text(&output.stdout), "");
    }
}

#[test]
fn no_such_day_or_strategy() {
    let most = "expected a day, 0 to 4294967295\n";
    let names = "expected a strategy, ETD, RSR or SCAN\n";
    for (args, said) in [
        (&["weights", "-", "today"][..], format!("\"today\": {most}")),
        (&["weights", "-", "-1"], format!("\"-1\": {most}")),
        (
            &["weights", "-", "4294967296"],
            format!("\"4294967296\": {most}"),
        ),
        (&["weights", "-", "1", "LOOK"], format!("\"LOOK\": {names}")),
        (&["show", "-", "etd"], format!("\"etd\": {names}")),
    ] {
        let output = run(&[&["store"], args].concat(), b"");
        assert_eq!(output.status.code(), Some(1));
        assert_eq!(
            (text(&output.stdout), text(&output.stderr)),
            ("".into(), said)
        );
    }
}

/// The text of a sheet whose policy names a store.
fn policy(strategy: &str, weights: &str) -> String {
    format!(
        "policy strategy={strategy} limit=none tick_rate=60 traffic=idle {weights}\nstop id=1 position=0\n"
    )
}

mod asked {
    use std::path::Path;

    use dispatch_bench::weights;
    use sheetgen::store::records;

    use super::*;

    /// The answers that stand beside the examples: `> DAY [STRATEGY]`, then the lines.
    #[test]
    fn answers_as_stored() {
        let paths = files("examples/stores", "txt");
        assert_eq!(paths.len(), 8);
        let mut asked = 0;
        for path in paths {
            let stored = text(&std::fs::read(path.with_extension("weights")).unwrap());
            for part in stored.split("> ").skip(1) {
                let (question, lines) = part.split_once('\n').unwrap();
                let words: Vec<&str> = question.split(' ').collect();
                let bytes = example(&name(&path));
                let output = run(&[&["store", "weights", "-"], &words[..]].concat(), &bytes);
                assert_eq!(output.status.code(), Some(0));
                assert_eq!(text(&output.stdout), lines, "{} {question}", name(&path));
                assert_eq!(text(&output.stderr), "");
                asked += 1;
            }
        }
        assert_eq!(asked, 12);
    }

    /// A minus zero is shown as `-0`, written back as such, and comes back with its bits.
    #[test]
    fn a_minus_zero() {
        let stored = example("same_values");
        let minus_zero = (-0.0f64).to_bits();
        assert_eq!(records(&stored)[3].value, minus_zero);
        let shown = store::show(&stored, None);
        let line = "weight setting=3 start=20454 issue=0 value=-0\n";
        assert_eq!(shown.matches(line).count(), 2);
        assert_eq!(store::write(shown.as_bytes()).unwrap(), stored);
        let six = weights(&stored, 20_454).unwrap();
        assert_eq!(six[3].to_bits(), minus_zero);
        let said = sheet::weights::weights(&stored, 20_454, None);
        assert!(said.contains("setting=3 value=-0 # record 4"), "{said}");
    }

    /// 257 records, of which the last is the refused one.
    #[test]
    fn a_full_store_and_one_more() {
        let record = |issue| Record::new(0, 20_454, issue, 1.0);
        let many: Vec<Record> = (0..257).map(record).collect();
        let said = sheet::weights::weights(&write(&many), 20_454, None);
        let lines: Vec<&str> = said.lines().collect();
        assert_eq!(lines[0], "refused 7 at 30720");
        let reason = "Record 257 (bit 30,720; byte 3,840, bit 0): a store has at most 256 records, but here are 257.";
        assert_eq!(lines[1], reason);
        let last = "text: weight setting=0 start=20454 issue=256 value=1";
        assert_eq!(lines[4], last);
        assert!(lines[5].contains("put right line 258 of a.txt"));
    }

    /// The values are the library's, each with a record that has it.
    fn is_answer(bytes: &[u8], day: u32, six: [f64; 6], said: &str) {
        let records = records(bytes);
        let lines: Vec<&str> = said.lines().collect();
        assert_eq!(lines.len(), 6);
        for (slot, (line, weight)) in lines.iter().zip(six).enumerate() {
            let shown = sheet::value::show_double(weight.to_bits());
            let start = format!("setting={slot} value={shown} # record ");
            let after = line.strip_prefix(&start).unwrap();
            let number = after.split(':').next().unwrap();
            let record = records[number.parse::<usize>().unwrap() - 1];
            assert_eq!(record.value, weight.to_bits());
            assert_eq!(usize::from(record.setting), slot);
            assert!(record.start <= day);
            let Record { start, issue, .. } = record;
            assert!(line.ends_with(&format!(": start={start} issue={issue}")));
        }
    }

    /// The record is named, its line is the one to put right, and the sentence is about it.
    fn is_explained(bytes: &[u8], day: u32, strategy: Option<u64>) -> Option<u32> {
        let said = sheet::weights::weights(bytes, day, strategy);
        let refusal = match weights(bytes, day) {
            Ok(six) => {
                if strategy.is_none() {
                    is_answer(bytes, day, six, &said);
                }
                return None;
            }
            Err(refusal) => refusal,
        };
        let lines: Vec<&str> = said.lines().collect();
        let number = refusal.number;
        let place = match (refusal.slot(), refusal.record()) {
            (Some(slot), _) => {
                assert_eq!(lines[0], format!("refused 18 at slot {slot}"));
                format!("Slot {slot}")
            }
            (_, record) => {
                assert_eq!(lines[0], format!("refused {number} at {}", refusal.offset));
                format!("Record {}", record.unwrap())
            }
        };
        assert!(
            lines[1].starts_with(&place) && lines[1].ends_with('.'),
            "{said}"
        );
        assert!(lines[1].len() > place.len() + 40, "{said}");
        assert_eq!(lines[2], format!("rule {number}: {}", refusal.rule()));
        assert_eq!(lines[3], format!("to do: {}", refusal.remedy()));
        if ![2, 18].contains(&number) {
            let line = lines[4].strip_prefix("text: ").unwrap();
            let (_, after) = lines[5].split_once("put right line ").unwrap();
            let at: usize = after
                .split(' ')
                .next()
                .unwrap()
                .replace(',', "")
                .parse()
                .unwrap();
            let shown = store::show(bytes, strategy);
            assert_eq!(shown.lines().nth(at - 1), Some(line));
        }
        Some(number)
    }

    #[test]
    fn every_generated_store_is_explained() {
        let mut seen = Vec::new();
        for (_, profile) in PROFILES {
            for index in 0..300 {
                let case = generate(profile, 11, index);
                let strategy = [None, Some(0), Some(1), Some(2)][index as usize % 4];
                seen.extend(is_explained(&case.bytes, case.day, strategy));
            }
        }
        seen.sort();
        seen.dedup();
        assert_eq!(seen, [2, 7, 8, 11, 17, 18]);
    }

    #[test]
    fn a_text_is_no_store() {
        let text = std::fs::read(here("examples/stores/corrections.txt")).unwrap();
        let said = sheet::weights::weights(&text, 20_500, None);
        assert!(said.starts_with("refused 8 at 0\n"));
        assert!(said.ends_with(&format!("hint: {}\n", store::HINT)));
    }

    /// A policy that names a store is the policy with that store's weights; an unused weight stays zero.
    #[test]
    fn a_policy_takes_the_weights() {
        let folder = here("examples/stores");
        let six = "1.5 1 0.75 -0 0.015625 0.25";
        let six: Vec<f64> = six.split(' ').map(|w| w.parse().unwrap()).collect();
        let path = std::env::temp_dir().join(format!("sheet-six-{}.store", std::process::id()));
        let record = |slot: usize| Record::new(slot as u8, 7, 0, six[slot]);
        std::fs::write(&path, write(&(0..6).map(record).collect::<Vec<_>>())).unwrap();
        let etd = "wait=1.5 delay=1 door=0.75 wait_squared=-0 age=0.015625";
        let rsr = "eta=1.5 wrong_direction=1 coincident_call=0.75 load=-0 age=0.015625 peak_multiplier=0.25";
        for (strategy, plain) in [("ETD", etd), ("RSR", rsr), ("SCAN", ""), ("3", "")] {
            let named = policy(strategy, &format!("weights={} day=7", path.display()));
            let plain = policy(strategy, plain);
            let named = sheet::text::write(named.as_bytes(), &folder).unwrap();
            let plain = sheet::text::write(plain.as_bytes(), &folder).unwrap();
            assert_eq!(named, plain, "{strategy}");
            assert_eq!(dispatch_bench::read(&named).is_ok(), strategy != "3");
        }
        std::fs::remove_file(&path).unwrap();
        let etd = policy("ETD", &etd.replace("=-0", "=0"));
        let named = policy("ETD", "weights=corrections.store day=20635");
        let named = sheet::text::write(named.as_bytes(), &folder).unwrap();
        assert_eq!(
            named,
            sheet::text::write(etd.as_bytes(), Path::new("")).unwrap()
        );
    }

    /// A store is looked for from the text's folder on; the program may run elsewhere.
    #[test]
    fn a_sheet_with_a_store() {
        let path = here("examples/stores/sheets/lobby.txt");
        let written = run(&["write", path.to_str().unwrap()], b"");
        assert_eq!(text(&written.stderr), "");
        let lobby = text(&std::fs::read(here("examples/lobby.txt")).unwrap());
        let weights = "wait=1 delay=1 door=0.5 wait_squared=0 age=0.005";
        assert!(lobby.contains(weights));
        let later = "wait=1.5 delay=1 door=0.75 wait_squared=0 age=0.015625";
        let plain = run(&["write", "-"], lobby.replace(weights, later).as_bytes());
        assert_eq!(written.stdout, plain.stdout);
        assert_eq!(dispatch_bench::read(&written.stdout), Ok(()));
    }

    /// A store that is refused, or is not there, is an error with its sentence, and nothing is written.
    #[test]
    fn a_refused_store_writes_no_sheet() {
        let folder = std::env::temp_dir().join(format!("sheet-refused-{}", std::process::id()));
        std::fs::create_dir_all(&folder).unwrap();
        let out = folder.join("out.sheet");
        std::fs::write(&out, "as before").unwrap();
        let many = write(&vec![Record::new(0, 1, 0, 1.0); 257]);
        for (number, bytes) in [
            (2, example("refusal_02_cut_short")),
            (7, many),
            (8, example("refusal_08_setting")),
            (11, example("refusal_11_value")),
            (17, example("refusal_17_two_values")),
            (18, example("refusal_18_missing")),
        ] {
            std::fs::write(folder.join("a.store"), &bytes).unwrap();
            let named = folder.join("named.txt");
            std::fs::write(&named, policy("ETD", "weights=a.store day=20454")).unwrap();
            let args = ["write", named.to_str().unwrap(), out.to_str().unwrap()];
            let output = run(&args, b"");
            assert_eq!(output.status.code(), Some(1), "{number}");
            let refusal = weights(&bytes, 20_454).unwrap_err();
            assert_eq!(refusal.number, number);
            let said = text(&output.stderr);
            let file = folder.join("a.store");
            let start = format!(
                "{}:1:58: weights: {} for day 20454: {refusal} ",
                named.display(),
                file.display()
            );
            assert!(said.starts_with(&start), "{said}");
            let reason = sheet::weights::weights(&bytes, 20_454, None);
            assert_eq!(
                said[start.len()..].trim_end(),
                reason.lines().nth(1).unwrap()
            );
            assert_eq!(std::fs::read(&out).unwrap(), b"as before");
        }
        let lost = policy("ETD", "weights=lost.store day=1");
        let faults = sheet::text::write(lost.as_bytes(), &folder).unwrap_err();
        let start = format!("weights: {}: ", folder.join("lost.store").display());
        assert!(faults[0].what.starts_with(&start));
        std::fs::remove_dir_all(&folder).unwrap();
    }

    /// The rules of a store stand in the manual, and so do the names of the examples.
    #[test]
    fn the_manual_has_every_rule_of_a_store() {
        let pages = ["MANUAL.md", "manual/planners.md", "manual/desk.md"];
        let page = |page: &str| text(&std::fs::read(here(&format!("../../docs/{page}"))).unwrap());
        let manual = pages.map(page).concat();
        for (number, rule) in &sheet::rules::STORE_RULES {
            let row = format!("| {number} | {} | {} |", rule.says, rule.remedy);
            assert!(manual.contains(&row), "{row}");
        }
        for path in files("examples/stores", "txt") {
            let name = name(&path);
            assert!(manual.contains(&format!("`{name}`")), "{name}");
        }
    }
}
