//! The crate on stored sheets: those of ../fuzz/corpus_pass, whose refused ones are named after their number.

use std::num::NonZeroU32;
use std::path::Path;

use dispatch_bench::{
    Buffers, CEILING, Refusal, SENTINEL, STOPS, Sweep, SweepDirection, SweepMode, VERSION, cars,
    choose, pass, pass_into, pending, pending_into, read, version,
};

const EXAMPLE: &[u8] = include_bytes!("../../crates/passprint/stdin");

fn corpus() -> Vec<(String, Vec<u8>)> {
    let folder = Path::new(env!("CARGO_MANIFEST_DIR")).join("../fuzz/corpus_pass");
    let mut sheets = Vec::new();
    for entry in std::fs::read_dir(folder).unwrap() {
        let path = entry.unwrap().path();
        let name = path.file_name().unwrap().to_string_lossy().into_owned();
        sheets.push((name, std::fs::read(path).unwrap()));
    }
    assert!(sheets.len() > 50);
    sheets
}

/// The number in a name such as refusal_11_speed.
fn number_of(name: &str) -> Option<u32> {
    name.strip_prefix("refusal_")?.get(..2)?.parse().ok()
}

#[test]
fn the_example() {
    let pass = pass(EXAMPLE).unwrap();
    assert_eq!((pass.cars, pass.stops, pass.total), (2, 2, 10_000_000));
    assert_eq!(pass.held, 0);
    assert_eq!(pass.decisions, [NonZeroU32::new(2), NonZeroU32::new(3)]);
    let rows: Vec<&[u64]> = pass.rows().collect();
    assert_eq!(rows.len(), 2);
    assert_eq!(rows[0][0] + rows[1][1], 10_000_000);
    let sweeps: Vec<_> = pass
        .sweeps
        .iter()
        .map(|s| (s.direction(), s.mode()))
        .collect();
    assert_eq!(
        sweeps,
        [
            (SweepDirection::Up, SweepMode::Strict),
            (SweepDirection::Down, SweepMode::Lenient)
        ]
    );
    assert_eq!(pass.sweeps[1].code(), 3);
}

#[test]
fn refused_sheets_get_their_numbers() {
    let mut seen = [false; 17];
    for (name, sheet) in corpus() {
        let refused = read(&sheet);
        assert_eq!(refused.err().map(|r| r.number), number_of(&name), "{name}");
        assert_eq!(pass(&sheet).err(), refused.err(), "{name}");
        seen[number_of(&name).unwrap_or(0) as usize] = true;
    }
    let unseen: Vec<usize> = (0..17).filter(|n| !seen[*n]).collect();
    assert_eq!(
        unseen,
        [1, 15],
        "no sheet is refused by 1 or 15, every other number has one"
    );
}

#[test]
fn buffers_are_lent_again() {
    let mut buffers = Buffers::new();
    for (name, sheet) in corpus() {
        let before = buffers.clone();
        match (pass(&sheet), pass_into(&sheet, &mut buffers)) {
            (Ok(owned), Ok(lent)) => {
                assert_eq!(owned.decisions, lent.decisions, "{name}");
                assert_eq!(owned.matrix, lent.matrix, "{name}");
                assert_eq!(owned.sweeps, lent.sweeps, "{name}");
                assert_eq!(owned.total, lent.total, "{name}");
                assert_eq!(owned.held, lent.held, "{name}");
                assert_eq!(lent.rows().count(), lent.cars, "{name}");
                assert_eq!(lent.sweeps.len(), cars(&sheet).count(), "{name}");
            }
            (Err(owned), Err(lent)) => {
                assert_eq!(owned, lent, "{name}");
                assert_eq!(before, buffers, "{name}");
            }
            (owned, _) => panic!("{name}: one of the two was refused: {owned:?}"),
        }
    }
}

#[test]
fn further_entries_are_kept() {
    let mut buffers = Buffers::new();
    buffers.decisions = vec![NonZeroU32::new(99); 40];
    buffers.matrix = vec![99; 3_000];
    pass_into(EXAMPLE, &mut buffers).unwrap();
    assert!(
        buffers.decisions[2..]
            .iter()
            .all(|d| *d == NonZeroU32::new(99))
    );
    assert!(buffers.matrix[4..].iter().all(|cell| *cell == 99));
}

#[test]
fn short_buffers_are_refused_first() {
    let refusal = Refusal {
        number: 1,
        offset: 0,
    };
    for sheet in [EXAMPLE, b"no sheet"] {
        let mut short = [Buffers::new(), Buffers::new(), Buffers::new()];
        short[0].decisions.truncate(31);
        short[1].matrix.truncate(2_047);
        short[2].sweeps = Vec::<Sweep>::new();
        for buffers in &mut short {
            assert_eq!(pass_into(sheet, buffers), Err(refusal));
        }
    }
}

#[test]
fn any_bytes_have_an_answer() {
    let long = vec![0xff; 70_000];
    for length in [0, 1, 2, 3, 5, 66, 65_536, 70_000] {
        let refusal = pass(&long[..length]).unwrap_err();
        assert_eq!(refusal.number, if length < 3 { 2 } else { 3 });
        assert_eq!(cars(&long[..length]).count(), 0);
    }
    for cut in 0..EXAMPLE.len() {
        let refusal = pass(&EXAMPLE[..cut]).unwrap_err();
        assert_eq!(refusal.number, 2, "the first {cut} bytes");
        assert!(cars(&EXAMPLE[..cut]).count() <= 2);
    }
}

#[test]
fn the_matcher() {
    assert_eq!(choose(0, 0, &[]).unwrap().total, 0);
    assert_eq!(choose(2, 2, &[5; 4]).unwrap().columns, [0, 1]);
    let p3 = [SENTINEL - 1, 1, SENTINEL, SENTINEL - 1];
    let choice = choose(2, 2, &p3).unwrap();
    assert_eq!((choice.columns, choice.total), (vec![1, 0], SENTINEL + 1));
    assert_eq!(
        choose(32, 64, &[SENTINEL; 2_048]).unwrap().total,
        32 * SENTINEL
    );
    assert_eq!(choose(33, 64, &[0; 33 * 64]), None);
    assert_eq!(choose(1, 1, &[SENTINEL + 1]), None);
    assert_eq!(choose(usize::MAX, usize::MAX, &[0]), None);
}

/// The pending stops are the columns of the pass: as many, rising, and a sent car's stop is that of the column that was chosen for it.
#[test]
fn pending_stops_are_the_columns() {
    let mut sent = 0;
    for (name, sheet) in corpus() {
        let (Ok(pass), Ok(stops)) = (pass(&sheet), pending(&sheet)) else {
            assert_eq!(pending(&sheet).err(), read(&sheet).err(), "{name}");
            assert!(pass(&sheet).is_err(), "{name}");
            continue;
        };
        assert_eq!(stops.len(), pass.stops, "{name}");
        assert!(stops.is_sorted_by(|a, b| a < b), "{name}");
        let columns = choose(pass.cars, pass.columns(), &pass.matrix)
            .unwrap()
            .columns;
        for (column, decision) in columns.iter().zip(&pass.decisions) {
            if let Some(stop) = decision {
                assert_eq!(stops.get(*column as usize), Some(&stop.get()), "{name}");
                sent += 1;
            }
        }
    }
    assert!(sent > 80, "{sent} cars are sent");
}

/// Held cells are cells at the ceiling; a sheet without one at the ceiling has none that is held.
#[test]
fn held_cells_are_at_the_ceiling() {
    for (name, sheet) in corpus() {
        let Ok(pass) = pass(&sheet) else { continue };
        let ceiling = pass.matrix.iter().filter(|cell| **cell == CEILING);
        assert!(pass.held <= ceiling.count() as u64, "{name}");
        assert_eq!(pass.held > 0, name.contains("ceiling"), "{name}");
    }
}

/// A car 6, 4 and 2 seconds from three stops, by the weight of a second: at the ceiling, last places around it, below and above.
#[test]
fn a_value_that_rounds_to_the_ceiling_is_not_held() {
    // Bits 130 to 193: the first weight of the policy.
    let put = |sheet: &mut [u8], weight: f64| {
        for k in 0..64 {
            let (byte, bit) = ((130 + k) / 8, 0x80 >> ((130 + k) % 8));
            match weight.to_bits() << k >> 63 {
                0 => sheet[byte] &= !bit,
                _ => sheet[byte] |= bit,
            }
        }
    };
    let (_, stored) = corpus().into_iter().find(|s| s.0 == "ceiling").unwrap();
    let mut sheet = stored.clone();
    put(&mut sheet, 140_737_488.355_327_5);
    assert_eq!(sheet, stored);
    let mut seen = [0; 2];
    for whole in [140_737_488.355_327_5_f64, 70_368_744.177_663_75, 1.0, 1e9] {
        for bits in whole.to_bits() - 40..whole.to_bits() + 40 {
            let weight = f64::from_bits(bits).min(1e9);
            put(&mut sheet, weight);
            let pass = pass(&sheet).unwrap();
            let rounded = [6.0, 4.0, 2.0].map(|seconds| (weight * seconds * 1e6).round());
            let cells = rounded.map(|value| value.min(CEILING as f64) as u64);
            let held = rounded.iter().filter(|value| **value > CEILING as f64);
            assert_eq!(pass.matrix, cells, "{weight}");
            assert_eq!(pass.held, held.count() as u64, "{weight}");
            for (value, cell) in rounded.iter().zip(cells) {
                seen[usize::from(*value > CEILING as f64)] += usize::from(cell == CEILING);
            }
        }
    }
    assert!(seen.iter().all(|often| *often > 15), "{seen:?}");
}

/// A closed landing is not pending, whoever waits there, and not where a rider of an idle car is bound for it: no car is sent there.
#[test]
fn closed_landings() {
    let sheet = |name: &str| {
        let found = corpus().into_iter().find(|sheet| sheet.0 == name);
        found.unwrap().1
    };
    assert_eq!(pending(&sheet("closed_landing")), Ok(vec![1]));
    let bound = sheet("closed_bound");
    assert_eq!(pending(&bound), Ok(vec![1]));
    let decisions = pass(&bound).unwrap().decisions;
    assert_eq!(decisions, [NonZeroU32::new(1), None]);
    let ids: Vec<u32> = cars(&bound).map(|car| car.id).collect();
    assert_eq!(ids, [1, 2]);
    for (name, number, offset) in [
        ("refusal_09_closed_twice", 9, 804),
        ("refusal_10_closed_stop", 10, 632),
    ] {
        assert_eq!(read(&sheet(name)), Err(Refusal { number, offset }));
    }
}

#[test]
fn places_are_lent_again() {
    let mut places = [99; STOPS + 6];
    assert_eq!(pending_into(EXAMPLE, &mut places), Ok(&[2, 3][..]));
    assert!(places[2..].iter().all(|place| *place == 99));
    let before = places;
    let refused = pending_into(&EXAMPLE[..9], &mut places);
    assert_eq!(refused, Err(read(&EXAMPLE[..9]).unwrap_err()));
    assert_eq!(before, places);
    for sheet in [EXAMPLE, b"no sheet"] {
        for short in [0, STOPS - 1] {
            let refused = pending_into(sheet, &mut places[..short]).unwrap_err();
            assert_eq!((refused.number, refused.offset), (1, 0));
        }
    }
    assert_eq!(before, places);
}

/// The header's numbers are the crate's and the library's.
#[test]
fn numbers_of_the_header() {
    let header = include_str!("../../include/dispatch_bench.h");
    let number = |name: &str| -> u64 {
        let define = format!("#define DISPATCH_BENCH_{name} ");
        let after = header.split(&define).nth(1).unwrap();
        let word = after.lines().next().unwrap();
        let digits = word.trim_start_matches("UINT64_C(").trim_end_matches(')');
        digits.parse().unwrap()
    };
    assert_eq!(number("VERSION"), u64::from(VERSION));
    assert_eq!(number("VERSION"), u64::from(version()));
    assert_eq!(number("SENTINEL"), SENTINEL);
    assert_eq!(number("CEILING"), CEILING);
    let mut places = vec![0; number("STOPS") as usize];
    assert_eq!(places.len(), STOPS);
    assert!(pending_into(EXAMPLE, &mut places).is_ok());
    assert!(pending_into(EXAMPLE, &mut places[1..]).is_err());
    let least = Buffers::new();
    assert_eq!(number("DECISIONS"), least.decisions.len() as u64);
    assert_eq!(number("CELLS"), least.matrix.len() as u64);
    assert_eq!(number("SWEEPS"), least.sweeps.len() as u64);
}

/// The sentences of the refusals are those of docs/manual/desk.md.
#[test]
fn sentences() {
    let manual = include_str!("../../docs/manual/desk.md");
    for number in 1..=16 {
        let refusal = Refusal { number, offset: 24 };
        let row = format!("| {number} | {} | {} |", refusal.rule(), refusal.remedy());
        assert_eq!(manual.matches(&row).count(), 1, "{row}");
        let said = format!("refused {number} at 24: {}", refusal.rule());
        assert_eq!(refusal.to_string(), said);
    }
    let unknown = Refusal {
        number: 17,
        offset: 0,
    };
    assert_eq!(unknown.to_string(), "refused 17 at 0");
}

#[test]
fn threads_do_not_meet() {
    let alone = pass(EXAMPLE);
    let threads: Vec<_> = (0..4)
        .map(|_| std::thread::spawn(|| (0..500).map(|_| pass(EXAMPLE)).collect::<Vec<_>>()))
        .collect();
    for thread in threads {
        assert!(thread.join().unwrap().iter().all(|pass| *pass == alone));
    }
}
