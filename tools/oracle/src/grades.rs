//! The fixed list of graded choices: sheets with what sites sent of them. The cells are those of the definitions (paper.rs), the answers those of the
//! second grader of tools/sheetgen, and the prices of least choices its solver's. README.md has the format.

use sheetgen::generate::{Profile, generate, sized};
use sheetgen::grade::{Answer, FAULTS, Grader, LEAST_CELLS, Matrix, Sent};
use sheetgen::grades::{WAYS, Way, sent};
use sheetgen::rng::Rng;
use sheetgen::shrink::shrink;
use sheetgen::{Refusal, Sheet, read};

use crate::paper;

/// The profiles that sheets are taken from.
const PROFILES: [Profile; 6] = [
    Profile::Valid,
    Profile::Ties,
    Profile::Extreme,
    Profile::Limits,
    Profile::Closed,
    Profile::Sideways,
];

/// The most columns, or prices, that a case has.
const MOST_SENT: usize = 128;

/// The cells of a sheet, or its refusal.
fn cells(sheet: &[u8]) -> Result<Matrix, Refusal> {
    match read(sheet) {
        Some(refusal) => Err(refusal),
        None => {
            let pass = paper::answered(&Sheet::of_accepted(sheet));
            Ok(Matrix {
                cars: pass.cars as usize,
                stops: pass.stops as usize,
                cells: pass.cells,
            })
        }
    }
}

/// What is sent with a sheet, by a way and a source; of a refused sheet as if it had no car and no stop.
fn sent_with(sheet: &[u8], way: Way, source: [u64; 3]) -> Sent {
    let matrix = cells(sheet).unwrap_or_default();
    let mut rng = Rng::new(source[0], 5_000 + source[1], source[2]);
    sent(&mut rng, way, &matrix)
}

fn answer(fault: Option<sheetgen::grade::Fault>, sheet: &[u8], sent: &Sent) -> Answer {
    let cells = cells(sheet);
    let grader = Grader { fault };
    grader.answer(cells.as_ref().map_err(|refusal| *refusal), sent)
}

/// A number of either sign: one below zero has the first bit set, and how far it lies below -1 in the others.
fn signed(number: i64) -> u64 {
    match number < 0 {
        true => 1 << 63 | !number as u64,
        false => number as u64,
    }
}

/// The cases, each once.
#[derive(Default)]
struct Cases {
    cases: Vec<(Vec<u8>, Sent)>,
}

impl Cases {
    fn add(&mut self, sheet: Vec<u8>, sent: Sent) {
        let lists = [
            sent.columns.len(),
            sent.car_prices.len(),
            sent.column_prices.len(),
        ];
        let case = (sheet, sent);
        if lists.iter().all(|length| *length <= MOST_SENT) && !self.cases.contains(&case) {
            self.cases.push(case);
        }
    }

    fn write(&self) -> Vec<u8> {
        let mut list = Vec::new();
        for (sheet, sent) in &self.cases {
            let (number, offset, least, cells) = match answer(None, sheet, sent) {
                Answer::Refused(refusal) => (refusal.number, refusal.offset, 0, Vec::new()),
                Answer::Least => (0, 0, 1, cells(sheet).unwrap_or_default().cells),
                Answer::NotShown => (0, 0, 0, cells(sheet).unwrap_or_default().cells),
            };
            list.extend((sheet.len() as u16).to_be_bytes());
            let counts = [
                sent.columns.len(),
                sent.car_prices.len(),
                sent.column_prices.len(),
            ];
            list.extend(counts.map(|count| count as u8));
            list.extend((sent.lent as u16).to_be_bytes());
            list.extend((cells.len() as u16).to_be_bytes());
            list.push(number as u8);
            list.extend((offset as u32).to_be_bytes());
            list.push(least);
            list.extend(sheet);
            list.extend(sent.columns.iter().flat_map(|column| column.to_be_bytes()));
            let prices = sent.car_prices.iter().chain(&sent.column_prices);
            list.extend(prices.flat_map(|price| signed(*price).to_be_bytes()));
            list.extend(cells.iter().flat_map(|cell| cell.to_be_bytes()));
        }
        list
    }
}

/// For each fault of the second grader and each profile, a sheet and what was sent of it that tell the faulty one from the right one, shrunk.
fn telling(cases: &mut Cases, seed: u64) {
    for (number, (_, fault)) in FAULTS.iter().enumerate() {
        for profile in PROFILES {
            let tells = |sheet: &[u8], way: Way, source: [u64; 3]| {
                let sent = sent_with(sheet, way, source);
                answer(Some(*fault), sheet, &sent) != answer(None, sheet, &sent)
            };
            let tries = (0..400).flat_map(|index| WAYS.iter().map(move |way| (index, way.1)));
            let found = tries.into_iter().find_map(|(index, way)| {
                let sheet = generate(profile, seed, index);
                let source = [seed, number as u64, index];
                (sheet.len() < 3_000 && tells(&sheet, way, source)).then_some((sheet, way, source))
            });
            if let Some((sheet, way, source)) = found {
                let least = shrink(&sheet, &mut |sheet| tells(sheet, way, source));
                let sent = sent_with(&least, way, source);
                cases.add(least, sent);
            }
        }
    }
}

/// Every way of sending, of document 01's example, of small sheets of each profile as they are, and of refused ones.
fn ways(cases: &mut Cases, seed: u64) {
    let example = Sheet::example().write();
    for (number, (_, way)) in WAYS.iter().enumerate() {
        for variation in 0..6 {
            let sent = sent_with(&example, *way, [seed, 100 + number as u64, variation]);
            cases.add(example.clone(), sent);
        }
        let accepted = PROFILES.iter().map(|profile| (*profile, 700));
        let refused = [Profile::Damaged, Profile::Provoked, Profile::Garbage].map(|p| (p, 400));
        for (profile, most) in accepted.chain(refused) {
            let sheets = (0..).map(|index| (index, generate(profile, seed + number as u64, index)));
            let small = sheets.filter(|(_, sheet)| sheet.len() < most).take(2);
            for (index, sheet) in small {
                let sent = sent_with(&sheet, *way, [seed, 200 + number as u64, index]);
                cases.add(sheet, sent);
            }
        }
    }
}

/// A full sheet with a least choice, and the least matrix.
fn full(cases: &mut Cases, seed: u64) {
    let sheet = sized(0, 64, 32, 16, seed, 0).write();
    let mut sent = sent_with(&sheet, Way::Shown, [seed, 300, 0]);
    sent.lent = LEAST_CELLS;
    cases.add(sheet, sent);
}

/// The list, and how many cases it has; what they are answered by is printed.
pub fn list(seed: u64) -> (Vec<u8>, usize) {
    let mut cases = Cases::default();
    ways(&mut cases, seed);
    telling(&mut cases, seed);
    full(&mut cases, seed);
    let mut counts = std::collections::BTreeMap::<u32, usize>::new();
    let mut grades = [0; 2];
    for (sheet, sent) in &cases.cases {
        match answer(None, sheet, sent) {
            Answer::Refused(refusal) => *counts.entry(refusal.number).or_default() += 1,
            Answer::Least => grades[0] += 1,
            Answer::NotShown => grades[1] += 1,
        }
    }
    println!(
        "least {}, not shown {}, refused by number {counts:?}",
        grades[0], grades[1]
    );
    (cases.write(), cases.cases.len())
}
