//! Fixed lists: samples of sheets with the oracle's answers, for programs that replay them with no Rust at
//! hand. README.md has the formats; numbers are most significant byte first.

use sheetgen::bits;
use sheetgen::generate::{PROFILES, Profile, crowded, generate};
use sheetgen::provoke;
use sheetgen::rng::Rng;
use sheetgen::sheet::{ETD, NO_LIMIT, RSR, SCAN, mask_bit};
use sheetgen::shrink::shrink;
use sheetgen::{Aboard, Car, Demand, Line, Sheet, Stop, Waiting, describe, read};

use crate::answer::{Answer, Pass, Source, answer, for_rust, passed};
use crate::bars;
use crate::compare::Comparison;
use crate::paper::{self, FAULTS, Fault, Paper};
use crate::rust_pass::Rust;

fn put(list: &mut Vec<u8>, sheet: &[u8]) {
    list.extend(
        u16::try_from(sheet.len())
            .expect("a sheet of the lists fits 16 bits")
            .to_be_bytes(),
    );
    list.extend(sheet);
}

/// The buffer of the program that replays a list has room for it.
fn fits(list: &[u8], most: usize, program: &str) {
    let length = list.len();
    assert!(
        length <= most,
        "{length} bytes are longer than {program}'s buffer of {most}"
    );
}

/// Cases, each once.
#[derive(Default)]
struct Cases(Vec<Vec<u8>>);

impl Cases {
    fn add(&mut self, sheet: Vec<u8>) {
        if !self.0.contains(&sheet) {
            self.0.push(sheet);
        }
    }
}

/// Tables exactly full, and with one record too many, nothing else larger than it must be.
fn tables(cases: &mut Cases) {
    let base = || {
        let mut s = Sheet::new(sheetgen::sheet::SCAN);
        s.stops.push(Stop::at(1, 0.0));
        s.lines.push(Line { id: 1, mask: 0 });
        s.cars.push(Car::parked(1));
        s
    };
    for more in [0, 1] {
        let mut s = Sheet::new(sheetgen::sheet::SCAN);
        s.stops = (1..=64 + more)
            .map(|id| Stop::at(id, f64::from(id)))
            .collect();
        cases.add(s.write());
        s.edition = 2;
        cases.add(s.write());
        let mut s = Sheet::new(sheetgen::sheet::SCAN);
        s.lines = (1..=8 + more).map(|id| Line { id, mask: 0 }).collect();
        cases.add(s.write());
        let mut s = base();
        s.cars = (1..=32 + more)
            .map(|id| Car {
                id,
                ..Car::parked(1)
            })
            .collect();
        cases.add(s.write());
        let mut s = base();
        s.aboard = (0..512 + more)
            .map(|_| Aboard {
                car: 1,
                destination: None,
            })
            .collect();
        cases.add(s.write());
        let mut s = base();
        let rider = Waiting {
            stop: 1,
            line: None,
            destination: None,
            weight: 0.0,
            wait: 0,
        };
        s.waiting = (0..512 + more).map(|_| rider.clone()).collect();
        cases.add(s.write());
    }
}

/// Every cut of a small sheet, wrong counts, tails, limits at their ends, and each bit of a policy before its weights flipped.
fn edges(cases: &mut Cases) {
    let mut small = Sheet::new(sheetgen::sheet::SCAN);
    for limit in [0, 1, 2, 65_534, 65_535] {
        small.policy.limit = limit;
        cases.add(small.write());
    }
    let policy = small.write();
    for bit in (0..130).chain(514..policy.len() * 8) {
        let mut flipped = policy.clone();
        flipped[bit / 8] ^= 0x80 >> (bit % 8);
        cases.add(flipped);
    }
    small.stops.push(Stop::at(1, 0.0));
    small.demands.push(Demand {
        stop: 1,
        riding: 1,
        call: false,
    });
    let whole = small.write();
    for length in 0..=whole.len() {
        cases.add(whole[..length].to_vec());
    }
    for count in [0, 1, 2, 4, 65_535u16] {
        let mut stated = whole.clone();
        stated[1..3].copy_from_slice(&count.to_be_bytes());
        cases.add(stated);
    }
    for more in [0, 1, 0x80] {
        let mut longer = whole.clone();
        longer.push(more);
        cases.add(longer);
    }
    closures(cases);
    load_weights(cases);
    editions(cases);
    // The last demand record of 1 to 8 ends at every bit of a byte but for its tail.
    for stops in 1..=8 {
        let mut s = Sheet::new(sheetgen::sheet::SCAN);
        s.stops = (1..=stops).map(|id| Stop::at(id, 0.0)).collect();
        s.demands = vec![Demand {
            stop: stops,
            riding: 0,
            call: true,
        }];
        let bytes = s.write();
        let used = 24 + 490 + 118 * stops as usize + 71;
        cases.add(bytes.clone());
        for bit in used..bytes.len() * 8 {
            let mut set = bytes.clone();
            set[bit / 8] |= 0x80 >> (bit % 8);
            cases.add(set);
        }
    }
}

/// Edition 2: a small sheet under other editions, with the lengths of edition 1, cut from its first stop on, and with second coordinates at the
/// ends of their range, beyond them, and no numbers.
fn editions(cases: &mut Cases) {
    let mut stop = Sheet::new(sheetgen::sheet::SCAN);
    stop.edition = 2;
    stop.stops.push(Stop {
        across: 12.0,
        ..Stop::at(1, 3.0)
    });
    let first = Sheet {
        edition: 1,
        ..stop.clone()
    };
    for edition in 0..=4 {
        for sheet in [&stop, &first] {
            let mut other = sheet.write();
            other[0] = edition;
            cases.add(other);
        }
    }
    let mut car = stop.clone();
    car.lines.push(Line {
        id: 1,
        mask: 1 << 63,
    });
    car.cars.push(Car {
        across: -7.5,
        ..Car::parked(1)
    });
    let (stop_at, car_at) = (514, 514 + 182 + 118);
    let whole = stop.write();
    for length in stop_at / 8..whole.len() {
        cases.add(whole[..length].to_vec());
    }
    let whole = car.write();
    for length in car_at / 8 + 24..car_at / 8 + 36 {
        cases.add(whole[..length].to_vec());
    }
    for (sheet, at, lengths) in [
        (&stop, stop_at, [95, 96, 97, 159, 161, 779]),
        (&car, car_at, [714, 715, 716, 778, 780, 160]),
    ] {
        for length in lengths {
            let mut other = sheet.write();
            bits::set(&mut other, at + 6, 16, length);
            cases.add(other);
        }
    }
    let inside = [0.0, -0.0, 5e-324, 1e6, -1e6];
    let above = 1_000_000.000_000_000_1;
    let outside = [above, -above, f64::NAN, f64::INFINITY, f64::NEG_INFINITY];
    for across in inside.into_iter().chain(outside) {
        let mut other = stop.clone();
        other.stops[0].across = across;
        cases.add(other.write());
        let mut other = car.clone();
        other.cars[0].across = across;
        cases.add(other.write());
    }
}

/// RSR's load weight, which the first release refused by 15: inside of its range and outside, and with the limit 0.
fn load_weights(cases: &mut Cases) {
    let inside = [0.0, -0.0, 5e-324, 3.0, 1e9];
    let outside = [-5e-324, -3.0, 1_000_000_000.000_000_1, f64::NAN];
    for load in inside.into_iter().chain(outside) {
        let mut s = Sheet::new(RSR);
        s.policy.weights[3] = load;
        cases.add(s.write());
        s.policy.limit = 0;
        cases.add(s.write());
    }
}

/// Closed landings: ids that are listed, unlisted, repeated and 0; cuts of a small sheet from its first closure on; kinds and lengths at both.
fn closures(cases: &mut Cases) {
    let mut small = Sheet::new(sheetgen::sheet::SCAN);
    small.stops = [3, 7].map(|id| Stop::at(id, 0.0)).to_vec();
    for closed in [
        [3, 7],
        [7, 3],
        [3, 3],
        [7, 7],
        [0, 3],
        [3, 0],
        [3, 4],
        [8, 3],
    ] {
        small.closed = closed.to_vec();
        cases.add(small.write());
    }
    small.closed = vec![7, 3];
    let whole = small.write();
    let (first, second) = (24 + 490 + 2 * 118, 24 + 490 + 2 * 118 + 54);
    for length in first / 8..whole.len() {
        cases.add(whole[..length].to_vec());
    }
    for at in [first, second] {
        for kind in [0, 1, 2, 7, 9, 63] {
            let mut other = whole.clone();
            bits::set(&mut other, at, 6, kind);
            cases.add(other);
        }
        for length in [0, 31, 33, 49] {
            let mut other = whole.clone();
            bits::set(&mut other, at + 6, 16, length);
            cases.add(other);
        }
    }
    closed_ends(cases);
}

/// Each bit of the tail behind 1 to 4 closures; a closure for each of 64 stops.
fn closed_ends(cases: &mut Cases) {
    for closed in 1..=4 {
        let mut s = Sheet::new(sheetgen::sheet::SCAN);
        s.stops = (1..=4).map(|id| Stop::at(id, 0.0)).collect();
        s.closed = (1..=closed).collect();
        let bytes = s.write();
        cases.add(bytes.clone());
        for bit in 24 + 490 + 118 * 4 + 54 * closed as usize..bytes.len() * 8 {
            let mut set = bytes.clone();
            set[bit / 8] |= 0x80 >> (bit % 8);
            cases.add(set);
        }
    }
    let mut s = Sheet::new(sheetgen::sheet::SCAN);
    s.stops = (1..=64).map(|id| Stop::at(id, 0.0)).collect();
    s.closed = (1..=64).rev().collect();
    cases.add(s.write());
}

/// Whether the sheet states edition 2, the refusal's number and the kind of the record at its offset.
fn key(sheet: &[u8]) -> (bool, u32, usize) {
    let is_second = sheet.first() == Some(&2);
    read(sheet).map_or((is_second, 0, 0), |r| {
        let at = r.offset as usize;
        let stated = at >= 24 && at + 6 <= sheet.len() * 8;
        (
            is_second,
            r.number,
            if stated {
                bits::get(sheet, at, 6).min(9) as usize
            } else {
                0
            },
        )
    })
}

/// Adds the smallest `each` sheets of every key.
fn smallest(cases: &mut Cases, from: impl Iterator<Item = Vec<u8>>, each: usize) {
    let mut by_key = std::collections::BTreeMap::<_, Vec<Vec<u8>>>::new();
    for sheet in from {
        by_key.entry(key(&sheet)).or_default().push(sheet);
    }
    for mut found in by_key.into_values() {
        found.sort_by_key(|sheet| sheet.len());
        found
            .into_iter()
            .filter(|s| s.len() <= 350)
            .take(each)
            .for_each(|s| cases.add(s));
    }
}

/// Each sheet with its refusal's number and offset, both 0 where it is accepted.
pub fn refusals(seed: u64) -> (Vec<u8>, usize) {
    let mut cases = Cases::default();
    cases.add(Vec::new());
    cases.add(Sheet::example().write());
    tables(&mut cases);
    edges(&mut cases);
    // The smallest of many, one for each way of spoiling, each edition and each kind that it spoils.
    let ways = provoke::ways() as u64;
    for way in 0..ways {
        let make = |k| provoke::provoke(&mut Rng::new(seed, 200, k * ways + way), way).bytes;
        smallest(&mut cases, (0..2000).map(make), 1);
    }
    let damaged = |profile: Profile| (0..8000).map(move |k| generate(profile, seed, k));
    smallest(&mut cases, damaged(Profile::Damaged), 1);
    // Of edition 2, stops and cars: the other kinds are those of edition 1.
    let other = |sheet: &Vec<u8>| matches!(key(sheet).2, 2 | 4);
    let damaged = damaged(Profile::DamagedSideways).filter(other);
    smallest(&mut cases, damaged, 1);
    smallest(
        &mut cases,
        (0..4000).map(|k| generate(Profile::Garbage, seed, k)),
        1,
    );
    let mut list = Vec::new();
    for case in &cases.0 {
        let (number, offset) = read(case).map_or((0, 0), |r| (r.number, r.offset));
        put(&mut list, case);
        list.push(number as u8);
        list.extend((offset as u32).to_be_bytes());
    }
    fits(&list, 204_800, "replay_refusals");
    (list, cases.0.len())
}

/// Whether the pass of an accepted sheet, of this strategy where one is named, differs.
fn tells(c: &mut Comparison, strategy: Option<u8>, sheet: &[u8]) -> bool {
    let is = |strategy: u8| Sheet::of_accepted(sheet).policy.strategy == strategy;
    read(sheet).is_none()
        && strategy.is_none_or(is)
        && c.sheet(sheet).is_some_and(|d| d.what.starts_with("pass: "))
}

/// Sheets that tell a bench with one fault, but for those left out, from one without, shrunk, and some of each profile as they are.
fn telling(seed: u64, count: u64, each: usize, left_out: &[Fault]) -> Cases {
    const LARGEST: usize = 700;
    let mut cases = Cases::default();
    cases.add(Sheet::example().write());
    for &fault in FAULTS
        .iter()
        .filter(|f| **f != Fault::None && !f.is_of_ranked() && !left_out.contains(f))
    {
        let mut bench = Paper { fault, whole: true };
        let mut c = Comparison::new(&mut bench);
        c.has.read = false;
        c.has.pending = false;
        for (_, profile) in PROFILES {
            if matches!(
                profile,
                Profile::Full
                    | Profile::Damaged
                    | Profile::DamagedSideways
                    | Profile::Provoked
                    | Profile::Garbage
            ) {
                continue;
            }
            let is_shown = match profile {
                Profile::Sideways => fault.is_of_editions(),
                Profile::Level => fault == Fault::AcrossMinusZero,
                _ if fault.is_of_editions() => {
                    fault == Fault::LengthsOfEditionTwo && profile == Profile::Valid
                }
                Profile::Closed => fault.is_of_closures(),
                Profile::Load => fault.is_of_loads(),
                Profile::Ceiling => fault.is_of_held() || fault == Fault::LeftStanding,
                _ if fault.is_of_held() || fault == Fault::LeftStanding => false,
                Profile::Valid | Profile::Extreme | Profile::Fine => !fault.is_of_closures(),
                _ => !fault.is_of_closures() && !fault.is_of_loads(),
            };
            if !is_shown {
                continue;
            }
            // Of closed landings and of second coordinates, a sheet of each strategy that shows the fault.
            let strategies: &[Option<u8>] = match profile {
                Profile::Closed | Profile::Sideways => &[Some(ETD), Some(RSR), Some(SCAN)],
                _ => &[None],
            };
            // Equal totals that send unlike numbers of cars are rare.
            let count = match fault {
                Fault::LeftStanding => 50 * count,
                _ => count,
            };
            for strategy in strategies {
                let mut sheets = (0..count).map(|index| generate(profile, seed, index));
                let first = sheets.find(|bytes| tells(&mut c, *strategy, bytes));
                let small = |bytes: Vec<u8>| shrink(&bytes, &mut |b| tells(&mut c, *strategy, b));
                first.map(small).into_iter().for_each(|s| cases.add(s));
            }
        }
    }
    for (_, profile) in PROFILES {
        let mut left = each;
        for index in 0.. {
            if left == 0
                || matches!(
                    profile,
                    Profile::Full | Profile::Provoked | Profile::Garbage
                )
            {
                break;
            }
            let bytes = generate(profile, seed + 1, index);
            if bytes.len() <= LARGEST && read(&bytes).is_none() {
                cases.add(bytes);
                left -= 1;
            }
        }
    }
    cases
}

fn put_pass(list: &mut Vec<u8>, pass: &Pass) {
    list.push(pass.cars as u8);
    list.push(pass.stops as u8);
    list.extend(pass.total.to_be_bytes());
    list.extend((pass.held as u16).to_be_bytes());
    for decision in &pass.decisions {
        list.extend(decision.to_be_bytes());
    }
    for cell in &pass.cells {
        list.extend(cell.to_be_bytes());
    }
    list.push(pass.sweeps.len() as u8);
    list.extend(&pass.sweeps);
    list.push(u8::from(pass.source == Source::Rust));
}

/// Accepted sheets with everything that a pass answers and writes.
pub fn passes(seed: u64) -> (Vec<u8>, usize) {
    let mut rust = Rust::new();
    let mut list = Vec::new();
    let cases = telling(seed, 600, 7, &[]).0;
    for case in &cases {
        let Answer::Passed(pass) = answer(&mut rust, case) else {
            unreachable!()
        };
        put(&mut list, case);
        put_pass(&mut list, &pass);
    }
    fits(&list, 131_072, "replay_passes");
    (list, cases.len())
}

/// Two sheets that differ in the limit or in bars alone, with both passes.
struct Changed {
    strategy: u8,
    /// What the second has, by one of `RAISES` or of `BARS`.
    how: &'static str,
    cases: [(Vec<u8>, Pass); 2],
}

/// How a limit is raised.
const RAISES: [(&str, fn(u16) -> u16); 3] = [
    ("raised by 1", |limit| limit + 1),
    ("raised by 2 or more", |limit| {
        [limit + 2, 65_534, limit + 7][usize::from(limit - 1)]
    }),
    ("lifted", |_| NO_LIMIT),
];

/// Under what limit bars are added.
const BARS: [&str; 2] = ["bars, no limit", "bars, a limit"];

impl Changed {
    fn new(rust: &mut Rust, how: &'static str, sheets: [&Sheet; 2]) -> Self {
        Self {
            strategy: sheets[0].policy.strategy,
            how,
            cases: sheets.map(|sheet| (sheet.write(), passed(rust, sheet))),
        }
    }

    /// The sheet, and the sheet under a higher limit.
    fn raised(rust: &mut Rust, sheet: &Sheet, raise: usize) -> Self {
        let (how, higher) = RAISES[raise];
        let mut high = sheet.clone();
        high.policy.limit = higher(sheet.policy.limit);
        let pair = Self::new(rust, how, [sheet, &high]);
        let [(low, _), (high, _)] = &pair.cases;
        assert!(low[..6] == high[..6] && low[6..8] < high[6..8] && low[8..] == high[8..]);
        pair
    }

    /// The sheet, and the sheet with bars added.
    fn barred(rust: &mut Rust, sheet: &Sheet, barred: &Sheet) -> Self {
        let is_limited = sheet.policy.limit != NO_LIMIT;
        let pair = Self::new(rust, BARS[usize::from(is_limited)], [sheet, barred]);
        let texts = || [sheet, barred].map(describe::describe).concat();
        assert!(
            bars::are_added(sheet, barred),
            "not bars alone:\n{}",
            texts()
        );
        assert!(
            is_limited || !pair.falls(),
            "the total falls without a limit:\n{}",
            texts()
        );
        pair
    }

    fn total(&self, case: usize) -> u64 {
        self.cases[case].1.total
    }

    fn falls(&self) -> bool {
        self.total(1) < self.total(0)
    }

    /// Whether some cell is another: one that the first limit cut, or one that a bar takes out or lets in.
    fn cell_changes(&self) -> bool {
        self.cases[0].1.cells != self.cases[1].1.cells
    }

    /// Whether some car is sent to another stop, or sent where it stayed.
    fn redirected(&self) -> bool {
        self.cases[0].1.decisions != self.cases[1].1.decisions
    }

    /// The bars that are added, each as its car and its stop.
    fn bars(&self) -> impl Iterator<Item = (Car, Stop)> {
        let [first, second] = [0, 1].map(|k| Sheet::of_accepted(&self.cases[k].0));
        let bars = bars::between(&first, &second).into_iter();
        bars.map(move |(car, stop)| (first.cars[car].clone(), first.stops[stop].clone()))
    }

    /// In how many cars' masks bars are added.
    fn barred_cars(&self) -> usize {
        let cars = self.bars().map(|(car, _)| car.id);
        cars.collect::<std::collections::BTreeSet<_>>().len()
    }

    fn put(&self, list: &mut Vec<u8>) {
        for (bytes, pass) in &self.cases {
            put(list, bytes);
            put_pass(list, pass);
        }
    }

    fn length(&self) -> usize {
        let mut list = Vec::new();
        self.put(&mut list);
        list.len()
    }
}

/// The records of a sheet but for ids and masks: dropping records and counting them anew leaves these as they are.
fn values(sheet: &Sheet) -> std::collections::BTreeSet<String> {
    let cars = sheet.cars.iter().map(|car| {
        let known = |id: u32| u32::from(id != 0);
        format!(
            "{:?}",
            Car {
                id: 0,
                line: 0,
                stop: known(car.stop),
                target: car.target.map(known),
                restricted: 0,
                calls: 0,
                ..car.clone()
            }
        )
    });
    let stops = sheet.stops.iter();
    let stops = stops.map(|s| format!("stop {:?} {:?}", s.position, s.across));
    let waiting = sheet.waiting.iter().map(|w| {
        let bound = (w.line.is_some(), w.destination.is_some());
        format!("waiting {bound:?} {:?} {}", w.weight, w.wait)
    });
    let demands = sheet
        .demands
        .iter()
        .map(|d| format!("{:?}", (d.riding, d.call)));
    let closed = sheet.closed.iter().map(|_| "closed".into());
    let all = cars.chain(stops).chain(waiting).chain(demands);
    all.chain(closed).collect()
}

/// How the second sheet of a pair is made.
#[derive(Clone, Copy)]
enum Change {
    /// By this one of `RAISES`.
    Limit(usize),
    /// So many bars are added.
    Bars { limited: bool, count: usize },
}

/// What is asked of both passes.
#[derive(Clone, Copy)]
enum Asked {
    TotalFalls,
    /// The total does not fall, though a cell changes.
    CellAlone,
    Cell,
    /// No cell changes, and the bars are of cars that are not idle.
    OtherCar,
    /// No cell changes, and the bars are at stops that are not pending.
    OtherStop,
}

/// What is asked of a pair.
struct Wanted {
    strategy: u8,
    profile: Profile,
    change: Change,
    asked: Asked,
    /// The fewest idle cars, and the fewest pending stops.
    cars: u64,
    stops: u64,
    /// The most bytes in the list.
    length: usize,
}

impl Wanted {
    /// The limit of the first sheet.
    fn limit(&self, index: u64) -> u16 {
        match self.change {
            Change::Bars { limited: false, .. } => NO_LIMIT,
            _ => 1 + (index % 3) as u16,
        }
    }

    /// Whether the first sheet is as wanted. Several bars are added to a sheet that has some.
    fn begins(&self, rust: &mut Rust, sheet: &Sheet, pass: &Pass) -> bool {
        let has_bars = sheet.cars.iter().any(|c| c.restricted != 0);
        let is_plain = matches!(
            self.change,
            Change::Limit(_) | Change::Bars { count: 1, .. }
        );
        pass.source != Source::Document
            && pass.cars >= self.cars
            && pass.stops >= self.stops
            && (is_plain || has_bars)
            && self.profile_matters(rust, sheet, pass)
    }

    /// Without closed landings other stops were pending; without second coordinates cells were others.
    fn profile_matters(&self, rust: &mut Rust, sheet: &Sheet, pass: &Pass) -> bool {
        if !matches!(self.profile, Profile::Closed | Profile::Sideways) {
            return true;
        }
        let mut other = sheet.clone();
        other.closed.clear();
        other.edition = 1;
        let other = passed(rust, &other);
        match self.profile {
            Profile::Closed => other.pending != pass.pending,
            _ => other.cells != pass.cells,
        }
    }

    fn shown_by(&self, pair: &Changed) -> bool {
        match self.asked {
            Asked::TotalFalls => pair.falls(),
            Asked::CellAlone => pair.cell_changes() && !pair.falls(),
            Asked::Cell => pair.cell_changes(),
            Asked::OtherCar => !pair.cell_changes() && pair.bars().all(|(car, _)| !car.idle),
            Asked::OtherStop => {
                let pending = &pair.cases[0].1.pending;
                !pair.cell_changes() && pair.bars().all(|(_, stop)| !pending.contains(&stop.id))
            }
        }
    }

    /// The pair of a sheet, where there is one as wanted. Of bars, some are tried.
    fn pair(&self, rust: &mut Rust, mut sheet: Sheet, seed: u64, index: u64) -> Option<Changed> {
        const TRIES: usize = 12;
        sheet.policy.limit = self.limit(index);
        let pass = passed(rust, &sheet);
        if !self.begins(rust, &sheet, &pass) {
            return None;
        }
        match self.change {
            Change::Limit(raise) => {
                let pair = Changed::raised(rust, &sheet, raise);
                self.shown_by(&pair).then_some(pair)
            }
            Change::Bars { count, .. } => {
                let rng = &mut Rng::new(seed, 300, index);
                (0..TRIES).find_map(|_| {
                    let barred = bars::added(rng, &sheet, &pass.pending, count)?;
                    let pair = Changed::barred(rust, &sheet, &barred);
                    let spread = count == 1 || pair.barred_cars() > 1;
                    (spread && self.shown_by(&pair)).then_some(pair)
                })
            }
        }
    }
}

/// A pair as wanted, of the profile's first sheet from `next` on that makes one: with as few of the sheet's records as
/// will do, the values in them as they are.
fn changed(rust: &mut Rust, wanted: &Wanted, seed: u64, next: &mut u64) -> Changed {
    loop {
        let index = *next;
        *next += 1;
        let bytes = generate(wanted.profile, seed, index);
        let sheet = Sheet::of_accepted(&bytes);
        if sheet.policy.strategy != wanted.strategy {
            continue;
        }
        let all = values(&sheet);
        let mut pair = |bytes: &[u8]| {
            let part = Sheet::of_accepted(bytes);
            let like = part.edition == sheet.edition && part.policy == sheet.policy;
            let is_part = like && values(&part).is_subset(&all);
            is_part.then(|| wanted.pair(rust, part, seed, index))?
        };
        if pair(&bytes).is_some() {
            let small = shrink(&bytes, &mut |b| pair(b).is_some());
            if let Some(found) = pair(&small).filter(|p| p.length() <= wanted.length) {
                return found;
            }
        }
    }
}

/// The sheet under another first limit, and that limit raised.
fn raised_from(rust: &mut Rust, mut sheet: Sheet, limit: u16, raise: usize) -> Changed {
    sheet.policy.limit = limit;
    Changed::raised(rust, &sheet, raise)
}

/// Each sheet twice, the second time under a higher limit.
fn raised_limits(rust: &mut Rust, seed: u64) -> Vec<Changed> {
    const PROFILES: [Profile; 7] = [
        Profile::Valid,
        Profile::Ties,
        Profile::Near,
        Profile::Extreme,
        Profile::Limits,
        Profile::Cover,
        Profile::Fine,
    ];
    let mut next = [0; PROFILES.len()];
    let mut next_sideways = 0;
    let mut pairs = vec![raised_from(rust, Sheet::example(), 1, 2)];
    for strategy in [ETD, RSR, SCAN] {
        // No sheet of the last profile is SCAN's.
        let profiles = PROFILES.len() - usize::from(strategy == SCAN);
        for raise in 0..RAISES.len() {
            for (k, profile) in PROFILES.into_iter().enumerate().take(profiles) {
                // Of RSR, loads in the stead of coverage, which no strategy has a part in.
                let profile = match profile {
                    Profile::Cover if strategy == RSR => Profile::Load,
                    profile => profile,
                };
                let mut add = |profile, falls, cars, length| {
                    let wanted = Wanted {
                        strategy,
                        profile,
                        change: Change::Limit(raise),
                        asked: match falls {
                            true => Asked::TotalFalls,
                            false => Asked::CellAlone,
                        },
                        cars,
                        stops: 1,
                        length,
                    };
                    let next = match profile {
                        Profile::Sideways => &mut next_sideways,
                        _ => &mut next[k],
                    };
                    pairs.push(changed(rust, &wanted, seed, next));
                };
                add(profile, true, 1, 600);
                add(profile, false, 1, 600);
                if k % 3 != raise {
                    add(profile, true, 2, 850);
                }
                // Of some profiles, in the stead of a further one: second coordinates without which cells were others.
                if (k + 1) % 3 != raise && k % 2 == 0 {
                    add(Profile::Sideways, k != 2, 1, 600);
                } else if (k + 1) % 3 != raise && k < 4 {
                    add(profile, true, 1, 600);
                }
                if k == 0 && raise == usize::from(strategy) {
                    add(profile, true, 4, 1900);
                }
            }
        }
        // Closed landings without which other stops were pending.
        let wanted = Wanted {
            strategy,
            profile: Profile::Closed,
            change: Change::Limit(usize::from(strategy)),
            asked: Asked::TotalFalls,
            cars: 1,
            stops: 1,
            length: 700,
        };
        pairs.push(changed(rust, &wanted, seed, &mut 0));
        // A limit that cuts nothing, lifted.
        let sheet = Sheet::of_accepted(&pairs[pairs.len() - 1].cases[0].0);
        pairs.push(raised_from(rust, sheet, NO_LIMIT - 1, 2));
    }
    pairs
}

/// The worked case of a bar that lowers the total: each of two cars is ranked for the nearest of two stops alone, and that is the same stop, until
/// it is barred to the first car.
fn worked_bar() -> [Sheet; 2] {
    let mut sheet = Sheet::new(RSR);
    sheet.policy.limit = 1;
    sheet.policy.weights = [1.0, 0.0, 0.0, 0.0, 0.0, 1.0];
    sheet.stops = vec![Stop::at(1, 4.0), Stop::at(2, 12.0)];
    let mask = mask_bit(0) | mask_bit(1);
    sheet.lines.push(Line { id: 1, mask });
    sheet.cars = [(7, 0.0), (8, 6.0)]
        .map(|(id, position)| Car {
            id,
            position,
            speed: 1.0,
            capacity: 800.0,
            transition: 30,
            open: 120,
            ..Car::parked(1)
        })
        .to_vec();
    sheet.demands = [1, 2]
        .map(|stop| Demand {
            stop,
            riding: 0,
            call: true,
        })
        .to_vec();
    let mut barred = sheet.clone();
    barred.cars[0].restricted = mask_bit(0);
    [sheet, barred]
}

/// Finds pairs with bars added, each from the sheet after that of the profile's last pair.
struct BarPairs<'a> {
    rust: &'a mut Rust,
    seed: u64,
    next: [u64; PROFILES.len()],
    pairs: Vec<Changed>,
}

impl BarPairs<'_> {
    fn add(&mut self, strategy: u8, profile: Profile, change: Change, asked: Asked) {
        let is_one = matches!(change, Change::Bars { count: 1, .. });
        // Two cars take more bytes.
        let has_two = !is_one || matches!(asked, Asked::OtherCar);
        let wanted = Wanted {
            strategy,
            profile,
            change,
            asked,
            cars: if is_one { 1 } else { 2 },
            stops: 2,
            length: if has_two { 850 } else { 700 },
        };
        let next = &mut self.next[profile as usize];
        self.pairs
            .push(changed(self.rust, &wanted, self.seed, next));
    }

    /// One bar in two of three, several otherwise; in one of six, no cell changes.
    fn add_any(&mut self, strategy: u8, profile: Profile, limited: bool) {
        let number = self.pairs.len();
        let count = if number % 3 == 2 { 2 + number % 2 } else { 1 };
        let asked = match number % 12 {
            1 => Asked::OtherStop,
            7 => Asked::OtherCar,
            _ => Asked::Cell,
        };
        self.add(strategy, profile, Change::Bars { limited, count }, asked);
    }
}

/// Each sheet twice, the second time with bars added: the worked case first, then without a limit and with one, and last those under a limit
/// in which the total falls.
fn added_bars(rust: &mut Rust, seed: u64) -> Vec<Changed> {
    let [sheet, barred] = worked_bar();
    let worked = Changed::barred(rust, &sheet, &barred);
    assert!(worked.falls());
    let mut found = BarPairs {
        rust,
        seed,
        next: [0; PROFILES.len()],
        pairs: vec![worked],
    };
    for limited in [false, true] {
        for strategy in [ETD, RSR, SCAN] {
            // Of RSR, loads in the stead of coverage.
            let fifth = if strategy == RSR {
                Profile::Load
            } else {
                Profile::Cover
            };
            for profile in [
                Profile::Valid,
                Profile::Ties,
                Profile::Near,
                Profile::Limits,
                fifth,
                Profile::Sideways,
            ] {
                found.add_any(strategy, profile, limited);
                found.add_any(strategy, profile, limited);
            }
            found.add_any(strategy, Profile::Closed, limited);
        }
    }
    let one = Change::Bars {
        limited: true,
        count: 1,
    };
    for strategy in [ETD, RSR, SCAN] {
        for profile in [
            Profile::Limits,
            Profile::Valid,
            Profile::Near,
            Profile::Sideways,
        ] {
            found.add(strategy, profile, one, Asked::TotalFalls);
        }
    }
    found.pairs
}

/// Pairs of sheets: the second under a higher limit, then such as have bars added.
pub fn pairs(seed: u64) -> (Vec<u8>, usize) {
    let raised = raised_limits(&mut Rust::new(), seed);
    let barred = added_bars(&mut Rust::new(), seed);
    let mut list = list_of(&raised, &RAISES.map(|(how, _)| how));
    list.extend(list_of(&barred, &BARS));
    fits(&list, 262_144, "replay_pairs");
    (list, raised.len() + barred.len())
}

/// Each pair as two cases of the passes. Prints what is in them, by how the second sheets were made.
fn list_of(pairs: &[Changed], ways: &[&str]) -> Vec<u8> {
    let mut list = Vec::new();
    pairs.iter().for_each(|pair| pair.put(&mut list));
    print_pairs(pairs, ways);
    list
}

fn print_pairs(pairs: &[Changed], ways: &[&str]) {
    type Test = fn(&&&Changed) -> bool;
    const TESTS: [(&str, Test); 4] = [
        ("pairs", |_| true),
        ("total falls", |p| p.falls()),
        ("a cell changes", |p| p.cell_changes()),
        ("other stops", |p| p.redirected()),
    ];
    print!("{:<24}", "");
    TESTS.iter().for_each(|(what, _)| print!("{what:>16}"));
    println!("{:>16}", "cells");
    for (strategy, name) in ["ETD", "RSR", "SCAN"].into_iter().enumerate() {
        for how in ways {
            let is = |p: &&Changed| usize::from(p.strategy) == strategy && p.how == *how;
            let found: Vec<_> = pairs.iter().filter(is).collect();
            let cells = found.iter().flat_map(|p| &p.cases);
            let cells: usize = cells.map(|(_, pass)| pass.cells.len()).sum();
            print!("{name:<5}{how:<19}");
            TESTS
                .iter()
                .for_each(|(_, test)| print!("{:>16}", found.iter().filter(test).count()));
            println!("{cells:>16}");
        }
    }
}

/// An idle car and a pending stop, with the rank that the Rust gives them.
struct Pair<'a> {
    sheet: &'a Sheet,
    pending: &'a [&'a Stop],
    car: &'a Car,
    stop: &'a Stop,
    rank: Option<f64>,
}

fn near(a: f64, b: f64) -> bool {
    a != b && (a - b).abs() <= 1e-9
}

fn minus_zero(x: f64) -> bool {
    x == 0.0 && x.is_sign_negative()
}

impl<'a> Pair<'a> {
    fn of(
        sheet: &'a Sheet,
        pending: &'a [&'a Stop],
        ranks: &'a [Rank],
    ) -> impl Iterator<Item = Self> {
        ranks.iter().map(move |(car, stop, rank)| Pair {
            sheet,
            pending,
            car: sheet.cars.iter().find(|c| c.id == *car).unwrap(),
            stop: sheet.stops.iter().find(|s| s.id == *stop).unwrap(),
            rank: *rank,
        })
    }

    /// Whether there is a rank and it is no zero.
    fn above_zero(&self) -> bool {
        self.rank.is_some_and(|cost| cost != 0.0)
    }

    fn unknown(&self, id: Option<u32>) -> bool {
        id.is_some_and(|id| self.sheet.stops.iter().all(|s| s.id != id))
    }

    fn waiter(&self, test: impl Fn(&Waiting) -> bool) -> bool {
        let here = |w: &&Waiting| w.stop == self.stop.id;
        self.sheet.waiting.iter().filter(here).any(test)
    }

    /// A policy weight that the strategy reads.
    fn weight(&self, test: impl Fn(f64) -> bool) -> bool {
        let read: &[usize] = match self.sheet.policy.strategy {
            ETD => &[0, 1, 2, 3, 4],
            RSR => &[0, 1, 2, 3, 4, 5],
            _ => &[],
        };
        read.iter().any(|k| test(self.sheet.policy.weights[*k]))
    }

    /// RSR has a load weight, and the car a load and is not in phase idle: its ratio, where it has a capacity.
    fn load_ratio(&self) -> Option<f64> {
        let weighed = self.sheet.policy.strategy == RSR && self.sheet.policy.weights[3] > 0.0;
        let counts = weighed && self.car.phase != 0 && self.car.load > 0.0;
        (counts && self.car.capacity > 0.0).then(|| self.car.load / self.car.capacity)
    }

    /// The load takes nearly all of what the call bonus has left of the cost.
    fn load_cancels(&self) -> bool {
        let ratio = self.load_ratio().map(|ratio| ratio.clamp(0.0, 1.0));
        let part = ratio.map_or(0.0, |ratio| self.sheet.policy.weights[3] * ratio);
        self.rank
            .is_some_and(|cost| cost > 0.0 && cost < part / 1000.0)
    }

    /// The threshold of the direction that the car moves in.
    fn threshold(&self) -> Option<f64> {
        let bound = |s: &&Stop| s.id == self.car.stop;
        let to = self.sheet.stops.iter().find(bound)?.position;
        if to > self.car.position {
            self.car.up_threshold
        } else if to < self.car.position {
            self.car.down_threshold
        } else {
            None
        }
    }
}

type Rank = (u32, u32, Option<f64>);
type Shows = fn(&Pair) -> bool;

/// What pairs are counted by; the load term is at this place.
const LOAD_TERM: usize = 0;
const FEATURES: [(&str, Shows); 21] = [
    ("a load term above zero", |p| {
        p.load_ratio().is_some_and(|ratio| ratio > 0.0)
    }),
    ("a load ratio above 1, held to it", |p| {
        p.load_ratio().is_some_and(|ratio| ratio > 1.0)
    }),
    ("a load term of a subnormal capacity or weight", |p| {
        let least = p.car.capacity.min(p.sheet.policy.weights[3]);
        p.load_ratio().is_some() && least < f64::MIN_POSITIVE
    }),
    ("a load term a thousand times the rank and more", |p| {
        p.load_cancels()
    }),
    ("a load that counts for nothing in phase idle", |p| {
        let weighed = p.sheet.policy.strategy == RSR && p.sheet.policy.weights[3] > 0.0;
        weighed && p.car.phase == 0 && p.car.load > 0.0 && p.car.capacity > 0.0
    }),
    ("second coordinates that differ", |p| {
        p.car.across != p.stop.across
    }),
    ("car and stop within 1e-9 of each other, not equal", |p| {
        near(p.car.position, p.stop.position)
    }),
    (
        "another pending stop within 1e-9 of the stop, not equal",
        |p| p.pending.iter().any(|s| near(s.position, p.stop.position)),
    ),
    ("car and stop at equal positions", |p| {
        p.car.position == p.stop.position
    }),
    ("another pending stop at the stop's position", |p| {
        let same = |s: &&&Stop| s.position == p.stop.position;
        p.pending.iter().filter(same).count() > 1
    }),
    ("car or stop at -0.0", |p| {
        minus_zero(p.car.position) || minus_zero(p.stop.position)
    }),
    (
        "a capacity, load, threshold or rider's weight of -0.0",
        |p| {
            let held = [p.car.capacity, p.car.load, p.threshold().unwrap_or(0.0)];
            held.into_iter().any(minus_zero) || p.waiter(|w| minus_zero(w.weight))
        },
    ),
    ("a rider aboard bound for an unknown stop", |p| {
        let own = |a: &&Aboard| a.car == p.car.id;
        let mut riders = p.sheet.aboard.iter().filter(own);
        riders.any(|a| p.unknown(a.destination))
    }),
    ("a waiting rider bound for an unknown stop", |p| {
        p.waiter(|w| p.unknown(w.destination))
    }),
    (
        "the threshold of the car's direction at its load ratio",
        |p| p.threshold() == Some(p.car.load / p.car.capacity),
    ),
    ("capacity 0", |p| p.car.capacity == 0.0),
    ("a policy weight of 0", |p| p.weight(|w| w == 0.0)),
    ("a policy weight of 1,000,000,000", |p| {
        p.weight(|w| w == 1e9)
    }),
    ("a waiting rider of weight 0", |p| {
        p.waiter(|w| w.weight == 0.0)
    }),
    ("a waiting rider of weight 1,000,000,000", |p| {
        p.waiter(|w| w.weight == 1e9)
    }),
    ("a waiting rider with 2^53 wait ticks", |p| {
        p.waiter(|w| w.wait == 1 << 53)
    }),
];

/// How many pairs there are, how many of them have no rank, how many a zero, and of each feature how many show
/// it and how many of these have a rank above zero.
#[derive(Clone, Default)]
struct Tally {
    pairs: usize,
    none: usize,
    zero: usize,
    shown: [(usize, usize); FEATURES.len()],
}

impl Tally {
    fn add(&mut self, pair: &Pair) {
        self.pairs += 1;
        self.none += usize::from(pair.rank.is_none());
        self.zero += usize::from(pair.rank == Some(0.0));
        for ((all, above), (_, shows)) in self.shown.iter_mut().zip(FEATURES) {
            *all += usize::from(shows(pair));
            *above += usize::from(shows(pair) && pair.above_zero());
        }
    }
}

/// A sheet with its idle cars, its pending stops and their ranks, which the Rust gives, or where it runs sideways the definitions.
struct Ranked {
    bytes: Vec<u8>,
    sheet: Sheet,
    idle: Vec<u32>,
    pending: Vec<u32>,
    ranks: Vec<Rank>,
}

impl Ranked {
    fn new(rust: &mut Rust, bytes: Vec<u8>) -> Self {
        let sheet = Sheet::of_accepted(&bytes);
        let (pending, ranks) = match for_rust(&bytes) {
            Some(given) => {
                let pass = rust.pass(&given, true);
                (pass.pending, pass.ranks)
            }
            None => (paper::answered(&sheet).pending, paper::named_ranks(&sheet)),
        };
        let idle = sheet.cars.iter().filter(|c| c.idle).map(|c| c.id).collect();
        Self {
            bytes,
            sheet,
            idle,
            pending,
            ranks,
        }
    }

    fn count(&self, tally: &mut Tally) {
        let known = |id: &u32| self.sheet.stops.iter().find(|s| s.id == *id).unwrap();
        let pending: Vec<&Stop> = self.pending.iter().map(known).collect();
        Pair::of(&self.sheet, &pending, &self.ranks).for_each(|pair| tally.add(&pair));
    }

    fn tally(&self) -> Tally {
        let mut tally = Tally::default();
        self.count(&mut tally);
        tally
    }

    /// How many ranks there are that are no zero, each once.
    fn different(&self) -> usize {
        let above = |rank: &Rank| rank.2.filter(|cost| *cost != 0.0).map(f64::to_bits);
        let bits = self.ranks.iter().filter_map(above);
        bits.collect::<std::collections::BTreeSet<_>>().len()
    }

    fn put(&self, list: &mut Vec<u8>) {
        put(list, &self.bytes);
        list.push(self.idle.len() as u8);
        list.push(self.pending.len() as u8);
        let place = |k: Option<usize>| k.unwrap() as u8;
        for id in &self.idle {
            list.push(place(self.sheet.cars.iter().position(|c| c.id == *id)));
        }
        for id in &self.pending {
            list.push(place(self.sheet.stops.iter().position(|s| s.id == *id)));
        }
        for (_, _, rank) in &self.ranks {
            list.push(u8::from(rank.is_some()));
            // The Rust leaves the sign of a zero rank open (`max` of zeros of unlike sign).
            let bits = rank.filter(|cost| *cost != 0.0).map_or(0, f64::to_bits);
            list.extend(bits.to_be_bytes());
        }
    }
}

/// Sheets of a strategy with at least 100 pairs each: of each profile the one with the most different ranks; for each
/// feature that fewer than 40 ranks above zero show, the one in which most do; and of the profiles in turn the one
/// with the most different ranks among those left, until there are 2,000 pairs. The profile load is RSR's; of it those follow
/// in which most ranks above zero have a load term above zero, until 1,000 have.
fn crowds(rust: &mut Rust, strategy: u8, seed: u64) -> Vec<Ranked> {
    const PROFILES: [Profile; 7] = [
        Profile::Valid,
        Profile::Ties,
        Profile::Near,
        Profile::Extreme,
        Profile::Fine,
        Profile::Sideways,
        Profile::Load,
    ];
    const LARGEST: usize = 2000;
    let profiles = PROFILES.len() - usize::from(strategy != RSR);
    let mut left: Vec<Vec<Ranked>> = PROFILES[..profiles]
        .iter()
        .map(|profile| {
            (0..1000)
                .map(|index| crowded(*profile, strategy, seed, index).write())
                .filter(|bytes| bytes.len() <= LARGEST)
                .map(|bytes| Ranked::new(rust, bytes))
                .filter(|ranked| ranked.ranks.len() >= 100)
                .collect()
        })
        .collect();
    for found in &mut left {
        found.sort_by_key(|ranked| std::cmp::Reverse(ranked.different()));
    }
    let (mut chosen, mut tally) = (Vec::new(), Tally::default());
    let mut choose = |ranked: Ranked, tally: &mut Tally| {
        ranked.count(tally);
        chosen.push(ranked);
    };
    for found in &mut left {
        choose(found.remove(0), &mut tally);
    }
    for feature in 0..FEATURES.len() {
        if tally.shown[feature].1 >= 40 {
            continue;
        }
        let places = (0..left.len()).flat_map(|k| (0..left[k].len()).map(move |i| (k, i)));
        let shown = |(k, i): &(usize, usize)| {
            let (all, above) = left[*k][*i].tally().shown[feature];
            (above, all)
        };
        if let Some(best) = places.max_by_key(shown).filter(|at| shown(at).0 > 0) {
            let ranked = left[best.0].remove(best.1);
            choose(ranked, &mut tally);
        }
    }
    for k in (0..left.len()).cycle() {
        if tally.pairs >= 2000 {
            break;
        }
        choose(left[k].remove(0), &mut tally);
    }
    while strategy == RSR && tally.shown[LOAD_TERM].1 < 1000 {
        let loads = &mut left[profiles - 1];
        let shown = |i: &usize| loads[*i].tally().shown[LOAD_TERM].1;
        let most = (0..loads.len()).max_by_key(shown).unwrap();
        choose(loads.remove(most), &mut tally);
    }
    chosen
}

/// Accepted sheets with the rank of each idle car for each pending stop, before scaling. Prints what is in them.
pub fn ranks(seed: u64) -> (Vec<u8>, usize) {
    let mut rust = Rust::new();
    // The rule of most cars is a matter of the choice alone.
    let small = telling(seed + 2, 300, 2, &[Fault::LeftStanding]).0;
    let mut cases: Vec<Ranked> = small
        .into_iter()
        .map(|bytes| Ranked::new(&mut rust, bytes))
        .filter(|ranked| !ranked.ranks.is_empty() && ranked.sheet.closed.is_empty())
        .collect();
    for strategy in [ETD, RSR, SCAN] {
        cases.extend(crowds(&mut rust, strategy, seed));
    }
    let mut list = Vec::new();
    let mut tallies: [Tally; 3] = Default::default();
    for case in &cases {
        case.put(&mut list);
        case.count(&mut tallies[usize::from(case.sheet.policy.strategy)]);
    }
    fits(&list, 262_144, "replay_ranks");
    assert!(tallies[usize::from(RSR)].shown[LOAD_TERM].1 >= 1000);
    print_tallies(&tallies);
    (list, cases.len())
}

fn print_tallies(tallies: &[Tally; 3]) {
    let line = |what: &str, numbers: [String; 3]| {
        println!(
            "{what:<56}{:>12}{:>12}{:>12}",
            numbers[0], numbers[1], numbers[2]
        );
    };
    let each = |number: fn(&Tally) -> usize| [0, 1, 2].map(|k| number(&tallies[k]).to_string());
    line("", ["ETD", "RSR", "SCAN"].map(String::from));
    line("pairs", each(|t| t.pairs));
    line("no rank", each(|t| t.none));
    line("rank zero", each(|t| t.zero));
    line("rank above zero", each(|t| t.pairs - t.none - t.zero));
    println!("pairs with, and those of them with a rank above zero:");
    for (k, (what, _)) in FEATURES.iter().enumerate() {
        let both = |t: &Tally| format!("{} {}", t.shown[k].0, t.shown[k].1);
        line(what, [0, 1, 2].map(|i| both(&tallies[i])));
    }
}
