//! The answer to a sheet as documents 01 and 02 have it: the refusal, or what a pass writes and answers. Of a sheet
//! without closed landings and without second coordinates but zeros, cells and decisions are the Rust's wherever it
//! builds a matrix, of edition 2 for its twin in edition 1; elsewhere they are the documents' own.

use std::collections::BTreeSet;
use std::fmt::Write;

use pathfinding::least_choice;
use sheetgen::twin::twin;
use sheetgen::{Car, Line, Refusal, Sheet, Stop, read};

use crate::paper;
use crate::rust_pass::{Rust, RustPass};

pub const SENTINEL: i64 = 1 << 48;

/// "A value that rounds exactly to the ceiling isn't held": a cost of assignment.rs, scaled and rounded as there, was above what it is clamped to.
pub fn is_held(cost: f64) -> bool {
    cost.is_finite() && cost >= 0.0 && (cost * 1_000_000.0).round() > (SENTINEL - 1) as f64
}

#[derive(Clone, Debug, PartialEq)]
pub struct Pass {
    pub cars: u64,
    pub stops: u64,
    pub total: u64,
    /// How many pairs are ranked: those that the limit keeps.
    pub ranked: u64,
    /// How many cells were held down to the ceiling.
    pub held: u64,
    pub decisions: Vec<u32>,
    pub cells: Vec<u64>,
    pub sweeps: Vec<u8>,
    /// The ids of the pending stops, in column order.
    pub pending: Vec<u32>,
    pub source: Source,
}

impl Pass {
    /// How many cells are the ceiling, held down to it or not.
    pub fn at_ceiling(&self) -> u64 {
        let ceiling = SENTINEL as u64 - 1;
        self.cells.iter().filter(|cell| **cell == ceiling).count() as u64
    }
}

/// Where the cells come from.
#[derive(Clone, Copy, Debug, PartialEq)]
pub enum Source {
    /// The Rust built the matrix.
    Rust,
    /// The Rust builds none: no idle car, or no pending stop.
    Document,
    /// The sheet has closed landings, or second coordinates that are no zeros, which the Rust does not have: src/paper.rs.
    Model,
}

#[derive(Clone, Debug, PartialEq)]
pub enum Answer {
    Refused(Refusal),
    Passed(Pass),
}

/// What the Rust is given for an accepted sheet: the sheet, or where it is of edition 2 and all its second coordinates are zero, its
/// edition 1 twin. Nothing where it has closed landings or other second coordinates.
pub fn for_rust(bytes: &[u8]) -> Option<Sheet> {
    let sheet = Sheet::of_accepted(bytes);
    if !sheet.closed.is_empty() || sheet.runs_sideways() {
        return None;
    }
    Some(match sheet.edition {
        1 => sheet,
        _ => Sheet::of_accepted(&twin(bytes)),
    })
}

/// The documents' answer to a sheet: with kind 8, "the definition alone is the measure"; "With all second coordinates zero, an accepted
/// edition 2 sheet answers as its edition 1 twin; for the others the definition is the measure".
pub fn answer(rust: &mut Rust, bytes: &[u8]) -> Answer {
    if let Some(refusal) = read(bytes) {
        return Answer::Refused(refusal);
    }
    Answer::Passed(match for_rust(bytes) {
        Some(sheet) => of_rust(&rust.pass(&sheet, false)),
        None => paper::answered(&Sheet::of_accepted(bytes)),
    })
}

/// The answer to a sheet that is accepted.
pub fn passed(rust: &mut Rust, sheet: &Sheet) -> Pass {
    match answer(rust, &sheet.write()) {
        Answer::Passed(pass) => pass,
        Answer::Refused(r) => unreachable!("{r:?}"),
    }
}

/// The Rust's answer to an accepted sheet with closed landings: it passes the sheet without them, in which further cars
/// cover those stops for whoever waits there. They are loading there and not idle, so that they take part in nothing else.
/// Riders of idle cars who are bound for such a stop get off beside it instead, so that the Rust does not hold it pending.
pub fn by_covering(rust: &mut Rust, sheet: &Sheet) -> Pass {
    let covering = covering(sheet);
    let mut pass = of_rust(&rust.pass(&covering, false));
    pass.sweeps.truncate(sheet.cars.len());
    pass
}

fn covering(sheet: &Sheet) -> Sheet {
    let mut twin = sheet.clone();
    let Some(first) = twin.lines.first().map(|l| l.id) else {
        return Sheet {
            closed: Vec::new(),
            ..twin
        };
    };
    beside(&mut twin);
    for stop in std::mem::take(&mut twin.closed) {
        let waiting = sheet.waiting.iter().filter(|w| w.stop == stop);
        let required: BTreeSet<u32> = waiting.filter_map(|w| w.line).collect();
        for line in required.iter().copied().chain([first]) {
            if twin.lines.iter().all(|l| l.id != line) {
                twin.lines.push(Line { id: line, mask: 0 });
            }
            let id = (1..).find(|id| twin.cars.iter().all(|c| c.id != *id));
            twin.cars.push(Car {
                id: id.unwrap(),
                phase: 4,
                target: Some(stop),
                idle: false,
                capacity: 1e15,
                ..Car::parked(line)
            });
        }
    }
    twin
}

/// The riders of idle cars who are bound for a closed landing are bound for a further stop at its place, which no line serves.
fn beside(twin: &mut Sheet) {
    let idle: Vec<u32> = twin.cars.iter().filter(|c| c.idle).map(|c| c.id).collect();
    // Ids without a record have no position, and must stay so.
    let mut named: BTreeSet<u32> = twin.stops.iter().map(|s| s.id).collect();
    named.extend(
        twin.cars
            .iter()
            .flat_map(|c| [Some(c.stop), c.target])
            .flatten(),
    );
    named.extend(twin.aboard.iter().filter_map(|a| a.destination));
    named.extend(twin.waiting.iter().filter_map(|w| w.destination));
    for stop in twin.closed.clone() {
        let riders = twin.aboard.iter_mut().filter(|a| idle.contains(&a.car));
        let mut bound = riders.filter(|a| a.destination == Some(stop)).peekable();
        if bound.peek().is_none() {
            continue;
        }
        let id = (1..).find(|id| !named.contains(id)).unwrap();
        named.insert(id);
        bound.for_each(|a| a.destination = Some(id));
        let closed = twin.stops.iter().find(|s| s.id == stop).unwrap().clone();
        twin.stops.push(Stop { id, ..closed });
    }
}

pub fn of_rust(pass: &RustPass) -> Pass {
    let n = pass.idle.len();
    let m = pass.pending.len();
    let columns = n.max(m);
    let source = match pass.cells {
        Some(_) => Source::Rust,
        None => Source::Document,
    };
    let cells = pass
        .cells
        .clone()
        .unwrap_or_else(|| vec![SENTINEL; n * columns]);
    let chosen = least_choice(n, columns, &cells);
    let total: i64 = (0..n).map(|i| cells[i * columns + chosen[i]]).sum();
    let decisions: Vec<u32> = (0..n)
        .map(|i| {
            let real = chosen[i] < m && cells[i * columns + chosen[i]] < SENTINEL;
            if real { pass.pending[chosen[i]] } else { 0 }
        })
        .collect();
    // The Rust's decisions come from the same choice, by way of its own code.
    assert_eq!(
        decisions, pass.decisions,
        "the Rust's decisions and the choice it was handed differ"
    );
    Pass {
        cars: n as u64,
        stops: m as u64,
        total: total as u64,
        ranked: pass.ranked,
        held: pass.scaled.iter().filter(|cost| is_held(**cost)).count() as u64,
        decisions,
        cells: cells.iter().map(|c| *c as u64).collect(),
        sweeps: pass.sweeps.clone(),
        pending: pass.pending.clone(),
        source,
    }
}

fn state(sweep: u8) -> &'static str {
    ["up strict", "up lenient", "down strict", "down lenient"][usize::from(sweep)]
}

/// The lines of the program passprint.
pub fn passprint(rust: &mut Rust, bytes: &[u8]) -> String {
    match answer(rust, bytes) {
        Answer::Refused(r) => format!("refused {} at {}\n", r.number, r.offset),
        Answer::Passed(pass) => {
            let sheet = Sheet::of_accepted(bytes);
            let mut out = format!(
                "cars {} stops {} total {} held {}\n",
                pass.cars, pass.stops, pass.total, pass.held
            );
            let idle: Vec<usize> = (0..sheet.cars.len())
                .filter(|i| sheet.cars[*i].idle)
                .collect();
            for (i, stop) in idle.iter().zip(&pass.decisions) {
                let _ = match stop {
                    0 => writeln!(out, "car {} idle", sheet.cars[*i].id),
                    id => writeln!(out, "car {} stop {id}", sheet.cars[*i].id),
                };
            }
            for i in idle {
                let _ = writeln!(out, "sweep {} {}", sheet.cars[i].id, state(pass.sweeps[i]));
            }
            out
        }
    }
}

/// Everything the Rust gives: pending stops, states, matrix, least total, decisions; ranks if asked for. Of a sheet with closed
/// landings or second coordinates it is what the definitions give; the ranks are then those of the Rust without closures, and with second
/// coordinates the definitions'.
pub fn details(rust: &mut Rust, bytes: &[u8], with_ranks: bool) -> String {
    if let Some(r) = read(bytes) {
        return format!("refused {} at {}\n", r.number, r.offset);
    }
    let sheet = Sheet::of_accepted(bytes);
    let given = for_rust(bytes);
    let mut found = rust.pass(given.as_ref().unwrap_or(&sheet), with_ranks);
    let pass = match given {
        Some(_) => of_rust(&found),
        None => paper::answered(&sheet),
    };
    if with_ranks && sheet.runs_sideways() {
        found.ranks = paper::named_ranks(&sheet);
    }
    let columns = pass.cars.max(pass.stops) as usize;
    let mut out = format!(
        "cars {} stops {} columns {columns} total {} held {}",
        pass.cars, pass.stops, pass.total, pass.held
    );
    out += &format!(" ranked {}\n", pass.ranked);
    out += match pass.source {
        Source::Rust => "matrix rust\n",
        Source::Document => "matrix document\n",
        Source::Model => "matrix definition\n",
    };
    for stop in &pass.pending {
        let _ = writeln!(out, "pending {stop}");
    }
    for (car, sweep) in sheet.cars.iter().zip(&pass.sweeps) {
        let _ = writeln!(out, "sweep {} {}", car.id, state(*sweep));
    }
    for (i, car) in found.idle.iter().enumerate() {
        let row: Vec<String> = pass.cells[i * columns..(i + 1) * columns]
            .iter()
            .map(u64::to_string)
            .collect();
        let _ = writeln!(out, "row {car} {}", row.join(" "));
    }
    for (car, stop) in found.idle.iter().zip(&pass.decisions) {
        let _ = match stop {
            0 => writeln!(out, "car {car} idle"),
            id => writeln!(out, "car {car} stop {id}"),
        };
    }
    for (car, stop, rank) in found
        .ranks
        .iter()
        .filter(|rank| pass.pending.contains(&rank.1))
    {
        let _ = match rank {
            None => writeln!(out, "rank {car} {stop} none"),
            Some(cost) => writeln!(out, "rank {car} {stop} {:016x}", cost.to_bits()),
        };
    }
    out
}

#[cfg(test)]
mod tests {
    use super::*;
    use sheetgen::sheet::{ETD, NO_LIMIT, RSR, SCAN, mask_bit};
    use sheetgen::{Aboard, Demand, Stop, Waiting};

    /// One car at 0 on a line with all stops, a rider-less call at the first.
    fn one_car(strategy: u8, positions: &[f64]) -> Sheet {
        let mut s = Sheet::new(strategy);
        for (k, position) in positions.iter().enumerate() {
            s.stops.push(Stop::at(k as u32 + 1, *position));
        }
        s.lines.push(Line {
            id: 1,
            mask: (0..positions.len()).fold(0, |m, j| m | mask_bit(j)),
        });
        s.cars.push(Car {
            phase: 6,
            ..Car::parked(1)
        });
        s.demands.push(Demand {
            stop: 1,
            riding: 0,
            call: true,
        });
        s
    }

    fn cells(sheet: &Sheet) -> Vec<u64> {
        match answer(&mut Rust::new(), &sheet.write()) {
            Answer::Passed(pass) => pass.cells,
            Answer::Refused(r) => panic!("{r:?}"),
        }
    }

    /// P4 to P10 of document 01.
    #[test]
    fn cases_of_document_01() {
        assert_eq!(cells(&one_car(SCAN, &[0.0078125])), [7_813]);
        assert_eq!(cells(&one_car(SCAN, &[0.00390625])), [3_906]);
        for (weight, cell) in [
            (281_474_976.0, 281_474_976_000_000),
            (281_474_977.0, 281_474_976_710_655),
        ] {
            let mut s = one_car(ETD, &[2.0]);
            s.policy.weights[0] = weight;
            assert_eq!(cells(&s), [cell]);
        }
        let mut s = one_car(SCAN, &[1e-9]);
        assert_eq!(cells(&s), [SENTINEL as u64]);
        s.cars[0].sweep_down = true;
        assert_eq!(cells(&s), [0]);
        let mut s = one_car(ETD, &[10.0, 11.0]);
        s.policy.weights[0] = 1.0;
        s.cars[0].phase = 0;
        assert_eq!(cells(&s), [3_500_000]);
        (s.cars[0].phase, s.cars[0].stop) = (1, 2);
        assert_eq!(cells(&s), [2_500_000]);
        let mut s = one_car(RSR, &[10.0, -1.0]);
        s.policy.weights = [1.0, 0.0, 8.0, 0.0, 0.0, 0.0];
        s.cars[0].calls = mask_bit(0);
        assert_eq!(cells(&s), [0]);
        s.policy.weights = [1.0, 15.0, 0.0, 0.0, 0.0, 2.0];
        s.policy.traffic = 1;
        (s.cars[0].phase, s.cars[0].stop) = (1, 2);
        assert_eq!(cells(&s), [35_000_000]);
    }

    /// Document 02's held cells, with a cost that is the weight: what rounds to the ceiling is not held, what rounds to more is. A pair that the
    /// limit cut, a pair without a rank and a spare cell are not.
    #[test]
    fn held_cells() {
        let counted = |s: &Sheet| {
            let Answer::Passed(pass) = answer(&mut Rust::new(), &s.write()) else {
                panic!()
            };
            let model = paper::answered(s);
            assert_eq!((pass.held, &pass.cells), (model.held, &model.cells));
            (pass.held, pass.at_ceiling())
        };
        let mut s = one_car(ETD, &[2.0]);
        for (weight, counts) in [
            (281_474_976.0, (0, 0)),
            (281_474_976.710_654, (0, 0)),
            (281_474_976.710_654_6, (0, 1)),
            (281_474_976.710_655, (0, 1)),
            (281_474_976.710_655_4, (0, 1)),
            (281_474_976.710_655_6, (1, 1)),
            (281_474_977.0, (1, 1)),
            (1e9, (1, 1)),
        ] {
            s.policy.weights[0] = weight;
            assert_eq!(counted(&s), counts, "{weight}");
        }
        // Two stops farther on, one of them barred, then cut.
        let mut s = one_car(ETD, &[2.0, 4.0, 6.0]);
        s.policy.weights[0] = 281_474_976.710_655;
        let call = |stop| Demand {
            stop,
            riding: 0,
            call: true,
        };
        s.demands.extend([call(2), call(3)]);
        assert_eq!(counted(&s), (2, 3));
        s.policy.limit = 2;
        assert_eq!(counted(&s), (1, 2));
        s.policy.limit = NO_LIMIT;
        s.cars[0].restricted = mask_bit(1);
        assert_eq!(counted(&s), (1, 2));
        // Spare cells, and a car that stands still.
        for id in 2..6 {
            s.cars.push(Car {
                id,
                speed: 0.0,
                ..s.cars[0]
            });
        }
        assert_eq!(counted(&s), (1, 2));
    }

    /// Document 02's load term: eta 1 and travel 5, weight 3. A full car has a rank where a rider gets off.
    #[test]
    fn load_term() {
        let mut s = one_car(RSR, &[10.0]);
        s.policy.weights = [1.0, 0.0, 0.0, 3.0, 0.0, 0.0];
        let cell = |s: &Sheet| {
            let cells = cells(s);
            assert_eq!(cells, paper::answered(s).cells);
            cells[0]
        };
        assert_eq!(cell(&s), 5_000_000);
        s.cars[0].load = 50.0;
        assert_eq!(cell(&s), 6_500_000);
        s.cars[0].phase = 0;
        assert_eq!(cell(&s), 5_000_000);
        s.cars[0].phase = 4;
        assert_eq!(cell(&s), 6_500_000);
        s.policy.weights[3] = 0.0;
        assert_eq!(cell(&s), 5_000_000);
        s.policy.weights[3] = 3.0;
        s.cars[0].load = 100.0;
        assert_eq!(cell(&s), SENTINEL as u64);
        s.aboard.push(Aboard {
            car: 1,
            destination: Some(1),
        });
        for (capacity, load, wanted) in [
            (100.0, 100.0, 8_000_000),
            (100.0, 300.0, 8_000_000),
            (5e-324, 1e9, 8_000_000),
            (0.0, 300.0, 5_000_000),
            (0.0, 0.0, 5_000_000),
        ] {
            (s.cars[0].capacity, s.cars[0].load) = (capacity, load);
            assert_eq!(cell(&s), wanted, "{load} of {capacity}");
        }
        // After the call's bonus, which may go below 0, and before the age, which stops at 0.
        (s.cars[0].capacity, s.cars[0].load) = (100.0, 50.0);
        (s.policy.weights[2], s.cars[0].calls) = (6.0, mask_bit(0));
        assert_eq!(cell(&s), 500_000);
        s.policy.weights[4] = 1.0;
        s.waiting.push(Waiting {
            stop: 1,
            line: None,
            destination: None,
            weight: 1.0,
            wait: 7,
        });
        assert_eq!(cell(&s), 0);
    }

    /// 60 + 40 against 100 is covered, 60 + 41 isn't.
    #[test]
    fn coverage_of_document_01() {
        for (second, stops) in [(40.0, 0), (41.0, 1)] {
            let mut s = one_car(SCAN, &[5.0]);
            s.demands.clear();
            (s.cars[0].phase, s.cars[0].target) = (3, Some(1));
            for weight in [60.0, second] {
                s.waiting.push(Waiting {
                    stop: 1,
                    line: None,
                    destination: None,
                    weight,
                    wait: 0,
                });
            }
            let Answer::Passed(pass) = answer(&mut Rust::new(), &s.write()) else {
                panic!()
            };
            assert_eq!(pass.stops, stops);
        }
    }

    /// Document 02's second coordinates: every distance is the sum of the two absolute differences, directions are the first's.
    #[test]
    fn second_coordinates() {
        let sideways = |s: &Sheet| Sheet {
            edition: 2,
            ..s.clone()
        };
        // SCAN's cost; a stop beside the car is not ahead of it, and lenient it is reached.
        let mut s = sideways(&one_car(SCAN, &[3.0]));
        (s.cars[0].across, s.stops[0].across) = (-1.0, 4.0);
        assert_eq!(cells(&s), [8_000_000]);
        s.stops[0].position = 0.0;
        assert_eq!(cells(&s), [5_000_000]);
        s.stops.push(Stop::at(2, 5.0));
        s.demands.push(Demand {
            stop: 2,
            riding: 0,
            call: true,
        });
        s.lines[0].mask |= mask_bit(1);
        assert_eq!(cells(&s), [SENTINEL as u64, 6_000_000]);
        // Travel of ETD and of RSR: 3 and 5 at speed 2.
        for strategy in [ETD, RSR] {
            let mut s = sideways(&one_car(strategy, &[3.0]));
            s.policy.weights[0] = 1.0;
            s.stops[0].across = -5.0;
            assert_eq!(cells(&s), [4_000_000]);
            s.cars[0].across = -5.0;
            assert_eq!(cells(&s), [1_500_000]);
        }
        // ETD's detour: to (3, 4) and on to (6, 0), 7 and 7, in the stead of 6, at speed 2. Intervening stops are those between the
        // first coordinates, however far aside.
        let mut s = sideways(&one_car(ETD, &[3.0, 6.0, 1.0]));
        s.policy.weights[1] = 1.0;
        s.stops[0].across = 4.0;
        s.aboard.push(Aboard {
            car: 1,
            destination: Some(2),
        });
        assert_eq!(cells(&s), [4_000_000]);
        s.policy.weights = [0.0, 0.0, 1.0, 0.0, 0.0, 0.0];
        s.cars[0].open = 60;
        s.demands[0].stop = 1;
        s.stops[2].across = 1_000.0;
        assert_eq!(cells(&s), [0]);
        s.demands.push(Demand {
            stop: 3,
            riding: 1,
            call: false,
        });
        assert_eq!(cells(&s)[0], 1_000_000);
        // The cut keeps the nearest by both: 1 + 9 is farther than 6 + 0.
        let mut s = sideways(&one_car(ETD, &[1.0, 6.0]));
        s.policy.weights[0] = 1.0;
        s.policy.limit = 1;
        s.stops[0].across = 9.0;
        s.demands.push(Demand {
            stop: 2,
            riding: 0,
            call: true,
        });
        assert_eq!(cells(&s), [SENTINEL as u64, 3_000_000]);
        // RSR's aboard-path test looks along the first coordinate: (5, 90) is on the way to (10, 0).
        let mut s = sideways(&one_car(RSR, &[5.0, 10.0]));
        s.stops[0].across = 90.0;
        s.policy.weights[0] = 1.0;
        s.aboard.push(Aboard {
            car: 1,
            destination: Some(2),
        });
        assert_eq!(cells(&s), [47_500_000]);
        s.stops[0].position = 11.0;
        assert_eq!(cells(&s), [SENTINEL as u64]);
    }

    /// Second coordinates that all are one number make no difference: every sheet of edition 1 answers as it does with them.
    #[test]
    fn all_beside_each_other() {
        let mut rust = Rust::new();
        for index in 0..300 {
            let bytes = sheetgen::generate::generate(sheetgen::generate::Profile::Valid, 5, index);
            let Answer::Passed(right) = answer(&mut rust, &bytes) else {
                panic!()
            };
            for across in [0.0, -0.0, 12.5, -1e6] {
                let mut sheet = Sheet::of_accepted(&bytes);
                sheet.edition = 2;
                sheet.stops.iter_mut().for_each(|s| s.across = across);
                sheet.cars.iter_mut().for_each(|c| c.across = across);
                let found = paper::answered(&sheet);
                let source = right.source;
                assert_eq!(Pass { source, ..found }, right, "{index} {across}");
            }
        }
    }

    #[test]
    fn example_of_document_01() {
        let lines = "cars 2 stops 2 total 10000000 held 0\ncar 7 stop 2\ncar 8 stop 3\nsweep 7 up strict\nsweep 8 down lenient\n";
        assert_eq!(
            passprint(&mut Rust::new(), &Sheet::example().write()),
            lines
        );
    }

    /// A closed landing counts as covered whoever waits there, and closure comes first: it is not pending where an idle car's
    /// rider is bound for it either. A covered stop is.
    #[test]
    fn closed_landings() {
        let mut s = one_car(SCAN, &[5.0, 9.0]);
        let call = Demand {
            stop: 2,
            riding: 0,
            call: true,
        };
        s.demands.push(call);
        let pending = |s: &Sheet| {
            let bytes = s.write();
            let Answer::Passed(pass) = answer(&mut Rust::new(), &bytes) else {
                panic!()
            };
            let by_rust = by_covering(&mut Rust::new(), s);
            assert_eq!(
                (&pass.pending, &pass.cells),
                (&by_rust.pending, &by_rust.cells)
            );
            pass.pending
        };
        assert_eq!(pending(&s), [1, 2]);
        s.closed = vec![1];
        assert_eq!(pending(&s), [2]);
        s.waiting.push(Waiting {
            stop: 1,
            line: Some(99),
            destination: None,
            weight: 1e9,
            wait: 0,
        });
        assert_eq!(pending(&s), [2]);
        s.closed = vec![2, 1];
        assert_eq!(pending(&s), []);
        let rider = Aboard {
            car: 1,
            destination: Some(1),
        };
        s.aboard.push(rider);
        assert_eq!(pending(&s), []);
        s.closed = vec![2];
        assert_eq!(pending(&s), [1]);
    }
}
