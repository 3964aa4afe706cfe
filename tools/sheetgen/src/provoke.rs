//! Each refusal on purpose: a small accepted sheet of edition 1 or 2, one record spoilt in one way, and the number and
//! place that document 01, or for kind 8 and edition 2 document 02, then gives. The expectation is stated here by the way of spoiling and not by
//! the reader, so that the two check each other. Some ways change a value to one just inside its range, or to a load
//! weight of RSR, which is no fault any more; there the sheet stays accepted.

use crate::bits::{self, Writer};
use crate::generate::{any_small, close, records, sideways};
use crate::reader::Refusal;
use crate::rng::Rng;
use crate::sheet::{
    Aboard, Car, ETD, HEAD_BITS, KINDS, Line, MOST, NO_LIMIT, RECORD_HEAD_BITS, RSR, SCAN, Sheet,
    Stop, Waiting, body_bits, field_at,
};

pub struct Provoked {
    pub bytes: Vec<u8>,
    pub expected: Option<Refusal>,
    pub name: &'static str,
}

type Way = fn(&mut Rng) -> Provoked;

/// Sheet `index` takes the ways in turn.
pub fn provoke(rng: &mut Rng, index: u64) -> Provoked {
    WAYS[(index % WAYS.len() as u64) as usize](rng)
}

pub fn ways() -> usize {
    WAYS.len()
}

const WAYS: &[Way] = &[
    short_head,
    cut_record_head,
    cut_body,
    stated_body_past_the_end,
    more_stated_than_there,
    other_edition,
    unknown_kind,
    wrong_length,
    lengths_of_the_other_edition,
    empty_count,
    no_policy_first,
    kinds_fall,
    one_policy_too_many,
    one_too_many,
    strategy_three,
    unused_weight,
    phase_seven,
    unused_phase_stop,
    absent_with_bits,
    zero_id,
    zero_phase_stop,
    zero_present_id,
    stop_not_above,
    repeated_line,
    repeated_car,
    repeated_demand,
    no_such_record,
    mask_past_the_stops,
    double_outside,
    double_inside,
    limit_zero,
    limit_inside,
    ticks_outside,
    ticks_inside,
    wait_outside,
    wait_inside,
    load_weight,
    tail_too_long,
    tail_with_a_one,
    fewer_stated_than_there,
    full_tables,
    several_in_a_record,
    several_records,
    fault_before_the_cut,
    repeated_closed,
    behind_the_closed,
    every_landing_closed,
];

fn refused(name: &'static str, bytes: Vec<u8>, number: u32, offset: usize) -> Provoked {
    Provoked {
        bytes,
        expected: Some(Refusal {
            number,
            offset: offset as u64,
        }),
        name,
    }
}

fn accepted(name: &'static str, bytes: Vec<u8>) -> Provoked {
    Provoked {
        bytes,
        expected: None,
        name,
    }
}

/// A small accepted sheet of either edition.
fn small(rng: &mut Rng) -> Sheet {
    let mut sheet = any_small(rng);
    if rng.flag() {
        sideways(rng, &mut sheet);
    }
    sheet
}

/// The edition that bytes state.
fn edition(bytes: &[u8]) -> u64 {
    u64::from(bytes[0])
}

/// A small accepted sheet with at least one record of each kind.
fn with_closed(rng: &mut Rng) -> Sheet {
    let mut sheet = small(rng);
    if sheet.closed.is_empty() {
        close(rng, &mut sheet);
    }
    sheet
}

/// Where record `nth` of a kind starts in a written sheet.
fn start(bytes: &[u8], kind: usize, nth: usize) -> usize {
    records(bytes)
        .iter()
        .filter(|r| r.1 == kind)
        .nth(nth)
        .unwrap()
        .0
}

fn body(at: usize) -> usize {
    at + RECORD_HEAD_BITS
}

/// A sheet's records as rows of bits, head included.
fn rows(bytes: &[u8]) -> Vec<Vec<u64>> {
    records(bytes)
        .iter()
        .map(|(at, kind)| {
            (*at..body(*at) + body_bits(edition(bytes), *kind))
                .map(|k| bits::get(bytes, k, 1))
                .collect()
        })
        .collect()
}

/// Rows of a sheet put together under its edition and a stated count, and where each starts.
fn assemble(of: &[u8], rows: &[Vec<u64>], count: usize) -> (Vec<u8>, Vec<usize>) {
    let mut w = Writer::default();
    w.put(8, edition(of));
    w.put(16, count as u64);
    let mut starts = Vec::new();
    for row in rows {
        starts.push(w.len());
        for bit in row {
            w.put(1, *bit);
        }
    }
    (w.finish(), starts)
}

fn pick_record(rng: &mut Rng, bytes: &[u8]) -> (usize, usize) {
    let found = records(bytes);
    found[rng.below(found.len())]
}

fn short_head(rng: &mut Rng) -> Provoked {
    let mut bytes = small(rng).write();
    bytes.truncate(rng.below(3));
    if let Some(first) = bytes.first_mut() {
        *first = rng.next() as u8;
    }
    refused("short head", bytes, 2, 0)
}

/// Fewer than a record's 22 bits are left. The bytes end with the record before it or inside its head.
fn cut_record_head(rng: &mut Rng) -> Provoked {
    let mut bytes = small(rng).write();
    let (at, _) = pick_record(rng, &bytes);
    let least = at.div_ceil(8);
    let most = (at + RECORD_HEAD_BITS - 1) / 8;
    bytes.truncate(least + rng.below(most - least + 1));
    refused("cut record head", bytes, 2, at)
}

fn cut_body(rng: &mut Rng) -> Provoked {
    let mut bytes = small(rng).write();
    let (at, kind) = pick_record(rng, &bytes);
    let least = body(at).div_ceil(8);
    let most = (body(at) + body_bits(edition(&bytes), kind) - 1) / 8;
    bytes.truncate(least + rng.below(most - least + 1));
    refused("cut body", bytes, 2, at)
}

/// Whatever the kind.
fn stated_body_past_the_end(rng: &mut Rng) -> Provoked {
    let mut bytes = small(rng).write();
    let (at, _) = pick_record(rng, &bytes);
    let room = bytes.len() * 8 - body(at);
    let length = if rng.flag() { room + 1 } else { 65_535 };
    bits::set(&mut bytes, at + 6, 16, length as u64);
    if rng.flag() {
        bits::set(&mut bytes, at, 6, rng.next() % 64);
    }
    refused("stated body past the end", bytes, 2, at)
}

fn more_stated_than_there(rng: &mut Rng) -> Provoked {
    let sheet = small(rng);
    let mut bytes = sheet.write();
    let by = 1 + rng.below(3) as u64;
    bits::set(&mut bytes, 8, 16, sheet.records() as u64 + by);
    let rows = rows(&sheet.write());
    let end = HEAD_BITS + rows.iter().map(Vec::len).sum::<usize>();
    refused("more records stated than there are", bytes, 2, end)
}

fn other_edition(rng: &mut Rng) -> Provoked {
    let mut bytes = small(rng).write();
    bytes[0] = rng.pick(&[0, 3, 4, 129, 255]);
    if rng.flag() {
        bytes.truncate(3 + rng.below(bytes.len() - 2));
    }
    if rng.one_in(4) {
        bits::set(&mut bytes, 8, 16, 0);
    }
    refused("other edition", bytes, 3, 0)
}

fn unknown_kind(rng: &mut Rng) -> Provoked {
    let mut bytes = small(rng).write();
    let (at, _) = pick_record(rng, &bytes);
    let kind = if rng.one_in(3) { 0 } else { 9 + rng.below(55) };
    bits::set(&mut bytes, at, 6, kind as u64);
    if rng.flag() {
        let room = bytes.len() * 8 - body(at);
        bits::set(&mut bytes, at + 6, 16, rng.below(room + 1) as u64);
    }
    refused("unknown kind", bytes, 4, at)
}

fn wrong_length(rng: &mut Rng) -> Provoked {
    let mut bytes = small(rng).write();
    let (at, kind) = pick_record(rng, &bytes);
    let room = bytes.len() * 8 - body(at);
    let right = body_bits(edition(&bytes), kind);
    let length = match rng.below(6) {
        0 => right - 1,
        1 => right + 1,
        2 => 0,
        3 => body_bits(1 + rng.next() % 2, 1 + rng.below(KINDS)),
        4 => body_bits(3 - edition(&bytes), kind),
        _ => rng.below(room + 1),
    };
    let length = if length > room || length == right {
        right - 1
    } else {
        length
    };
    bits::set(&mut bytes, at + 6, 16, length as u64);
    // A wrong length is 5 whatever the order.
    let other = 1 + rng.below(KINDS);
    if rng.one_in(3) && body_bits(edition(&bytes), other) != length {
        bits::set(&mut bytes, at, 6, other as u64);
    }
    refused("wrong length", bytes, 5, at)
}

/// The lengths of the stops, and of the cars, are those of the other edition.
fn lengths_of_the_other_edition(rng: &mut Rng) -> Provoked {
    let mut bytes = small(rng).write();
    bytes[0] = 3 - bytes[0];
    let at = start(&bytes, 2, 0);
    refused("lengths of the other edition", bytes, 5, at)
}

fn empty_count(rng: &mut Rng) -> Provoked {
    let mut bytes = small(rng).write();
    bits::set(&mut bytes, 8, 16, 0);
    if rng.flag() {
        bytes.truncate(3);
    }
    refused("empty count", bytes, 6, 24)
}

fn no_policy_first(rng: &mut Rng) -> Provoked {
    let whole = small(rng).write();
    let mut rows = rows(&whole);
    let skip = 1 + rng.below(rows.len() - 1);
    rows.drain(..skip);
    let (bytes, _) = assemble(&whole, &rows, rows.len());
    refused("no policy first", bytes, 6, 24)
}

fn kind_of(row: &[u64]) -> u64 {
    row[..6].iter().fold(0, |v, b| v << 1 | b)
}

/// A record moves behind one of a higher kind.
fn kinds_fall(rng: &mut Rng) -> Provoked {
    let whole = small(rng).write();
    let mut rows = rows(&whole);
    let from = rng.below(rows.len() - 1);
    let kind = kind_of(&rows[from]);
    let later: Vec<usize> = (0..rows.len())
        .filter(|k| kind_of(&rows[*k]) > kind)
        .map(|k| k + 1)
        .collect();
    if later.is_empty() {
        return strategy_three(rng);
    }
    let to = later[rng.below(later.len())];
    let copy = rows[from].clone();
    rows.insert(to, copy);
    let (bytes, starts) = assemble(&whole, &rows, rows.len());
    refused("kinds fall", bytes, 6, starts[to])
}

fn one_policy_too_many(rng: &mut Rng) -> Provoked {
    let whole = small(rng).write();
    let mut rows = rows(&whole);
    let mut copy = rows[0].clone();
    scramble(rng, &mut copy);
    rows.insert(1, copy);
    let (bytes, starts) = assemble(&whole, &rows, rows.len());
    refused("one policy too many", bytes, 7, starts[1])
}

/// Nothing of the body of a record too many is looked at.
fn scramble(rng: &mut Rng, row: &mut [u64]) {
    if rng.flag() {
        for bit in &mut row[RECORD_HEAD_BITS..] {
            *bit = rng.next() & 1;
        }
    }
}

/// A sheet with the most records of each kind but demand.
fn full(rng: &mut Rng) -> Sheet {
    let mut sheet = small(rng);
    sheet.demands.clear();
    let last = sheet.stops.last().unwrap().id;
    for k in 1.. {
        if sheet.stops.len() == MOST[2] {
            break;
        }
        sheet.stops.push(Stop::at(last + k, f64::from(k)));
    }
    let unused = |taken: &dyn Fn(u32) -> bool| (1..).find(|id| !taken(*id)).unwrap();
    while sheet.lines.len() < MOST[3] {
        let id = unused(&|id| sheet.lines.iter().any(|l| l.id == id));
        sheet.lines.push(Line {
            id,
            mask: rng.next(),
        });
    }
    while sheet.cars.len() < MOST[4] {
        let id = unused(&|id| sheet.cars.iter().any(|c| c.id == id));
        let line = sheet.lines[rng.below(8)].id;
        sheet.cars.push(Car {
            id,
            ..Car::parked(line)
        });
    }
    while sheet.aboard.len() < MOST[5] {
        let car = sheet.cars[rng.below(32)].id;
        sheet.aboard.push(Aboard {
            car,
            destination: None,
        });
    }
    while sheet.waiting.len() < MOST[6] {
        let stop = sheet.stops[rng.below(64)].id;
        sheet.waiting.push(Waiting {
            stop,
            line: None,
            destination: None,
            weight: 1.0,
            wait: 0,
        });
    }
    sheet
}

fn one_too_many(rng: &mut Rng) -> Provoked {
    let kind = 2 + rng.below(5);
    let whole = full(rng).write();
    let mut rows = rows(&whole);
    // The records of later kinds may be missing: they play no part.
    if rng.flag() {
        rows.retain(|row| kind_of(row) <= kind as u64);
    }
    let last = rows
        .iter()
        .rposition(|row| kind_of(row) == kind as u64)
        .unwrap();
    let mut copy = rows[last].clone();
    scramble(rng, &mut copy);
    rows.insert(last + 1, copy);
    let (bytes, starts) = assemble(&whole, &rows, rows.len());
    refused("one record too many", bytes, 7, starts[last + 1])
}

fn full_tables(rng: &mut Rng) -> Provoked {
    accepted("full tables", full(rng).write())
}

fn strategy_three(rng: &mut Rng) -> Provoked {
    let mut bytes = small(rng).write();
    bits::set(&mut bytes, body(24), 2, 3);
    refused("strategy 3", bytes, 8, 24)
}

/// Minus zero has a one bit too.
fn unused_weight(rng: &mut Rng) -> Provoked {
    let mut sheet = small(rng);
    let strategy = rng.pick(&[ETD, SCAN]);
    let slot = if strategy == ETD { 5 } else { rng.below(6) };
    sheet.policy.strategy = strategy;
    if strategy == SCAN {
        sheet.policy.weights = [0.0; 6];
    }
    sheet.policy.weights[slot] = rng.pick(&[-0.0, 1.0, 5e-324, f64::NAN]);
    refused("unused weight", sheet.write(), 8, 24)
}

fn a_car(rng: &mut Rng, sheet: &Sheet) -> usize {
    rng.below(sheet.cars.len())
}

fn phase_seven(rng: &mut Rng) -> Provoked {
    let mut sheet = small(rng);
    let k = a_car(rng, &sheet);
    sheet.cars[k].phase = 7;
    let bytes = sheet.write();
    let at = start(&bytes, 4, k);
    refused("phase 7", bytes, 8, at)
}

fn unused_phase_stop(rng: &mut Rng) -> Provoked {
    let mut sheet = small(rng);
    let k = a_car(rng, &sheet);
    sheet.cars[k].phase = rng.pick(&[0, 3, 4, 5, 6]);
    sheet.cars[k].stop = 1 << rng.below(32);
    let bytes = sheet.write();
    let at = start(&bytes, 4, k);
    refused("stop of another phase", bytes, 8, at)
}

/// Kind, start of the optional field in edition 1, its width.
const OPTIONAL: [(usize, usize, usize); 6] = [
    (4, 99, 32),
    (4, 393, 64),
    (4, 458, 64),
    (5, 32, 32),
    (6, 32, 32),
    (6, 65, 32),
];

fn absent_with_bits(rng: &mut Rng) -> Provoked {
    let mut bytes = small(rng).write();
    let (kind, from, width) = rng.pick(&OPTIONAL);
    let from = field_at(edition(&bytes), kind, from);
    let found: Vec<_> = records(&bytes)
        .into_iter()
        .filter(|r| r.1 == kind)
        .collect();
    let at = found[rng.below(found.len())].0;
    bits::set(&mut bytes, body(at) + from, 1, 0);
    bits::set(
        &mut bytes,
        body(at) + from + 1,
        width,
        1 << rng.below(width),
    );
    refused("absent field with a one bit", bytes, 8, at)
}

fn zero_id(rng: &mut Rng) -> Provoked {
    let mut bytes = with_closed(rng).write();
    let ids = [
        (2, 0),
        (3, 0),
        (4, 0),
        (4, 32),
        (5, 0),
        (6, 0),
        (7, 0),
        (8, 0),
    ];
    let (kind, from) = rng.pick(&ids);
    let found: Vec<_> = records(&bytes)
        .into_iter()
        .filter(|r| r.1 == kind)
        .collect();
    let at = found[rng.below(found.len())].0;
    bits::set(&mut bytes, body(at) + from, 32, 0);
    refused("id 0", bytes, 9, at)
}

fn zero_phase_stop(rng: &mut Rng) -> Provoked {
    let mut sheet = small(rng);
    let k = a_car(rng, &sheet);
    sheet.cars[k].phase = rng.pick(&[1, 2]);
    sheet.cars[k].stop = 0;
    let bytes = sheet.write();
    let at = start(&bytes, 4, k);
    refused("stop 0 of phase 1 or 2", bytes, 9, at)
}

fn zero_present_id(rng: &mut Rng) -> Provoked {
    let mut bytes = small(rng).write();
    let (kind, from) = rng.pick(&[(4, 99), (5, 32), (6, 32), (6, 65)]);
    let found: Vec<_> = records(&bytes)
        .into_iter()
        .filter(|r| r.1 == kind)
        .collect();
    let at = found[rng.below(found.len())].0;
    bits::set(&mut bytes, body(at) + from, 33, 1 << 32);
    refused("present id 0", bytes, 9, at)
}

fn stop_not_above(rng: &mut Rng) -> Provoked {
    let mut sheet = small(rng);
    let last = sheet.stops.last().unwrap().id;
    let k = sheet.stops.len();
    let id = if rng.flag() || last == 1 {
        last
    } else {
        1 + rng.below(last as usize - 1) as u32
    };
    sheet.stops.push(Stop::at(id, 0.0));
    let bytes = sheet.write();
    let at = start(&bytes, 2, k);
    refused("stop id not above the last", bytes, 9, at)
}

fn repeated_line(rng: &mut Rng) -> Provoked {
    let mut sheet = small(rng);
    let id = sheet.lines[rng.below(sheet.lines.len())].id;
    // Its mask may be wrong as well: 9 comes first.
    sheet.lines.push(Line {
        id,
        mask: rng.next(),
    });
    let bytes = sheet.write();
    let at = start(&bytes, 3, sheet.lines.len() - 1);
    refused("repeated line id", bytes, 9, at)
}

fn repeated_car(rng: &mut Rng) -> Provoked {
    let mut sheet = small(rng);
    let mut car = sheet.cars[a_car(rng, &sheet)].clone();
    if rng.flag() {
        car.speed = f64::NAN;
        car.restricted = 1;
    }
    sheet.cars.push(car);
    let bytes = sheet.write();
    let at = start(&bytes, 4, sheet.cars.len() - 1);
    refused("repeated car id", bytes, 9, at)
}

fn repeated_demand(rng: &mut Rng) -> Provoked {
    let mut sheet = small(rng);
    let demand = sheet.demands[rng.below(sheet.demands.len())].clone();
    sheet.demands.push(demand);
    let bytes = sheet.write();
    let at = start(&bytes, 7, sheet.demands.len() - 1);
    refused("second demand for a stop", bytes, 9, at)
}

fn repeated_closed(rng: &mut Rng) -> Provoked {
    let mut sheet = with_closed(rng);
    let stop = sheet.closed[rng.below(sheet.closed.len())];
    let k = sheet.closed.len();
    sheet.closed.push(stop);
    let bytes = sheet.write();
    let at = start(&bytes, 8, k);
    refused("second closure of a stop", bytes, 9, at)
}

/// A record of a lower kind stands behind a closure.
fn behind_the_closed(rng: &mut Rng) -> Provoked {
    let whole = with_closed(rng).write();
    let mut rows = rows(&whole);
    let first = rows.iter().position(|row| kind_of(row) == 8).unwrap();
    let copy = rows[rng.below(first)].clone();
    let to = first + 1 + rng.below(rows.len() - first);
    rows.insert(to, copy);
    let (bytes, starts) = assemble(&whole, &rows, rows.len());
    refused("a lower kind behind a closure", bytes, 6, starts[to])
}

/// One a stop, in any order, and whether a line serves it or not.
fn every_landing_closed(rng: &mut Rng) -> Provoked {
    let mut sheet = small(rng);
    sheet.closed = sheet.stops.iter().map(|s| s.id).collect();
    if rng.flag() {
        sheet.closed.reverse();
    }
    if rng.flag() {
        sheet.lines.iter_mut().for_each(|l| l.mask = 0);
    }
    accepted("every landing closed", sheet.write())
}

fn no_such_record(rng: &mut Rng) -> Provoked {
    let mut sheet = with_closed(rng);
    let lines: Vec<u32> = sheet.lines.iter().map(|l| l.id).collect();
    let cars: Vec<u32> = sheet.cars.iter().map(|c| c.id).collect();
    let stops: Vec<u32> = sheet.stops.iter().map(|s| s.id).collect();
    let other = |taken: &[u32]| (1..).find(|id| !taken.contains(id)).unwrap();
    let (kind, k) = match rng.below(5) {
        0 => {
            let k = a_car(rng, &sheet);
            sheet.cars[k].line = other(&lines);
            (4, k)
        }
        1 => {
            let k = rng.below(sheet.aboard.len());
            sheet.aboard[k].car = other(&cars);
            (5, k)
        }
        2 => {
            let k = rng.below(sheet.waiting.len());
            sheet.waiting[k].stop = other(&stops);
            if rng.flag() {
                sheet.waiting[k].weight = f64::NAN;
            }
            (6, k)
        }
        3 => {
            let k = rng.below(sheet.demands.len());
            sheet.demands[k].stop = other(&stops);
            (7, k)
        }
        _ => {
            let k = rng.below(sheet.closed.len());
            sheet.closed[k] = other(&stops);
            (8, k)
        }
    };
    let bytes = sheet.write();
    let at = start(&bytes, kind, k);
    refused("no such record", bytes, 10, at)
}

fn mask_past_the_stops(rng: &mut Rng) -> Provoked {
    let mut sheet = small(rng);
    let n = sheet.stops.len();
    let past = 1u64
        << if rng.flag() {
            63 - n
        } else {
            rng.below(64 - n)
        };
    let (kind, k) = match rng.below(3) {
        0 => {
            let k = rng.below(sheet.lines.len());
            sheet.lines[k].mask |= past;
            (3, k)
        }
        1 => {
            let k = a_car(rng, &sheet);
            sheet.cars[k].restricted |= past;
            (4, k)
        }
        _ => {
            let k = a_car(rng, &sheet);
            sheet.cars[k].calls |= past;
            (4, k)
        }
    };
    let bytes = sheet.write();
    let at = start(&bytes, kind, k);
    refused("mask bit past the stops", bytes, 10, at)
}

fn above(value: f64) -> f64 {
    f64::from_bits(value.to_bits() + 1)
}

fn below(value: f64) -> f64 {
    f64::from_bits(value.to_bits() - 1)
}

/// A double of a sheet that is present and used, and the ends of its range.
fn a_double<'a>(
    rng: &mut Rng,
    sheet: &'a mut Sheet,
) -> (usize, usize, &'a mut f64, f64, f64, bool) {
    const AMOUNT: f64 = 1_000_000_000.0;
    const PLACE: f64 = 1_000_000.0;
    let sideways = sheet.edition == 2;
    match rng.below(15) {
        0 => (1, 0, &mut sheet.policy.tick_rate, 1.0, 1_000_000.0, false),
        1 | 2 => {
            sheet.policy.strategy = RSR;
            let slot = rng.below(6);
            (1, 0, &mut sheet.policy.weights[slot], 0.0, AMOUNT, false)
        }
        3 => {
            sheet.policy.strategy = ETD;
            sheet.policy.weights[5] = 0.0;
            (
                1,
                0,
                &mut sheet.policy.weights[rng.below(5)],
                0.0,
                AMOUNT,
                false,
            )
        }
        4 => {
            let k = rng.below(sheet.stops.len());
            (2, k, &mut sheet.stops[k].position, -PLACE, PLACE, false)
        }
        5 => {
            let k = rng.below(sheet.waiting.len());
            (6, k, &mut sheet.waiting[k].weight, 0.0, AMOUNT, false)
        }
        13 if sideways => {
            let k = rng.below(sheet.stops.len());
            (2, k, &mut sheet.stops[k].across, -PLACE, PLACE, false)
        }
        slot => {
            let k = a_car(rng, sheet);
            let car = &mut sheet.cars[k];
            match slot {
                6 => (4, k, &mut car.position, -PLACE, PLACE, false),
                14 if sideways => (4, k, &mut car.across, -PLACE, PLACE, false),
                7 | 8 => (4, k, &mut car.speed, 0.0, 1_000.0, true),
                9 => (4, k, &mut car.capacity, 0.0, AMOUNT, false),
                10 => (4, k, &mut car.load, 0.0, AMOUNT, false),
                11 => (4, k, car.up_threshold.insert(0.0), 0.0, 1_000.0, false),
                _ => (4, k, car.down_threshold.insert(0.0), 0.0, 1_000.0, false),
            }
        }
    }
}

fn double_outside(rng: &mut Rng) -> Provoked {
    let mut sheet = small(rng);
    let choice = rng.below(8);
    let (kind, k, value, low, high, speed) = a_double(rng, &mut sheet);
    *value = match choice {
        0 => f64::NAN,
        1 => -f64::NAN,
        2 => f64::INFINITY,
        3 => f64::NEG_INFINITY,
        4 if speed => below(1.0 / 1_024.0),
        5 if speed => 5e-324,
        4 | 5 => above(high),
        6 if low > 0.0 => below(low),
        6 if low < 0.0 => above(low),
        6 => -5e-324,
        _ => high * 2.0,
    };
    let bytes = sheet.write();
    let at = start(&bytes, kind, k);
    refused("double outside its range", bytes, 11, at)
}

fn double_inside(rng: &mut Rng) -> Provoked {
    let mut sheet = small(rng);
    let choice = rng.below(5);
    let (_, _, value, low, high, speed) = a_double(rng, &mut sheet);
    *value = match choice {
        0 => high,
        1 if speed => 1.0 / 1_024.0,
        1 => low,
        2 if low <= 0.0 => -0.0,
        3 if low == 0.0 && !speed => 5e-324,
        _ => below(high),
    };
    accepted("double at an end of its range", sheet.write())
}

fn limit_zero(rng: &mut Rng) -> Provoked {
    let mut sheet = small(rng);
    sheet.policy.limit = 0;
    if rng.flag() {
        sheet.policy.strategy = RSR;
        sheet.policy.weights = [1.0; 6];
    }
    refused("limit 0", sheet.write(), 12, 24)
}

fn limit_inside(rng: &mut Rng) -> Provoked {
    let mut sheet = small(rng);
    sheet.policy.limit = rng.pick(&[1, NO_LIMIT, NO_LIMIT - 1]);
    accepted("limit at an end of its range", sheet.write())
}

fn ticks_outside(rng: &mut Rng) -> Provoked {
    let mut sheet = small(rng);
    let k = a_car(rng, &sheet);
    (sheet.cars[k].transition, sheet.cars[k].open) = rng.pick(&[
        (1 << 31, 0),
        (2_147_483_647, 2),
        (1, u32::MAX - 1),
        (u32::MAX, u32::MAX),
    ]);
    let bytes = sheet.write();
    let at = start(&bytes, 4, k);
    refused("door ticks above 32 bits", bytes, 13, at)
}

fn ticks_inside(rng: &mut Rng) -> Provoked {
    let mut sheet = small(rng);
    let k = a_car(rng, &sheet);
    (sheet.cars[k].transition, sheet.cars[k].open) =
        rng.pick(&[(0, u32::MAX), (2_147_483_647, 1), (1, u32::MAX - 2)]);
    accepted("door ticks of 32 bits", sheet.write())
}

fn wait_outside(rng: &mut Rng) -> Provoked {
    let mut sheet = small(rng);
    let k = rng.below(sheet.waiting.len());
    sheet.waiting[k].wait = rng.pick(&[(1 << 53) + 1, u64::MAX, 1 << 63]);
    let bytes = sheet.write();
    let at = start(&bytes, 6, k);
    refused("wait ticks above 2^53", bytes, 14, at)
}

fn wait_inside(rng: &mut Rng) -> Provoked {
    let mut sheet = small(rng);
    let k = rng.below(sheet.waiting.len());
    sheet.waiting[k].wait = 1 << 53;
    accepted("wait ticks of 2^53", sheet.write())
}

/// What the first release refused by 15.
fn load_weight(rng: &mut Rng) -> Provoked {
    let mut sheet = small(rng);
    let load = rng.pick(&[-0.0, 5e-324, 1.0, 3.0, below(1e9), 1e9]);
    sheet.policy.strategy = RSR;
    sheet.policy.weights = [1.0, 0.0, 0.0, load, 0.0, 0.0];
    accepted("RSR with a load weight", sheet.write())
}

fn end_of_records(bytes: &[u8]) -> usize {
    let (at, kind) = *records(bytes).last().unwrap();
    body(at) + body_bits(edition(bytes), kind)
}

fn tail_too_long(rng: &mut Rng) -> Provoked {
    let mut bytes = small(rng).write();
    let end = end_of_records(&bytes);
    for _ in 0..1 + rng.below(3) {
        bytes.push(0);
    }
    refused("tail of more than 7 bits", bytes, 16, end)
}

fn tail_with_a_one(rng: &mut Rng) -> Provoked {
    let mut bytes = small(rng).write();
    let end = end_of_records(&bytes);
    let room = bytes.len() * 8 - end;
    if room == 0 {
        bytes.push(1);
    } else {
        bits::set(&mut bytes, end + rng.below(room), 1, 1);
    }
    refused("one bit in the tail", bytes, 16, end)
}

fn fewer_stated_than_there(rng: &mut Rng) -> Provoked {
    let whole = small(rng).write();
    let rows = rows(&whole);
    let count = 1 + rng.below(rows.len() - 1);
    let (bytes, starts) = assemble(&whole, &rows, count);
    refused(
        "fewer records stated than there are",
        bytes,
        16,
        starts[count],
    )
}

/// The numbers from 8 on that a record of a kind can cause.
const NUMBERS: [&[u32]; KINDS + 1] = [
    &[],
    &[8, 11, 12],
    &[9, 11],
    &[9, 10],
    &[8, 9, 10, 11, 13],
    &[8, 9, 10],
    &[8, 9, 10, 11, 14],
    &[9, 10],
    &[9, 10],
];

/// How many records of a kind a sheet has.
fn count(sheet: &Sheet, kind: usize) -> usize {
    let s = sheet;
    let counts = [
        0,
        1,
        s.stops.len(),
        s.lines.len(),
        s.cars.len(),
        s.aboard.len(),
        s.waiting.len(),
        s.demands.len(),
        s.closed.len(),
    ];
    counts[kind]
}

/// Optional fields to be given bits while absent: kind, record, start in edition 1, width.
type Pokes = Vec<(usize, usize, usize, usize)>;

/// Spoils record `k` of a kind so that the number's condition holds.
fn spoil(rng: &mut Rng, sheet: &mut Sheet, kind: usize, k: usize, number: u32, pokes: &mut Pokes) {
    let unknown = |taken: &mut dyn Iterator<Item = u32>| {
        let taken: Vec<u32> = taken.collect();
        (1..).find(|id| !taken.contains(id)).unwrap()
    };
    let no_line = unknown(&mut sheet.lines.iter().map(|l| l.id));
    let no_car = unknown(&mut sheet.cars.iter().map(|c| c.id));
    let no_stop = unknown(&mut sheet.stops.iter().map(|s| s.id));
    let past = 1u64 << rng.below(64 - sheet.stops.len());
    match (kind, number) {
        (1, 8) => sheet.policy.strategy = 3,
        (1, 11) => sheet.policy.tick_rate = rng.pick(&[0.5, f64::NAN, 1e7]),
        (1, _) => sheet.policy.limit = 0,
        (2, 9) => {
            sheet.stops[k].id = if k == 0 || rng.flag() {
                0
            } else {
                sheet.stops[k - 1].id
            }
        }
        (2, _) if sheet.edition == 2 && rng.flag() => {
            sheet.stops[k].across = rng.pick(&[f64::NAN, -1e7]);
        }
        (2, _) => sheet.stops[k].position = rng.pick(&[f64::NAN, 1e7]),
        (3, 9) => {
            sheet.lines[k].id = if k == 0 || rng.flag() {
                0
            } else {
                sheet.lines[0].id
            }
        }
        (3, _) => sheet.lines[k].mask |= past,
        (4, 8) if rng.flag() => sheet.cars[k].phase = 7,
        (4, 8) => pokes.push((4, k, rng.pick(&[393, 458]), 64)),
        (4, 9) if rng.flag() => sheet.cars[k].id = 0,
        (4, 9) => sheet.cars[k].target = Some(0),
        (4, 10) if rng.flag() => sheet.cars[k].line = no_line,
        (4, 10) => sheet.cars[k].calls |= past,
        (4, 11) if sheet.edition == 2 && rng.flag() => sheet.cars[k].across = f64::NEG_INFINITY,
        (4, 11) if rng.flag() => sheet.cars[k].load = -1.0,
        (4, 11) => sheet.cars[k].speed = f64::INFINITY,
        (4, _) => sheet.cars[k].transition = u32::MAX,
        (5, 8) => pokes.push((5, k, 32, 32)),
        (5, 9) if rng.flag() => sheet.aboard[k].car = 0,
        (5, 9) => sheet.aboard[k].destination = Some(0),
        (5, _) => sheet.aboard[k].car = no_car,
        (6, 8) => pokes.push((6, k, rng.pick(&[32, 65]), 32)),
        (6, 9) if rng.flag() => sheet.waiting[k].stop = 0,
        // Both, since one may be poked.
        (6, 9) => (sheet.waiting[k].line, sheet.waiting[k].destination) = (Some(0), Some(0)),
        (6, 10) => sheet.waiting[k].stop = no_stop,
        (6, 11) => sheet.waiting[k].weight = f64::NEG_INFINITY,
        (6, _) => sheet.waiting[k].wait = u64::MAX,
        (7, 9) => sheet.demands[k].stop = 0,
        (7, _) => sheet.demands[k].stop = no_stop,
        (_, 9) if k > 0 && rng.flag() => sheet.closed[k] = sheet.closed[0],
        (_, 9) => sheet.closed[k] = 0,
        _ => sheet.closed[k] = no_stop,
    }
}

/// Spoils a record in two ways or more; the lowest number is given. Higher ones come first here, so that
/// the lowest stays where two touch one field.
fn spoil_often(rng: &mut Rng, sheet: &mut Sheet, kind: usize, k: usize, pokes: &mut Pokes) -> u32 {
    let numbers = NUMBERS[kind];
    let first = rng.below(numbers.len() - 1);
    for at in (first..numbers.len()).rev() {
        if at <= first + 1 || rng.flag() {
            spoil(rng, sheet, kind, k, numbers[at], pokes);
        }
    }
    numbers[first]
}

fn poked(sheet: &Sheet, pokes: &Pokes) -> Vec<u8> {
    let mut bytes = sheet.write();
    for (kind, k, from, width) in pokes {
        let at = body(start(&bytes, *kind, *k)) + field_at(sheet.edition.into(), *kind, *from);
        bits::set(&mut bytes, at, 1, 0);
        bits::set(&mut bytes, at + 1, *width, 1 << (width - 1));
    }
    bytes
}

fn several_in_a_record(rng: &mut Rng) -> Provoked {
    let mut sheet = with_closed(rng);
    let mut pokes = Pokes::new();
    let kind = 1 + rng.below(KINDS);
    let k = rng.below(count(&sheet, kind));
    let number = spoil_often(rng, &mut sheet, kind, k, &mut pokes);
    let bytes = poked(&sheet, &pokes);
    let at = start(&bytes, kind, k);
    refused("several faults in a record", bytes, number, at)
}

/// The first record is given, whatever the numbers.
fn several_records(rng: &mut Rng) -> Provoked {
    let mut sheet = with_closed(rng);
    let mut pokes = Pokes::new();
    let kind = 1 + rng.below(KINDS - 1);
    let k = rng.below(count(&sheet, kind));
    let later = kind + 1 + rng.below(KINDS - kind);
    let j = rng.below(count(&sheet, later));
    spoil_often(rng, &mut sheet, later, j, &mut pokes);
    let number = NUMBERS[kind][rng.below(NUMBERS[kind].len())];
    spoil(rng, &mut sheet, kind, k, number, &mut pokes);
    let mut bytes = poked(&sheet, &pokes);
    if rng.flag() {
        bytes.push(1);
    }
    let at = start(&bytes, kind, k);
    refused("faults in two records", bytes, number, at)
}

/// Bytes that end too early, or a wrong kind later on, come after a faulty record.
fn fault_before_the_cut(rng: &mut Rng) -> Provoked {
    let mut sheet = with_closed(rng);
    let mut pokes = Pokes::new();
    let kind = 1 + rng.below(KINDS - 1);
    let k = rng.below(count(&sheet, kind));
    let number = NUMBERS[kind][rng.below(NUMBERS[kind].len())];
    spoil(rng, &mut sheet, kind, k, number, &mut pokes);
    let mut bytes = poked(&sheet, &pokes);
    let at = start(&bytes, kind, k);
    let end = (body(at) + body_bits(edition(&bytes), kind)).div_ceil(8);
    let last = records(&bytes).last().unwrap().0;
    if rng.flag() {
        bytes.truncate(end + rng.below(bytes.len() - end));
    } else {
        bits::set(&mut bytes, last, 6, rng.pick(&[0, 1, 9, 63]));
    }
    refused("fault before a cut", bytes, number, at)
}

#[cfg(test)]
mod tests {
    use super::*;
    use crate::reader::read;

    #[test]
    fn the_reader_gives_what_was_provoked() {
        for index in 0..41_000 {
            let made = provoke(&mut Rng::new(1, 7, index), index);
            assert_eq!(read(&made.bytes), made.expected, "{} ({index})", made.name);
        }
    }
}
