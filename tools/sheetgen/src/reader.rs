//! The refusal of a byte string, by document 01's numbers and order: the head, each record in turn, within
//! it by rising number, the tail last. Kind 8 is document 02's, and so are edition 2 and that 15 is given no more.
//! Refusal 1 is the host's and needs no bytes.

use crate::bits::get;
use crate::sheet::{EDITIONS, ETD, HEAD_BITS, KINDS, MOST, RECORD_HEAD_BITS, SCAN, body_bits};

#[derive(Clone, Copy, Debug, PartialEq, Eq, PartialOrd, Ord)]
pub struct Refusal {
    pub number: u32,
    pub offset: u64,
}

/// What the records so far have stated.
#[derive(Default)]
struct Seen {
    edition: u64,
    kind: usize,
    counts: [usize; KINDS + 1],
    stops: Vec<u64>,
    lines: Vec<u64>,
    cars: Vec<u64>,
    demanded: Vec<u64>,
    closed: Vec<u64>,
}

/// `None` where the bytes are an accepted sheet.
pub fn read(bytes: &[u8]) -> Option<Refusal> {
    let end = bytes.len() * 8;
    if end < HEAD_BITS {
        return Some(Refusal {
            number: 2,
            offset: 0,
        });
    }
    let edition = get(bytes, 0, 8);
    if !EDITIONS.contains(&edition) {
        return Some(Refusal {
            number: 3,
            offset: 0,
        });
    }
    let count = get(bytes, 8, 16);
    if count == 0 {
        return Some(Refusal {
            number: 6,
            offset: 24,
        });
    }
    let mut seen = Seen {
        edition,
        ..Seen::default()
    };
    let mut at = HEAD_BITS;
    for _ in 0..count {
        if let Some(number) = record(bytes, end, at, &mut seen) {
            return Some(Refusal {
                number,
                offset: at as u64,
            });
        }
        at += RECORD_HEAD_BITS + body_bits(edition, seen.kind);
    }
    if end - at > 7 || get(bytes, at, end - at) != 0 {
        return Some(Refusal {
            number: 16,
            offset: at as u64,
        });
    }
    None
}

/// The refusal of the record at `at`, or `None` with the record noted in `seen`.
fn record(bytes: &[u8], end: usize, at: usize, seen: &mut Seen) -> Option<u32> {
    if at + RECORD_HEAD_BITS > end {
        return Some(2);
    }
    let kind = get(bytes, at, 6) as usize;
    let length = get(bytes, at + 6, 16) as usize;
    if at + RECORD_HEAD_BITS + length > end {
        return Some(2);
    }
    if !(1..=KINDS).contains(&kind) {
        return Some(4);
    }
    if length != body_bits(seen.edition, kind) {
        return Some(5);
    }
    if kind < seen.kind || (seen.kind == 0 && kind != 1) {
        return Some(6);
    }
    if kind <= 6 && seen.counts[kind] == MOST[kind] {
        return Some(7);
    }
    let body = at + RECORD_HEAD_BITS;
    let field = |from: usize, width: usize| get(bytes, body + from, width);
    let number = match kind {
        1 => policy(&field),
        2 => stop(&field, seen),
        3 => line(&field, seen),
        4 => car(&field, seen),
        5 => aboard(&field, seen),
        6 => waiting(&field, seen),
        7 => demand(&field, seen),
        _ => closed(&field, seen),
    };
    if number.is_none() {
        seen.kind = kind;
        seen.counts[kind] += 1;
        let id = field(0, 32);
        match kind {
            2 => seen.stops.push(id),
            3 => seen.lines.push(id),
            4 => seen.cars.push(id),
            7 => seen.demanded.push(id),
            8 => seen.closed.push(id),
            _ => {}
        }
    }
    number
}

type Field<'a> = &'a dyn Fn(usize, usize) -> u64;

fn double(bits: u64) -> f64 {
    f64::from_bits(bits)
}

/// Within `low` to `high`; a NaN is outside, and minus zero is zero.
fn within(value: f64, low: f64, high: f64) -> bool {
    low <= value && value <= high
}

fn amount(value: f64) -> bool {
    within(value, 0.0, 1_000_000_000.0)
}

fn position(value: f64) -> bool {
    within(value, -1_000_000.0, 1_000_000.0)
}

/// An optional field at `from`: absent with a one bit in it.
fn absent_with_bits(f: Field, from: usize, width: usize) -> bool {
    f(from, 1) == 0 && f(from + 1, width) != 0
}

/// An optional id at `from`: present and 0.
fn present_zero(f: Field, from: usize) -> bool {
    f(from, 1) == 1 && f(from + 1, 32) == 0
}

/// A one bit past the stop records.
fn past_the_stops(mask: u64, seen: &Seen) -> bool {
    let n = seen.stops.len();
    n < 64 && mask & (u64::MAX >> n) != 0
}

fn policy(f: Field) -> Option<u32> {
    let strategy = f(0, 2);
    let weight = |k: usize| f(84 + 64 * k, 64);
    let unused = if strategy == u64::from(ETD) {
        weight(5) != 0
    } else if strategy == u64::from(SCAN) {
        (0..6).any(|k| weight(k) != 0)
    } else {
        false
    };
    if strategy == 3 || unused {
        return Some(8);
    }
    let tick_rate = double(f(18, 64));
    if !within(tick_rate, 1.0, 1_000_000.0) || (0..6).any(|k| !amount(double(weight(k)))) {
        return Some(11);
    }
    if f(2, 16) == 0 {
        return Some(12);
    }
    None
}

fn stop(f: Field, seen: &Seen) -> Option<u32> {
    let id = f(0, 32);
    if id == 0 || seen.stops.last().is_some_and(|last| id <= *last) {
        return Some(9);
    }
    let across = || double(f(96, 64));
    if !position(double(f(32, 64))) || seen.edition == 2 && !position(across()) {
        return Some(11);
    }
    None
}

fn line(f: Field, seen: &Seen) -> Option<u32> {
    let id = f(0, 32);
    if id == 0 || seen.lines.contains(&id) {
        return Some(9);
    }
    if past_the_stops(f(32, 64), seen) {
        return Some(10);
    }
    None
}

fn car(f: Field, seen: &Seen) -> Option<u32> {
    const PHASE: usize = 64;
    const STOP: usize = 67;
    const TARGET: usize = 99;
    const POSITION: usize = 137;
    const ACROSS: usize = 201;
    // Edition 2's second coordinate moves what stands behind the position.
    let by = if seen.edition == 2 { 64 } else { 0 };
    let (speed_at, up, down) = (201 + by, 393 + by, 458 + by);
    let (transition, restricted) = (523 + by, 587 + by);
    let phase = f(PHASE, 3);
    let bound = phase == 1 || phase == 2;
    if phase == 7
        || (!bound && f(STOP, 32) != 0)
        || absent_with_bits(f, TARGET, 32)
        || absent_with_bits(f, up, 64)
        || absent_with_bits(f, down, 64)
    {
        return Some(8);
    }
    let (id, line) = (f(0, 32), f(32, 32));
    if id == 0
        || line == 0
        || (bound && f(STOP, 32) == 0)
        || present_zero(f, TARGET)
        || seen.cars.contains(&id)
    {
        return Some(9);
    }
    if !seen.lines.contains(&line)
        || past_the_stops(f(restricted, 64), seen)
        || past_the_stops(f(restricted + 64, 64), seen)
    {
        return Some(10);
    }
    let at = |k: usize| double(f(speed_at + 64 * k, 64));
    let speed = at(0);
    let threshold = |from: usize| f(from, 1) == 0 || within(double(f(from + 1, 64)), 0.0, 1_000.0);
    if !position(double(f(POSITION, 64)))
        || seen.edition == 2 && !position(double(f(ACROSS, 64)))
        || !(speed == 0.0 || within(speed, 1.0 / 1_024.0, 1_000.0))
        || !amount(at(1))
        || !amount(at(2))
        || !threshold(up)
        || !threshold(down)
    {
        return Some(11);
    }
    if 2 * f(transition, 32) + f(transition + 32, 32) > 4_294_967_295 {
        return Some(13);
    }
    None
}

fn aboard(f: Field, seen: &Seen) -> Option<u32> {
    if absent_with_bits(f, 32, 32) {
        return Some(8);
    }
    let car = f(0, 32);
    if car == 0 || present_zero(f, 32) {
        return Some(9);
    }
    if !seen.cars.contains(&car) {
        return Some(10);
    }
    None
}

fn waiting(f: Field, seen: &Seen) -> Option<u32> {
    if absent_with_bits(f, 32, 32) || absent_with_bits(f, 65, 32) {
        return Some(8);
    }
    let stop = f(0, 32);
    if stop == 0 || present_zero(f, 32) || present_zero(f, 65) {
        return Some(9);
    }
    if !seen.stops.contains(&stop) {
        return Some(10);
    }
    if !amount(double(f(98, 64))) {
        return Some(11);
    }
    if f(162, 64) > 9_007_199_254_740_992 {
        return Some(14);
    }
    None
}

fn demand(f: Field, seen: &Seen) -> Option<u32> {
    let stop = f(0, 32);
    if stop == 0 || seen.demanded.contains(&stop) {
        return Some(9);
    }
    if !seen.stops.contains(&stop) {
        return Some(10);
    }
    None
}

/// "A second one for a stop is 9, an unlisted stop is 10".
fn closed(f: Field, seen: &Seen) -> Option<u32> {
    let stop = f(0, 32);
    if stop == 0 || seen.closed.contains(&stop) {
        return Some(9);
    }
    if !seen.stops.contains(&stop) {
        return Some(10);
    }
    None
}
