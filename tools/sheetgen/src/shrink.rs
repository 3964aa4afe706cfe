//! The smallest sheet that still shows something: drop records, then fields, then digits, as long as the
//! given test still holds.

use std::collections::HashMap;

use crate::bits::{self, Writer};
use crate::generate::records;
use crate::reader::read;
use crate::sheet::{Car, NO_LIMIT, RECORD_HEAD_BITS, Sheet, mask_bit};

/// Bytes that hold the test; `bytes` must.
pub fn shrink(bytes: &[u8], holds: &mut dyn FnMut(&[u8]) -> bool) -> Vec<u8> {
    let mut best = bytes.to_vec();
    loop {
        let before = best.clone();
        if read(&best).is_none() {
            best = Accepted {
                best: Sheet::of_accepted(&best),
                holds,
            }
            .shrink();
        }
        if read(&best).is_some() {
            best = raw(best, holds);
        }
        if best == before {
            return best;
        }
    }
}

/// Shrinks an accepted sheet to accepted sheets, references kept in order.
struct Accepted<'a> {
    best: Sheet,
    holds: &'a mut dyn FnMut(&[u8]) -> bool,
}

impl Accepted<'_> {
    fn shrink(mut self) -> Vec<u8> {
        loop {
            let before = self.best.clone();
            self.drop_records();
            self.simplify();
            self.renumber();
            if same(&self.best, &before) {
                return self.best.write();
            }
        }
    }

    /// Takes the candidate if it is another sheet, accepted, and holds the test.
    fn attempt(&mut self, candidate: Sheet) -> bool {
        if same(&candidate, &self.best) {
            return false;
        }
        let bytes = candidate.write();
        let good = read(&bytes).is_none() && (self.holds)(&bytes);
        if good {
            self.best = candidate;
        }
        good
    }

    fn change(&mut self, change: impl FnOnce(&mut Sheet)) -> bool {
        let mut candidate = self.best.clone();
        change(&mut candidate);
        self.attempt(candidate)
    }

    fn drop_records(&mut self) {
        type Count = fn(&Sheet) -> usize;
        type Drop = fn(&mut Sheet, usize, usize);
        let kinds: [(Count, Drop); 7] = [
            (|s| s.lines.len(), drop_lines),
            (|s| s.stops.len(), drop_stops),
            (|s| s.cars.len(), drop_cars),
            (
                |s| s.waiting.len(),
                |s, from, to| drop(s.waiting.drain(from..to)),
            ),
            (
                |s| s.aboard.len(),
                |s, from, to| drop(s.aboard.drain(from..to)),
            ),
            (
                |s| s.demands.len(),
                |s, from, to| drop(s.demands.drain(from..to)),
            ),
            (
                |s| s.closed.len(),
                |s, from, to| drop(s.closed.drain(from..to)),
            ),
        ];
        for (count, remove) in kinds {
            let mut chunk = count(&self.best);
            while chunk > 0 {
                let mut from = 0;
                while from < count(&self.best) {
                    let to = (from + chunk).min(count(&self.best));
                    if !self.change(|s| remove(s, from, to)) {
                        from += chunk;
                    }
                }
                chunk /= 2;
            }
        }
    }

    fn simplify(&mut self) {
        self.change(|s| {
            s.edition = 1;
            s.stops.iter_mut().for_each(|x| x.across = 0.0);
            s.cars.iter_mut().for_each(|x| x.across = 0.0);
        });
        self.change(|s| s.policy.limit = NO_LIMIT);
        for limit in 1..self.best.policy.limit.min(65) {
            if self.best.policy.limit == NO_LIMIT || self.change(|s| s.policy.limit = limit) {
                break;
            }
        }
        self.change(|s| s.policy.traffic = 0);
        self.double(|s| &mut s.policy.tick_rate, &[60.0, 1.0]);
        for k in 0..6 {
            self.double(move |s| &mut s.policy.weights[k], &[0.0, 1.0]);
        }
        for i in 0..self.best.stops.len() {
            self.double(move |s| &mut s.stops[i].position, &[0.0, 1.0, 10.0]);
            self.double(move |s| &mut s.stops[i].across, &[0.0, 1.0, 10.0]);
        }
        for i in 0..self.best.lines.len() {
            self.mask(move |s| &mut s.lines[i].mask);
        }
        for i in 0..self.best.cars.len() {
            self.car(i);
        }
        for i in 0..self.best.aboard.len() {
            self.change(|s| s.aboard[i].destination = None);
        }
        for i in 0..self.best.waiting.len() {
            self.change(|s| s.waiting[i].line = None);
            self.change(|s| s.waiting[i].destination = None);
            self.double(move |s| &mut s.waiting[i].weight, &[0.0, 1.0]);
            for wait in [0, 1, 60] {
                if self.best.waiting[i].wait <= wait || self.change(|s| s.waiting[i].wait = wait) {
                    break;
                }
            }
        }
        for i in 0..self.best.demands.len() {
            self.change(|s| s.demands[i].riding = 0);
            self.change(|s| s.demands[i].riding = s.demands[i].riding.min(1));
            self.change(|s| s.demands[i].call = false);
        }
    }

    fn car(&mut self, i: usize) {
        let plain = Car::parked(self.best.cars[i].line);
        self.change(|s| {
            s.cars[i] = Car {
                id: s.cars[i].id,
                idle: s.cars[i].idle,
                ..plain.clone()
            }
        });
        self.change(|s| (s.cars[i].phase, s.cars[i].stop) = (0, 0));
        self.change(|s| s.cars[i].target = None);
        self.change(|s| s.cars[i].idle = false);
        self.change(|s| s.cars[i].going_up = true);
        self.change(|s| s.cars[i].going_down = true);
        self.change(|s| s.cars[i].sweep_down = false);
        self.change(|s| s.cars[i].lenient = false);
        self.double(move |s| &mut s.cars[i].position, &[0.0, 1.0, 10.0]);
        self.double(move |s| &mut s.cars[i].across, &[0.0, 1.0, 10.0]);
        self.double(move |s| &mut s.cars[i].speed, &[2.0, 1.0]);
        self.double(move |s| &mut s.cars[i].capacity, &[100.0, 1.0]);
        self.double(move |s| &mut s.cars[i].load, &[0.0, 1.0]);
        self.change(|s| s.cars[i].up_threshold = None);
        self.change(|s| s.cars[i].down_threshold = None);
        for ticks in [0, 1] {
            if self.best.cars[i].transition > ticks {
                self.change(|s| s.cars[i].transition = ticks);
            }
            if self.best.cars[i].open > ticks {
                self.change(|s| s.cars[i].open = ticks);
            }
        }
        self.mask(move |s| &mut s.cars[i].restricted);
        self.mask(move |s| &mut s.cars[i].calls);
    }

    fn mask(&mut self, field: impl Fn(&mut Sheet) -> &mut u64) {
        if self.change(|s| *field(s) = 0) {
            return;
        }
        for i in 0..self.best.stops.len() {
            self.change(|s| *field(s) &= !mask_bit(i));
        }
    }

    /// The plainest values first, then fewer digits.
    fn double(&mut self, field: impl Fn(&mut Sheet) -> &mut f64, plain: &[f64]) {
        let mut copy = self.best.clone();
        let value = *field(&mut copy);
        for p in plain {
            if value.to_bits() == p.to_bits() || self.change(|s| *field(s) = *p) {
                return;
            }
        }
        // Fewer digits each time, so that this ends.
        let digits = |v: f64| format!("{v:?}").len();
        let rounded = [1.0, 10.0, 1000.0].map(|by| (value * by).round() / by);
        let cut = [52, 48, 40, 26].map(|by| f64::from_bits(value.to_bits() >> by << by));
        for short in rounded.into_iter().chain(cut) {
            if digits(short) < digits(value) && self.change(|s| *field(s) = short) {
                return;
            }
        }
    }

    /// Ids 1, 2, 3, .. in record order, cars from 1 too; ids without a record from 900.
    fn renumber(&mut self) {
        let mut s = self.best.clone();
        let ranks = |ids: Vec<u32>| -> HashMap<u32, u32> { ids.into_iter().zip(1..).collect() };
        let stops = ranks(s.stops.iter().map(|x| x.id).collect());
        let lines = ranks(s.lines.iter().map(|x| x.id).collect());
        let cars = ranks(s.cars.iter().map(|x| x.id).collect());
        let to = |map: &HashMap<u32, u32>, id: u32| map.get(&id).copied().unwrap_or(900);
        s.stops.iter_mut().for_each(|x| x.id = to(&stops, x.id));
        s.lines.iter_mut().for_each(|x| x.id = to(&lines, x.id));
        for c in &mut s.cars {
            c.id = to(&cars, c.id);
            c.line = to(&lines, c.line);
            c.stop = if c.stop == 0 { 0 } else { to(&stops, c.stop) };
            c.target = c.target.map(|id| to(&stops, id));
        }
        for a in &mut s.aboard {
            a.car = to(&cars, a.car);
            a.destination = a.destination.map(|id| to(&stops, id));
        }
        for w in &mut s.waiting {
            w.stop = to(&stops, w.stop);
            w.line = w.line.map(|id| to(&lines, id));
            w.destination = w.destination.map(|id| to(&stops, id));
        }
        s.demands
            .iter_mut()
            .for_each(|d| d.stop = to(&stops, d.stop));
        s.closed
            .iter_mut()
            .for_each(|stop| *stop = to(&stops, *stop));
        self.attempt(s);
    }
}

/// Bit for bit: a minus zero is not a zero here.
fn same(a: &Sheet, b: &Sheet) -> bool {
    a.write() == b.write()
}

fn drop_cars(s: &mut Sheet, from: usize, to: usize) {
    let gone: Vec<u32> = s.cars.drain(from..to).map(|c| c.id).collect();
    s.aboard.retain(|a| !gone.contains(&a.car));
}

/// With the cars of the lines.
fn drop_lines(s: &mut Sheet, from: usize, to: usize) {
    let gone: Vec<u32> = s.lines.drain(from..to).map(|l| l.id).collect();
    while let Some(k) = s.cars.iter().position(|c| gone.contains(&c.line)) {
        drop_cars(s, k, k + 1);
    }
}

/// With what waits or is demanded there, and its closure; the masks close up.
fn drop_stops(s: &mut Sheet, from: usize, to: usize) {
    let gone: Vec<u32> = s.stops.drain(from..to).map(|x| x.id).collect();
    s.waiting.retain(|w| !gone.contains(&w.stop));
    s.demands.retain(|d| !gone.contains(&d.stop));
    s.closed.retain(|stop| !gone.contains(stop));
    let old = s.stops.len() + gone.len();
    let close = |mask: &mut u64| {
        let mut packed = 0;
        for (new, i) in (0..old).filter(|i| *i < from || *i >= to).enumerate() {
            if *mask & mask_bit(i) != 0 {
                packed |= mask_bit(new);
            }
        }
        *mask = packed;
    };
    s.lines.iter_mut().for_each(|l| close(&mut l.mask));
    for c in &mut s.cars {
        close(&mut c.restricted);
        close(&mut c.calls);
    }
}

/// Shrinks bytes that no sheet has: drop stated records, cut the end, clear fields and bytes.
fn raw(mut best: Vec<u8>, holds: &mut dyn FnMut(&[u8]) -> bool) -> Vec<u8> {
    let attempt = |best: &mut Vec<u8>, candidate: Vec<u8>, holds: &mut dyn FnMut(&[u8]) -> bool| {
        let good = candidate != *best && holds(&candidate);
        if good {
            *best = candidate;
        }
        good
    };
    // Stated records, whole.
    let mut chunk = records(&best).len();
    while chunk > 0 {
        let mut from = 0;
        while from < records(&best).len() {
            let to = (from + chunk).min(records(&best).len());
            let candidate = without(&best, from, to);
            if !attempt(&mut best, candidate, holds) {
                from += chunk;
            }
        }
        chunk /= 2;
    }
    // The end.
    let mut cut = best.len();
    while cut > 0 {
        if cut <= best.len() {
            let candidate = best[..best.len() - cut].to_vec();
            if attempt(&mut best, candidate, holds) {
                continue;
            }
        }
        cut /= 2;
    }
    // Bytes.
    let mut chunk = best.len();
    while chunk > 0 {
        let mut from = 0;
        while from < best.len() {
            let mut candidate = best.clone();
            let to = (from + chunk).min(best.len());
            candidate[from..to].fill(0);
            attempt(&mut best, candidate, holds);
            from += chunk;
        }
        chunk /= 2;
    }
    for k in 0..best.len() * 8 {
        if bits::get(&best, k, 1) == 1 {
            let mut candidate = best.clone();
            bits::set(&mut candidate, k, 1, 0);
            attempt(&mut best, candidate, holds);
        }
    }
    best
}

/// The bytes without the stated records `from` to `to`, the count lowered.
fn without(bytes: &[u8], from: usize, to: usize) -> Vec<u8> {
    let found = records(bytes);
    let start = found[from].0;
    let (last, _) = found[to - 1];
    let end = last + RECORD_HEAD_BITS + bits::get(bytes, last + 6, 16) as usize;
    let mut w = Writer::default();
    for k in (0..start).chain(end..bytes.len() * 8) {
        w.put(1, bits::get(bytes, k, 1));
    }
    // Zero bits that only filled the old last byte go too.
    let kept = w.len();
    let mut left = w.finish();
    let filled = bytes.len() * 8 - (found.last().map_or(0, |_| end_of(bytes, &found)));
    let wanted = (kept - filled.min(7)).div_ceil(8);
    if filled < 8 && wanted < left.len() {
        left.truncate(wanted);
    }
    let count = bits::get(bytes, 8, 16) - (to - from) as u64;
    bits::set(&mut left, 8, 16, count);
    left
}

fn end_of(bytes: &[u8], found: &[(usize, usize)]) -> usize {
    let (at, _) = *found.last().unwrap();
    at + RECORD_HEAD_BITS + bits::get(bytes, at + 6, 16) as usize
}
