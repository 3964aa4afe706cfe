//! A sheet as its records, and how they are written.

use crate::bits::{self, Writer};

/// The editions of a sheet: the first, and document 02's, in which stops and cars have a second coordinate (F-12).
pub const EDITIONS: [u64; 2] = [1, 2];
pub const NO_LIMIT: u16 = 65_535;
pub const HEAD_BITS: usize = 24;
/// Kind and length stand before each body.
pub const RECORD_HEAD_BITS: usize = 22;
/// Body length by edition and kind; kind 0 is unused.
const BODY_BITS: [[usize; 9]; 2] = [
    [0, 468, 96, 96, 715, 65, 226, 49, 32],
    [0, 468, 160, 96, 779, 65, 226, 49, 32],
];
/// The highest kind.
pub const KINDS: usize = BODY_BITS[0].len() - 1;
/// The width of a second coordinate, and where it stands in a stop's body and in a car's: right after the position.
pub const ACROSS_BITS: usize = 64;
pub const STOP_ACROSS: usize = 96;
pub const CAR_ACROSS: usize = 201;

/// The length of a body in an edition; those of other editions are taken for the first's.
pub fn body_bits(edition: u64, kind: usize) -> usize {
    BODY_BITS[usize::from(edition == 2)][kind]
}

/// Where the second coordinate stands in a body of edition 2.
pub fn across_at(kind: usize) -> Option<usize> {
    match kind {
        2 => Some(STOP_ACROSS),
        4 => Some(CAR_ACROSS),
        _ => None,
    }
}

/// Where a field of edition 1's body stands in an edition's: second coordinates come before what stands behind the position.
pub fn field_at(edition: u64, kind: usize, from: usize) -> usize {
    match across_at(kind) {
        Some(across) if edition == 2 && from >= across => from + ACROSS_BITS,
        _ => from,
    }
}
/// The most records of kinds 1 to 6; index 0 is unused.
pub const MOST: [usize; 7] = [0, 1, 64, 8, 32, 512, 512];

pub const ETD: u8 = 0;
pub const RSR: u8 = 1;
pub const SCAN: u8 = 2;

#[derive(Clone, Debug, PartialEq)]
pub struct Policy {
    pub strategy: u8,
    pub limit: u16,
    pub tick_rate: f64,
    pub traffic: u8,
    pub weights: [f64; 6],
}

#[derive(Clone, Debug, PartialEq)]
pub struct Stop {
    pub id: u32,
    pub position: f64,
    /// The second coordinate; 0 in edition 1.
    pub across: f64,
}

#[derive(Clone, Debug, PartialEq)]
pub struct Line {
    pub id: u32,
    pub mask: u64,
}

#[derive(Clone, Debug, PartialEq)]
pub struct Car {
    pub id: u32,
    pub line: u32,
    pub phase: u8,
    /// The stop of phases 1 and 2; 0 otherwise.
    pub stop: u32,
    pub target: Option<u32>,
    pub idle: bool,
    pub going_up: bool,
    pub going_down: bool,
    /// False: up.
    pub sweep_down: bool,
    /// False: strict.
    pub lenient: bool,
    pub position: f64,
    /// The second coordinate; 0 in edition 1.
    pub across: f64,
    pub speed: f64,
    pub capacity: f64,
    pub load: f64,
    pub up_threshold: Option<f64>,
    pub down_threshold: Option<f64>,
    pub transition: u32,
    pub open: u32,
    pub restricted: u64,
    pub calls: u64,
}

#[derive(Clone, Debug, PartialEq)]
pub struct Aboard {
    pub car: u32,
    pub destination: Option<u32>,
}

#[derive(Clone, Debug, PartialEq)]
pub struct Waiting {
    pub stop: u32,
    pub line: Option<u32>,
    pub destination: Option<u32>,
    pub weight: f64,
    pub wait: u64,
}

#[derive(Clone, Debug, PartialEq)]
pub struct Demand {
    pub stop: u32,
    pub riding: u16,
    pub call: bool,
}

#[derive(Clone, Debug, PartialEq)]
pub struct Sheet {
    /// 1 or 2.
    pub edition: u8,
    pub policy: Policy,
    pub stops: Vec<Stop>,
    pub lines: Vec<Line>,
    pub cars: Vec<Car>,
    pub aboard: Vec<Aboard>,
    pub waiting: Vec<Waiting>,
    pub demands: Vec<Demand>,
    /// The stops whose landings are closed.
    pub closed: Vec<u32>,
}

/// The bit of stop `index` in a mask: the highest bit is the first stop record.
pub fn mask_bit(index: usize) -> u64 {
    1 << (63 - index)
}

impl Sheet {
    pub fn new(strategy: u8) -> Self {
        let policy = Policy {
            strategy,
            limit: NO_LIMIT,
            tick_rate: 60.0,
            traffic: 0,
            weights: [0.0; 6],
        };
        Self {
            edition: 1,
            policy,
            stops: Vec::new(),
            lines: Vec::new(),
            cars: Vec::new(),
            aboard: Vec::new(),
            waiting: Vec::new(),
            demands: Vec::new(),
            closed: Vec::new(),
        }
    }

    pub fn records(&self) -> usize {
        1 + self.stops.len()
            + self.lines.len()
            + self.cars.len()
            + self.aboard.len()
            + self.waiting.len()
            + self.demands.len()
            + self.closed.len()
    }

    /// How many riders of idle-listed cars are bound for a stop.
    pub fn bound_aboard(&self, stop: u32) -> usize {
        let of_idle = |id: u32| self.cars.iter().any(|c| c.id == id && c.idle);
        let riders = self.aboard.iter().filter(|a| a.destination == Some(stop));
        riders.filter(|a| of_idle(a.car)).count()
    }

    /// Whether a stop of a record has demand: who waits, who rides there, a call.
    pub fn has_demand(&self, stop: u32) -> bool {
        let called = |d: &Demand| d.stop == stop && (d.call || d.riding > 0);
        self.waiting.iter().any(|w| w.stop == stop) || self.demands.iter().any(called)
    }

    /// Whether some line serves a stop.
    pub fn is_served(&self, stop: u32) -> bool {
        let places = (0..self.stops.len()).filter(|k| self.stops[*k].id == stop);
        let mask = places.fold(0, |mask, k| mask | mask_bit(k));
        self.lines.iter().any(|l| l.mask & mask != 0)
    }

    /// The closed stops, served by some line and with demand, that riders of idle-listed cars are bound for: where document
    /// 02's F-6 lets closure come first.
    pub fn closed_first(&self) -> Vec<u32> {
        let asked = |stop: u32| self.is_served(stop) && self.has_demand(stop);
        let bound = |stop: u32| asked(stop) && self.bound_aboard(stop) > 0;
        self.closed.iter().copied().filter(|s| bound(*s)).collect()
    }

    /// Whether some second coordinate is no zero, of either sign.
    pub fn runs_sideways(&self) -> bool {
        let stops = self.stops.iter().map(|s| s.across);
        let mut all = stops.chain(self.cars.iter().map(|c| c.across));
        all.any(|across| across != 0.0)
    }

    /// The sheet's bytes. Edition 1 has no second coordinates to write.
    pub fn write(&self) -> Vec<u8> {
        let mut w = Writer::default();
        let head = |w: &mut Writer, kind: usize| {
            w.put(6, kind as u64);
            w.put(16, body_bits(self.edition.into(), kind) as u64);
        };
        w.put(8, self.edition.into());
        w.put(16, self.records() as u64);
        head(&mut w, 1);
        let p = &self.policy;
        w.put(2, p.strategy.into());
        w.put(16, p.limit.into());
        w.double(p.tick_rate);
        w.put(2, p.traffic.into());
        for weight in p.weights {
            w.double(weight);
        }
        for s in &self.stops {
            head(&mut w, 2);
            w.put(32, s.id.into());
            w.double(s.position);
            if self.edition == 2 {
                w.double(s.across);
            }
        }
        for l in &self.lines {
            head(&mut w, 3);
            w.put(32, l.id.into());
            w.put(64, l.mask);
        }
        for c in &self.cars {
            head(&mut w, 4);
            car_body(&mut w, c, self.edition);
        }
        for a in &self.aboard {
            head(&mut w, 5);
            w.put(32, a.car.into());
            w.opt(32, a.destination.map(u64::from));
        }
        for r in &self.waiting {
            head(&mut w, 6);
            w.put(32, r.stop.into());
            w.opt(32, r.line.map(u64::from));
            w.opt(32, r.destination.map(u64::from));
            w.double(r.weight);
            w.put(64, r.wait);
        }
        for d in &self.demands {
            head(&mut w, 7);
            w.put(32, d.stop.into());
            w.put(16, d.riding.into());
            w.put(1, d.call.into());
        }
        for stop in &self.closed {
            head(&mut w, 8);
            w.put(32, (*stop).into());
        }
        w.finish()
    }

    /// The sheet of accepted bytes (reader.rs decides whether they are).
    pub fn of_accepted(bytes: &[u8]) -> Self {
        let mut at = HEAD_BITS;
        let edition = bits::get(bytes, 0, 8);
        let count = bits::get(bytes, 8, 16);
        let mut sheet = Self::new(ETD);
        sheet.edition = edition as u8;
        for _ in 0..count {
            let kind = bits::get(bytes, at, 6) as usize;
            let mut f = Fields {
                bytes,
                at: at + RECORD_HEAD_BITS,
                edition,
            };
            match kind {
                1 => {
                    sheet.policy = Policy {
                        strategy: f.next(2) as u8,
                        limit: f.next(16) as u16,
                        tick_rate: f.double(),
                        traffic: f.next(2) as u8,
                        weights: [0; 6].map(|_: u8| f.double()),
                    }
                }
                2 => sheet.stops.push(Stop {
                    id: f.id(),
                    position: f.double(),
                    across: f.across(),
                }),
                3 => sheet.lines.push(Line {
                    id: f.id(),
                    mask: f.next(64),
                }),
                4 => sheet.cars.push(f.car()),
                5 => sheet.aboard.push(Aboard {
                    car: f.id(),
                    destination: f.opt_id(),
                }),
                6 => sheet.waiting.push(Waiting {
                    stop: f.id(),
                    line: f.opt_id(),
                    destination: f.opt_id(),
                    weight: f.double(),
                    wait: f.next(64),
                }),
                7 => sheet.demands.push(Demand {
                    stop: f.id(),
                    riding: f.next(16) as u16,
                    call: f.flag(),
                }),
                _ => sheet.closed.push(f.id()),
            }
            at += RECORD_HEAD_BITS + body_bits(edition, kind);
        }
        sheet
    }

    /// Document 01's example for passprint: 326 bytes.
    pub fn example() -> Self {
        let mut sheet = Self::new(SCAN);
        for (id, position) in [(1, 0.0), (2, 10.0), (3, 20.0)] {
            sheet.stops.push(Stop::at(id, position));
        }
        sheet.lines.push(Line {
            id: 1,
            mask: 0b111 << 61,
        });
        for (id, position) in [(7, 0.0), (8, 20.0)] {
            sheet.cars.push(Car {
                id,
                position,
                ..Car::parked(1)
            });
        }
        for stop in [2, 3] {
            sheet.demands.push(Demand {
                stop,
                riding: 0,
                call: true,
            });
        }
        sheet
    }
}

impl Stop {
    /// A stop with the second coordinate 0.
    pub fn at(id: u32, position: f64) -> Self {
        Self {
            id,
            position,
            across: 0.0,
        }
    }
}

impl Car {
    /// The distance to a stop, over both coordinates.
    pub fn distance(&self, stop: &Stop) -> f64 {
        (self.position - stop.position).abs() + (self.across - stop.across).abs()
    }

    /// An idle-listed car in phase idle at 0, capacity 100, empty, up, strict, both lamps lit.
    pub fn parked(line: u32) -> Self {
        Self {
            id: 1,
            line,
            phase: 0,
            stop: 0,
            target: None,
            idle: true,
            going_up: true,
            going_down: true,
            sweep_down: false,
            lenient: false,
            position: 0.0,
            across: 0.0,
            speed: 2.0,
            capacity: 100.0,
            load: 0.0,
            up_threshold: None,
            down_threshold: None,
            transition: 0,
            open: 0,
            restricted: 0,
            calls: 0,
        }
    }
}

fn car_body(w: &mut Writer, c: &Car, edition: u8) {
    w.put(32, c.id.into());
    w.put(32, c.line.into());
    w.put(3, c.phase.into());
    w.put(32, c.stop.into());
    w.opt(32, c.target.map(u64::from));
    for flag in [c.idle, c.going_up, c.going_down, c.sweep_down, c.lenient] {
        w.put(1, flag.into());
    }
    w.double(c.position);
    if edition == 2 {
        w.double(c.across);
    }
    for value in [c.speed, c.capacity, c.load] {
        w.double(value);
    }
    w.opt(64, c.up_threshold.map(f64::to_bits));
    w.opt(64, c.down_threshold.map(f64::to_bits));
    w.put(32, c.transition.into());
    w.put(32, c.open.into());
    w.put(64, c.restricted);
    w.put(64, c.calls);
}

/// Takes fields one after the other.
pub(crate) struct Fields<'a> {
    pub bytes: &'a [u8],
    pub at: usize,
    pub edition: u64,
}

impl Fields<'_> {
    pub fn next(&mut self, width: usize) -> u64 {
        let value = bits::get(self.bytes, self.at, width);
        self.at += width;
        value
    }

    pub fn id(&mut self) -> u32 {
        self.next(32) as u32
    }

    pub fn flag(&mut self) -> bool {
        self.next(1) == 1
    }

    pub fn double(&mut self) -> f64 {
        f64::from_bits(self.next(64))
    }

    /// A second coordinate: 0 in edition 1, which has none.
    pub fn across(&mut self) -> f64 {
        match self.edition {
            2 => self.double(),
            _ => 0.0,
        }
    }

    pub fn opt(&mut self, width: usize) -> Option<u64> {
        let present = self.flag();
        let value = self.next(width);
        present.then_some(value)
    }

    pub fn opt_id(&mut self) -> Option<u32> {
        self.opt(32).map(|v| v as u32)
    }

    pub fn car(&mut self) -> Car {
        Car {
            id: self.id(),
            line: self.id(),
            phase: self.next(3) as u8,
            stop: self.id(),
            target: self.opt_id(),
            idle: self.flag(),
            going_up: self.flag(),
            going_down: self.flag(),
            sweep_down: self.flag(),
            lenient: self.flag(),
            position: self.double(),
            across: self.across(),
            speed: self.double(),
            capacity: self.double(),
            load: self.double(),
            up_threshold: self.opt(64).map(f64::from_bits),
            down_threshold: self.opt(64).map(f64::from_bits),
            transition: self.id(),
            open: self.id(),
            restricted: self.next(64),
            calls: self.next(64),
        }
    }
}
