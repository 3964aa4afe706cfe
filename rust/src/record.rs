//! The records of a sheet with their fields by name, read from a sheet ([`Sheet::read`]) and put into one ([`SheetWriter`](crate::SheetWriter)).
//! A value of these types may be one that a reader refuses, a position out of range or an id without a record: [`read`](crate::read) says so.

use std::num::NonZeroU32;

use crate::records::{FRONT, HEAD, field};
use crate::{NotWritten, Refusal, SheetWriter, SweepDirection, SweepMode};

/// The edition of a sheet: in the second, stops and cars have a coordinate across.
#[derive(Clone, Copy, Debug, Default, PartialEq, Eq)]
pub enum Edition {
    #[default]
    First,
    Second,
}

/// How a pair is priced, with the weights by name.
#[derive(Clone, Copy, Debug, PartialEq)]
pub enum Strategy {
    Etd(EtdWeights),
    Rsr(RsrWeights),
    Scan,
}

#[derive(Clone, Copy, Debug, Default, PartialEq)]
pub struct EtdWeights {
    pub wait: f64,
    pub delay: f64,
    pub door: f64,
    pub wait_squared: f64,
    pub age: f64,
}

#[derive(Clone, Copy, Debug, Default, PartialEq)]
pub struct RsrWeights {
    pub eta: f64,
    pub wrong_direction: f64,
    pub coincident_call: f64,
    pub load: f64,
    pub age: f64,
    pub peak_multiplier: f64,
}

#[derive(Clone, Copy, Debug, Default, PartialEq, Eq)]
pub enum Traffic {
    #[default]
    Idle,
    UpPeak,
    InterFloor,
    DownPeak,
}

#[derive(Clone, Copy, Debug, PartialEq)]
pub struct Policy {
    pub strategy: Strategy,
    /// How many stops are ranked for a car. `None` is written as 65,535 and read from it.
    pub limit: Option<u16>,
    /// Ticks a second.
    pub tick_rate: f64,
    pub traffic: Traffic,
}

#[derive(Clone, Copy, Debug, Default, PartialEq)]
pub struct Stop {
    pub id: u32,
    pub position: f64,
    /// Not written in edition 1, and 0 where it is read.
    pub across: f64,
}

#[derive(Clone, Copy, Debug, Default, PartialEq, Eq)]
pub struct Line {
    pub id: u32,
    /// The stops that it serves, see [`mask`].
    pub serves: u64,
}

/// What a car does; a moving and a repositioning one with the id of the stop where it is bound.
#[derive(Clone, Copy, Debug, Default, PartialEq, Eq)]
pub enum Phase {
    #[default]
    Idle,
    Moving(u32),
    Repositioning(u32),
    DoorOpening,
    Loading,
    DoorClosing,
    Stopped,
}

/// A car. The default is an idle one that is not listed, both lamps dark, its sweep upwards and strict, every number 0.
#[derive(Clone, Copy, Debug, PartialEq)]
pub struct Car {
    pub id: u32,
    pub line: u32,
    pub phase: Phase,
    pub target: Option<NonZeroU32>,
    /// Whether it gets a decision.
    pub idle_listed: bool,
    pub going_up: bool,
    pub going_down: bool,
    pub sweep: SweepDirection,
    pub mode: SweepMode,
    pub position: f64,
    /// Not written in edition 1, and 0 where it is read.
    pub across: f64,
    pub max_speed: f64,
    pub capacity: f64,
    pub load: f64,
    pub up_threshold: Option<f64>,
    pub down_threshold: Option<f64>,
    pub transition_ticks: u32,
    pub open_ticks: u32,
    /// The stops that are barred to it, see [`mask`].
    pub restricted: u64,
    /// The stops of its car calls, see [`mask`].
    pub car_calls: u64,
}

impl Default for Car {
    fn default() -> Self {
        Self {
            id: 0,
            line: 0,
            phase: Phase::Idle,
            target: None,
            idle_listed: false,
            going_up: false,
            going_down: false,
            sweep: SweepDirection::Up,
            mode: SweepMode::Strict,
            position: 0.0,
            across: 0.0,
            max_speed: 0.0,
            capacity: 0.0,
            load: 0.0,
            up_threshold: None,
            down_threshold: None,
            transition_ticks: 0,
            open_ticks: 0,
            restricted: 0,
            car_calls: 0,
        }
    }
}

/// A rider in a car.
#[derive(Clone, Copy, Debug, Default, PartialEq, Eq)]
pub struct Aboard {
    pub car: u32,
    pub destination: Option<NonZeroU32>,
}

/// A rider at a stop.
#[derive(Clone, Copy, Debug, Default, PartialEq)]
pub struct Waiting {
    pub stop: u32,
    pub required_line: Option<NonZeroU32>,
    pub destination: Option<NonZeroU32>,
    pub weight: f64,
    pub wait_ticks: u64,
}

#[derive(Clone, Copy, Debug, Default, PartialEq, Eq)]
pub struct Demand {
    pub stop: u32,
    pub riding_count: u16,
    /// Whether a hall call there has no pending rider.
    pub riderless_call: bool,
}

/// A closed landing.
#[derive(Clone, Copy, Debug, Default, PartialEq, Eq)]
pub struct Closed {
    pub stop: u32,
}

/// A record of any kind.
#[derive(Clone, Copy, Debug, PartialEq)]
pub enum Record {
    Policy(Policy),
    Stop(Stop),
    Line(Line),
    Car(Car),
    Aboard(Aboard),
    Waiting(Waiting),
    Demand(Demand),
    Closed(Closed),
}

macro_rules! records {
    ($($kind:ident),*) => {
        $(impl From<$kind> for Record {
            fn from(record: $kind) -> Self {
                Record::$kind(record)
            }
        })*
    };
}

records!(Policy, Stop, Line, Car, Aboard, Waiting, Demand, Closed);

/// The mask of stops by their places among the stop records, from 0. `None` where a place is above 63.
///
/// ```
/// assert_eq!(dispatch_bench::record::mask([0, 2]), Some(0xa000_0000_0000_0000));
/// assert_eq!(dispatch_bench::record::mask([64]), None);
/// ```
pub fn mask(places: impl IntoIterator<Item = usize>) -> Option<u64> {
    places.into_iter().try_fold(0, |mask, place| {
        (place < 64).then(|| mask | 1 << (63 - place))
    })
}

/// A sheet as its records.
///
/// ```
/// # let bytes = include_bytes!(concat!(env!("CARGO_MANIFEST_DIR"), "/../crates/passprint/stdin"));
/// use dispatch_bench::record::{Record, Sheet};
///
/// let mut sheet = Sheet::read(bytes)?;
/// for record in &mut sheet.records {
///     if let Record::Policy(policy) = record {
///         policy.limit = Some(1);
///     }
/// }
/// let bytes = sheet.write()?;
/// assert_eq!(dispatch_bench::pass(&bytes)?.ranked, 2);
/// # Ok::<(), Box<dyn std::error::Error>>(())
/// ```
#[derive(Clone, Debug, Default, PartialEq)]
pub struct Sheet {
    pub edition: Edition,
    /// In the order of the sheet.
    pub records: Vec<Record>,
}

impl Sheet {
    /// The records of an accepted sheet. That it is accepted the proved library says; the fields are decoded here, and [`write`](Sheet::write) gives
    /// the same bytes again.
    pub fn read(sheet: &[u8]) -> Result<Self, Refusal> {
        crate::read(sheet)?;
        let edition = match field(sheet, 0, 8) {
            2 => Edition::Second,
            _ => Edition::First,
        };
        let mut at = HEAD;
        let records = (0..field(sheet, 8, 16)).map(|_| {
            let body = at + FRONT;
            let kind = field(sheet, at, 6);
            at = body + field(sheet, at + 6, 16) as usize;
            let mut fields = Fields {
                sheet,
                at: body,
                edition,
            };
            fields.record(kind)
        });
        Ok(Self {
            edition,
            records: records.collect(),
        })
    }

    /// The bytes of a sheet with these records, by the proved writer.
    pub fn write(&self) -> Result<Vec<u8>, NotWritten> {
        let mut writer = SheetWriter::new(self.edition);
        for record in &self.records {
            writer.put(*record)?;
        }
        Ok(writer.finish())
    }
}

/// The fields of a record, one after the other.
struct Fields<'s> {
    sheet: &'s [u8],
    at: usize,
    edition: Edition,
}

impl Fields<'_> {
    fn bits(&mut self, width: usize) -> u64 {
        let value = field(self.sheet, self.at, width);
        self.at += width;
        value
    }

    fn number(&mut self) -> u32 {
        self.bits(32) as u32
    }

    fn double(&mut self) -> f64 {
        f64::from_bits(self.bits(64))
    }

    fn flag(&mut self) -> bool {
        self.bits(1) == 1
    }

    fn across(&mut self) -> f64 {
        match self.edition {
            Edition::First => 0.0,
            Edition::Second => self.double(),
        }
    }

    /// An optional id, which is 0 where it is absent.
    fn id(&mut self) -> Option<NonZeroU32> {
        self.flag();
        NonZeroU32::new(self.number())
    }

    fn threshold(&mut self) -> Option<f64> {
        let is_there = self.flag();
        let value = self.double();
        is_there.then_some(value)
    }

    fn record(&mut self, kind: u64) -> Record {
        match kind {
            1 => self.policy().into(),
            2 => self.stop().into(),
            3 => self.line().into(),
            4 => self.car().into(),
            5 => self.aboard().into(),
            6 => self.waiting().into(),
            7 => self.demand().into(),
            _ => self.closed().into(),
        }
    }

    fn policy(&mut self) -> Policy {
        let strategy = self.bits(2);
        let limit = self.bits(16) as u16;
        let tick_rate = self.double();
        let traffic = match self.bits(2) {
            0 => Traffic::Idle,
            1 => Traffic::UpPeak,
            2 => Traffic::InterFloor,
            _ => Traffic::DownPeak,
        };
        Policy {
            strategy: self.strategy(strategy),
            limit: (limit != u16::MAX).then_some(limit),
            tick_rate,
            traffic,
        }
    }

    fn strategy(&mut self, code: u64) -> Strategy {
        match code {
            0 => Strategy::Etd(EtdWeights {
                wait: self.double(),
                delay: self.double(),
                door: self.double(),
                wait_squared: self.double(),
                age: self.double(),
            }),
            1 => Strategy::Rsr(RsrWeights {
                eta: self.double(),
                wrong_direction: self.double(),
                coincident_call: self.double(),
                load: self.double(),
                age: self.double(),
                peak_multiplier: self.double(),
            }),
            _ => Strategy::Scan,
        }
    }

    fn stop(&mut self) -> Stop {
        Stop {
            id: self.number(),
            position: self.double(),
            across: self.across(),
        }
    }

    fn line(&mut self) -> Line {
        Line {
            id: self.number(),
            serves: self.bits(64),
        }
    }

    fn phase(&mut self) -> Phase {
        let (code, stop) = (self.bits(3), self.number());
        match code {
            0 => Phase::Idle,
            1 => Phase::Moving(stop),
            2 => Phase::Repositioning(stop),
            3 => Phase::DoorOpening,
            4 => Phase::Loading,
            5 => Phase::DoorClosing,
            _ => Phase::Stopped,
        }
    }

    /// The fields are read in the order in which they are named, which is that of the format.
    fn car(&mut self) -> Car {
        Car {
            id: self.number(),
            line: self.number(),
            phase: self.phase(),
            target: self.id(),
            idle_listed: self.flag(),
            going_up: self.flag(),
            going_down: self.flag(),
            sweep: match self.flag() {
                false => SweepDirection::Up,
                true => SweepDirection::Down,
            },
            mode: match self.flag() {
                false => SweepMode::Strict,
                true => SweepMode::Lenient,
            },
            position: self.double(),
            across: self.across(),
            max_speed: self.double(),
            capacity: self.double(),
            load: self.double(),
            up_threshold: self.threshold(),
            down_threshold: self.threshold(),
            transition_ticks: self.number(),
            open_ticks: self.number(),
            restricted: self.bits(64),
            car_calls: self.bits(64),
        }
    }

    fn aboard(&mut self) -> Aboard {
        Aboard {
            car: self.number(),
            destination: self.id(),
        }
    }

    fn waiting(&mut self) -> Waiting {
        Waiting {
            stop: self.number(),
            required_line: self.id(),
            destination: self.id(),
            weight: self.double(),
            wait_ticks: self.bits(64),
        }
    }

    fn demand(&mut self) -> Demand {
        Demand {
            stop: self.number(),
            riding_count: self.bits(16) as u16,
            riderless_call: self.flag(),
        }
    }

    fn closed(&mut self) -> Closed {
        Closed {
            stop: self.number(),
        }
    }
}
