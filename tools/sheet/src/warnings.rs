//! What document 01 allows of a sheet and a planner hardly means.

use crate::cut::{Cut, Record};
use crate::faults::unnamed;
use crate::numbers::grouped_text;
use crate::value::show_double;

/// A record that says something odd, and the field that does.
pub struct Warning {
    pub record: Record,
    pub field: &'static str,
    odd: Odd,
}

enum Odd {
    /// No record of the kind has the id.
    NoRecord(usize, u64),
    /// A rider is bound for the stop where they wait.
    IsThere(u64),
    /// A car's position, below or above every stop of its line.
    Outside {
        position: f64,
        low: f64,
        high: f64,
    },
    Overloaded {
        load: f64,
        capacity: f64,
    },
}

impl Warning {
    /// What the field holds and what is odd about it, without a full stop.
    pub fn says(&self, cut: &Cut) -> String {
        let said = |value: f64| grouped_text(&show_double(value.to_bits()));
        match self.odd {
            Odd::NoRecord(kind, id) => unnamed(cut, self.field, kind, id),
            Odd::IsThere(stop) => format!("destination is {stop}, the stop where the rider waits"),
            Odd::Outside {
                position,
                low,
                high,
            } => {
                let [position, low, high] = [position, low, high].map(said);
                format!(
                    "position is {position}, but the stops of its line lie from {low} to {high}"
                )
            }
            Odd::Overloaded { load, capacity } => {
                let [load, capacity] = [load, capacity].map(said);
                format!("load is {load}, above the capacity of {capacity}")
            }
        }
    }
}

/// Every such field, in the order of the records.
pub fn find(cut: &Cut) -> Vec<Warning> {
    let ids = [2, 3].map(|kind| cut.ids(kind));
    let records = cut.records.iter().filter(|record| record.has_fields());
    records
        .flat_map(|record| of_record(cut, record, &ids))
        .collect()
}

/// The ids of stops and of lines.
type Ids = [Vec<u64>; 2];

fn of_record(cut: &Cut, record: &Record, ids: &Ids) -> Vec<Warning> {
    let unknown = |field, kind| no_record(cut, record, field, (kind, ids));
    let found = match record.kind {
        4 => vec![
            ("stop", unknown("stop", 2)),
            ("target", unknown("target", 2)),
            ("position", outside(cut, record)),
            ("load", overloaded(cut, record)),
        ],
        5 => vec![("destination", unknown("destination", 2))],
        6 => {
            let destination = unknown("destination", 2).or_else(|| is_there(cut, record));
            vec![
                ("required_line", unknown("required_line", 3)),
                ("destination", destination),
            ]
        }
        _ => Vec::new(),
    };
    let warning = |(field, odd): (_, Option<Odd>)| {
        let record = *record;
        odd.map(|odd| Warning { record, field, odd })
    };
    found.into_iter().filter_map(warning).collect()
}

/// An id that is given and that no record of a kind has.
fn no_record(cut: &Cut, record: &Record, field: &str, of: (usize, &Ids)) -> Option<Odd> {
    let (kind, ids) = of;
    let id = cut.named(record, field).filter(|id| *id != 0)?;
    (!ids[kind - 2].contains(&id)).then_some(Odd::NoRecord(kind, id))
}

fn is_there(cut: &Cut, record: &Record) -> Option<Odd> {
    let stop = cut.named(record, "stop")?;
    (cut.named(record, "destination") == Some(stop)).then_some(Odd::IsThere(stop))
}

fn double(cut: &Cut, record: &Record, field: &str) -> Option<f64> {
    cut.named(record, field).map(f64::from_bits)
}

fn overloaded(cut: &Cut, record: &Record) -> Option<Odd> {
    let load = double(cut, record, "load")?;
    let capacity = double(cut, record, "capacity")?;
    (load > capacity).then_some(Odd::Overloaded { load, capacity })
}

fn outside(cut: &Cut, record: &Record) -> Option<Odd> {
    let line = cut.named(record, "line")?;
    let mut lines = cut.of_kind(3);
    let line = lines.find(|other| cut.named(other, "id") == Some(line))?;
    let mask = cut.named(line, "serves")?;
    let stops = cut.of_kind(2).enumerate();
    let served = stops.filter(|(k, _)| *k < 64 && mask >> (63 - k) & 1 == 1);
    let heights: Vec<f64> = served
        .filter_map(|(_, stop)| double(cut, stop, "position"))
        .collect();
    let low = heights.iter().copied().reduce(f64::min)?;
    let high = heights.iter().copied().reduce(f64::max)?;
    let position = double(cut, record, "position")?;
    let is_outside = position < low || position > high;
    is_outside.then_some(Odd::Outside {
        position,
        low,
        high,
    })
}
