//! The records of tools/sheetgen as those of the crate dispatch-bench, field by field by their names.

use std::num::NonZeroU32;

use dispatch_bench::record::{
    Aboard, Car, Closed, Demand, Edition, EtdWeights, Line, Phase, Policy, Record, RsrWeights,
    Sheet, Stop, Strategy, Traffic, Waiting,
};
use dispatch_bench::{SweepDirection, SweepMode};
use sheetgen::sheet;

fn id(id: Option<u32>) -> Option<NonZeroU32> {
    id.and_then(NonZeroU32::new)
}

/// Of an accepted sheet: the codes are known.
pub fn sheet_of(x: &sheetgen::Sheet) -> Sheet {
    let mut records = vec![Record::from(policy(&x.policy))];
    records.extend(x.stops.iter().map(|x| Record::from(stop(x))));
    records.extend(x.lines.iter().map(|x| Record::from(line(x))));
    records.extend(x.cars.iter().map(|x| Record::from(car(x))));
    records.extend(x.aboard.iter().map(|x| Record::from(aboard(x))));
    records.extend(x.waiting.iter().map(|x| Record::from(waiting(x))));
    records.extend(x.demands.iter().map(|x| Record::from(demand(x))));
    records.extend(
        x.closed
            .iter()
            .map(|stop| Record::from(Closed { stop: *stop })),
    );
    Sheet {
        edition: match x.edition {
            2 => Edition::Second,
            _ => Edition::First,
        },
        records,
    }
}

fn policy(x: &sheet::Policy) -> Policy {
    let [a, b, c, d, e, f] = x.weights;
    Policy {
        strategy: match x.strategy {
            sheet::ETD => Strategy::Etd(EtdWeights {
                wait: a,
                delay: b,
                door: c,
                wait_squared: d,
                age: e,
            }),
            sheet::RSR => Strategy::Rsr(RsrWeights {
                eta: a,
                wrong_direction: b,
                coincident_call: c,
                load: d,
                age: e,
                peak_multiplier: f,
            }),
            _ => Strategy::Scan,
        },
        limit: (x.limit != sheet::NO_LIMIT).then_some(x.limit),
        tick_rate: x.tick_rate,
        traffic: match x.traffic {
            0 => Traffic::Idle,
            1 => Traffic::UpPeak,
            2 => Traffic::InterFloor,
            _ => Traffic::DownPeak,
        },
    }
}

fn stop(x: &sheet::Stop) -> Stop {
    Stop {
        id: x.id,
        position: x.position,
        across: x.across,
    }
}

fn line(x: &sheet::Line) -> Line {
    Line {
        id: x.id,
        serves: x.mask,
    }
}

fn phase(code: u8, stop: u32) -> Phase {
    match code {
        0 => Phase::Idle,
        1 => Phase::Moving(stop),
        2 => Phase::Repositioning(stop),
        3 => Phase::DoorOpening,
        4 => Phase::Loading,
        5 => Phase::DoorClosing,
        _ => Phase::Stopped,
    }
}

fn car(x: &sheet::Car) -> Car {
    Car {
        id: x.id,
        line: x.line,
        phase: phase(x.phase, x.stop),
        target: id(x.target),
        idle_listed: x.idle,
        going_up: x.going_up,
        going_down: x.going_down,
        sweep: match x.sweep_down {
            false => SweepDirection::Up,
            true => SweepDirection::Down,
        },
        mode: match x.lenient {
            false => SweepMode::Strict,
            true => SweepMode::Lenient,
        },
        position: x.position,
        across: x.across,
        max_speed: x.speed,
        capacity: x.capacity,
        load: x.load,
        up_threshold: x.up_threshold,
        down_threshold: x.down_threshold,
        transition_ticks: x.transition,
        open_ticks: x.open,
        restricted: x.restricted,
        car_calls: x.calls,
    }
}

fn aboard(x: &sheet::Aboard) -> Aboard {
    Aboard {
        car: x.car,
        destination: id(x.destination),
    }
}

fn waiting(x: &sheet::Waiting) -> Waiting {
    Waiting {
        stop: x.stop,
        required_line: id(x.line),
        destination: id(x.destination),
        weight: x.weight,
        wait_ticks: x.wait,
    }
}

fn demand(x: &sheet::Demand) -> Demand {
    Demand {
        stop: x.stop,
        riding_count: x.riding,
        riderless_call: x.call,
    }
}
